/* Stands before the C library, and changes the reads of standard input: with INTERRUPT each second one is interrupted, with
 * FAIL_AT_THE_END one fails where the input ends, and with BYTEWISE=N this many give one byte each, before the end. No other read is
 * changed. */
#define _GNU_SOURCE
#include <dlfcn.h>
#include <errno.h>
#include <stdlib.h>
#include <unistd.h>

ssize_t read(int descriptor, void *buffer, size_t size) {
    static ssize_t (*next)(int, void *, size_t);
    static unsigned calls;
    static long given;
    ssize_t got;
    if (!next) {
        next = (ssize_t(*)(int, void *, size_t))dlsym(RTLD_NEXT, "read");
    }
    if (descriptor == STDIN_FILENO && getenv("INTERRUPT") && ++calls % 2 == 1) {
        errno = EINTR;
        return -1;
    }
    if (descriptor == STDIN_FILENO && getenv("BYTEWISE") && size > 0) {
        *(char *)buffer = 'a';
        return given++ < atol(getenv("BYTEWISE"));
    }
    got = next(descriptor, buffer, size);
    if (descriptor == STDIN_FILENO && getenv("FAIL_AT_THE_END") && got == 0) {
        errno = EIO;
        return -1;
    }
    return got;
}
