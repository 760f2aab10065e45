/*
 * For test.py, in front of the libraries of an nginx (LD_PRELOAD): the time of
 * day is the number in the file MOMENT, and each token and each text of keys
 * that the library reads adds a byte to the file CALLS.
 */
#define _GNU_SOURCE
#include <dlfcn.h>
#include <fcntl.h>
#include <jwtproved.h>
#include <stdlib.h>
#include <sys/time.h>
#include <unistd.h>

static ssize_t
with_file(const char *name, int flags, char *text, size_t len)
{
    int      file;
    ssize_t  done;

    file = open(name, flags | O_CLOEXEC, 0600);
    if (file < 0) {
        return -1;
    }

    done = flags == O_RDONLY ? read(file, text, len) : write(file, text, len);
    close(file);
    return done;
}


int
gettimeofday(struct timeval *restrict now, void *restrict zone)
{
    char  text[32] = "";

    (void) zone;
    (void) with_file(MOMENT, O_RDONLY, text, sizeof(text) - 1);
    now->tv_sec = atoll(text);
    now->tv_usec = 0;
    return 0;
}


/*
 * The library's own call: it is loaded with the module, so that this file does
 * not see it by itself.
 */
static void *
behind(const char *name)
{
    char   call = '.';
    void  *library;

    library = dlopen("libjwtproved.so.1", RTLD_NOW | RTLD_NOLOAD);

    if (library == NULL
        || with_file(CALLS, O_WRONLY | O_APPEND | O_CREAT, &call, 1) != 1)
    {
        abort();
    }

    return dlsym(library, name);
}


enum jwt_status
jwt_verifier_decode(struct jwt_handle *verifier, const char *token,
    size_t token_len, uint64_t now, char *buffer, size_t buffer_len,
    struct jwt_verdict *said)
{
    __typeof__(jwt_verifier_decode)  *found = behind("jwt_verifier_decode");

    return found(verifier, token, token_len, now, buffer, buffer_len, said);
}


enum jwt_status
jwt_keys_add(struct jwt_handle *keys, uint32_t source, const uint8_t *bytes,
    size_t bytes_len, size_t *items, size_t *kept)
{
    __typeof__(jwt_keys_add)  *found = behind("jwt_keys_add");

    return found(keys, source, bytes, bytes_len, items, kept);
}
