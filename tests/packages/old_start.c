/* Loaded before a program, starts it as glibc did before 2.34: only what the program hands over calls its constructors. */
#define _GNU_SOURCE
#include <stdlib.h>
#include <unistd.h>

int __libc_start_main(int (*main)(int, char **, char **), int count, char **words,
                      void (*constructors)(int, char **, char **), void (*destructors)(void), void (*at_end)(void),
                      void *end_of_stack) {
    (void)end_of_stack;
    if (at_end) atexit(at_end);
    if (destructors) atexit(destructors);
    if (constructors) constructors(count, words, environ);
    exit(main(count, words, environ));
}
