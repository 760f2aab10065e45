/* Refuses requests for memory, for a program that is started with this in LD_PRELOAD.
 *
 * A request for ORDER bytes and N more, which no machine could meet, is refused, and so is the Nth request after it. The
 * variable REFUSE, if it is set, is the number of a first request to refuse, counted from the program's start; a byte on
 * descriptor 3 tells that it was refused. */
typedef unsigned long size;

extern void *__libc_malloc(size bytes);
extern void *__libc_realloc(void *old, size bytes);
extern char *getenv(const char *name);
extern long write(int descriptor, const void *bytes, size count);

enum { NOT_ASKED, BY_REFUSE, BY_ORDER };

static const size ORDER = 1UL << 47;
static size left; /* how many requests there are until one is refused; 0 if none is */
static int by = NOT_ASKED;

static void look_at_refuse(void) {
    by = BY_REFUSE;
    for (const char *digit = getenv("REFUSE"); digit && *digit >= '0' && *digit <= '9'; digit++) {
        left = left * 10 + (size)(*digit - '0');
    }
}

static int is_refused(size bytes) {
    if (by == NOT_ASKED) {
        look_at_refuse();
    }
    if (bytes >= ORDER) {
        by = BY_ORDER;
        left = bytes - ORDER;
        return 1;
    }
    if (left == 0 || --left > 0) {
        return 0;
    }
    if (by == BY_REFUSE) {
        write(3, "", 1);
    }
    return 1;
}

void *malloc(size bytes) {
    return is_refused(bytes) ? 0 : __libc_malloc(bytes);
}

void *realloc(void *old, size bytes) {
    return is_refused(bytes) ? 0 : __libc_realloc(old, bytes);
}
