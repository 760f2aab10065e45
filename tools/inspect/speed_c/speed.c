/*
 * Measures a verification by the library for C: speed WORK SET OPTIONS TOKEN COUNT verifies the token as often, with the keys of the set
 * under the options, and prints the nanoseconds for one. WORK is decode-set, which reads the keys and makes a verifier each time, or
 * verifier, which does so once.
 */
#include <jwtproved.h>
#include <stdio.h>
#include <stdlib.h>
#include <string.h>
#include <time.h>

#define NOW 1700000000
#define TEXT(text) (text), strlen(text)

static double seconds(void) {
    struct timespec now;

    clock_gettime(CLOCK_MONOTONIC, &now);
    return now.tv_sec + now.tv_nsec / 1e9;
}

/* Makes a verifier of a key set. A verifier for one token keeps nothing prepared. */
static enum jwt_status make(const char *set, const char *options, size_t max_prepared, struct jwt_handle *verifier) {
    struct jwt_handle keys = JWT_NONE;
    size_t items, kept;
    enum jwt_status status = jwt_keys_add(&keys, JWT_TEXT, (const uint8_t *)set, strlen(set), &items, &kept);

    if (status == JWT_OK) status = jwt_verifier_new(&keys, TEXT(options), 0, max_prepared, verifier);
    jwt_free(&keys);
    return status;
}

int main(int argc, char **argv) {
    static char room[65536];
    struct jwt_handle verifier = JWT_NONE;
    enum jwt_status status = JWT_OK;
    long i, times = argc == 6 ? atol(argv[5]) : 0;
    int is_verifier = times > 0 && strcmp(argv[1], "verifier") == 0;
    struct jwt_verdict said;
    double start;

    if (times <= 0) {
        fputs("usage: speed decode-set|verifier SET OPTIONS TOKEN COUNT\n", stderr);
        return 2;
    }
    const char *set = argv[2], *options = argv[3], *token = argv[4];
    if (is_verifier) status = make(set, options, 0, &verifier);
    start = seconds();
    for (i = 0; i < times && status == JWT_OK; i++) {
        if (!is_verifier) status = make(set, options, JWT_PREPARE_NOTHING, &verifier);
        if (status == JWT_OK) status = jwt_verifier_decode(&verifier, TEXT(token), NOW, room, sizeof room, &said);
        if (!is_verifier) jwt_free(&verifier);
    }
    printf("%.1f\n", (seconds() - start) / times * 1e9);
    jwt_free(&verifier);
    return status != JWT_OK;
}
