/* What the tests of the library for C share: the count of checks, memory of which one request is refused, what calls leave in a buffer and
   say of a token, and keys and verifiers made of texts. */
#ifndef HARNESS_H
#define HARNESS_H

#include "jwtproved.h"
#include <stdio.h>
#include <stdlib.h>
#include <string.h>

#define TEXT(text) (text), strlen(text)
#define BYTES(text) (const uint8_t *)(text), strlen(text)
#define COUNT(list) (sizeof(list) / sizeof *(list))

static int passed, failed;

static void is(const char *what, long got, long wanted) {
    if (got == wanted) {
        passed++;
    } else {
        failed++;
        printf("FAILED: %s: %ld, not %ld\n", what, got, wanted);
    }
}

/* ---- memory: requests are counted, and one of them refused */

void *__real_malloc(size_t size);
void *__real_calloc(size_t count, size_t size);
void *__real_realloc(void *block, size_t size);
void *__real_aligned_alloc(size_t align, size_t size);
static __thread long requests, refused_one;

static bool refuses(void) {
    return ++requests == refused_one;
}
void *__wrap_malloc(size_t size) {
    return refuses() ? NULL : __real_malloc(size);
}
void *__wrap_calloc(size_t count, size_t size) {
    return refuses() ? NULL : __real_calloc(count, size);
}
void *__wrap_realloc(void *block, size_t size) {
    return refuses() ? NULL : __real_realloc(block, size);
}
void *__wrap_aligned_alloc(size_t align, size_t size) {
    return refuses() ? NULL : __real_aligned_alloc(align, size);
}

/* ---- what calls leave: their bytes before a call, and whether those behind a result are unchanged */

#define ROOM 4096

struct answer {
    uint32_t status;
    size_t len;
    char room[ROOM + 16];
};

static inline struct answer fresh(void) {
    struct answer a;
    memset(&a, 'x', sizeof a);
    return a;
}

static inline bool is_kept(const struct answer *a, size_t from) {
    for (size_t i = from; i < sizeof a->room; i++)
        if (a->room[i] != 'x') return false;
    return true;
}

/* the status; after a refusal the length is 0 and the buffer is unchanged, after a result the bytes behind it are */
static inline long status_of(const struct answer *a) {
    size_t given = a->status == JWT_OK ? a->len : 0;
    if (a->status != JWT_OK && a->status != JWT_BUFFER_TOO_SMALL && a->len != 0) return -1;
    return is_kept(a, given) ? (long)a->status : -2;
}

static inline bool gives(const struct answer *a, const char *text) {
    return status_of(a) == JWT_OK && a->len == strlen(text) && memcmp(a->room, text, a->len) == 0;
}

/* ---- keys and verifiers */

/* adds the keys of a text to those of a handle */
static inline uint32_t add(struct jwt_handle *keys, uint32_t source, const char *text) {
    size_t items, kept;
    return jwt_keys_add(keys, source, BYTES(text), &items, &kept);
}

/* Makes a verifier of the keys of a text, and returns the first status that is not JWT_OK. */
static inline uint32_t make(uint32_t source, const char *text, const char *options, size_t max_len, size_t max_prepared,
                            struct jwt_handle *verifier) {
    struct jwt_handle keys = JWT_NONE;
    uint32_t status = add(&keys, source, text);
    if (status == JWT_OK) status = jwt_verifier_new(&keys, TEXT(options), max_len, max_prepared, verifier);
    jwt_free(&keys);
    return status;
}

/* what a verifier leaves of a token */
struct judged {
    struct answer a;
    struct jwt_verdict said;
};

/* whether a status may come with this place of a claim */
static inline bool is_place(uint32_t claim, uint32_t status) {
    if (status == JWT_MISSING_CLAIM) return claim > 0 && claim < JWT_CLAIM_IAT;
    if (status == JWT_MALFORMED_CLAIM) return claim > 0;
    return claim == 0 || (claim == JWT_CLAIM_IAT && status == JWT_IMMATURE_SIGNATURE);
}

/* Whether the members of a verdict agree with the status: of an accepted token no test failed; of a refused one all are 0 but the test, the
   places of a claim and a verifier, and whether there is a kid, and without a test these too. */
static inline bool is_verdict(const struct jwt_verdict *said, uint32_t status) {
    bool has_test = status < JWT_BUFFER_TOO_SMALL && status != JWT_OUT_OF_MEMORY;
    if (said->has_kid > 1 || said->as_signed > 1 || !is_place(said->claim, status)) return false;
    if (status == JWT_OK || status == JWT_BUFFER_TOO_SMALL)
        return said->algorithm >= JWT_HS256 && said->algorithm <= JWT_EDDSA && said->test == 0;
    if (!has_test && (said->test != 0 || said->has_kid != 0 || said->verifier != 0)) return false;
    return said->last == 0 && said->len == 0 && said->algorithm == 0 && said->as_signed == 0 &&
           (said->test != 0) == has_test;
}

/* If the verdict does not agree with the status, that is UINT32_MAX. */
static inline struct judged decode(struct jwt_handle *verifier, const char *token, size_t token_len, uint64_t now,
                                   size_t room) {
    struct judged d = {.a = fresh()};
    memset(&d.said, 'x', sizeof d.said);
    d.a.status = jwt_verifier_decode(verifier, token, token_len, now, d.a.room, room, &d.said);
    d.a.len = d.said.len;
    if (!is_verdict(&d.said, d.a.status)) d.a.status = UINT32_MAX;
    return d;
}

/* signs with the one key of a text */
static inline struct answer signed_by(uint32_t source, const char *key, const char *header, const char *payload,
                                      size_t room) {
    struct answer a = fresh();
    struct jwt_handle keys = JWT_NONE;
    a.len = 0;
    a.status = add(&keys, source, key);
    if (a.status == JWT_OK) a.status = jwt_sign(&keys, TEXT(header), TEXT(payload), a.room, room, &a.len);
    jwt_free(&keys);
    return a;
}

#endif
