/* Tests which branches and addresses of jwt_verifier_check and jwt_verifier_decode depend on the bytes of a secret. valgrind runs the program;
   to it the secret is undefined, so that it counts each conditional jump and each address that depends on the secret.

   Verification depends on the secret by its result alone. jwt_verifier_check has at most two such jumps, the result and the choice of the
   status, and if it refuses the signature, at most three. jwt_verifier_decode has at most three if it accepts the token, whatever the length
   of the secret: the result, the choice of the status, and whether the key is the prepared one, which it always is. If it refuses the token,
   it has at most five, since it also chooses the number of the failed test.

   jwt_keys_add, jwt_verifier_new and jwt_sign read the secret by base64, and the first two look for key texts: their branches and addresses
   depend on it, and are not tested. So a handle is made first, and then what it keeps of the secret is made undefined: the bytes of its memory that differ from those
   of handles of other secrets with the same length, and are not in a pointer. A byte that is the same for all these secrets is not seen. */
#include <jwtproved.h>
#include <stdio.h>
#include <stdlib.h>
#include <string.h>
#include <valgrind/memcheck.h>

struct algorithm {
    uint32_t number;
    const char *header, *options;
};

static const struct algorithm ALGORITHMS[] = {
    {JWT_HS256, "{\"alg\":\"HS256\"}", "{\"algorithms\":[\"HS256\"],\"required_spec_claims\":[]}"},
    {JWT_HS384, "{\"alg\":\"HS384\"}", "{\"algorithms\":[\"HS384\"],\"required_spec_claims\":[]}"},
    {JWT_HS512, "{\"alg\":\"HS512\"}", "{\"algorithms\":[\"HS512\"],\"required_spec_claims\":[]}"},
};
static const char CLAIMS[] = "{\"sub\":\"ada\"}";
/* The most jumps for a signature that jwt_verifier_check accepts or refuses, and for a token that jwt_verifier_decode accepts or refuses. */
enum { MOST_OF_ACCEPTED = 2, MOST_OF_REFUSED = 3, MOST_BY_VERIFIER = 3, MOST_OF_REFUSED_BY_VERIFIER = 5 };

/* ---- the memory of a handle */

enum { MOST_BLOCKS = 400, OTHERS = 4 };
struct blocks {
    size_t count;
    struct block {
        uint8_t *at;
        size_t len;
    } list[MOST_BLOCKS];
};
/* where blocks are noted that are requested and not yet freed, or null */
static struct blocks *noted;

void *__real_malloc(size_t size);
void *__real_calloc(size_t count, size_t size);
void *__real_realloc(void *block, size_t size);
void *__real_aligned_alloc(size_t align, size_t size);
void __real_free(void *block);

static void forget(void *block) {
    for (size_t i = 0; noted && block && i < noted->count; i++)
        if (noted->list[i].at == block) {
            memmove(&noted->list[i], &noted->list[i + 1], (--noted->count - i) * sizeof *noted->list);
            return;
        }
}
static void *keep(void *block, size_t len) {
    if (noted && block && noted->count < MOST_BLOCKS) noted->list[noted->count++] = (struct block){block, len};
    return block;
}
void *__wrap_malloc(size_t size) {
    return keep(__real_malloc(size), size);
}
void *__wrap_calloc(size_t count, size_t size) {
    return keep(__real_calloc(count, size), count * size);
}
void *__wrap_aligned_alloc(size_t align, size_t size) {
    return keep(__real_aligned_alloc(align, size), size);
}
void *__wrap_realloc(void *block, size_t size) {
    forget(block);
    return keep(__real_realloc(block, size), size);
}
void __wrap_free(void *block) {
    forget(block);
    __real_free(block);
}

/* whether a word of a block is a pointer into one of the blocks */
static bool is_pointer(const struct blocks *blocks, const uint8_t *word) {
    uintptr_t value;
    memcpy(&value, word, sizeof value);
    for (size_t i = 0; i < blocks->count; i++)
        if (value - (uintptr_t)blocks->list[i].at <= blocks->list[i].len) return true;
    return false;
}

/* Makes the bytes undefined that differ from those of the other handle. Returns their number, or 0 if the blocks are not alike. */
static size_t hide(const struct blocks *own, const struct blocks *other) {
    size_t hidden = 0;
    if (own->count != other->count || own->count == MOST_BLOCKS) return 0;
    for (size_t i = 0; i < own->count; i++) {
        uint8_t *a = own->list[i].at, *b = other->list[i].at;
        size_t len = own->list[i].len;
        if (len != other->list[i].len) return 0;
        for (size_t at = 0; at < len; at++) {
            size_t word = at & ~(size_t)7;
            (void)VALGRIND_MAKE_MEM_DEFINED(b + at, 1);
            if (word + 8 <= len && at == word && is_pointer(own, a + word)) {
                at += 7;
                continue;
            }
            if (VALGRIND_CHECK_MEM_IS_DEFINED(a + at, 1) || a[at] == b[at]) continue;
            (void)VALGRIND_MAKE_MEM_UNDEFINED(a + at, 1);
            hidden++;
        }
    }
    return hidden;
}

/* ---- the calls */

static unsigned passed, failed;

static void note(const char *what, const char *of, size_t secret_len, int is_well, unsigned found) {
    passed += is_well;
    failed += !is_well;
    if (!is_well) printf("FAILED: %s with %s and a secret of %zu bytes: %u\n", what, of, secret_len, found);
}

/* Returns how many jumps and addresses of jwt_verifier_check of the token's signature depend on the secret. */
static unsigned checked_by(const struct algorithm *by, struct jwt_handle *verifier, const char *token, size_t len,
                           uint32_t *status) {
    uint8_t signature[64];
    uint32_t algorithm;
    size_t message_len, signature_len;
    *status = jwt_signed_part(token, len, &algorithm, &message_len, signature, sizeof signature, &signature_len);
    if (*status != JWT_OK) return 0;
    unsigned before = VALGRIND_COUNT_ERRORS;
    *status = jwt_verifier_check(verifier, by->number, (const uint8_t *)token, message_len, signature, signature_len);
    unsigned after = VALGRIND_COUNT_ERRORS;
    (void)VALGRIND_MAKE_MEM_DEFINED(status, sizeof *status);
    return after - before;
}

/* Returns how many jumps and addresses of jwt_verifier_decode depend on the secret. */
static unsigned verified_by(struct jwt_handle *verifier, const char *token, size_t len, uint32_t *status) {
    char claims[1000];
    struct jwt_verdict said;
    unsigned before = VALGRIND_COUNT_ERRORS;
    *status = jwt_verifier_decode(verifier, token, len, 0, claims, sizeof claims, &said);
    unsigned after = VALGRIND_COUNT_ERRORS;
    (void)VALGRIND_MAKE_MEM_DEFINED(status, sizeof *status);
    return after - before;
}

/* Makes a verifier of as many bytes of this value as a secret, with a limit of prepared keys, and notes its memory. */
static uint32_t make(const struct algorithm *by, uint8_t byte, size_t secret_len, size_t max_prepared, struct jwt_handle *verifier,
                     struct blocks *blocks) {
    struct jwt_handle keys = JWT_NONE;
    uint8_t *secret = malloc(secret_len);
    size_t items, kept;
    memset(secret, byte, secret_len);
    blocks->count = 0, noted = blocks;
    uint32_t status = jwt_keys_add(&keys, JWT_SECRET, secret, secret_len, &items, &kept);
    if (status == JWT_OK) status = jwt_verifier_new(&keys, by->options, strlen(by->options), 0, max_prepared, verifier);
    jwt_free(&keys);
    noted = NULL;
    free(secret);
    return status;
}

/* Makes a verifier of the secret, and hides what it keeps of it. */
static void make_hidden(const struct algorithm *by, size_t secret_len, size_t max_prepared, struct jwt_handle *verifier) {
    static struct blocks own, other;
    struct jwt_handle others[OTHERS] = {JWT_NONE};
    uint32_t status = make(by, 'x', secret_len, max_prepared, verifier, &own);
    size_t hidden = 0;
    for (int i = 0; i < OTHERS && status == JWT_OK; i++) {
        status = make(by, (uint8_t)(0x5a + 0x29 * i), secret_len, max_prepared, &others[i], &other);
        if (status == JWT_OK) hidden += hide(&own, &other);
    }
    note("the secret of a verifier", by->header, secret_len, status == JWT_OK && hidden >= secret_len, (unsigned)hidden);
    for (int i = 0; i < OTHERS; i++) jwt_free(&others[i]);
}

/* Verifies a token and a forged one. */
static void try_verifier(const struct algorithm *by, size_t secret_len, size_t max_prepared, const char *token,
                         const char *forged, size_t len) {
    struct jwt_handle verifier = JWT_NONE;
    uint32_t status;
    make_hidden(by, secret_len, max_prepared, &verifier);
    unsigned found = verified_by(&verifier, token, len, &status);
    note("a token that a verifier accepts", by->header, secret_len,
         status == JWT_OK && found >= 1 && found <= MOST_BY_VERIFIER, found);
    found = verified_by(&verifier, forged, len, &status);
    note("a token that a verifier refuses", by->header, secret_len,
         status == JWT_INVALID_SIGNATURE && found >= 1 && found <= MOST_OF_REFUSED_BY_VERIFIER, found);
    found = checked_by(by, &verifier, token, len, &status);
    note("an accepted signature", by->header, secret_len, status == JWT_OK && found >= 1 && found <= MOST_OF_ACCEPTED,
         found);
    found = checked_by(by, &verifier, forged, len, &status);
    note("a forged signature", by->header, secret_len,
         status == JWT_INVALID_SIGNATURE && found >= 1 && found <= MOST_OF_REFUSED, found);
    jwt_free(&verifier);
}

static void try_secret(const struct algorithm *by, size_t secret_len) {
    struct jwt_handle keys = JWT_NONE;
    char token[1000], forged[1000], secret[300];
    size_t items, kept, len = 0;
    memset(secret, 'x', secret_len);
    uint32_t status = jwt_keys_add(&keys, JWT_SECRET, (const uint8_t *)secret, secret_len, &items, &kept);
    if (status == JWT_OK) status = jwt_sign(&keys, by->header, strlen(by->header), CLAIMS, strlen(CLAIMS), token, sizeof token, &len);
    note("an issued token", by->header, secret_len, status == JWT_OK, status);
    jwt_free(&keys);
    memcpy(forged, token, len);
    forged[len - 10] = forged[len - 10] == 'A' ? 'B' : 'A';
    try_verifier(by, secret_len, 0, token, forged, len);
    try_verifier(by, secret_len, JWT_PREPARE_NOTHING, token, forged, len);
}

/* Compares as is_same must not: it stops at the first difference. */
static int is_same_by_early_stop(const volatile uint8_t *a, const volatile uint8_t *b, size_t len) {
    for (size_t i = 0; i < len; i++)
        if (a[i] != b[i]) return 0;
    return 1;
}

/* The count must show a comparison that stops early. */
static void try_early_stop(void) {
    uint8_t code[32] = {1}, given[32] = {1};
    (void)VALGRIND_MAKE_MEM_UNDEFINED(code, sizeof code);
    unsigned before = VALGRIND_COUNT_ERRORS;
    int is_same = is_same_by_early_stop(code, given, sizeof code);
    unsigned found = VALGRIND_COUNT_ERRORS - before;
    note("an early stop", "nothing", sizeof code, is_same && found > MOST_OF_REFUSED, found);
}

int main(void) {
    static const size_t LENGTHS[] = {1, 16, 31, 32, 33, 63, 64, 65, 127, 128, 129, 200, 300};
    if (!RUNNING_ON_VALGRIND) {
        fprintf(stderr, "secret_paths: run it by valgrind\n");
        return 2;
    }
    for (size_t a = 0; a < sizeof ALGORITHMS / sizeof *ALGORITHMS; a++)
        for (size_t i = 0; i < sizeof LENGTHS / sizeof *LENGTHS; i++) try_secret(&ALGORITHMS[a], LENGTHS[i]);
    try_early_stop();
    printf("%u tests of what depends on a secret, %u failed\n", passed + failed, failed);
    return failed > 0;
}
