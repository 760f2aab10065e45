/* Tests how much stack a call needs that reads keys, makes a verifier, verifies a token or signs one. The call runs in a thread whose stack is painted before;
   the bytes with another value afterwards were used. The tables of multiples of curve points are on the stack, and the JSON reader
   needs about 600 bytes for each level of nesting. */
#include "keys.h"
#include <jwtproved.h>
#include <pthread.h>
#include <stdint.h>
#include <stdio.h>
#include <string.h>
#include <sys/mman.h>

enum { STACK = 1 << 20, PAINT = 0xa5 };
/* The most bytes of stack that a call needs, for a short token without nesting, and for a token that nests as deep as JSON may. */
enum { MOST = 40 << 10, MOST_OF_NESTED = 112 << 10 };
/* The levels of arrays in a member. With the object around them there are 127, the most that is read. */
enum { LEVELS = 126 };
static const uint64_t EXPIRED = 2532525000;
static const char BY_HMAC[] = "{\"algorithms\":[\"HS256\"]}";

enum way { NOTHING, READS_KEYS, MAKES_VERIFIER, BY_VERIFIER, SIGNS };
/* to sign, the texts are a header and a payload */
struct call {
    enum way way;
    const char *token, *options;
    uint64_t now;
};

static uint32_t status;
static struct jwt_handle keys = JWT_NONE, verifier = JWT_NONE;
static char nested[2048];

static void *make(void *given) {
    const struct call *call = given;
    static char claims[288];
    size_t items, kept, len;
    struct jwt_verdict said;
    if (call->way == READS_KEYS)
        status = jwt_keys_add(&keys, JWT_TEXT, (const uint8_t *)ALL_KEYS, strlen(ALL_KEYS), &items, &kept);
    else if (call->way == MAKES_VERIFIER)
        status = jwt_verifier_new(&keys, call->options, strlen(call->options), 0, 0, &verifier);
    else if (call->way == BY_VERIFIER)
        status =
            jwt_verifier_decode(&verifier, call->token, strlen(call->token), call->now, claims, sizeof claims, &said);
    else if (call->way == SIGNS)
        status = jwt_sign(&keys, call->token, strlen(call->token), call->options, strlen(call->options), nested,
                          sizeof nested - 1, &len);
    return NULL;
}

/* Returns the bytes of stack that a thread takes which makes a call, or 0 if there is no thread. */
static size_t stack_of(const struct call *call) {
    uint8_t *stack = mmap(NULL, STACK, PROT_READ | PROT_WRITE, MAP_PRIVATE | MAP_ANONYMOUS, -1, 0);
    pthread_attr_t attributes;
    pthread_t thread;
    if (stack == MAP_FAILED) return 0;
    memset(stack, PAINT, STACK);
    pthread_attr_init(&attributes);
    size_t used = 0;
    if (!pthread_attr_setstack(&attributes, stack, STACK) &&
        !pthread_create(&thread, &attributes, make, (void *)call) && !pthread_join(thread, NULL)) {
        const uint8_t *at = stack;
        while (at < stack + STACK && *at == PAINT) at++;
        used = (size_t)(stack + STACK - at);
    }
    pthread_attr_destroy(&attributes);
    munmap(stack, STACK);
    return used;
}

static unsigned passed, failed;

/* Tests the status of a call, and its stack beyond that of a thread that makes no call. */
static void test(const char *name, const struct call *call, uint32_t wanted, size_t most) {
    static const char *const CALLED[] = {"", "jwt_keys_add", "jwt_verifier_new", "jwt_verifier_decode", "jwt_sign"};
    static const struct call NO_CALL;
    const size_t thread = stack_of(&NO_CALL);
    status = UINT32_MAX;
    const size_t whole = stack_of(call);
    const int is_well = thread && whole > thread && status == wanted && whole - thread <= most;
    passed += is_well;
    failed += !is_well;
    printf("%s%s, %s: %zu bytes of stack, status %u\n", is_well ? "" : "FAILED: ", name, CALLED[call->way],
           whole - thread, status);
}

/* Verifies a token with a verifier of the key set. */
static void verify(const char *name, const char *token, const char *options, uint64_t now, uint32_t wanted,
                   size_t most) {
    const struct call reads = {READS_KEYS, NULL, NULL, 0}, makes = {MAKES_VERIFIER, NULL, options, 0};
    const struct call verifies = {BY_VERIFIER, token, options, now};
    test(name, &reads, JWT_OK, MOST);
    test(name, &makes, JWT_OK, MOST);
    test(name, &verifies, wanted, most);
    jwt_free(&keys), jwt_free(&verifier);
}

/* Verifies a valid token, a forged one, and the valid one after it expired. */
static void verify_all(const char *name, const char *token, const char *options, size_t most) {
    char forged[2048];
    snprintf(forged, sizeof forged, "%s", token);
    char *const changed = strrchr(forged, '.') + 5;
    *changed = *changed == 'A' ? 'B' : 'A';
    verify(name, token, options, 0, JWT_OK, most);
    verify(name, forged, options, 0, JWT_INVALID_SIGNATURE, most);
    verify(name, token, options, EXPIRED, JWT_EXPIRED_SIGNATURE, most);
}

/* Signs a token with HS256 into `nested`, with this many levels of arrays in its header and in its claims. */
static void sign_nested(size_t of_header, size_t of_claims) {
    char open[LEVELS + 1], close[LEVELS + 1], header[512], claims[512];
    const struct call signs = {SIGNS, header, claims, 0};
    size_t items, kept;
    memset(open, '[', LEVELS);
    memset(close, ']', LEVELS);
    memset(nested, 0, sizeof nested);
    snprintf(header, sizeof header, "{\"alg\":\"HS256\",\"kid\":\"hmac\",\"x\":[%.*s%.*s]}", (int)of_header - 1, open,
             (int)of_header - 1, close);
    snprintf(claims, sizeof claims, "{\"exp\":2532524891,\"x\":[%.*s%.*s]}", (int)of_claims - 1, open,
             (int)of_claims - 1, close);
    jwt_keys_add(&keys, JWT_TEXT, (const uint8_t *)HMAC_KEY, strlen(HMAC_KEY), &items, &kept);
    test("a token that nests", &signs, JWT_OK, MOST_OF_NESTED);
    jwt_free(&keys);
}

int main(void) {
    static const char *const ALGORITHMS[][2] = {
        {"HS256", BY_HS256}, {"RS256", BY_RS256}, {"PS256", BY_PS256},
        {"ES256", BY_ES256}, {"ES384", BY_ES384}, {"EdDSA", BY_EDDSA},
    };
    char options[64];
    for (size_t i = 0; i < sizeof ALGORITHMS / sizeof *ALGORITHMS; i++) {
        snprintf(options, sizeof options, "{\"algorithms\":[\"%s\"]}", ALGORITHMS[i][0]);
        verify_all(ALGORITHMS[i][0], ALGORITHMS[i][1], options, MOST);
    }
    verify("no dot", "abc", BY_HMAC, 0, JWT_INVALID_TOKEN, MOST);
    verify("a header without alg", "e30.e30.", BY_HMAC, 0, JWT_JSON, MOST);
    verify("an unknown kid", "eyJhbGciOiJIUzI1NiIsImtpZCI6IngifQ.e30.", BY_HMAC, 0, JWT_NO_KEY, MOST);
    verify("another algorithm", BY_ES256, BY_HMAC, 0, JWT_INVALID_ALGORITHM, MOST);
    sign_nested(LEVELS, 1);
    verify_all("a header that nests", nested, BY_HMAC, MOST_OF_NESTED);
    sign_nested(1, LEVELS);
    verify_all("claims that nest", nested, BY_HMAC, MOST_OF_NESTED);
    printf("%u passed, %u failed\n", passed, failed);
    return failed != 0;
}
