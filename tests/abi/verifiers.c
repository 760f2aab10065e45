/* Tests of the calls for C with a verifier. The last line counts. What a token is to have is computed here from its key, the options and the
   time. With the argument `few` fewer tokens are tried, for valgrind. */
#include "harness.h"
#include "keys.h"
#include "signatures.h"
#include <pthread.h>

#define OCT(k) "{\"kty\":\"oct\",\"kid\":\"hmac\",\"k\":\"" k "\"}"
#define OKP(x) "{\"kty\":\"OKP\",\"crv\":\"Ed25519\",\"x\":\"" x "\"}"
#define OCT_FOR(alg) "{\"kty\":\"oct\",\"alg\":\"" alg "\",\"k\":\"c2VjcmV0\"}"
/* a token cannot name it in a set */
#define OCT_UNNAMED "{\"kty\":\"oct\",\"k\":\"c2VjcmV0\"}"
#define PEM                                                                                                            \
    "-----BEGIN PUBLIC KEY-----\nMCowBQYDK2VwAyEAP/KbjxwdH3v1YC6s5VVabMvwdZqwm779emMwejCAgZs=\n"                       \
    "-----END PUBLIC KEY-----\n"
#define HS256 "{\"algorithms\":[\"HS256\"]}"
#define RS256 "{\"algorithms\":[\"RS256\",\"PS256\"]}"
#define ES256 "{\"algorithms\":[\"ES256\"]}"
#define EDDSA "{\"algorithms\":[\"EdDSA\"]}"
#define MIXED "{\"algorithms\":[\"RS256\",\"HS256\"]}"
#define EACH                                                                                                           \
    "{\"algorithms\":[\"HS256\",\"HS384\",\"HS512\",\"RS256\",\"RS384\",\"RS512\",\"PS256\",\"PS384\",\"PS512\","      \
    "\"ES256\",\"ES384\",\"EdDSA\"]}"
#define NEEDS(names) "{\"algorithms\":[\"HS256\"],\"required\":[\"" names "\"]}"
#define TEXTS(names) "{\"algorithms\":[\"HS256\"],\"texts\":[\"" names "\"]}"

/* ---- verifiers */

static bool is_few;

/* the greatest number of bytes of prepared keys */
static size_t max_prepared = 0;

static uint32_t made_of(uint32_t source, const char *keys, const char *options, struct jwt_handle *verifier) {
    return make(source, keys, options, 0, max_prepared, verifier);
}

static long status(struct jwt_handle *verifier, const char *token) {
    return decode(verifier, TEXT(token), 0, ROOM).a.status;
}

/* ---- made of keys and options, or not */

static void made(void) {
    static const struct {
        uint32_t source;
        const char *keys, *options;
        uint32_t status;
    } rows[] = {
        {JWT_TEXT, ALL_KEYS, HS256, JWT_OK},
        {JWT_TEXT, ALL_KEYS, EDDSA, JWT_OK},
        {JWT_TEXT, SET_OF(RSA_KEY), RS256, JWT_OK},
        {JWT_TEXT, SET_OF(SMALL_RSA "," RSA_KEY), RS256, JWT_OK},
        {JWT_TEXT, SET_OF(OCT("*") "," HMAC_KEY), HS256, JWT_OK},
        {JWT_TEXT, SET_OF(ED_KEY "," OCT_UNNAMED "," HMAC_KEY), HS256, JWT_OK},
        {JWT_TEXT, ALL_KEYS, "{\"algorithms\":[\"RS256\",\"PS512\",\"RS384\"]}", JWT_OK},
        /* the options are read before the keys are looked at */
        {JWT_TEXT, SET_OF(""), "{", JWT_BAD_OPTIONS},
        {JWT_TEXT, ALL_KEYS, "{\"algorithms\":7}", JWT_BAD_OPTIONS},
        {JWT_TEXT, ED_KEY, "", JWT_BAD_OPTIONS},
        {JWT_SECRET, "a secret", "[", JWT_BAD_OPTIONS},
        /* an empty name, which stands for a setting that was left out */
        {JWT_TEXT, ALL_KEYS, "{\"algorithms\":[\"HS256\"],\"aud\":[\"\"]}", JWT_BAD_OPTIONS},
        {JWT_TEXT, HMAC_KEY, "{\"algorithms\":[\"HS256\"],\"iss\":[\"a\",\"\"]}", JWT_BAD_OPTIONS},
        {JWT_SECRET, "a secret", "{\"algorithms\":[\"HS256\"],\"sub\":\"\"}", JWT_BAD_OPTIONS},
        /* items with which anyone can sign are skipped, and others count */
        {JWT_TEXT, SET_OF(RSA_KEY "," OCT("")), HS256, JWT_NO_USABLE_KEY},
        {JWT_TEXT, SET_OF(RSA_KEY "," OCT("AAAA")), RS256, JWT_OK},
        {JWT_TEXT, SET_OF(RSA_KEY "," OCT("c3NoLXJzYQ")), RS256, JWT_OK},
        {JWT_TEXT, SET_OF(OCT("AAAA") "," OCT("c3NoLXJzYQ")), HS256, JWT_NO_USABLE_KEY},
        /* algorithms of several families */
        {JWT_TEXT, ALL_KEYS, MIXED, JWT_OK},
        {JWT_TEXT, ALL_KEYS, "{\"algorithms\":[\"ES384\",\"HS256\"]}", JWT_OK},
        {JWT_TEXT, ALL_KEYS, "{\"algorithms\":[\"ES256\",\"ES384\",\"EdDSA\"]}", JWT_OK},
        {JWT_TEXT, SET_OF(""), MIXED, JWT_NO_USABLE_KEY},
        {JWT_TEXT, SET_OF(SMALL_RSA "," OFF_CURVE), "{\"algorithms\":[\"RS256\",\"ES256\"]}", JWT_NO_USABLE_KEY},
        {JWT_TEXT, HMAC_KEY, MIXED, JWT_OK},
        {JWT_TEXT, RSA_KEY, MIXED, JWT_OK},
        {JWT_TEXT, ED_KEY, MIXED, JWT_NO_USABLE_KEY},
        {JWT_SECRET, "a secret", MIXED, JWT_OK},
        /* keys that fit no algorithm of the options */
        {JWT_TEXT, SET_OF(""), HS256, JWT_NO_USABLE_KEY},
        {JWT_TEXT, SET_OF(OCT_UNNAMED), HS256, JWT_NO_USABLE_KEY},
        {JWT_TEXT, SET_OF(ED_KEY "," OCT_UNNAMED), HS256, JWT_NO_USABLE_KEY},
        {JWT_TEXT, ALL_KEYS, "{\"algorithms\":[]}", JWT_NO_USABLE_KEY},
        {JWT_TEXT, ALL_KEYS, "{}", JWT_NO_USABLE_KEY},
        {JWT_TEXT, SET_OF(HMAC_KEY "," P256_KEY), RS256, JWT_NO_USABLE_KEY},
        {JWT_TEXT, SET_OF(P256_KEY), "{\"algorithms\":[\"ES384\"]}", JWT_NO_USABLE_KEY},
        {JWT_TEXT, SET_OF(OCT("*")), HS256, JWT_NO_USABLE_KEY},
        {JWT_TEXT, HMAC_KEY, RS256, JWT_NO_USABLE_KEY},
        {JWT_TEXT, RSA_KEY, HS256, JWT_NO_USABLE_KEY},
        {JWT_TEXT, P384_KEY, ES256, JWT_NO_USABLE_KEY},
        {JWT_SECRET, "a secret", RS256, JWT_NO_USABLE_KEY},
        {JWT_TEXT, P256_KEY, "{\"algorithms\":[\"ES384\",\"ES256\"]}", JWT_OK},
        {JWT_TEXT, ED_KEY, EDDSA, JWT_OK},
        {JWT_SECRET, "s", HS256, JWT_OK},
        {JWT_TEXT, OCT_UNNAMED, HS256, JWT_OK},
    };
    for (size_t i = 0; i < COUNT(rows); i++) {
        struct jwt_handle v = JWT_NONE;
        is(rows[i].keys, made_of(rows[i].source, rows[i].keys, rows[i].options, &v), rows[i].status);
        is("a verifier exactly if it is made", v.at != NULL, rows[i].status == JWT_OK);
        jwt_free(&v);
        is("freed", v.at == NULL, 1);
    }
}

/* ---- slips */

static void slips(void) {
    struct jwt_handle v = JWT_NONE, w = JWT_NONE, keys = JWT_NONE;
    is("no verifier", status(&v, BY_HS256), JWT_NO_VERIFIER);
    is("made", made_of(JWT_TEXT, ALL_KEYS, HS256, &v), JWT_OK);
    void *at = v.at;
    add(&keys, JWT_TEXT, ALL_KEYS);
    is("made twice", jwt_verifier_new(&keys, TEXT(RS256), 0, 0, &v), JWT_HANDLE_IN_USE);
    is("it is unchanged", v.at == at && status(&v, BY_HS256) == JWT_OK, 1);
    jwt_free(&keys);
    is("shared", jwt_share(&v, &w), JWT_OK);
    is("shared twice", jwt_share(&v, &w), JWT_HANDLE_IN_USE);
    is("a share of none in the place of one", (jwt_free(&v), jwt_share(&v, &w)), JWT_HANDLE_IN_USE);
    is("freed", status(&v, BY_HS256), JWT_NO_VERIFIER);
    is("the share stays", status(&w, BY_HS256), JWT_OK);
    struct jwt_handle moved = w;
    is("moved", status(&moved, BY_HS256), JWT_OK);
    jwt_free(&moved);
    jwt_free(&moved);
    is("freed twice", moved.at == NULL, 1);
    is("made again", made_of(JWT_TEXT, ED_KEY, EDDSA, &moved), JWT_OK);
    is("of another key", status(&moved, BY_EDDSA), JWT_OK);
    jwt_free(&moved);
}

/* ---- the length of a token */

static void lengths(void) {
    static const size_t limits[] = {1, 166, 167, 168, 0};
    for (size_t i = 0; i < COUNT(limits); i++) {
        struct jwt_handle v = JWT_NONE;
        size_t limit = limits[i] ? limits[i] : JWT_TOKEN_LIMIT, len = strlen(BY_HS256);
        is("made", make(JWT_TEXT, HMAC_KEY, HS256, limits[i], 0, &v), JWT_OK);
        is("a token by its length", status(&v, BY_HS256), len > limit ? JWT_TOKEN_TOO_LONG : JWT_OK);
        char *token = calloc(limit + 1, 1);
        is("as long as allowed", decode(&v, token, limit, 0, ROOM).a.status, JWT_INVALID_TOKEN);
        requests = 0;
        is("one byte longer", decode(&v, token, limit + 1, 0, ROOM).a.status, JWT_TOKEN_TOO_LONG);
        is("nothing is asked for", requests, 0);
        free(token);
        jwt_free(&v);
    }
}

/* ---- verdicts */

static void is_said(const char *what, const struct judged *got, uint32_t status, const struct jwt_verdict *said) {
    is(what, status_of(&got->a), status);
    is("the last time", got->said.last == said->last, 1);
    is("the length", (long)got->said.len, (long)said->len);
    is("the place of the verifier", (long)got->said.verifier, (long)said->verifier);
    is("the algorithm", got->said.algorithm, said->algorithm);
    is("the test", got->said.test, said->test);
    is("the place of a claim", got->said.claim, said->claim);
    is("whether there is a kid", got->said.has_kid, said->has_kid);
    is("whether the claims are as signed", got->said.as_signed, said->as_signed);
}

#define LEN (sizeof CLAIMS - 1)
/* the claims of keys.h by an algorithm, a refusal by a test, with the place of a claim, and one since there is no key; and the place of the
   verifier */
#define ACCEPTED_BY(place, last, by)                                                                                   \
    { last, LEN, place, by, 0, 0, 1, 1 }
#define REFUSED_BY(place, test, claim, has_kid)                                                                        \
    { 0, 0, place, 0, test, claim, has_kid, 0 }
#define ACCEPTED(last, by) ACCEPTED_BY(0, last, by)
#define REFUSED(test, claim) REFUSED_BY(0, test, claim, 0)
#define NO_KEY(has_kid) REFUSED_BY(0, 6, 0, has_kid)
/* the headers {"alg":"HS256","kid":null} and {"alg":"HS256","kid":""} */
#define NULL_KID "eyJhbGciOiJIUzI1NiIsImtpZCI6bnVsbH0.e30."
#define EMPTY_KID "eyJhbGciOiJIUzI1NiIsImtpZCI6IiJ9.e30."

static void verdicts(void) {
    static const struct {
        uint32_t source;
        const char *keys, *options, *token;
        uint64_t now;
        size_t room;
        uint32_t status;
        struct jwt_verdict said;
    } rows[] = {
        {JWT_TEXT, HMAC_KEY, HS256, BY_HS256, LAST, ROOM, JWT_OK, ACCEPTED(LAST, JWT_HS256)},
        {JWT_TEXT, HMAC_KEY, HS256, BY_HS256, LAST, LEN - 1, JWT_BUFFER_TOO_SMALL, ACCEPTED(LAST, JWT_HS256)},
        {JWT_TEXT, ALL_KEYS, ALL_OPTIONS, BY_EDDSA, 0, ROOM, JWT_OK, ACCEPTED(LAST, JWT_EDDSA)},
        {JWT_TEXT, A1_KEY, HS256, A1_TOKEN, 0, ROOM, JWT_OK, {1300819440, 70, 0, JWT_HS256, 0, 0, 0, 1}},
        {JWT_SECRET, "secret", HS256, TWICE, 69, ROOM, JWT_OK, {69, 15, 0, JWT_HS256, 0, 0, 0, 0}},
        {JWT_SECRET, "secret", HS256, TWICE, 69, 14, JWT_BUFFER_TOO_SMALL, {69, 15, 0, JWT_HS256, 0, 0, 0, 0}},
        {JWT_TEXT, HMAC_KEY, "{\"algorithms\":[\"HS256\"],\"validate_exp\":false}", BY_HS256, 0, ROOM, JWT_OK,
         ACCEPTED(UINT64_MAX, JWT_HS256)},
        {JWT_TEXT, HMAC_KEY, HS256, "", 0, ROOM, JWT_INVALID_TOKEN, REFUSED(1, 0)},
        {JWT_TEXT, HMAC_KEY, HS256, BY_ES256, 0, ROOM, JWT_INVALID_ALGORITHM, REFUSED(10, 0)},
        {JWT_TEXT, OCT("YQ"), HS256, BY_HS256, 0, ROOM, JWT_INVALID_SIGNATURE, REFUSED(14, 0)},
        {JWT_TEXT, HMAC_KEY, HS256, BY_HS256, LAST + 1, ROOM, JWT_EXPIRED_SIGNATURE, REFUSED(19, 0)},
        {JWT_TEXT, HMAC_KEY, NEEDS("sub\",\"jti"), BY_HS256, 0, ROOM, JWT_MISSING_CLAIM, REFUSED(20, 2)},
        {JWT_TEXT, HMAC_KEY, TEXTS("sub\",\"jti\",\"exp"), BY_HS256, 0, ROOM, JWT_MALFORMED_CLAIM, REFUSED(20, 3)},
        {JWT_TEXT, SET_OF(P256_KEY), ES256, BY_HS256, 0, ROOM, JWT_NO_KEY, NO_KEY(1)},
        {JWT_TEXT, SET_OF(P256_KEY), ES256, A3_TOKEN, 0, ROOM, JWT_NO_KEY, NO_KEY(0)},
        {JWT_TEXT, SET_OF(HMAC_KEY), HS256, NULL_KID, 0, ROOM, JWT_NO_KEY, NO_KEY(0)},
        {JWT_TEXT, SET_OF(HMAC_KEY), HS256, EMPTY_KID, 0, ROOM, JWT_NO_KEY, NO_KEY(1)},
    };
    for (size_t i = 0; i < COUNT(rows); i++) {
        struct jwt_handle v = JWT_NONE;
        is("made", made_of(rows[i].source, rows[i].keys, rows[i].options, &v), JWT_OK);
        struct judged got = decode(&v, TEXT(rows[i].token), rows[i].now, rows[i].room);
        is_said(rows[i].options, &got, rows[i].status, &rows[i].said);
        jwt_free(&v);
    }
}

/* ---- one signature of a message (RFC 7515 section 5.2, step 8) */

/* the message and the signature of a token */
struct signed_part {
    const char *token;
    uint32_t algorithm;
    size_t message_len, len;
    uint8_t bytes[1024];
};

static struct signed_part part_of(const char *token) {
    struct signed_part s = {.token = token};
    is("a signed part", jwt_signed_part(TEXT(token), &s.algorithm, &s.message_len, s.bytes, sizeof s.bytes, &s.len),
       JWT_OK);
    return s;
}

static uint32_t checked(struct jwt_handle *verifier, const struct signed_part *s, uint32_t algorithm) {
    return jwt_verifier_check(verifier, algorithm, (const uint8_t *)s->token, s->message_len, s->bytes, s->len);
}

static struct answer attached(struct jwt_handle *verifier, const struct signed_part *s, size_t room) {
    struct answer a = fresh();
    a.status = jwt_attach(verifier, (const uint8_t *)s->token, s->message_len, s->bytes, s->len, a.room, room, &a.len);
    return a;
}

static const struct {
    const char *token, *key;
    uint32_t algorithm, bits;
} signatures[] = {
    {A1_TOKEN, A1_KEY, JWT_HS256, HMAC_BITS},        {A2_TOKEN, A2_KEY, JWT_RS256, RSA_BITS},
    {A3_TOKEN, A3_KEY, JWT_ES256, BIT(JWT_ES256)},   {A4_TOKEN, A4_KEY, JWT_EDDSA, BIT(JWT_EDDSA)},
    {BY_HS256, HMAC_KEY, JWT_HS256, HMAC_BITS},      {BY_HS384, HMAC_KEY, JWT_HS384, HMAC_BITS},
    {BY_HS512, HMAC_KEY, JWT_HS512, HMAC_BITS},      {BY_RS256, RSA_KEY, JWT_RS256, RSA_BITS},
    {BY_RS384, RSA_KEY, JWT_RS384, RSA_BITS},        {BY_RS512, RSA_KEY, JWT_RS512, RSA_BITS},
    {BY_PS256, RSA_KEY, JWT_PS256, RSA_BITS},        {BY_PS384, RSA_KEY, JWT_PS384, RSA_BITS},
    {BY_PS512, RSA_KEY, JWT_PS512, RSA_BITS},        {BY_ES256, P256_KEY, JWT_ES256, BIT(JWT_ES256)},
    {BY_ES384, P384_KEY, JWT_ES384, BIT(JWT_ES384)}, {BY_EDDSA, ED_KEY, JWT_EDDSA, BIT(JWT_EDDSA)},
};

static void checked_signatures(void) {
    for (size_t i = 0; i < COUNT(signatures); i++) {
        struct jwt_handle v = JWT_NONE;
        const char *token = signatures[i].token;
        struct signed_part s = part_of(token), other = s;
        uint32_t own = signatures[i].algorithm, bits = signatures[i].bits;
        is("made", made_of(JWT_TEXT, signatures[i].key, EACH, &v), JWT_OK);
        is(token, checked(&v, &s, own), JWT_OK);
        for (uint32_t number = JWT_HS256; number <= JWT_EDDSA; number++)
            if (number != own)
                is("by another algorithm", checked(&v, &s, number),
                   bits & BIT(number) ? JWT_INVALID_SIGNATURE : JWT_INVALID_KEY_FORMAT);
        for (size_t place = 0; place < s.len; place += 13) {
            other.bytes[place] ^= 1;
            is("a bit of a signature flipped", checked(&v, &other, own), JWT_INVALID_SIGNATURE);
            other.bytes[place] ^= 1;
        }
        other.len--;
        is("a byte of a signature missing", checked(&v, &other, own), JWT_INVALID_SIGNATURE);
        other.len += 2;
        is("a byte behind a signature", checked(&v, &other, own), JWT_INVALID_SIGNATURE);
        other = s, other.message_len--;
        is("a byte of a message missing", checked(&v, &other, own), JWT_INVALID_SIGNATURE);
        is("nothing by null pointers", jwt_verifier_check(&v, own, NULL, 0, NULL, 0), JWT_INVALID_SIGNATURE);
        jwt_free(&v);
    }
}

/* of several statuses the first */
static void refused_checks(void) {
    static const struct {
        const char *keys, *options;
        uint32_t algorithm, status;
    } rows[] = {
        {SET_OF(HMAC_KEY), HS256, 0, JWT_UNFIT_KEY},
        {SET_OF(HMAC_KEY), HS256, JWT_HS256, JWT_UNFIT_KEY},
        {HMAC_KEY, HS256, 0, JWT_INVALID_ALGORITHM_NAME},
        {HMAC_KEY, HS256, 13, JWT_INVALID_ALGORITHM_NAME},
        {HMAC_KEY, HS256, 32, JWT_INVALID_ALGORITHM_NAME},
        {HMAC_KEY, HS256, UINT32_MAX, JWT_INVALID_ALGORITHM_NAME},
        {HMAC_KEY, HS256, JWT_HS384, JWT_INVALID_ALGORITHM},
        {HMAC_KEY, HS256, JWT_RS256, JWT_INVALID_ALGORITHM},
        {OCT_FOR("HS384"), EACH, JWT_HS256, JWT_INVALID_ALGORITHM},
        {OCT_FOR("HS384"), EACH, JWT_HS384, JWT_INVALID_SIGNATURE},
        {HMAC_KEY, MIXED, JWT_RS256, JWT_INVALID_KEY_FORMAT},
        {P256_KEY, EACH, JWT_ES384, JWT_INVALID_KEY_FORMAT},
        {HMAC_KEY, HS256, JWT_HS256, JWT_OK},
    };
    struct signed_part s = part_of(BY_HS256);
    struct jwt_handle v = JWT_NONE;
    is("checked by nothing", checked(&v, &s, 0), JWT_NO_VERIFIER);
    add(&v, JWT_TEXT, HMAC_KEY);
    is("checked by keys", checked(&v, &s, 0), JWT_NO_VERIFIER);
    jwt_free(&v);
    for (size_t i = 0; i < COUNT(rows); i++) {
        is("made", made_of(JWT_TEXT, rows[i].keys, rows[i].options, &v), JWT_OK);
        is(rows[i].options, checked(&v, &s, rows[i].algorithm), rows[i].status);
        jwt_free(&v);
    }
}

/* ---- tokens whose signature was made elsewhere */

static void attached_signatures(void) {
    for (size_t i = 0; i < COUNT(signatures); i++) {
        struct jwt_handle v = JWT_NONE, none = JWT_NONE;
        const char *token = signatures[i].token;
        struct signed_part s = part_of(token), other = s;
        /* the payload of RFC 8037 appendix A.4 is not JSON */
        bool is_input = strcmp(token, A4_TOKEN) != 0, is_rsa = signatures[i].bits == RSA_BITS;
        is("made", made_of(JWT_TEXT, signatures[i].key, EACH, &v), JWT_OK);
        struct answer a = attached(&v, &s, ROOM), by_none = attached(&none, &s, ROOM);
        is(token, is_input ? gives(&a, token) : status_of(&a) == JWT_SIGNING, 1);
        is("it is not tested with a handle that holds nothing", memcmp(&a, &by_none, sizeof a), 0);
        a = attached(&v, &s, strlen(token) - 1);
        is("a small buffer", status_of(&a), is_input ? JWT_BUFFER_TOO_SMALL : JWT_SIGNING);
        other.bytes[other.len / 2] ^= 1;
        a = attached(&v, &other, ROOM), by_none = attached(&none, &other, ROOM);
        is("another signature", status_of(&a), is_input ? JWT_INVALID_SIGNATURE : JWT_SIGNING);
        is("another signature that is not tested", status_of(&by_none), is_input ? JWT_OK : JWT_SIGNING);
        for (size_t len = s.len - 1; len <= s.len + 1; len += 2) {
            other.len = len;
            a = attached(&v, &other, ROOM), by_none = attached(&none, &other, ROOM);
            is("another length", status_of(&a), is_input && is_rsa ? JWT_INVALID_SIGNATURE : JWT_SIGNING);
            is("another length that is not tested", status_of(&by_none), is_input && is_rsa ? JWT_OK : JWT_SIGNING);
        }
        other.len = 0;
        by_none = attached(&none, &other, ROOM);
        is("no signature", status_of(&by_none), JWT_SIGNING);
        jwt_free(&v);
    }
}

#define ES256_PART "eyJhbGciOiJFUzI1NiJ9"
/* 64 letters, and two numbers of them in DER */
#define LETTERS "aaaaaaaaaaaaaaaaaaaaaaaaaaaaaaaaaaaaaaaaaaaaaaaaaaaaaaaaaaaaaaaa"
#define DER_OF_LETTERS "0D\2 aaaaaaaaaaaaaaaaaaaaaaaaaaaaaaaa\2 aaaaaaaaaaaaaaaaaaaaaaaaaaaaaaaa"

/* of several statuses the first; the key is for ES256 */
static void refused_attachments(void) {
    static const struct {
        const char *keys, *options, *message, *signature;
        uint32_t status;
    } rows[] = {
        {SET_OF(P256_KEY), ES256, "", "", JWT_UNFIT_KEY},
        {P256_KEY, ES256, ES256_PART ".e30", LETTERS, JWT_INVALID_SIGNATURE},
        {P256_KEY, ES256, ES256_PART ".e30", DER_OF_LETTERS, JWT_SIGNING},
        {P256_KEY, "{\"algorithms\":[\"ES384\",\"ES256\"]}", ES256_PART ".e30", "", JWT_SIGNING},
        /* not messages: other parts, no base64url, no header, no claims, and an object with a name twice */
        {P256_KEY, ES256, "", LETTERS, JWT_SIGNING},
        {P256_KEY, ES256, ES256_PART, LETTERS, JWT_SIGNING},
        {P256_KEY, ES256, ES256_PART ".e30.", LETTERS, JWT_SIGNING},
        {P256_KEY, ES256, "." ES256_PART ".e30", LETTERS, JWT_SIGNING},
        {P256_KEY, ES256, ES256_PART "=.e30", LETTERS, JWT_SIGNING},
        {P256_KEY, ES256, ES256_PART ".e31", LETTERS, JWT_SIGNING},
        {P256_KEY, ES256, "e30.e30", LETTERS, JWT_SIGNING},
        {P256_KEY, ES256, ES256_PART ".", LETTERS, JWT_SIGNING},
        {P256_KEY, ES256, ES256_PART ".W10", LETTERS, JWT_SIGNING},
        {P256_KEY, ES256, ES256_PART ".eyJhIjoxLCJhIjoxfQ", LETTERS, JWT_SIGNING},
        /* {"alg":"ES256","alg":"ES256"} */
        {P256_KEY, ES256, "eyJhbGciOiJFUzI1NiIsImFsZyI6IkVTMjU2In0.e30", LETTERS, JWT_SIGNING},
        /* the length before the algorithm, which is listed before the key is for it */
        {P384_KEY, "{\"algorithms\":[\"ES384\"]}", ES256_PART ".e30", LETTERS "a", JWT_SIGNING},
        {P384_KEY, "{\"algorithms\":[\"ES384\"]}", ES256_PART ".e30", LETTERS, JWT_INVALID_ALGORITHM},
        {RSA_KEY, RS256, ES256_PART ".e30", LETTERS, JWT_INVALID_ALGORITHM},
        {P384_KEY, EACH, ES256_PART ".e30", LETTERS, JWT_INVALID_KEY_FORMAT},
        {RSA_KEY, EACH, ES256_PART ".e30", LETTERS, JWT_INVALID_KEY_FORMAT},
        {HMAC_KEY, EACH, ES256_PART ".e30", LETTERS, JWT_INVALID_KEY_FORMAT},
        {A3_KEY, ES256, ES256_PART ".e30", LETTERS, JWT_INVALID_SIGNATURE},
    };
    struct jwt_handle v = JWT_NONE;
    struct signed_part s = part_of(A3_TOKEN);
    for (size_t i = 0; i < COUNT(rows); i++) {
        struct answer a = fresh();
        is("made", made_of(JWT_TEXT, rows[i].keys, rows[i].options, &v), JWT_OK);
        a.status = jwt_attach(&v, BYTES(rows[i].message), BYTES(rows[i].signature), a.room, ROOM, &a.len);
        is(rows[i].message, status_of(&a), rows[i].status);
        jwt_free(&v);
    }
    add(&v, JWT_TEXT, A3_KEY);
    struct answer a = attached(&v, &s, ROOM);
    is("a token with a signature by keys", status_of(&a), JWT_NO_VERIFIER);
    jwt_free(&v);
    /* the signature of another key, and of another message */
    made_of(JWT_TEXT, P256_KEY, ES256, &v);
    a = attached(&v, &s, ROOM);
    is("a signature by another key", status_of(&a), JWT_INVALID_SIGNATURE);
    jwt_free(&v);
    a = fresh();
    a.status = jwt_attach(&v, NULL, 0, NULL, 0, a.room, ROOM, &a.len);
    is("nothing by null pointers", status_of(&a), JWT_SIGNING);
}

/* ---- one verifier of two */

/* joins two verifiers, which are freed, as their keys are */
static uint32_t join(uint32_t source, const char *keys, const char *options, uint32_t other_source,
                     const char *other_keys, const char *other_options, struct jwt_handle *either) {
    struct jwt_handle first = JWT_NONE, second = JWT_NONE;
    uint32_t status = made_of(source, keys, options, &first);
    if (status == JWT_OK) status = made_of(other_source, other_keys, other_options, &second);
    if (status == JWT_OK) status = jwt_verifier_or(&first, &second, either);
    jwt_free(&first), jwt_free(&second);
    return status;
}

#define SOON "{\"algorithms\":[\"HS256\"],\"leeway\":0}"
#define NOT_NOBODY "{\"algorithms\":[\"HS256\"],\"leeway\":100,\"sub\":\"nobody\"}"
#define NEEDS_JTI "{\"algorithms\":[\"HS256\"],\"leeway\":100,\"required\":[\"jti\"]}"

static void joined(void) {
    static const struct {
        const char *name, *keys, *options, *other_keys, *other_options, *token;
        uint64_t now;
        uint32_t status;
        struct jwt_verdict said;
    } rows[] = {
        {"the first", HMAC_KEY, HS256, P256_KEY, ES256, BY_HS256, LAST, JWT_OK, ACCEPTED(LAST, JWT_HS256)},
        {"the second", HMAC_KEY, HS256, P256_KEY, ES256, BY_ES256, LAST, JWT_OK, ACCEPTED_BY(1, LAST, JWT_ES256)},
        {"the second of sets", SET_OF(RSA_KEY), RS256, ALL_KEYS, EDDSA, BY_EDDSA, LAST, JWT_OK,
         ACCEPTED_BY(1, LAST, JWT_EDDSA)},
        {"both: the first", HMAC_KEY, HS256, HMAC_KEY, SOON, BY_HS256, 0, JWT_OK, ACCEPTED(LAST, JWT_HS256)},
        {"both: the first, for less long", HMAC_KEY, SOON, HMAC_KEY, HS256, BY_HS256, 0, JWT_OK,
         ACCEPTED(LAST - 60, JWT_HS256)},
        {"after the first's last time", HMAC_KEY, SOON, HMAC_KEY, HS256, BY_HS256, LAST, JWT_OK,
         ACCEPTED_BY(1, LAST, JWT_HS256)},
        /* both refuse: the greater test */
        {"10 and 14", P256_KEY, ES256, OCT("YQ"), HS256, BY_HS256, 0, JWT_INVALID_SIGNATURE, REFUSED_BY(1, 14, 0, 0)},
        {"14 and 10", OCT("YQ"), HS256, P256_KEY, ES256, BY_HS256, 0, JWT_INVALID_SIGNATURE, REFUSED(14, 0)},
        {"14 and 19", OCT("YQ"), HS256, HMAC_KEY, HS256, BY_HS256, LAST + 1, JWT_EXPIRED_SIGNATURE,
         REFUSED_BY(1, 19, 0, 0)},
        {"19 and 14", HMAC_KEY, HS256, OCT("YQ"), HS256, BY_HS256, LAST + 1, JWT_EXPIRED_SIGNATURE, REFUSED(19, 0)},
        {"19 and 20", HMAC_KEY, HS256, HMAC_KEY, NEEDS_JTI, BY_HS256, LAST + 1, JWT_MISSING_CLAIM,
         REFUSED_BY(1, 20, 1, 0)},
        {"20 and 19", HMAC_KEY, NEEDS_JTI, HMAC_KEY, HS256, BY_HS256, LAST + 1, JWT_MISSING_CLAIM, REFUSED(20, 1)},
        {"6 and 10", SET_OF(P256_KEY), ES256, P256_KEY, ES256, BY_HS256, 0, JWT_INVALID_ALGORITHM,
         REFUSED_BY(1, 10, 0, 1)},
        {"10 and 6", P256_KEY, ES256, SET_OF(P256_KEY), ES256, BY_HS256, 0, JWT_INVALID_ALGORITHM,
         REFUSED_BY(0, 10, 0, 1)},
        {"6 and 14, without a kid", SET_OF(ED_KEY), EDDSA, HMAC_KEY, HS256, A1_TOKEN, 0, JWT_INVALID_SIGNATURE,
         REFUSED_BY(1, 14, 0, 0)},
        /* the same test: the first's */
        {"19 twice", HMAC_KEY, HS256, HMAC_KEY, NOT_NOBODY, BY_HS256, LAST + 1, JWT_EXPIRED_SIGNATURE, REFUSED(19, 0)},
        {"19 twice, the other first", HMAC_KEY, NOT_NOBODY, HMAC_KEY, HS256, BY_HS256, LAST + 1, JWT_INVALID_SUBJECT,
         REFUSED(19, 0)},
        {"20 twice", HMAC_KEY, TEXTS("sub\",\"exp"), HMAC_KEY, NEEDS_JTI, BY_HS256, 0, JWT_MALFORMED_CLAIM,
         REFUSED(20, 2)},
        {"20 twice, the other first", HMAC_KEY, NEEDS_JTI, HMAC_KEY, TEXTS("sub\",\"exp"), BY_HS256, 0,
         JWT_MISSING_CLAIM, REFUSED(20, 1)},
        {"6 twice", SET_OF(P256_KEY), ES256, SET_OF(ED_KEY), EDDSA, BY_HS256, 0, JWT_NO_KEY, NO_KEY(1)},
        {"6 twice, without a kid", SET_OF(P256_KEY), ES256, SET_OF(ED_KEY), EDDSA, A1_TOKEN, 0, JWT_NO_KEY, NO_KEY(0)},
        {"1 twice", HMAC_KEY, HS256, P256_KEY, ES256, "", 0, JWT_INVALID_TOKEN, REFUSED(1, 0)},
    };
    for (size_t i = 0; i < COUNT(rows); i++) {
        struct jwt_handle v = JWT_NONE;
        is("joined",
           join(JWT_TEXT, rows[i].keys, rows[i].options, JWT_TEXT, rows[i].other_keys, rows[i].other_options, &v),
           JWT_OK);
        struct judged got = decode(&v, TEXT(rows[i].token), rows[i].now, ROOM);
        is_said(rows[i].name, &got, rows[i].status, &rows[i].said);
        jwt_free(&v);
    }
}

/* each keeps its limit, and a token that is too long fails no test */
static void joined_limits(void) {
    static const struct {
        size_t limit, other_limit;
        const char *other_key;
        uint32_t status;
    } rows[] = {
        {0, 10, HMAC_KEY, JWT_INVALID_SIGNATURE},
        {10, 0, HMAC_KEY, JWT_OK},
        {10, 10, HMAC_KEY, JWT_TOKEN_TOO_LONG},
        {10, 0, OCT("YQ"), JWT_INVALID_SIGNATURE},
    };
    for (size_t i = 0; i < COUNT(rows); i++) {
        struct jwt_handle first = JWT_NONE, second = JWT_NONE, either = JWT_NONE;
        make(JWT_TEXT, OCT("YWI"), HS256, rows[i].limit, 0, &first);
        make(JWT_TEXT, rows[i].other_key, HS256, rows[i].other_limit, 0, &second);
        is("joined", jwt_verifier_or(&first, &second, &either), JWT_OK);
        is("a token by its length", status(&either, BY_HS256), rows[i].status);
        jwt_free(&first), jwt_free(&second), jwt_free(&either);
    }
}

#define OF_ISSUER(name) "{\"algorithms\":[\"HS256\"],\"strict\":true,\"iss\":[\"" name "\"]}"

/* a key of one issuer signs no token of another (RFC 8725 section 3.8) */
static void issuers(void) {
    static const struct {
        const char *secret, *claims;
        uint32_t status;
    } rows[] = {
        {"secret of a", "{\"exp\":9,\"iss\":\"a\"}", JWT_OK},
        {"secret of b", "{\"exp\":9,\"iss\":\"b\"}", JWT_OK},
        {"secret of a", "{\"exp\":9,\"iss\":\"b\"}", JWT_INVALID_ISSUER},
        {"secret of b", "{\"exp\":9,\"iss\":\"a\"}", JWT_INVALID_ISSUER},
        {"secret of a", "{\"exp\":9}", JWT_MISSING_ISS},
        {"secret of c", "{\"exp\":9,\"iss\":\"a\"}", JWT_INVALID_SIGNATURE},
    };
    struct jwt_handle v = JWT_NONE;
    is("joined", join(JWT_SECRET, "secret of a", OF_ISSUER("a"), JWT_SECRET, "secret of b", OF_ISSUER("b"), &v),
       JWT_OK);
    for (size_t i = 0; i < COUNT(rows); i++) {
        struct answer a = signed_by(JWT_SECRET, rows[i].secret, "{\"alg\":\"HS256\"}", rows[i].claims, ROOM);
        is(rows[i].claims, decode(&v, a.room, a.len, 0, ROOM).a.status, rows[i].status);
    }
    jwt_free(&v);
}

/* three of them, joined to the left and to the right; the parts are freed, and a share is used */
static void three_joined(void) {
    static const char *const accepted[] = {BY_HS256, BY_ES256, BY_EDDSA};
    for (int is_left = 0; is_left < 2; is_left++) {
        struct jwt_handle one = JWT_NONE, two = JWT_NONE, all = JWT_NONE, shared = JWT_NONE;
        made_of(JWT_TEXT, is_left ? ED_KEY : HMAC_KEY, is_left ? EDDSA : HS256, &one);
        join(JWT_TEXT, is_left ? HMAC_KEY : P256_KEY, is_left ? HS256 : ES256, JWT_TEXT, is_left ? P256_KEY : ED_KEY,
             is_left ? ES256 : EDDSA, &two);
        is("three joined", is_left ? jwt_verifier_or(&two, &one, &all) : jwt_verifier_or(&one, &two, &all), JWT_OK);
        jwt_free(&one), jwt_free(&two);
        is("shared", jwt_share(&all, &shared), JWT_OK);
        is("a token by the first handle", status(&all, BY_ES256), JWT_OK);
        jwt_free(&all);
        for (size_t i = 0; i < COUNT(accepted); i++) {
            struct judged got = decode(&shared, TEXT(accepted[i]), 0, ROOM);
            is(accepted[i], gives(&got.a, CLAIMS) && got.said.verifier == i, 1);
        }
        is("a token that none accepts", status(&shared, BY_RS256), JWT_INVALID_ALGORITHM);
        jwt_free(&shared);
    }
}

static void slips_of_joining(void) {
    struct jwt_handle none = JWT_NONE, keys = JWT_NONE, v = JWT_NONE, w = JWT_NONE, either = JWT_NONE;
    add(&keys, JWT_TEXT, HMAC_KEY);
    made_of(JWT_TEXT, HMAC_KEY, HS256, &v), made_of(JWT_TEXT, ED_KEY, EDDSA, &w);
    is("nothing first", jwt_verifier_or(&none, &v, &either), JWT_NO_VERIFIER);
    is("nothing second", jwt_verifier_or(&v, &none, &either), JWT_NO_VERIFIER);
    is("keys first", jwt_verifier_or(&keys, &v, &either), JWT_NO_VERIFIER);
    is("keys second", jwt_verifier_or(&v, &keys, &either), JWT_NO_VERIFIER);
    is("in the place of keys", jwt_verifier_or(&v, &w, &keys), JWT_HANDLE_IN_USE);
    is("nothing in the place of keys", jwt_verifier_or(&none, &v, &keys), JWT_HANDLE_IN_USE);
    is("nothing is made", either.at == NULL, 1);
    is("joined", jwt_verifier_or(&v, &w, &either), JWT_OK);
    is("joined twice", jwt_verifier_or(&v, &w, &either), JWT_HANDLE_IN_USE);
    is("both verify as before", status(&v, BY_HS256) == JWT_OK && status(&w, BY_EDDSA) == JWT_OK, 1);
    struct signed_part s = part_of(BY_HS256);
    struct answer a = attached(&either, &s, ROOM);
    is("two check no signature", checked(&either, &s, 0), JWT_UNFIT_KEY);
    is("two write no token", status_of(&a), JWT_UNFIT_KEY);
    jwt_free(&keys), jwt_free(&v), jwt_free(&w), jwt_free(&either);
}

/* ---- keys, options, tokens and times, each with each */

/* with the kids of the keys that are kept; of one key its own. The set that begins with another secret has that under the kid. */
static const struct {
    const char *text, *kids;
    bool is_set, is_other_secret;
} lists[] = {
    {HMAC_KEY, "hmac", false, false},
    {RSA_KEY, "rsa", false, false},
    {P256_KEY, "p256", false, false},
    {P384_KEY, "p384", false, false},
    {ED_KEY, "ed", false, false},
    {ALL_KEYS, "hmac rsa p256 p384 ed", true, false},
    {SET_OF(RSA_KEY "," HMAC_KEY), "rsa hmac", true, false},
    {SET_OF(OCT("*") "," ED_KEY "," RSA_KEY "," HMAC_KEY), "ed rsa hmac", true, false},
    {SET_OF(OCT("YQ") "," P256_KEY), "hmac p256", true, true},
};
/* with the last time that accepts the claims, and the status of another rule that they break */
static const struct {
    const char *text;
    uint64_t last;
    uint32_t failed;
} all_options[] = {
    {HS256, LAST, JWT_OK},
    {RS256, LAST, JWT_OK},
    {ES256, LAST, JWT_OK},
    {"{\"algorithms\":[\"ES384\"]}", LAST, JWT_OK},
    {EDDSA, LAST, JWT_OK},
    {MIXED, LAST, JWT_OK},
    {"{\"algorithms\":[\"HS256\",\"HS512\"],\"sub\":\"b@b.com\"}", LAST, JWT_OK},
    {"{\"algorithms\":[\"HS256\"],\"leeway\":0,\"sub\":\"nobody\"}", LAST - 60, JWT_INVALID_SUBJECT},
    {"{\"algorithms\":[\"HS256\",\"ES256\"],\"required\":[\"jti\"]}", LAST, JWT_MISSING_CLAIM},
};
/* with the quoted name of the algorithm, its number and the kid, or with the status of a text that is no token */
static const struct {
    const char *text, *algorithm;
    uint32_t number;
    const char *kid;
    uint32_t status;
} tokens[] = {
    {BY_HS256, "\"HS256\"", JWT_HS256, "hmac", JWT_OK},
    {BY_RS256, "\"RS256\"", JWT_RS256, "rsa", JWT_OK},
    {BY_PS256, "\"PS256\"", JWT_PS256, "rsa", JWT_OK},
    {BY_ES256, "\"ES256\"", JWT_ES256, "p256", JWT_OK},
    {BY_ES384, "\"ES384\"", JWT_ES384, "p384", JWT_OK},
    {BY_EDDSA, "\"EdDSA\"", JWT_EDDSA, "ed", JWT_OK},
    {"", NULL, 0, NULL, JWT_INVALID_TOKEN},
    {"a.b.c", NULL, 0, NULL, JWT_BASE64},
    {"..", NULL, 0, NULL, JWT_JSON},
};
static const uint64_t times[] = {0, 1700000000, 2532524891u, LAST, LAST + 1, UINT64_MAX};
/* the kinds of which one is the status if the test fails, by docs/RULES.md; the last test has those of the claim rules, and a test that no
   verifier fails is not here */
static const struct {
    uint32_t test, status, other;
} kinds[] = {
    {JWT_TEST_HAS_THREE_PARTS, JWT_INVALID_TOKEN, 0},
    {JWT_TEST_HEADER_IS_BASE64URL, JWT_BASE64, 0},
    {JWT_TEST_HEADER_IS_JSON, JWT_JSON, 0},
    {JWT_TEST_HEADER_IS_VALID, JWT_JSON, 0},
    {JWT_TEST_CRIT_IS_UNDERSTOOD, JWT_INVALID_CRIT, 0},
    {JWT_TEST_KEY_IS_FOUND, JWT_NO_KEY, 0},
    {JWT_TEST_KEY_ALG_MATCHES, JWT_INVALID_ALGORITHM, 0},
    {JWT_TEST_KEY_IS_USABLE, JWT_BASE64, JWT_UNSUPPORTED_ALGORITHM},
    {JWT_TEST_ALGORITHM_IS_ALLOWED, JWT_INVALID_ALGORITHM, 0},
    {JWT_TEST_KEY_FITS_ALGORITHM, JWT_INVALID_KEY_FORMAT, JWT_UNSUPPORTED_ALGORITHM},
    {JWT_TEST_SIGNATURE_IS_BASE64URL, JWT_BASE64, 0},
    {JWT_TEST_SIGNATURE_IS_ACCEPTED, JWT_INVALID_SIGNATURE, 0},
    {JWT_TEST_PAYLOAD_IS_BASE64URL, JWT_BASE64, 0},
    {JWT_TEST_PAYLOAD_IS_JSON, JWT_JSON, 0},
    {JWT_TEST_CLAIMS_ARE_AN_OBJECT, JWT_JSON, 0},
    {JWT_TEST_CLAIMS_ARE_VALID, JWT_EXPIRED_SIGNATURE, JWT_INVALID_SUBJECT},
    {JWT_TEST_FURTHER_RULES_HOLD, JWT_MISSING_CLAIM, 0},
};
static long compared;

/* whether the test is one of which the status comes */
static bool agrees(uint32_t test, uint32_t status) {
    if (status == JWT_OK || status == JWT_BUFFER_TOO_SMALL) return test == 0;
    for (size_t i = 0; i < COUNT(kinds); i++)
        if (kinds[i].test == test) return status == kinds[i].status || status == kinds[i].other;
    return false;
}

/* whether a key of the list verifies with an algorithm of the options */
static bool is_usable(size_t list, size_t options) {
    for (size_t t = 0; t < COUNT(tokens); t++)
        if (tokens[t].kid && strstr(lists[list].kids, tokens[t].kid) &&
            strstr(all_options[options].text, tokens[t].algorithm))
            return true;
    return false;
}

/* the status that a token is to have */
static uint32_t wanted(size_t list, size_t options, size_t token, uint64_t now) {
    const char *kid = lists[list].is_set ? tokens[token].kid : lists[list].kids;
    if (tokens[token].status != JWT_OK) return tokens[token].status;
    if (!strstr(lists[list].kids, kid)) return JWT_NO_KEY;
    if (strcmp(kid, tokens[token].kid) != 0) return JWT_INVALID_ALGORITHM;
    if (!strstr(all_options[options].text, tokens[token].algorithm)) return JWT_INVALID_ALGORITHM;
    if (lists[list].is_other_secret && strcmp(kid, "hmac") == 0) return JWT_INVALID_SIGNATURE;
    if (now > all_options[options].last) return JWT_EXPIRED_SIGNATURE;
    return all_options[options].failed;
}

/* whether two verifiers leave the same of a token */
static bool is_same(const struct judged *a, const struct judged *b) {
    return a->a.status == b->a.status && memcmp(a->a.room, b->a.room, ROOM) == 0 && a->said.last == b->said.last &&
           a->said.len == b->said.len && a->said.verifier == b->said.verifier &&
           a->said.algorithm == b->said.algorithm && a->said.test == b->said.test && a->said.claim == b->said.claim &&
           a->said.has_kid == b->said.has_kid && a->said.as_signed == b->said.as_signed;
}

/* Whether a verifier, and one that keeps nothing prepared, leave the same: this status, the claims as they are signed, the last time if the
   token is accepted, and a test of that status. The header of each token has a kid. */
static bool is_right(struct jwt_handle v[2], uint32_t status, size_t token, uint64_t now, size_t room, uint64_t last) {
    size_t len = strlen(tokens[token].text);
    bool is_accepted = status == JWT_OK;
    struct judged a = decode(&v[0], tokens[token].text, len, now, room),
                  b = decode(&v[1], tokens[token].text, len, now, room);
    compared += 2;
    if (is_accepted && room < strlen(CLAIMS)) status = JWT_BUFFER_TOO_SMALL;
    return a.a.status == status && is_same(&a, &b) && agrees(a.said.test, status) &&
           (status != JWT_OK || gives(&a.a, CLAIMS)) && a.said.len == (is_accepted ? strlen(CLAIMS) : 0) &&
           a.said.last == (is_accepted ? last : 0) && a.said.as_signed == is_accepted &&
           a.said.algorithm == (is_accepted ? tokens[token].number : 0) &&
           a.said.has_kid == (is_accepted || status == JWT_NO_KEY);
}

/* whether both verifiers refuse a damaged token by the same test */
static bool is_refused(struct jwt_handle v[2], const char *token, size_t len) {
    struct judged a = decode(&v[0], token, len, 1700000000, ROOM), b = decode(&v[1], token, len, 1700000000, ROOM);
    compared += 2;
    return a.a.status != JWT_OK && agrees(a.said.test, a.a.status) && is_same(&a, &b);
}

/* the token as it is at each time, and damaged at every so many bytes */
static void compare(struct jwt_handle v[2], size_t list, size_t options, size_t token, size_t step) {
    char text[800];
    size_t len = strlen(tokens[token].text), wrong = 0;
    memcpy(text, tokens[token].text, len);
    for (size_t i = 0; i < 2 * COUNT(times); i++) {
        uint32_t status = wanted(list, options, token, times[i / 2]);
        wrong += !is_right(v, status, token, times[i / 2], i % 2 ? ROOM : 10, all_options[options].last);
    }
    for (size_t at = 0; at < len; at += step) {
        text[at] ^= 1;
        wrong += !is_refused(v, text, len);
        text[at] ^= 1;
    }
    is(tokens[token].text, wrong, 0);
}

static void compare_all(size_t step) {
    for (size_t k = 0; k < COUNT(lists); k++)
        for (size_t o = 0; o < COUNT(all_options); o++) {
            struct jwt_handle v[2] = {JWT_NONE, JWT_NONE};
            uint32_t status = is_usable(k, o) ? JWT_OK : JWT_NO_USABLE_KEY;
            is("made, or not", made_of(JWT_TEXT, lists[k].text, all_options[o].text, &v[0]), status);
            is("with nothing prepared",
               make(JWT_TEXT, lists[k].text, all_options[o].text, 0, JWT_PREPARE_NOTHING, &v[1]), status);
            for (size_t t = 0; t < COUNT(tokens) && status == JWT_OK; t++) compare(v, k, o, t, step);
            jwt_free(&v[0]), jwt_free(&v[1]);
        }
}

/* a secret decides as its JSON Web Key does, which is the first of the lists */
static void secrets(size_t step) {
    struct jwt_handle v[2] = {JWT_NONE, JWT_NONE};
    const char *options = all_options[6].text;
    is("made of a secret", made_of(JWT_SECRET, HMAC_SECRET, options, &v[0]), JWT_OK);
    is("shared", jwt_share(&v[0], &v[1]), JWT_OK);
    for (size_t t = 0; t < COUNT(tokens); t++) compare(v, 0, 6, t, step);
    jwt_free(&v[0]), jwt_free(&v[1]);
}

/* ---- a large set */

/* has 10,000 keys besides, with other secrets or with one */
static void large_set(size_t place, const char *other) {
    size_t len = 0, count = 10000;
    char *set = malloc(count * 100 + 1000);
    len += sprintf(set, "{\"keys\":[");
    for (size_t i = 0; i < count; i++) {
        if (i == place) len += sprintf(set + len, "%s,", HMAC_KEY);
        len += sprintf(set + len, "{\"kty\":\"oct\",\"kid\":\"key %zu\",\"k\":\"", i);
        len += other ? sprintf(set + len, "%s\"},", other) : sprintf(set + len, "%08zu\"},", i);
    }
    len += sprintf(set + len, "%s]}", place < count ? P256_KEY : HMAC_KEY);
    struct jwt_handle v = JWT_NONE;
    is("10,001 keys", made_of(JWT_TEXT, set, "{\"algorithms\":[\"HS256\",\"HS512\"]}", &v), JWT_OK);
    free(set);
    is("one of them", status(&v, BY_HS256), JWT_OK);
    is("another", status(&v, BY_RS256), JWT_NO_KEY);
    jwt_free(&v);
}

static void large_sets(void) {
    large_set(0, NULL);
    large_set(4000, NULL);
    large_set(5000, NULL);
    large_set(10000, NULL);
    large_set(10000, "c2VjcmV0");
}

/* ---- threads */

static int rounds = 300;

/* Under a tool of valgrind, which does not know that the count of the shares is atomic, one thread frees at a time. */
static pthread_mutex_t freeing = PTHREAD_MUTEX_INITIALIZER;

static void release(struct jwt_handle *verifier) {
    if (is_few) pthread_mutex_lock(&freeing);
    jwt_free(verifier);
    if (is_few) pthread_mutex_unlock(&freeing);
}

static void *many(void *arg) {
    struct jwt_handle *v = arg, more = JWT_NONE;
    long wrong = 0;
    for (int i = 0; i < rounds; i++) {
        struct judged a = decode(&v[0], TEXT(BY_HS256), LAST, ROOM);
        wrong += a.a.status != JWT_OK || a.said.last != LAST;
        wrong += i % 10 == 0 && status(&v[1], BY_RS256) != JWT_OK;
        wrong += status(&v[1], BY_HS256) != JWT_INVALID_ALGORITHM;
        wrong += jwt_share(&v[0], &more) != JWT_OK || status(&more, BY_HS256) != JWT_OK;
        release(&more);
    }
    release(&v[0]);
    release(&v[1]);
    return (void *)wrong;
}

static void threads(void) {
    pthread_t started[8];
    struct jwt_handle first[2] = {JWT_NONE, JWT_NONE}, each[8][2];
    memset(each, 0, sizeof each);
    made_of(JWT_TEXT, ALL_KEYS, HS256, &first[0]);
    is("a verifier of two", join(JWT_TEXT, ALL_KEYS, RS256, JWT_TEXT, P256_KEY, ES256, &first[1]), JWT_OK);
    for (int i = 0; i < 16; i++) is("a share", jwt_share(&first[i % 2], &each[i / 2][i % 2]), JWT_OK);
    release(&first[0]);
    for (int i = 0; i < 8; i++) pthread_create(&started[i], NULL, many, each[i]);
    release(&first[1]);
    for (int i = 0; i < 8; i++) {
        void *wrong;
        pthread_join(started[i], &wrong);
        is("a thread among eight", (long)wrong, 0);
    }
}

/* one verifier under a lock */
static pthread_mutex_t lock = PTHREAD_MUTEX_INITIALIZER;
static struct jwt_handle locked;

static void *one_by_one(void *wrong) {
    for (int i = 0; i < rounds; i++) {
        pthread_mutex_lock(&lock);
        *(long *)wrong += status(&locked, BY_HS256) != JWT_OK;
        pthread_mutex_unlock(&lock);
    }
    return NULL;
}

static void under_a_lock(void) {
    pthread_t started[4];
    long wrong[4] = {0};
    is("made", made_of(JWT_TEXT, HMAC_KEY, HS256, &locked), JWT_OK);
    for (int i = 0; i < 4; i++) pthread_create(&started[i], NULL, one_by_one, &wrong[i]);
    for (int i = 0; i < 4; i++) {
        pthread_join(started[i], NULL);
        is("a thread under a lock", wrong[i], 0);
    }
    jwt_free(&locked);
}

/* ---- want of memory */

static struct jwt_handle shared_one;

static uint32_t makes_of_set(struct jwt_handle *v) {
    return made_of(JWT_TEXT, ALL_KEYS, RS256, v);
}
static uint32_t makes_of_key(struct jwt_handle *v) {
    return made_of(JWT_TEXT, ED_KEY, EDDSA, v);
}
static uint32_t makes_of_rsa_key(struct jwt_handle *v) {
    return made_of(JWT_TEXT, RSA_KEY, RS256, v);
}
static uint32_t makes_of_secret(struct jwt_handle *v) {
    return made_of(JWT_SECRET, "s", HS256, v);
}
static uint32_t shares(struct jwt_handle *v) {
    return jwt_share(&shared_one, v);
}
static struct jwt_handle other_one;
static uint32_t joins(struct jwt_handle *v) {
    return jwt_verifier_or(&shared_one, &other_one, v);
}

/* how often the call was out of memory, until no request was left to refuse; -1 for another status, or if something is left */
static long refused_in_turn(uint32_t (*call)(struct jwt_handle *)) {
    for (long number = 1; number < 1000; number++) {
        struct jwt_handle v = JWT_NONE;
        requests = 0, refused_one = number;
        uint32_t status = call(&v);
        bool was_refused = requests >= number;
        refused_one = 0;
        if (status != (was_refused ? JWT_OUT_OF_MEMORY : JWT_OK) || (v.at != NULL) == was_refused) return -1;
        jwt_free(&v);
        if (!was_refused) return number - 1;
    }
    return -1;
}

/* how often a call of a verifier was out of memory, which it need not be if memory is refused; -1 for another result */
static long decoding_refused_in_turn(struct jwt_handle *v, const char *token) {
    long seen = 0;
    for (long number = 1; number < 1000; number++) {
        requests = 0, refused_one = number;
        struct judged a = decode(v, TEXT(token), 0, ROOM);
        bool was_refused = requests >= number, is_right = gives(&a.a, CLAIMS) && a.said.as_signed;
        refused_one = 0;
        if (!was_refused) return is_right ? seen : -1;
        if (!is_right && status_of(&a.a) != JWT_OUT_OF_MEMORY) return -1;
        seen += !is_right;
    }
    return -1;
}

/* of a signature that is checked, and the token of it */
static long attaching_refused_in_turn(struct jwt_handle *v) {
    struct signed_part s = part_of(BY_RS256);
    long seen = 0;
    for (long number = 1; number < 1000; number++) {
        requests = 0, refused_one = number;
        uint32_t status = checked(v, &s, JWT_RS256);
        if (status != (requests >= number ? JWT_OUT_OF_MEMORY : JWT_OK)) return -1;
        requests = 0;
        struct answer a = attached(v, &s, ROOM);
        bool was_refused = requests >= number, is_right = gives(&a, BY_RS256);
        refused_one = 0;
        if (!was_refused) return is_right ? seen : -1;
        if (!is_right && status_of(&a) != JWT_OUT_OF_MEMORY) return -1;
        seen += !is_right;
    }
    return -1;
}

static void refused_memory(void) {
    is("a set", refused_in_turn(makes_of_set) > 20, 1);
    is("a key", refused_in_turn(makes_of_key) > 5, 1);
    is("a secret", refused_in_turn(makes_of_secret) > 3, 1);
    makes_of_set(&shared_one);
    long shared = refused_in_turn(shares);
    is("a share copies nothing", shared == 1 || shared == 2, 1);
    is("RS256", decoding_refused_in_turn(&shared_one, BY_RS256) > 10, 1);
    makes_of_key(&other_one);
    is("a verifier of two", refused_in_turn(joins) > 0, 1);
    struct jwt_handle either = JWT_NONE;
    joins(&either);
    is("a token by the second of two", decoding_refused_in_turn(&either, BY_EDDSA) > 10, 1);
    jwt_free(&shared_one), jwt_free(&other_one), jwt_free(&either);
    makes_of_rsa_key(&shared_one);
    is("a token with a signature", attaching_refused_in_turn(&shared_one) > 0, 1);
    jwt_free(&shared_one);
    made_of(JWT_TEXT, HMAC_KEY, HS256, &shared_one);
    is("HS256", decoding_refused_in_turn(&shared_one, BY_HS256) > 10, 1);
    jwt_free(&shared_one);
}

/* Verifies a token this many times by a verifier with at most this many bytes of prepared keys. Returns whether it is refused. */
static int verify(const char *prepared, const char *set, const char *options, const char *token, int count) {
    struct jwt_handle verifier = JWT_NONE;
    uint32_t status = make(JWT_TEXT, set, options, 0, strtoull(prepared, NULL, 10), &verifier);
    for (; status == JWT_OK && count > 0; count--) status = decode(&verifier, TEXT(token), 1700000000, ROOM).a.status;
    jwt_free(&verifier);
    return status != JWT_OK;
}

int main(int argc, char **argv) {
    /* the greatest number of bytes of prepared keys, SET OPTIONS TOKEN COUNT: for tests/programs/verified_once */
    if (argc == 6) return verify(argv[1], argv[2], argv[3], argv[4], atoi(argv[5]));
    is_few = argc > 1 && strcmp(argv[1], "few") == 0;
    size_t step = is_few ? 400 : 23;
    if (is_few) rounds = 10;
    made();
    slips();
    lengths();
    verdicts();
    checked_signatures();
    refused_checks();
    attached_signatures();
    refused_attachments();
    joined();
    joined_limits();
    issuers();
    three_joined();
    slips_of_joining();
    if (!is_few) {
        compare_all(step);
        /* nothing is kept prepared, and as many keys as take no more than one of P-256 */
        for (size_t i = 0; i < 2; i++) {
            max_prepared = i ? 16384 : JWT_PREPARE_NOTHING;
            compare_all(10 * step);
        }
        max_prepared = 0;
        large_sets();
        is("answers that were compared", compared > 5000, 1);
    }
    secrets(step);
    threads();
    under_a_lock();
    refused_memory();
    printf("%d checks of the verifiers for C, %d failed\n", passed, failed);
    return failed != 0;
}
