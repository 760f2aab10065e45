/* Tests of the calls for C with handles of keys: which items are kept, the reasons of the others, signed tokens, slips, and want of memory.
   The last line counts. Keys and tokens are those of RFCs, of keys.h, of OpenSSL in crates/jwt_vectors/data/key_files.jsonl, and
   secrets, with tokens of Python's hmac. With the argument `few` no set of 100,000 items is read, for valgrind. */
#include "harness.h"
#include "keys.h"
#include "signatures.h"
#include <pthread.h>
#include <time.h>

#define OCT(members, k) "{\"kty\":\"oct\"," members "\"k\":\"" k "\"}"
#define HS256 "{\"algorithms\":[\"HS256\"]}"
/* the points of P256_KEY, P384_KEY and ED_KEY, with the name of a curve */
#define P256_ON(kty, crv)                                                                                              \
    "{\"kty\":\"" kty "\",\"crv\":\"" crv "\",\"x\":\"cNoCzyOJM488bjKBVHt5l_ZLeJVc0MznCQTwJlkzXa0\","                  \
    "\"y\":\"r8PeoJDruknfmuGCQLn_UjS1Xk078kVZAfT0K3Res0Q\"}"
#define P384_ON(crv)                                                                                                   \
    "{\"kty\":\"EC\",\"crv\":\"" crv "\",\"x\":\"ORXfsZCcU7OT8CBvbg_kXD7n2iTlPZrTJQbofb87tcWzO5EOUQsOt_sqA7sntYkA\","  \
    "\"y\":\"gRG2C_e8SW5eNKvBWbo9a-zOS-_oeY2E4Q5S-bP0gnhfQOxD4VvNdbcFmKDaoF0t\"}"
#define ED_ON(crv) "{\"kty\":\"OKP\",\"crv\":\"" crv "\",\"x\":\"ebVWLo_mVPlAeLES6KmLp5AfhTrmlb7X4OORC60ElmQ\"}"

/* ---- what calls leave */

static struct answer text_in(struct jwt_handle *keys, size_t at, size_t room) {
    struct answer a = fresh();
    a.status = jwt_keys_text(keys, at, a.room, room, &a.len);
    return a;
}

static struct answer thumbprint(struct jwt_handle *keys, size_t at, uint32_t bits) {
    struct answer a = fresh();
    a.status = jwt_thumbprint(keys, at, bits, a.room, ROOM, &a.len);
    return a;
}

/* the status of adding, with another status than JWT_OK only if both numbers are 0, and the number of items and of kept ones in *items and
   *kept */
static uint32_t add_counted(struct jwt_handle *keys, uint32_t source, const void *bytes, size_t len, size_t *items,
                            size_t *kept) {
    *items = *kept = 99;
    uint32_t status = jwt_keys_add(keys, source, bytes, len, items, kept);
    return status == JWT_OK || (*items == 0 && *kept == 0) ? status : UINT32_MAX;
}

static struct jwt_key_info info_at(struct jwt_handle *keys, size_t at) {
    struct jwt_key_info info = {99, 99, 99};
    uint32_t status = jwt_keys_info(keys, at, &info);
    if (status == JWT_OK || (info.status | info.verifies | info.signs) == 0) return info;
    return (struct jwt_key_info){UINT32_MAX, 99, 99};
}

static uint32_t info_status(struct jwt_handle *keys, size_t at) {
    struct jwt_key_info info = {99, 99, 99};
    uint32_t status = jwt_keys_info(keys, at, &info);
    return status == JWT_OK || (info.status | info.verifies | info.signs) == 0 ? status : UINT32_MAX;
}

/* the status of a token by a verifier of the keys */
static uint32_t verified(struct jwt_handle *keys, const char *options, const char *token) {
    struct jwt_handle verifier = JWT_NONE;
    uint32_t status = jwt_verifier_new(keys, TEXT(options), 0, JWT_PREPARE_NOTHING, &verifier);
    if (status == JWT_OK) status = decode(&verifier, TEXT(token), 1300819380, ROOM).a.status;
    jwt_free(&verifier);
    return status;
}

/* ---- what a handle holds, to see that a refusal leaves it as it was */

enum { MOST_ITEMS = 8 };
struct state {
    size_t items;
    struct jwt_key_info infos[MOST_ITEMS], all;
    struct answer texts[MOST_ITEMS];
};

static struct state state_of(struct jwt_handle *keys) {
    struct state s;
    long allowed = refused_one;
    refused_one = 0;
    memset(&s, 0, sizeof s);
    s.all = info_at(keys, JWT_ALL);
    while (s.items < MOST_ITEMS && info_status(keys, s.items) == JWT_OK) {
        s.infos[s.items] = info_at(keys, s.items);
        s.texts[s.items] = text_in(keys, s.items, ROOM);
        s.items++;
    }
    refused_one = allowed;
    return s;
}

static bool is_unchanged(struct jwt_handle *keys, const struct state *before) {
    struct state after = state_of(keys);
    return memcmp(&after, before, sizeof after) == 0;
}

/* ---- items of a set: the kept ones, and the reasons of the others */

static const struct {
    const char *item;
    uint32_t status, verifies;
} items_of_sets[] = {
    {HMAC_KEY, JWT_OK, HMAC_BITS},
    {RSA_KEY, JWT_OK, RSA_BITS},
    {P256_KEY, JWT_OK, BIT(JWT_ES256)},
    {P384_KEY, JWT_OK, BIT(JWT_ES384)},
    {ED_KEY, JWT_OK, BIT(JWT_EDDSA)},
    {A2_KEY, JWT_OK, RSA_BITS},
    {OCT("\"use\":\"sig\",\"alg\":\"HS384\",", "c2VjcmV0"), JWT_OK, BIT(JWT_HS384)},
    {OCT("\"use\":null,\"alg\":null,\"kid\":null,", "c2VjcmV0"), JWT_OK, HMAC_BITS},
    {OCT("\"key_ops\":[\"wrapKey\"],\"x\":{\"y\":[]},", "c2VjcmV0"), JWT_OK, HMAC_BITS},
    /* not an object, or a common member is malformed (RFC 7517 section 4) */
    {"7", JWT_BAD_KEY, 0},
    {"null", JWT_BAD_KEY, 0},
    {"[]", JWT_BAD_KEY, 0},
    {"\"" HMAC_SECRET "\"", JWT_BAD_KEY, 0},
    {OCT("\"kid\":7,", "c2VjcmV0"), JWT_BAD_KEY, 0},
    {OCT("\"use\":7,", "c2VjcmV0"), JWT_BAD_KEY, 0},
    {OCT("\"alg\":7,", "c2VjcmV0"), JWT_BAD_KEY, 0},
    {OCT("\"key_ops\":\"verify\",", "c2VjcmV0"), JWT_BAD_KEY, 0},
    /* an unknown kty, or a member of its kind is missing (RFC 7518 section 6, RFC 8037 section 2) */
    {"{}", JWT_UNSUPPORTED_ALGORITHM, 0},
    {"{\"kty\":\"AKP\",\"alg\":\"ML-DSA-44\",\"pub\":\"AAAA\"}", JWT_UNSUPPORTED_ALGORITHM, 0},
    {"{\"kty\":\"oct\"}", JWT_UNSUPPORTED_ALGORITHM, 0},
    {"{\"kty\":\"OCT\",\"k\":\"c2VjcmV0\"}", JWT_UNSUPPORTED_ALGORITHM, 0},
    {"{\"kty\":\"RSA\",\"n\":\"AQAB\"}", JWT_UNSUPPORTED_ALGORITHM, 0},
    {"{\"kty\":\"EC\",\"crv\":\"P-256\",\"x\":\"AAAA\"}", JWT_UNSUPPORTED_ALGORITHM, 0},
    /* not base64url text (RFC 7515 section 2) */
    {OCT("", "c2VjcmV0="), JWT_BASE64, 0},
    {OCT("", "*"), JWT_BASE64, 0},
    {OCT("", "A"), JWT_BASE64, 0},
    {"{\"kty\":\"RSA\",\"n\":\"AQ+B\",\"e\":\"AQAB\"}", JWT_BASE64, 0},
    {"{\"kty\":\"RSA\",\"n\":\"AQAB\",\"e\":\"AQAB==\"}", JWT_BASE64, 0},
    {"{\"kty\":\"OKP\",\"crv\":\"Ed25519\",\"x\":\"*\"}", JWT_BASE64, 0},
    {"{\"kty\":\"EC\",\"crv\":\"P-256\",\"x\":\"AAAA\",\"y\":\"*\"}", JWT_BASE64, 0},
    /* another use than sig (RFC 7517 section 4.2) */
    {OCT("\"use\":\"enc\",", "c2VjcmV0"), JWT_NOT_FOR_SIGNATURES, 0},
    {OCT("\"use\":\"\",", "c2VjcmV0"), JWT_NOT_FOR_SIGNATURES, 0},
    {OCT("\"use\":\"Sig\",", "c2VjcmV0"), JWT_NOT_FOR_SIGNATURES, 0},
    /* no algorithm can be verified with it */
    {SMALL_RSA, JWT_UNFIT_KEY, 0},
    {OFF_CURVE, JWT_UNFIT_KEY, 0},
    {"{\"kty\":\"OKP\",\"crv\":\"Ed25519\",\"x\":\"AAAA\"}", JWT_UNFIT_KEY, 0},
    {"{\"kty\":\"EC\",\"crv\":\"P-521\",\"x\":\"AAAA\",\"y\":\"AAAA\"}", JWT_UNFIT_KEY, 0},
    /* the coordinates of another curve (RFC 7518 section 6.2.1) */
    {P256_ON("EC", "P-384"), JWT_UNFIT_KEY, 0},
    {P256_ON("EC", "P-521"), JWT_UNFIT_KEY, 0},
    {P256_ON("EC", "Ed25519"), JWT_UNFIT_KEY, 0},
    {P256_ON("OKP", "P-256"), JWT_UNFIT_KEY, 0},
    {P256_ON("EC", "P-256"), JWT_OK, BIT(JWT_ES256)},
    {P384_ON("P-256"), JWT_UNFIT_KEY, 0},
    {P384_ON("P-384"), JWT_OK, BIT(JWT_ES384)},
    {ED_ON("P-256"), JWT_UNFIT_KEY, 0},
    {ED_ON("Ed25519"), JWT_OK, BIT(JWT_EDDSA)},
    {OCT("\"alg\":\"RS256\",", "c2VjcmV0"), JWT_UNFIT_KEY, 0},
    {OCT("\"alg\":\"none\",", "c2VjcmV0"), JWT_UNFIT_KEY, 0},
    {OCT("\"alg\":\"hs256\",", "c2VjcmV0"), JWT_UNFIT_KEY, 0},
    /* anyone can sign with the secret (RFC 2104 section 2) */
    {OCT("", ""), JWT_ALL_ZERO_SECRET, 0},
    {OCT("", "AA"), JWT_ALL_ZERO_SECRET, 0},
    {OCT("\"kid\":\"b\",", "AAAAAAAA"), JWT_ALL_ZERO_SECRET, 0},
    {OCT("", "AAAB"), JWT_OK, HMAC_BITS},
    /* the text of a key of another kind (RFC 8725 section 3.1): "-----BEGIN ", and "ssh-rsa" */
    {OCT("", "LS0tLS1CRUdJTiA"), JWT_KEY_AS_SECRET, 0},
    {OCT("", "c3NoLXJzYQ"), JWT_KEY_AS_SECRET, 0},
    /* the reasons in their order: of two the first */
    {OCT("\"kid\":7,\"use\":\"enc\",", "*"), JWT_BAD_KEY, 0},
    {"{\"kty\":\"EC\",\"use\":\"enc\",\"crv\":\"P-256\",\"x\":\"*\"}", JWT_UNSUPPORTED_ALGORITHM, 0},
    {OCT("\"use\":\"enc\",", "*"), JWT_BASE64, 0},
    {OCT("\"use\":\"enc\",\"alg\":\"RS256\",", "AAAA"), JWT_NOT_FOR_SIGNATURES, 0},
    {OCT("\"use\":\"enc\",", "c3NoLXJzYQ"), JWT_NOT_FOR_SIGNATURES, 0},
    {OCT("\"alg\":\"RS256\",", "AAAA"), JWT_UNFIT_KEY, 0},
    {OCT("\"alg\":\"RS256\",", "c3NoLXJzYQ"), JWT_UNFIT_KEY, 0},
};

/* each item alone, in a set of its own, and all of them in one set */
static void items(void) {
    static char set[1 << 16];
    struct jwt_handle all = JWT_NONE;
    size_t len = (size_t)sprintf(set, "{\"keys\":["), kept_ones = 0, items, kept;
    uint32_t verifies = 0;
    for (size_t i = 0; i < COUNT(items_of_sets); i++) {
        const char *item = items_of_sets[i].item;
        bool is_kept = items_of_sets[i].status == JWT_OK, signs = items_of_sets[i].verifies & HMAC_BITS;
        struct jwt_handle one = JWT_NONE, of_set = JWT_NONE;
        char text[2048];
        is(item, add_counted(&one, JWT_TEXT, TEXT(item), &items, &kept), items_of_sets[i].status);
        is("one item, if it is kept", items == is_kept && kept == is_kept && (one.at != NULL) == is_kept, 1);
        snprintf(text, sizeof text, SET_OF("%s"), item);
        is(item, add_counted(&of_set, JWT_TEXT, TEXT(text), &items, &kept), JWT_OK);
        is("one item of a set", items == 1 && kept == is_kept, 1);
        struct jwt_key_info info = info_at(&of_set, 0);
        is("its status", info.status, items_of_sets[i].status);
        is("its algorithms", info.verifies, items_of_sets[i].verifies);
        is("whether it signs", info.signs & HMAC_BITS ? 1 : 0, signs);
        is("it signs by HMAC alone", info.signs & ~HMAC_BITS, 0);
        jwt_free(&one), jwt_free(&of_set);
        len += (size_t)sprintf(set + len, "%s%s", i ? "," : "", item);
        kept_ones += is_kept, verifies |= items_of_sets[i].verifies;
    }
    len += (size_t)sprintf(set + len, "]}");
    is("all items in one set", add_counted(&all, JWT_TEXT, set, len, &items, &kept), JWT_OK);
    is("their number", items, COUNT(items_of_sets));
    is("the number of kept ones", kept, kept_ones);
    for (size_t i = 0; i < items; i++) {
        struct jwt_key_info info = info_at(&all, i);
        is(items_of_sets[i].item, info.status, items_of_sets[i].status);
        is("its algorithms among all", info.verifies, items_of_sets[i].verifies);
    }
    struct jwt_key_info info = info_at(&all, JWT_ALL);
    is("the algorithms of all", info.status == JWT_OK && info.verifies == verifies && info.signs == HMAC_BITS, 1);
    is("a place behind the last", info_status(&all, items), JWT_UNKNOWN_NUMBER);
    jwt_free(&all);
}

/* ---- sources: texts, secrets and certificates */

#define PEM(label, lines) "-----BEGIN " label "-----\n" lines "-----END " label "-----\n"
#define P256_FIRST "MFkwEwYHKoZIzj0CAQYIKoZIzj0DAQcDQgAEl6jeUAD2iUrN58N0dSRS4OYkUCQm"
#define P256_LAST "c/5Zo0q3fXrPt7UeiCDE/djoJsSvUPNgg1ZQyqS7lxXGA/Qy5APCH77qTA==\n"
#define P256_PEM PEM("PUBLIC KEY", P256_FIRST "\n" P256_LAST)
#define P256_JWK                                                                                                       \
    "{\"crv\":\"P-256\",\"kty\":\"EC\",\"x\":\"l6jeUAD2iUrN58N0dSRS4OYkUCQmc_5Zo0q3fXrPt7U\","                         \
    "\"y\":\"HoggxP3Y6CbEr1DzYINWUMqku5cVxgP0MuQDwh--6kw\"}"
#define ED_PEM PEM("PUBLIC KEY", "MCowBQYDK2VwAyEAP/KbjxwdH3v1YC6s5VVabMvwdZqwm779emMwejCAgZs=\n")
#define ED_JWK "{\"crv\":\"Ed25519\",\"kty\":\"OKP\",\"x\":\"P_KbjxwdH3v1YC6s5VVabMvwdZqwm779emMwejCAgZs\"}"
#define PRIVATE_PEM                                                                                                    \
    PEM("PRIVATE KEY", "MIGHAgEAMBMGByqGSM49AgEGCCqGSM49AwEHBG0wawIBAQQgC7p9lb6pUoduBAsm\n"                            \
                       "DqhphC+gvL9z7i/IDHQKmYkqaLChRANCAASXqN5QAPaJSs3nw3R1JFLg5iRQJCZz\n"                            \
                       "/lmjSrd9es+3tR6IIMT92OgmxK9Q82CDVlDKpLuXFcYD9DLkA8IfvupM\n")
#define X25519_PEM PEM("PUBLIC KEY", "MCowBQYDK2VuAyEANSroF9v8kwlVo1A9PNfl8bdbMYTgaE3D9+xe3U+QnBo=\n")
#define P256_CERTIFICATE                                                                                               \
    PEM("CERTIFICATE", "MIIBdzCCAR2gAwIBAgIUeIdXSQ/bYdhgFoV3q+GhujhWS9IwCgYIKoZIzj0EAwIw\n"                            \
                       "ETEPMA0GA1UEAwwGaXNzdWVyMB4XDTI2MTEyNTIzMjQzOVoXDTI2MTEyNjIzMjQz\n"                            \
                       "OVowETEPMA0GA1UEAwwGaXNzdWVyMFkwEwYHKoZIzj0CAQYIKoZIzj0DAQcDQgAE\n"                            \
                       "l6jeUAD2iUrN58N0dSRS4OYkUCQmc/5Zo0q3fXrPt7UeiCDE/djoJsSvUPNgg1ZQ\n"                            \
                       "yqS7lxXGA/Qy5APCH77qTKNTMFEwHQYDVR0OBBYEFP1Dmvg2hl+XaymhQ96Pf2eP\n"                            \
                       "g+AGMB8GA1UdIwQYMBaAFP1Dmvg2hl+XaymhQ96Pf2ePg+AGMA8GA1UdEwEB/wQF\n"                            \
                       "MAMBAf8wCgYIKoZIzj0EAwIDSAAwRQIhAJxpcBT9GRQPhgarkHY91MuuR3tg1NcG\n"                            \
                       "weyfWCpQd4H+AiAj97nmc+xQMZ189iyM4XxSRZiIn6fdz4Acs/pZPMUEFg==\n")
/* the key A2_KEY of RFC 7515 appendix A.2, as OpenSSL writes it */
#define A2_PEM                                                                                                         \
    PEM("PUBLIC KEY", "MIIBIjANBgkqhkiG9w0BAQEFAAOCAQ8AMIIBCgKCAQEAofgWCuLjybRlzo0tZWJj\n"                             \
                      "NiuSfb4p4fAkd/wWJcyQoTbji9k0l8W26mPddxHmfHQp+Vaw+4qPCJrcS2mJPMEz\n"                             \
                      "P1Pt0Bm4d4QlL+yRT+SFd2lZS+pCgNMsD1W/YpRPEwOWvG6b32690r2jZ47soMZo\n"                             \
                      "9wGzjb/7OMg0LOL+bSf63kpaSHSXndS5z5rexMdbBYUsLA9e+KXBdQOS+UTo7WTB\n"                             \
                      "EMa2R2CapHg665xsmtdVMTBQY4uDZlxvb3qCo5ZwKh9kG4LT6/I5IhlJH7aGhyxX\n"                             \
                      "FvUK+DWNmoudF8NAco9/h9iaGNj8q2ethFkMLs91kzk2PAcDTW9gb54h4FRWyuXp\n"                             \
                      "oQIDAQAB\n")
#define A2_NUMBER                                                                                                      \
    "ofgWCuLjybRlzo0tZWJjNiuSfb4p4fAkd_wWJcyQoTbji9k0l8W26mPddxHmfHQp-Vaw-4qPCJrcS2mJPMEzP1Pt0Bm4d4QlL-yRT-SFd2lZS-"   \
    "pCgNMsD1W_YpRPEwOWvG6b32690r2jZ47soMZo9wGzjb_7OMg0LOL-bSf63kpaSHSXndS5z5rexMdbBYUsLA9e-KXBdQOS-UTo7WTBEMa2R2Ca"   \
    "pHg665xsmtdVMTBQY4uDZlxvb3qCo5ZwKh9kG4LT6_I5IhlJH7aGhyxXFvUK-DWNmoudF8NAco9_h9iaGNj8q2ethFkMLs91kzk2PAcDTW9gb5"   \
    "4h4FRWyuXpoQ"
#define A2_JWK "{\"e\":\"AQAB\",\"kty\":\"RSA\",\"n\":\"" A2_NUMBER "\"}"
/* OpenSSL's key of 1024 bits */
#define SHORT_PEM                                                                                                      \
    PEM("PUBLIC KEY", "MIGdMA0GCSqGSIb3DQEBAQUAA4GLADCBhwKBgQDv00FfQlWzViz+Mos88cnesDyb\n"                             \
                      "3IblilAYQOHAVePOA5gwMI6+FAFdKquIzfGHRtAi1ystHS6wPHO68U8Ys1ViayCL\n"                             \
                      "m9Dq2jC0WjBhcUx8yhQ2DONlLPkFkdd/QgwSAgFgLJqscXMOGTrpbRaHDKU99L0R\n"                             \
                      "MPQsJvvmNjGySuwNAwIBAw==\n")

/* the bytes of the first block of a text in PEM */
static size_t der_of(const char *pem, uint8_t *der) {
    static const char symbols[] = "ABCDEFGHIJKLMNOPQRSTUVWXYZabcdefghijklmnopqrstuvwxyz0123456789+/";
    unsigned group = 0, bits = 0;
    size_t len = 0;
    for (const char *at = strchr(pem, '\n'); *at != '-' && *at != '='; at++) {
        const char *symbol = *at == '\n' ? NULL : strchr(symbols, *at);
        if (!symbol) continue;
        group = group << 6 | (unsigned)(symbol - symbols), bits += 6;
        if (bits >= 8) bits -= 8, der[len++] = (uint8_t)(group >> bits);
    }
    return len;
}

static void is_read(const char *name, uint32_t source, const void *bytes, size_t len, uint32_t status,
                    uint32_t verifies, const char *jwk) {
    struct jwt_handle keys = JWT_NONE;
    size_t items, kept;
    is(name, add_counted(&keys, source, bytes, len, &items, &kept), status);
    is("one key, or none", items == (status == JWT_OK) && kept == items && (keys.at != NULL) == (status == JWT_OK), 1);
    if (status == JWT_OK) {
        struct answer a = text_in(&keys, 0, ROOM);
        is(name, gives(&a, jwk), 1);
        is("its algorithms", info_at(&keys, 0).verifies, verifies);
    }
    jwt_free(&keys);
}

static void sources(void) {
    static const struct {
        const char *text;
        uint32_t source, status, verifies;
        const char *jwk;
    } rows[] = {
        {P256_PEM, JWT_TEXT, JWT_OK, BIT(JWT_ES256), P256_JWK},
        {ED_PEM, JWT_TEXT, JWT_OK, BIT(JWT_EDDSA), ED_JWK},
        {A2_PEM, JWT_TEXT, JWT_OK, RSA_BITS, A2_JWK},
        {"Subject: a key\n\n" P256_PEM "and so on", JWT_TEXT, JWT_OK, BIT(JWT_ES256), P256_JWK},
        {P256_PEM ED_PEM, JWT_TEXT, JWT_OK, BIT(JWT_ES256), P256_JWK},
        {P256_CERTIFICATE, JWT_CERTIFICATE, JWT_OK, BIT(JWT_ES256), P256_JWK},
        {"subject=CN = issuer\n" P256_CERTIFICATE P256_PEM, JWT_CERTIFICATE, JWT_OK, BIT(JWT_ES256), P256_JWK},
        {"secret", JWT_SECRET, JWT_OK, HMAC_BITS, "{\"k\":\"c2VjcmV0\",\"kty\":\"oct\"}"},
        {"{}", JWT_SECRET, JWT_OK, HMAC_BITS, "{\"k\":\"e30\",\"kty\":\"oct\"}"},
        {" \n" P256_JWK "\t", JWT_TEXT, JWT_OK, BIT(JWT_ES256), P256_JWK},
        {OCT("\"kid\":\"a\",\"alg\":\"HS512\",\"use\":\"sig\",", "c2VjcmV0"), JWT_TEXT, JWT_OK, BIT(JWT_HS512),
         "{\"alg\":\"HS512\",\"k\":\"c2VjcmV0\",\"kid\":\"a\",\"kty\":\"oct\",\"use\":\"sig\"}"},
        /* a text is never taken for a secret */
        {"secret", JWT_TEXT, JWT_BAD_KEY, 0, NULL},
        {"", JWT_TEXT, JWT_BAD_KEY, 0, NULL},
        {"null", JWT_TEXT, JWT_BAD_KEY, 0, NULL},
        {"[" HMAC_KEY "]", JWT_TEXT, JWT_BAD_KEY, 0, NULL},
        {HMAC_KEY " x", JWT_TEXT, JWT_BAD_KEY, 0, NULL},
        {BY_HS256, JWT_TEXT, JWT_BAD_KEY, 0, NULL},
        {"ssh-ed25519 AAAA", JWT_TEXT, JWT_BAD_KEY, 0, NULL},
        {"{\"keys\":[" HMAC_KEY "]", JWT_TEXT, JWT_BAD_KEY, 0, NULL},
        /* an object without a list of keys is one key, and has no kty */
        {"{\"keys\":{}}", JWT_TEXT, JWT_UNSUPPORTED_ALGORITHM, 0, NULL},
        {"-----BEGIN PUBLIC KEY-----\n" P256_FIRST "\n" P256_LAST, JWT_TEXT, JWT_BAD_KEY, 0, NULL},
        {PEM("PUBLIC KEYS", P256_FIRST "\n" P256_LAST), JWT_TEXT, JWT_BAD_KEY, 0, NULL},
        {PRIVATE_PEM, JWT_TEXT, JWT_PROVIDER, 0, NULL},
        {X25519_PEM, JWT_TEXT, JWT_UNSUPPORTED_ALGORITHM, 0, NULL},
        {SHORT_PEM, JWT_TEXT, JWT_UNFIT_KEY, 0, NULL},
        {P256_CERTIFICATE, JWT_TEXT, JWT_IS_CERTIFICATE, 0, NULL},
        {PEM("CERTIFICATE", "MAA=\n"), JWT_TEXT, JWT_IS_CERTIFICATE, 0, NULL},
        {PEM("CERTIFICATE", "MAA=\n"), JWT_CERTIFICATE, JWT_BAD_KEY, 0, NULL},
        {P256_PEM, JWT_CERTIFICATE, JWT_BAD_KEY, 0, NULL},
        {P256_PEM P256_CERTIFICATE, JWT_CERTIFICATE, JWT_BAD_KEY, 0, NULL},
        {P256_JWK, JWT_CERTIFICATE, JWT_BAD_KEY, 0, NULL},
        {"", JWT_CERTIFICATE, JWT_BAD_KEY, 0, NULL},
        /* secrets that others have */
        {"", JWT_SECRET, JWT_ALL_ZERO_SECRET, 0, NULL},
        {P256_PEM, JWT_SECRET, JWT_KEY_AS_SECRET, 0, NULL},
        {P256_CERTIFICATE, JWT_SECRET, JWT_KEY_AS_SECRET, 0, NULL},
        {ALL_KEYS, JWT_SECRET, JWT_KEY_AS_SECRET, 0, NULL},
        {"LS0tLS1CRUdJTiA=", JWT_SECRET, JWT_KEY_AS_SECRET, 0, NULL},
        {"TFMwdExTMUNSVWRKVGlBPQ==", JWT_SECRET, JWT_OK, HMAC_BITS,
         "{\"k\":\"VEZNd2RFeFRNVU5TVldSS1ZHbEJQUT09\",\"kty\":\"oct\"}"},
    };
    for (size_t i = 0; i < COUNT(rows); i++)
        is_read(rows[i].text, rows[i].source, TEXT(rows[i].text), rows[i].status, rows[i].verifies, rows[i].jwk);
    for (uint32_t source = JWT_TEXT; source <= JWT_SET; source++)
        is_read("a null pointer", source, NULL, 0, source == JWT_SECRET ? JWT_ALL_ZERO_SECRET : JWT_BAD_KEY, 0, NULL);
    struct jwt_handle none = JWT_NONE;
    static const uint32_t others[] = {0, 5, 257, UINT32_MAX};
    for (size_t i = 0; i < COUNT(others); i++) {
        is("an unknown source", add(&none, others[i], HMAC_KEY), JWT_UNKNOWN_NUMBER);
        is("nothing is added", none.at == NULL, 1);
    }
}

/* a SubjectPublicKeyInfo (RFC 5280 section 4.1) and an RSAPublicKey (RFC 8017 appendix A.1.1), which the bit string of the first holds */
static void bytes_of_keys(void) {
    uint8_t der[1024];
    size_t len = der_of(A2_PEM, der), before = 24;
    is("the length of an RSA key in DER", len, 294);
    is_read("an RSA key in DER", JWT_TEXT, der, len, JWT_OK, RSA_BITS, A2_JWK);
    is_read("an RSAPublicKey", JWT_TEXT, der + before, len - before, JWT_OK, RSA_BITS, A2_JWK);
    is_read("a byte less", JWT_TEXT, der, len - 1, JWT_BAD_KEY, 0, NULL);
    is_read("an RSAPublicKey with a byte less", JWT_TEXT, der + before, len - before - 1, JWT_BAD_KEY, 0, NULL);
    is_read("DER for a secret", JWT_SECRET, der, len, JWT_KEY_AS_SECRET, 0, NULL);
    is_read("DER for a certificate", JWT_CERTIFICATE, der, len, JWT_BAD_KEY, 0, NULL);
    is_read("DER for a set", JWT_SET, der, len, JWT_BAD_KEY, 0, NULL);
    is_read("an RSAPublicKey for a set", JWT_SET, der + before, len - before, JWT_BAD_KEY, 0, NULL);
    der[len] = 0;
    is_read("a byte more", JWT_TEXT, der, len + 1, JWT_BAD_KEY, 0, NULL);
    len = der_of(P256_PEM, der);
    is_read("a key on P-256 in DER", JWT_TEXT, der, len, JWT_OK, BIT(JWT_ES256), P256_JWK);
    der[len - 1] ^= 1;
    is_read("a point that is not on P-256 in DER", JWT_TEXT, der, len, JWT_UNFIT_KEY, 0, NULL);
    len = der_of(ED_PEM, der);
    is_read("a key of Ed25519 in DER", JWT_TEXT, der, len, JWT_OK, BIT(JWT_EDDSA), ED_JWK);
    len = der_of(X25519_PEM, der);
    is_read("a key of X25519 in DER", JWT_TEXT, der, len, JWT_UNSUPPORTED_ALGORITHM, 0, NULL);
    len = der_of(PRIVATE_PEM, der);
    is_read("a private key in DER", JWT_TEXT, der, len, JWT_PROVIDER, 0, NULL);
    len = der_of(SHORT_PEM, der);
    is_read("a key of 1024 bits in DER", JWT_TEXT, der, len, JWT_UNFIT_KEY, 0, NULL);
}

/* every length and every bit of a secret of zeros (RFC 2104 section 2) */
static void zeros(void) {
    static uint8_t secret[300];
    static const size_t sizes[] = {1, 2, 31, 32, 63, 64, 65, 127, 128, 129, 300};
    size_t items, kept;
    for (size_t i = 0; i < COUNT(sizes); i++) {
        struct jwt_handle keys = JWT_NONE;
        size_t size = sizes[i], wrong = 0;
        is("zeros", add_counted(&keys, JWT_SECRET, secret, size, &items, &kept), JWT_ALL_ZERO_SECRET);
        for (size_t at = 0; at < size; at++)
            for (int bit = 1; bit < 256; bit *= 2) {
                secret[at] = (uint8_t)bit;
                wrong += add_counted(&keys, JWT_SECRET, secret, size, &items, &kept) != JWT_OK;
                secret[at] = 0;
                jwt_free(&keys);
            }
        is("zeros but for one bit", wrong, 0);
    }
}

/* ---- the text and the thumbprint of an item */

static void texts_of_items(void) {
    struct jwt_handle keys = JWT_NONE;
    add(&keys, JWT_TEXT, SET_OF("7," HMAC_KEY "," OCT("\"use\":\"enc\",", "*") ",{\"kid\":7}," SMALL_RSA "," P256_KEY));
    static const char *const texts[] = {
        NULL,
        "{\"k\":\"YSBzZWNyZXQgb2YgdGhpcnR5LXR3byBjaGFyYWN0ZXJz\",\"kid\":\"hmac\",\"kty\":\"oct\"}",
        "{\"k\":\"*\",\"kty\":\"oct\",\"use\":\"enc\"}",
        NULL,
        "{\"e\":\"Aw\",\"kid\":\"rsa\",\"kty\":\"RSA\",\"n\":\"AQAB\"}",
        "{\"crv\":\"P-256\",\"kid\":\"p256\",\"kty\":\"EC\",\"x\":\"cNoCzyOJM488bjKBVHt5l_ZLeJVc0MznCQTwJlkzXa0\","
        "\"y\":\"r8PeoJDruknfmuGCQLn_UjS1Xk078kVZAfT0K3Res0Q\"}",
    };
    for (size_t i = 0; i < COUNT(texts); i++) {
        struct answer a = text_in(&keys, i, ROOM);
        if (!texts[i]) {
            is("the text of an item that is not a key", status_of(&a), JWT_BAD_KEY);
            a = thumbprint(&keys, i, 256);
            is("the thumbprint of an item that is not a key", status_of(&a), JWT_BAD_KEY);
            continue;
        }
        size_t len = strlen(texts[i]);
        is(texts[i], gives(&a, texts[i]), 1);
        a = text_in(&keys, i, len);
        is("a buffer that a text just fits", gives(&a, texts[i]), 1);
        a = text_in(&keys, i, len - 1);
        is("a buffer too small for a text", status_of(&a) == JWT_BUFFER_TOO_SMALL && a.len == len, 1);
    }
    static const size_t places[] = {COUNT(texts), COUNT(texts) + 1, SIZE_MAX - 1, JWT_ALL};
    for (size_t i = 0; i < COUNT(places); i++) {
        struct answer a = text_in(&keys, places[i], ROOM);
        is("the text of a place without an item", status_of(&a), JWT_UNKNOWN_NUMBER);
        a = thumbprint(&keys, places[i], 256);
        is("the thumbprint of a place without an item", status_of(&a), JWT_UNKNOWN_NUMBER);
        if (places[i] != JWT_ALL)
            is("the algorithms of a place without an item", info_status(&keys, places[i]), JWT_UNKNOWN_NUMBER);
    }
    jwt_free(&keys);
}

static void thumbprints(void) {
    /* RFC 7638 section 3.1, RFC 8037 appendix A.3, and digests by Python's hashlib */
    static const struct {
        const char *key;
        uint32_t bits;
        const char *text;
    } rows[] = {
        {A4_KEY, 256, "kPrK_qmxVWaYVA9wwBF6Iuo3vVzz7TxHCTwXBygrS4k"},
        {OCT("\"kid\":\"a\",", "c2VjcmV0"), 256, "DWBh0SEIAPYh1x5uvot4z3AhaikHkxNJa3Ada2fT-Cg"},
        {OCT("", "c2VjcmV0"), 384, "_9R7v3FlYcXHk8JYlGNV21jTGJk6MIFS5UUXpCSAy-nOTBX9zyl9XhZQQyWHshg4"},
        {OCT("", "c2VjcmV0"), 512,
         "S6A3TTrXrB_xEVAtIJmc4LXkuiNzbq4_yGigzEL0aj4I3I8XHAbeu9WT0gLvAqza-ZXSSPS_mUFoMXtZjiBYAQ"},
    };
    static const uint32_t others[] = {0, 1, 255, 257, 1024, UINT32_MAX};
    for (size_t i = 0; i < COUNT(rows); i++) {
        struct jwt_handle keys = JWT_NONE;
        add(&keys, JWT_TEXT, rows[i].key);
        struct answer a = thumbprint(&keys, 0, rows[i].bits);
        is(rows[i].key, gives(&a, rows[i].text), 1);
        is("no buffer", jwt_thumbprint(&keys, 0, rows[i].bits, NULL, 0, &a.len), JWT_BUFFER_TOO_SMALL);
        is("the length that is needed", a.len, strlen(rows[i].text));
        for (size_t k = 0; k < COUNT(others); k++) {
            a = thumbprint(&keys, 0, others[k]);
            is("another number of bits", status_of(&a), JWT_INVALID_ALGORITHM_NAME);
        }
        jwt_free(&keys);
    }
    struct jwt_handle set = JWT_NONE;
    add(&set, JWT_TEXT, SET_OF("{},{\"kty\":\"x\"},{\"kty\":\"OKP\",\"crv\":\"P-256\",\"x\":\"AAAA\"}"));
    static const uint32_t refused[] = {JWT_UNSUPPORTED_ALGORITHM, JWT_UNSUPPORTED_ALGORITHM, JWT_INVALID_KEY_FORMAT};
    for (size_t i = 0; i < COUNT(refused); i++) {
        struct answer a = thumbprint(&set, i, 256);
        is("no thumbprint", status_of(&a), refused[i]);
    }
    jwt_free(&set);
}

/* ---- one key, and a set */

/* One key needs no kid, and its own alg is the only one that counts. Any two, and a set of one, are a set. */
static void lone_keys_and_sets(void) {
    static const struct {
        const char *texts[3], *options, *token;
        uint32_t status;
    } rows[] = {
        {{A3_KEY}, ALL_OPTIONS, A3_TOKEN, JWT_OK},
        {{A2_KEY}, ALL_OPTIONS, A2_TOKEN, JWT_OK},
        {{A2_PEM}, ALL_OPTIONS, A2_TOKEN, JWT_OK},
        {{HMAC_KEY}, HS256, BY_HS256, JWT_OK},
        /* a lone key is not compared with the header's kid */
        {{OCT("\"kid\":\"other\",", "YSBzZWNyZXQgb2YgdGhpcnR5LXR3byBjaGFyYWN0ZXJz")}, HS256, BY_HS256, JWT_OK},
        {{OCT("\"alg\":\"HS256\",", "YSBzZWNyZXQgb2YgdGhpcnR5LXR3byBjaGFyYWN0ZXJz")}, HS256, BY_HS256, JWT_OK},
        {{OCT("\"alg\":\"HS384\",", "YSBzZWNyZXQgb2YgdGhpcnR5LXR3byBjaGFyYWN0ZXJz")},
         HS256,
         BY_HS256,
         JWT_NO_USABLE_KEY},
        {{OCT("\"alg\":\"HS384\",", "YSBzZWNyZXQgb2YgdGhpcnR5LXR3byBjaGFyYWN0ZXJz")},
         "{\"algorithms\":[\"HS256\",\"HS384\"]}",
         BY_HS256,
         JWT_INVALID_ALGORITHM},
        /* a set of one key is a set */
        {{SET_OF(HMAC_KEY)}, HS256, BY_HS256, JWT_OK},
        {{SET_OF(A3_KEY)}, ALL_OPTIONS, A3_TOKEN, JWT_NO_USABLE_KEY},
        {{SET_OF(A3_KEY "," HMAC_KEY)}, ALL_OPTIONS, A3_TOKEN, JWT_NO_KEY},
        {{SET_OF("")}, HS256, BY_HS256, JWT_NO_USABLE_KEY},
        {{SET_OF("7," SMALL_RSA)}, ALL_OPTIONS, BY_RS256, JWT_NO_USABLE_KEY},
        /* texts that are added one after the other are one set */
        {{HMAC_KEY, P256_KEY}, ALL_OPTIONS, BY_HS256, JWT_OK},
        {{HMAC_KEY, P256_KEY}, ALL_OPTIONS, BY_ES256, JWT_OK},
        {{HMAC_KEY, P256_KEY}, ALL_OPTIONS, BY_RS256, JWT_NO_KEY},
        {{A3_KEY, HMAC_KEY}, ALL_OPTIONS, A3_TOKEN, JWT_NO_KEY},
        {{A3_KEY, A3_KEY}, ALL_OPTIONS, A3_TOKEN, JWT_NO_USABLE_KEY},
        {{SET_OF(HMAC_KEY "," RSA_KEY), P256_KEY, SET_OF(ED_KEY)}, ALL_OPTIONS, BY_RS256, JWT_OK},
        {{SET_OF(HMAC_KEY "," RSA_KEY), P256_KEY, SET_OF(ED_KEY)}, ALL_OPTIONS, BY_EDDSA, JWT_OK},
        {{SET_OF(HMAC_KEY), SET_OF("")}, HS256, BY_HS256, JWT_OK},
        {{A3_KEY, SET_OF("")}, ALL_OPTIONS, A3_TOKEN, JWT_NO_USABLE_KEY},
        {{SET_OF(""), A3_KEY}, ALL_OPTIONS, A3_TOKEN, JWT_NO_USABLE_KEY},
        {{A3_KEY, SET_OF("7")}, ALL_OPTIONS, A3_TOKEN, JWT_NO_USABLE_KEY},
        /* of several kept keys with one kid the first counts */
        {{OCT("\"kid\":\"hmac\",", "YQ"), HMAC_KEY}, HS256, BY_HS256, JWT_INVALID_SIGNATURE},
        {{HMAC_KEY, OCT("\"kid\":\"hmac\",", "YQ")}, HS256, BY_HS256, JWT_OK},
        {{SET_OF(OCT("\"kid\":\"hmac\",", "AA") "," OCT("\"use\":\"enc\",\"kid\":\"hmac\",", "YQ")), HMAC_KEY},
         HS256,
         BY_HS256,
         JWT_OK},
        {{OCT("\"kid\":\"hmac\",\"alg\":\"HS384\",", "YSBzZWNyZXQgb2YgdGhpcnR5LXR3byBjaGFyYWN0ZXJz"), HMAC_KEY},
         HS256,
         BY_HS256,
         JWT_INVALID_ALGORITHM},
    };
    for (size_t i = 0; i < COUNT(rows); i++) {
        struct jwt_handle keys = JWT_NONE;
        for (size_t k = 0; k < 3 && rows[i].texts[k]; k++) is("added", add(&keys, JWT_TEXT, rows[i].texts[k]), JWT_OK);
        struct state before = state_of(&keys);
        is(rows[i].texts[0], verified(&keys, rows[i].options, rows[i].token), rows[i].status);
        is("a verifier leaves the keys as they are", is_unchanged(&keys, &before), 1);
        jwt_free(&keys);
    }
}

/* A set is read by JWT_SET as by JWT_TEXT: the same items, in the same state, and a set of one is a set. */
static void sets_alone(void) {
    static const char *const sets[] = {
        ALL_KEYS, SET_OF(""), SET_OF(A3_KEY), SET_OF("7," SMALL_RSA "," HMAC_KEY), " {\"a\":1,\"keys\":[" ED_KEY "]} ",
    };
    for (size_t i = 0; i < COUNT(sets); i++) {
        struct jwt_handle by_text = JWT_NONE, by_set = JWT_NONE;
        size_t items, kept, items_of_set, kept_of_set;
        is("a set as a text", add_counted(&by_text, JWT_TEXT, TEXT(sets[i]), &items, &kept), JWT_OK);
        is("a set", add_counted(&by_set, JWT_SET, TEXT(sets[i]), &items_of_set, &kept_of_set), JWT_OK);
        is("as many items", items == items_of_set && kept == kept_of_set, 1);
        struct state s = state_of(&by_text);
        is("the same items", is_unchanged(&by_set, &s), 1);
        jwt_free(&by_text), jwt_free(&by_set);
    }
    struct jwt_handle keys = JWT_NONE;
    is("a set of a key without a kid", add(&keys, JWT_SET, SET_OF(A3_KEY)), JWT_OK);
    is("it is a set", verified(&keys, ALL_OPTIONS, A3_TOKEN), JWT_NO_USABLE_KEY);
    is("a set that comes after", add(&keys, JWT_SET, SET_OF(HMAC_KEY)), JWT_OK);
    is("a token by it", verified(&keys, ALL_OPTIONS, BY_HS256), JWT_OK);
    jwt_free(&keys);
}

/* Whether a verifier is made with one algorithm exactly if its bit is among those of JWT_ALL, and with two if one of the bits is. */
static void is_made_by_bits(const char *name, struct jwt_handle *keys, uint32_t verifies) {
    for (uint32_t first = JWT_HS256; first <= JWT_EDDSA; first++)
        for (uint32_t second = first; second <= JWT_EDDSA; second++) {
            char one[16], other[16], options[64];
            size_t len, other_len;
            jwt_text(JWT_OF_ALGORITHM, first, one, sizeof one, &len);
            jwt_text(JWT_OF_ALGORITHM, second, other, sizeof other, &other_len);
            snprintf(options, sizeof options, "{\"algorithms\":[\"%.*s\",\"%.*s\"]}", (int)len, one, (int)other_len,
                     other);
            struct jwt_handle verifier = JWT_NONE;
            bool has_bit = verifies & (BIT(first) | BIT(second));
            uint32_t status = jwt_verifier_new(keys, TEXT(options), 0, JWT_PREPARE_NOTHING, &verifier);
            is(name, status, has_bit ? JWT_OK : JWT_NO_USABLE_KEY);
            jwt_free(&verifier);
        }
    struct jwt_handle verifier = JWT_NONE;
    is(name, jwt_verifier_new(keys, TEXT("{\"algorithms\":[]}"), 0, 0, &verifier), JWT_NO_USABLE_KEY);
}

/* the bits of all items: of a set those with a kid alone count, and a lone key needs none */
static void bits_of_all(void) {
    static const struct {
        const char *texts[2];
        uint32_t verifies;
    } rows[] = {
        {{A3_KEY}, BIT(JWT_ES256)},
        {{A2_PEM}, RSA_BITS},
        {{OCT("\"alg\":\"HS384\",", "c2VjcmV0")}, BIT(JWT_HS384)},
        {{ED_KEY}, BIT(JWT_EDDSA)},
        /* a set of one is a set */
        {{SET_OF(A3_KEY)}, 0},
        {{SET_OF(OCT("\"kid\":null,", "c2VjcmV0"))}, 0},
        {{SET_OF(OCT("\"kid\":\"\",", "c2VjcmV0"))}, HMAC_BITS},
        {{SET_OF(A3_KEY "," HMAC_KEY)}, HMAC_BITS},
        {{SET_OF(HMAC_KEY "," P384_KEY "," A2_KEY)}, HMAC_BITS | BIT(JWT_ES384)},
        {{SET_OF(OCT("\"kid\":\"a\",\"alg\":\"HS512\",", "c2VjcmV0") "," A3_KEY)}, BIT(JWT_HS512)},
        /* a skipped key does not count, also with a kid */
        {{SET_OF("7," SMALL_RSA "," OFF_CURVE)}, 0},
        {{SET_OF(SMALL_RSA "," OCT("\"kid\":\"a\",\"use\":\"enc\",", "c2VjcmV0") "," ED_KEY)}, BIT(JWT_EDDSA)},
        {{SET_OF("")}, 0},
        /* a second text makes a lone key an item of a set */
        {{A3_KEY, HMAC_KEY}, HMAC_BITS},
        {{HMAC_KEY, A3_KEY}, HMAC_BITS},
        {{A3_KEY, A3_KEY}, 0},
        {{A3_KEY, SET_OF("")}, 0},
        {{A3_KEY, SET_OF("7")}, 0},
        {{SET_OF(""), A3_KEY}, 0},
        {{P256_KEY, ED_KEY}, BIT(JWT_ES256) | BIT(JWT_EDDSA)},
    };
    for (size_t i = 0; i < COUNT(rows); i++) {
        struct jwt_handle keys = JWT_NONE, other = JWT_NONE;
        for (size_t k = 0; k < 2 && rows[i].texts[k]; k++) is("added", add(&keys, JWT_TEXT, rows[i].texts[k]), JWT_OK);
        struct jwt_key_info all = info_at(&keys, JWT_ALL);
        is(rows[i].texts[0], all.status, JWT_OK);
        is(rows[i].texts[0], all.verifies, rows[i].verifies);
        is(rows[i].texts[0], all.signs, rows[i].verifies & HMAC_BITS);
        is_made_by_bits(rows[i].texts[0], &keys, rows[i].verifies);
        is("shared", jwt_share(&keys, &other), JWT_OK);
        is("the bits of a share", info_at(&other, JWT_ALL).verifies, rows[i].verifies);
        jwt_free(&keys), jwt_free(&other);
    }
    /* what an item can do is the same, also if it does not count among all */
    struct jwt_handle keys = JWT_NONE;
    add(&keys, JWT_TEXT, A3_KEY), add(&keys, JWT_TEXT, HMAC_KEY);
    is("an item without a kid", info_at(&keys, 0).verifies, BIT(JWT_ES256));
    jwt_free(&keys);
}

/* the places of items that are added one after the other */
static void places(void) {
    struct jwt_handle keys = JWT_NONE;
    size_t items, kept;
    is("a set of three", add_counted(&keys, JWT_TEXT, TEXT(SET_OF("7," HMAC_KEY "," RSA_KEY)), &items, &kept), JWT_OK);
    is("its items", items == 3 && kept == 2, 1);
    is("a key", add_counted(&keys, JWT_TEXT, TEXT(P256_PEM), &items, &kept), JWT_OK);
    is("one item more", items == 1 && kept == 1, 1);
    is("a secret", add_counted(&keys, JWT_SECRET, TEXT(HMAC_SECRET), &items, &kept), JWT_OK);
    is("a certificate", add_counted(&keys, JWT_CERTIFICATE, TEXT(P256_CERTIFICATE), &items, &kept), JWT_OK);
    static const uint32_t verifies[] = {0, HMAC_BITS, RSA_BITS, BIT(JWT_ES256), HMAC_BITS, BIT(JWT_ES256)};
    for (size_t i = 0; i < COUNT(verifies); i++) is("a place", info_at(&keys, i).verifies, verifies[i]);
    is("no place more", info_status(&keys, COUNT(verifies)), JWT_UNKNOWN_NUMBER);
    jwt_free(&keys);
    is("an empty set", add_counted(&keys, JWT_TEXT, TEXT(SET_OF("")), &items, &kept), JWT_OK);
    is("it has no items", items == 0 && kept == 0, 1);
    struct jwt_key_info all = info_at(&keys, JWT_ALL);
    is("they verify nothing", all.status == JWT_OK && all.verifies == 0 && all.signs == 0, 1);
    is("the first place", info_status(&keys, 0), JWT_UNKNOWN_NUMBER);
    jwt_free(&keys);
}

/* ---- signed tokens */

#define BY_HS256_HEADER "{\"alg\":\"HS256\",\"kid\":\"hmac\",\"typ\":\"JWT\"}"
/* the headers are {"alg":"HS256"}, and one with an object; the payloads have floats, escapes, spaces and a number of 30 digits */
#define FLOATS                                                                                                         \
    "eyJhbGciOiJIUzI1NiJ9.eyJleHAiOjkuMCwiYSI6MS4xMCwiYiI6MTg0NDY3NDQwNzM3MDk1NTE2MTYsImMiOi0wLjB9."                   \
    "8Fh6zIwEWYMNwDmBaJjk7jcGPeJrLMSDXSwsTrKkC-I"
#define ODD                                                                                                            \
    "IHsgIngiIDogeyAiYiIgOiAxIH0gLCAiYWxnIiA6ICJIUzI1NiIgfSA."                                                         \
    "eyJ6IjoiXHUwMDQxXC8iLCJhIjpbIDFFKzIgLCAxMjM0NTY3ODkwMTIzNDU2Nzg5MDEyMzQ1Njc4OTAgXX0K.1_"                          \
    "YjBLWbQrub5kFtH41HaXjCeXhTfCIiEwPX0qFjjaU"

static struct answer sign(struct jwt_handle *keys, const char *header, const char *payload, size_t room) {
    struct answer a = fresh();
    a.status = jwt_sign(keys, TEXT(header), TEXT(payload), a.room, room, &a.len);
    return a;
}

/* each token is the RFC's or Python's, byte for byte, and a verifier returns its payload */
static void signed_tokens(void) {
    static const struct {
        const char *key;
        uint32_t source;
        const char *header, *payload, *token;
    } rows[] = {
        {A1_KEY, JWT_TEXT, A1_HEADER, A1_PAYLOAD, A1_TOKEN},
        {HMAC_KEY, JWT_TEXT, BY_HS256_HEADER, CLAIMS, BY_HS256},
        {HMAC_SECRET, JWT_SECRET, BY_HS256_HEADER, CLAIMS, BY_HS256},
        {HMAC_KEY, JWT_TEXT, "{\"alg\":\"HS384\",\"kid\":\"hmac\",\"typ\":\"JWT\"}", CLAIMS, BY_HS384},
        {HMAC_KEY, JWT_TEXT, "{\"alg\":\"HS512\",\"kid\":\"hmac\",\"typ\":\"JWT\"}", CLAIMS, BY_HS512},
        {"secret", JWT_SECRET, "{\"alg\":\"HS256\"}", "{\"exp\":9.0,\"a\":1.10,\"b\":18446744073709551616,\"c\":-0.0}",
         FLOATS},
        {"secret", JWT_SECRET, " { \"x\" : { \"b\" : 1 } , \"alg\" : \"HS256\" } ",
         "{\"z\":\"\\u0041\\/\",\"a\":[ 1E+2 , 123456789012345678901234567890 ]}\n", ODD},
        /* an alg of the key, and a kid that is not put into the header */
        {OCT("\"alg\":\"HS256\",\"kid\":\"k\",", "c2VjcmV0"), JWT_TEXT, "{\"alg\":\"HS256\"}",
         "{\"exp\":9.0,\"a\":1.10,\"b\":18446744073709551616,\"c\":-0.0}", FLOATS},
    };
    for (size_t i = 0; i < COUNT(rows); i++) {
        struct jwt_handle keys = JWT_NONE, verifier = JWT_NONE;
        size_t len = strlen(rows[i].token);
        add(&keys, rows[i].source, rows[i].key);
        struct answer a = sign(&keys, rows[i].header, rows[i].payload, len);
        is(rows[i].token, gives(&a, rows[i].token), 1);
        a = sign(&keys, rows[i].header, rows[i].payload, len - 1);
        is("a buffer too small for a token", status_of(&a) == JWT_BUFFER_TOO_SMALL && a.len == len, 1);
        jwt_verifier_new(
            &keys,
            TEXT("{\"algorithms\":[\"HS256\",\"HS384\",\"HS512\"],\"validate_exp\":false,\"required_spec_claims\":[]}"),
            0, 0, &verifier);
        struct judged read = decode(&verifier, rows[i].token, len, 0, ROOM);
        is("it is read back", gives(&read.a, rows[i].payload) && read.said.as_signed, 1);
        jwt_free(&keys), jwt_free(&verifier);
    }
}

/* of several statuses the first */
static void refused_signing(void) {
    static const char header[] = "{\"alg\":\"HS256\"}", twice[] = "{\"alg\":\"HS256\",\"alg\":\"HS256\"}";
    static const struct {
        const char *texts[2], *header, *payload;
        uint32_t status;
    } rows[] = {
        {{NULL}, "{}", "[]", JWT_NO_KEYS},
        {{HMAC_KEY, HMAC_KEY}, "{}", "[]", JWT_UNFIT_KEY},
        {{HMAC_KEY, SET_OF("")}, header, "{}", JWT_UNFIT_KEY},
        {{SET_OF(HMAC_KEY)}, header, "{}", JWT_UNFIT_KEY},
        {{SET_OF("")}, header, "{}", JWT_UNFIT_KEY},
        {{RSA_KEY}, "{}", "[]", JWT_BAD_HEADER},
        {{HMAC_KEY}, "", "{}", JWT_BAD_HEADER},
        {{HMAC_KEY}, "{\"alg\":\"none\"}", "{}", JWT_BAD_HEADER},
        {{HMAC_KEY}, "{\"alg\":\"HS256\",\"typ\":1}", "{}", JWT_BAD_HEADER},
        {{HMAC_KEY}, "{\"alg\":\"HS256\",\"x\":1.0}", "{}", JWT_BAD_HEADER},
        {{HMAC_KEY}, twice, "{}", JWT_BAD_HEADER},
        {{HMAC_KEY}, "{\"alg\":\"HS256\",\"x\":{\"a\":1,\"\\u0061\":1}}", "{}", JWT_BAD_HEADER},
        {{RSA_KEY}, header, "[]", JWT_BAD_CLAIMS},
        {{HMAC_KEY}, header, "", JWT_BAD_CLAIMS},
        {{HMAC_KEY}, header, "{\"a\":1,\"a\":1}", JWT_BAD_CLAIMS},
        {{HMAC_KEY}, header, "{\"b\":[{\"a\":1,\"a\":2}]}", JWT_BAD_CLAIMS},
        {{RSA_KEY}, header, "{}", JWT_INVALID_KEY_FORMAT},
        {{RSA_KEY}, "{\"alg\":\"RS256\"}", "{}", JWT_INVALID_KEY_FORMAT},
        {{A2_PEM}, "{\"alg\":\"RS256\"}", "{}", JWT_INVALID_KEY_FORMAT},
        {{P256_KEY}, "{\"alg\":\"ES256\"}", "{}", JWT_INVALID_KEY_FORMAT},
        {{P384_KEY}, "{\"alg\":\"ES384\"}", "{}", JWT_INVALID_KEY_FORMAT},
        {{ED_KEY}, "{\"alg\":\"EdDSA\"}", "{}", JWT_INVALID_KEY_FORMAT},
        {{HMAC_KEY}, "{\"alg\":\"RS256\"}", "{}", JWT_INVALID_ALGORITHM},
        {{HMAC_KEY}, "{\"alg\":\"ES256\"}", "{}", JWT_INVALID_ALGORITHM},
        {{OCT("\"alg\":\"HS384\",", "c2VjcmV0")}, header, "{}", JWT_INVALID_ALGORITHM},
    };
    for (size_t i = 0; i < COUNT(rows); i++) {
        struct jwt_handle keys = JWT_NONE;
        for (size_t k = 0; k < 2 && rows[i].texts[k]; k++) is("added", add(&keys, JWT_TEXT, rows[i].texts[k]), JWT_OK);
        struct answer a = sign(&keys, rows[i].header, rows[i].payload, ROOM);
        is(rows[i].header, status_of(&a), rows[i].status);
        jwt_free(&keys);
    }
    struct jwt_handle keys = JWT_NONE;
    add(&keys, JWT_SECRET, HMAC_SECRET);
    is("a header by a null pointer", jwt_sign(&keys, NULL, 0, NULL, 0, NULL, 0, &(size_t){0}), JWT_BAD_HEADER);
    jwt_free(&keys);
}

/* ---- slips */

static void empty_handles(void) {
    struct jwt_handle none = JWT_NONE, other = JWT_NONE;
    is("the algorithms of no keys", info_status(&none, 0), JWT_NO_KEYS);
    is("all algorithms of no keys", info_status(&none, JWT_ALL), JWT_NO_KEYS);
    struct answer a = text_in(&none, 0, ROOM);
    is("the text of no keys", status_of(&a), JWT_NO_KEYS);
    a = thumbprint(&none, 0, 256);
    is("the thumbprint of no keys", status_of(&a), JWT_NO_KEYS);
    is("a verifier of no keys", jwt_verifier_new(&none, TEXT(HS256), 0, 0, &other), JWT_NO_KEYS);
    is("a verifier of no keys before its options", jwt_verifier_new(&none, TEXT("{"), 0, 0, &other), JWT_NO_KEYS);
    is("nothing is made", other.at == NULL, 1);
    is("a token by nothing", decode(&none, TEXT(BY_HS256), 0, ROOM).a.status, JWT_NO_VERIFIER);
    is("a share of nothing", jwt_share(&none, &other), JWT_NO_VERIFIER);
    is("nothing is shared", other.at == NULL, 1);
    jwt_free(&none);
    jwt_free(&none);
    is("freed twice", none.at == NULL, 1);
}

static void wrong_handles(void) {
    struct jwt_handle keys = JWT_NONE, verifier = JWT_NONE, other = JWT_NONE;
    size_t items, kept;
    add(&keys, JWT_TEXT, HMAC_KEY);
    is("made", jwt_verifier_new(&keys, TEXT(HS256), 0, 0, &verifier), JWT_OK);
    struct state before = state_of(&keys);
    void *at = verifier.at;
    is("a token by keys", decode(&keys, TEXT(BY_HS256), 0, ROOM).a.status, JWT_NO_VERIFIER);
    is("keys to a verifier", add_counted(&verifier, JWT_TEXT, TEXT(HMAC_KEY), &items, &kept), JWT_NO_KEYS);
    is("the algorithms of a verifier", info_status(&verifier, 0), JWT_NO_KEYS);
    is("all algorithms of a verifier", info_status(&verifier, JWT_ALL), JWT_NO_KEYS);
    struct answer a = text_in(&verifier, 0, ROOM);
    is("the text of a verifier", status_of(&a), JWT_NO_KEYS);
    a = thumbprint(&verifier, 0, 256);
    is("the thumbprint of a verifier", status_of(&a), JWT_NO_KEYS);
    a = sign(&verifier, BY_HS256_HEADER, CLAIMS, ROOM);
    is("a token that a verifier signs", status_of(&a), JWT_NO_KEYS);
    is("a verifier of a verifier", jwt_verifier_new(&verifier, TEXT(HS256), 0, 0, &other), JWT_NO_KEYS);
    is("nothing is made", other.at == NULL, 1);
    /* what is to be filled holds something */
    is("a verifier in the place of one", jwt_verifier_new(&keys, TEXT(HS256), 0, 0, &verifier), JWT_HANDLE_IN_USE);
    is("a verifier in the place of keys", jwt_verifier_new(&verifier, TEXT("{"), 0, 0, &keys), JWT_HANDLE_IN_USE);
    is("a verifier of nothing in the place of one", jwt_verifier_new(&other, TEXT("{"), 0, 0, &verifier),
       JWT_HANDLE_IN_USE);
    is("a share in the place of keys", jwt_share(&verifier, &keys), JWT_HANDLE_IN_USE);
    is("a share in the place of a verifier", jwt_share(&keys, &verifier), JWT_HANDLE_IN_USE);
    is("the keys are unchanged", is_unchanged(&keys, &before), 1);
    is("the verifier is unchanged", verifier.at == at, 1);
    is("it verifies", decode(&verifier, TEXT(BY_HS256), 0, ROOM).a.status, JWT_OK);
    jwt_free(&keys), jwt_free(&verifier);
    is("both are freed", keys.at == NULL && verifier.at == NULL, 1);
}

/* ---- shares */

static void shares_of_keys(void) {
    struct jwt_handle keys = JWT_NONE, other = JWT_NONE;
    add(&keys, JWT_TEXT, SET_OF("7," HMAC_KEY));
    struct state before = state_of(&keys);
    is("shared", jwt_share(&keys, &other), JWT_OK);
    is("a share has the same keys", is_unchanged(&other, &before), 1);
    /* keys are copied */
    is("a key for the first alone", add(&keys, JWT_TEXT, P256_KEY), JWT_OK);
    is("the share has as many as before", is_unchanged(&other, &before), 1);
    is("a key for the share alone", add(&other, JWT_TEXT, ED_KEY), JWT_OK);
    is("the first verifies by its own", verified(&keys, ALL_OPTIONS, BY_ES256), JWT_OK);
    is("and not by the share's", verified(&keys, ALL_OPTIONS, BY_EDDSA), JWT_NO_KEY);
    jwt_free(&keys);
    is("the share after the first is freed", verified(&other, ALL_OPTIONS, BY_EDDSA), JWT_OK);
    is("it has the keys of both", verified(&other, ALL_OPTIONS, BY_HS256), JWT_OK);
    is("and not those that came later", verified(&other, ALL_OPTIONS, BY_ES256), JWT_NO_KEY);
    jwt_free(&other);
    /* a share of a lone key is a lone key */
    add(&keys, JWT_TEXT, A3_KEY);
    jwt_share(&keys, &other);
    jwt_free(&keys);
    is("a share of a lone key needs no kid", verified(&other, ALL_OPTIONS, A3_TOKEN), JWT_OK);
    jwt_free(&other);
}

/* a thread with keys of its own, which are copies of the same: it adds to them, looks at them, and verifies */
static void *many(void *keys) {
    long wrong = 0;
    for (int i = 0; i < 20; i++) {
        struct jwt_handle more = JWT_NONE;
        wrong += jwt_share(keys, &more) != JWT_OK || add(&more, JWT_TEXT, ED_KEY) != JWT_OK;
        wrong += info_at(&more, 1).verifies != HMAC_BITS || info_at(&more, 2).verifies != BIT(JWT_EDDSA);
        wrong += verified(&more, ALL_OPTIONS, BY_EDDSA) != JWT_OK;
        wrong += verified(keys, ALL_OPTIONS, BY_EDDSA) != JWT_NO_KEY || verified(keys, HS256, BY_HS256) != JWT_OK;
        jwt_free(&more);
    }
    jwt_free(keys);
    return (void *)wrong;
}

static void threads(void) {
    pthread_t started[8];
    struct jwt_handle first = JWT_NONE, each[8];
    memset(each, 0, sizeof each);
    add(&first, JWT_TEXT, SET_OF("7," HMAC_KEY));
    for (int i = 0; i < 8; i++) is("a share for a thread", jwt_share(&first, &each[i]), JWT_OK);
    for (int i = 0; i < 8; i++) pthread_create(&started[i], NULL, many, &each[i]);
    jwt_free(&first);
    for (int i = 0; i < 8; i++) {
        void *wrong;
        pthread_join(started[i], &wrong);
        is("a thread with its own keys", (long)wrong, 0);
    }
}

/* ---- a refusal leaves a handle as it was */

static void refusals(void) {
    static const struct {
        const char *text;
        uint32_t source, status;
    } rows[] = {
        {"secret", JWT_TEXT, JWT_BAD_KEY},
        {"{\"keys\":7}", JWT_TEXT, JWT_UNSUPPORTED_ALGORITHM},
        {"{}", JWT_TEXT, JWT_UNSUPPORTED_ALGORITHM},
        {OCT("", "*"), JWT_TEXT, JWT_BASE64},
        {OCT("\"use\":\"enc\",", "YQ"), JWT_TEXT, JWT_NOT_FOR_SIGNATURES},
        {SMALL_RSA, JWT_TEXT, JWT_UNFIT_KEY},
        {OCT("", "AA"), JWT_TEXT, JWT_ALL_ZERO_SECRET},
        {OCT("", "c3NoLXJzYQ"), JWT_TEXT, JWT_KEY_AS_SECRET},
        {PRIVATE_PEM, JWT_TEXT, JWT_PROVIDER},
        {P256_CERTIFICATE, JWT_TEXT, JWT_IS_CERTIFICATE},
        {P256_PEM, JWT_CERTIFICATE, JWT_BAD_KEY},
        {"", JWT_SECRET, JWT_ALL_ZERO_SECRET},
        {P256_PEM, JWT_SECRET, JWT_KEY_AS_SECRET},
        {HMAC_KEY, JWT_SET, JWT_BAD_KEY},
        {A3_KEY, JWT_SET, JWT_BAD_KEY},
        {OCT("", "*"), JWT_SET, JWT_BAD_KEY},
        {"{\"keys\":7}", JWT_SET, JWT_BAD_KEY},
        {"{\"keys\":[" HMAC_KEY "]", JWT_SET, JWT_BAD_KEY},
        {SET_OF(HMAC_KEY) " x", JWT_SET, JWT_BAD_KEY},
        {"[" HMAC_KEY "]", JWT_SET, JWT_BAD_KEY},
        {"{}", JWT_SET, JWT_BAD_KEY},
        {"", JWT_SET, JWT_BAD_KEY},
        {"secret", JWT_SET, JWT_BAD_KEY},
        {P256_PEM, JWT_SET, JWT_BAD_KEY},
        {PRIVATE_PEM, JWT_SET, JWT_BAD_KEY},
        {P256_CERTIFICATE, JWT_SET, JWT_BAD_KEY},
        {HMAC_KEY, 5, JWT_UNKNOWN_NUMBER},
        {SET_OF(HMAC_KEY), 5, JWT_UNKNOWN_NUMBER},
    };
    static const char *const held[] = {A3_KEY, SET_OF("7," HMAC_KEY), SET_OF("")};
    static const char *const tokens[] = {A3_TOKEN, BY_HS256, BY_HS256};
    for (size_t k = 0; k < COUNT(held); k++) {
        struct jwt_handle keys = JWT_NONE;
        add(&keys, JWT_TEXT, held[k]);
        struct state before = state_of(&keys);
        uint32_t by = verified(&keys, ALL_OPTIONS, tokens[k]);
        for (size_t i = 0; i < COUNT(rows); i++) {
            size_t items, kept;
            is(rows[i].text, add_counted(&keys, rows[i].source, TEXT(rows[i].text), &items, &kept), rows[i].status);
            is("the keys after a refusal", is_unchanged(&keys, &before), 1);
        }
        is("a lone key stays one, and a set a set", verified(&keys, ALL_OPTIONS, tokens[k]), by);
        jwt_free(&keys);
    }
}

/* ---- want of memory: each request of a call is refused in turn */

static struct jwt_handle held;

static uint32_t adds_a_set(struct jwt_handle *keys) {
    return add(keys, JWT_TEXT, SET_OF("7," RSA_KEY "," OCT("", "*") "," P256_KEY));
}
static uint32_t adds_a_set_alone(struct jwt_handle *keys) {
    return add(keys, JWT_SET, SET_OF("7," RSA_KEY "," P256_KEY));
}
static uint32_t adds_a_key(struct jwt_handle *keys) {
    return add(keys, JWT_TEXT, ED_KEY);
}
static uint32_t adds_a_file(struct jwt_handle *keys) {
    return add(keys, JWT_TEXT, P256_PEM);
}
static uint32_t adds_bytes(struct jwt_handle *keys) {
    uint8_t der[1024];
    size_t items, kept;
    return jwt_keys_add(keys, JWT_TEXT, der, der_of(A2_PEM, der), &items, &kept);
}
static uint32_t adds_a_secret(struct jwt_handle *keys) {
    return add(keys, JWT_SECRET, HMAC_SECRET);
}
static uint32_t adds_a_certificate(struct jwt_handle *keys) {
    return add(keys, JWT_CERTIFICATE, P256_CERTIFICATE);
}
static uint32_t shares(struct jwt_handle *keys) {
    return jwt_share(&held, keys);
}
static uint32_t makes(struct jwt_handle *verifier) {
    return jwt_verifier_new(&held, TEXT(ALL_OPTIONS), 0, 0, verifier);
}

/* how often a call was out of memory that fills an empty handle; -1 for another status, or if something is left */
static long filling_refused_in_turn(uint32_t (*call)(struct jwt_handle *)) {
    struct state before = state_of(&held);
    for (long number = 1; number < 2000; number++) {
        struct jwt_handle h = JWT_NONE;
        requests = 0, refused_one = number;
        uint32_t status = call(&h);
        bool was_refused = requests >= number;
        refused_one = 0;
        if (status != (was_refused ? JWT_OUT_OF_MEMORY : JWT_OK) || (h.at != NULL) == was_refused) return -1;
        jwt_free(&h);
        if (!is_unchanged(&held, &before)) return -1;
        if (!was_refused) return number - 1;
    }
    return -1;
}

/* how often a call was out of memory that adds to a handle, which is unchanged then; -1 for another status, or if it is changed */
static long adding_refused_in_turn(uint32_t (*call)(struct jwt_handle *)) {
    struct jwt_handle keys = JWT_NONE;
    add(&keys, JWT_TEXT, SET_OF("7," HMAC_KEY));
    struct state before = state_of(&keys);
    for (long number = 1; number < 2000; number++) {
        requests = 0, refused_one = number;
        uint32_t status = call(&keys);
        bool was_refused = requests >= number;
        refused_one = 0;
        if (status != (was_refused ? JWT_OUT_OF_MEMORY : JWT_OK)) break;
        if (is_unchanged(&keys, &before) != was_refused) break;
        if (was_refused && verified(&keys, HS256, BY_HS256) != JWT_OK) break;
        if (was_refused) continue;
        jwt_free(&keys);
        return number - 1;
    }
    jwt_free(&keys);
    return -1;
}

/* how often the calls that look at an item were out of memory; -1 for another status */
static long looking_refused_in_turn(uint32_t bits) {
    struct state before = state_of(&held);
    for (long number = 1; number < 2000; number++) {
        requests = 0, refused_one = number;
        struct answer a = bits ? thumbprint(&held, 1, bits) : text_in(&held, 1, ROOM);
        bool was_refused = requests >= number;
        refused_one = 0;
        if (was_refused ? status_of(&a) != JWT_OUT_OF_MEMORY : a.status != JWT_OK) return -1;
        if (!is_unchanged(&held, &before)) return -1;
        if (!was_refused) return number - 1;
    }
    return -1;
}

/* how often signing was out of memory; -1 for another result than the token */
static long signing_refused_in_turn(void) {
    struct jwt_handle keys = JWT_NONE;
    long seen = 0, number = 0;
    bool was_refused = true;
    add(&keys, JWT_SECRET, HMAC_SECRET);
    while (was_refused && seen >= 0) {
        requests = 0, refused_one = ++number;
        struct answer a = sign(&keys, BY_HS256_HEADER, CLAIMS, ROOM);
        was_refused = requests >= number;
        refused_one = 0;
        if (was_refused && status_of(&a) == JWT_OUT_OF_MEMORY)
            seen++;
        else if (!gives(&a, BY_HS256))
            seen = -1;
    }
    jwt_free(&keys);
    return seen;
}

static void refused_memory(void) {
    static const struct {
        const char *name;
        uint32_t (*call)(struct jwt_handle *);
    } calls[] = {
        {"a set", adds_a_set},
        {"a set alone", adds_a_set_alone},
        {"a key", adds_a_key},
        {"a key in PEM", adds_a_file},
        {"a key in DER", adds_bytes},
        {"a secret", adds_a_secret},
        {"a certificate", adds_a_certificate},
    };
    add(&held, JWT_TEXT, SET_OF(HMAC_KEY "," RSA_KEY "," P256_KEY ",7"));
    for (size_t i = 0; i < COUNT(calls); i++) {
        is(calls[i].name, filling_refused_in_turn(calls[i].call) > 2, 1);
        is(calls[i].name, adding_refused_in_turn(calls[i].call) > 2, 1);
    }
    is("a share of keys", filling_refused_in_turn(shares) > 2, 1);
    is("a verifier", filling_refused_in_turn(makes) > 5, 1);
    is("a text", looking_refused_in_turn(0) > 0, 1);
    is("a thumbprint", looking_refused_in_turn(256) > 0, 1);
    is("a token", signing_refused_in_turn() > 2, 1);
    jwt_free(&held);
    /* to look at the algorithms takes no memory */
    add(&held, JWT_TEXT, ALL_KEYS);
    requests = 0;
    is("the algorithms of a key", info_at(&held, 1).verifies, RSA_BITS);
    is("the algorithms of all", info_status(&held, JWT_ALL), JWT_OK);
    is("nothing is requested", requests, 0);
    jwt_free(&held);
}

/* ---- large sets */

/* the seconds that it takes to read a set of this many odd items, to look at each, and to make a verifier */
static double seconds_for(size_t count) {
    static const char *const odd[] = {
        "7",
        "{\"kty\":\"AKP\"}",
        OCT("", "*"),
        OCT("\"kid\":7,", "YQ"),
        OCT("\"kid\":\"a\",\"use\":\"enc\",", "YQ"),
        SMALL_RSA,
        OCT("\"kid\":\"a\",", "AAAA"),
        OCT("\"kid\":\"hmac\",", "c3NoLXJzYQ"),
    };
    char *set = malloc(count * 80 + 1000);
    size_t len = (size_t)sprintf(set, "{\"keys\":["), items, kept, skipped = 0;
    for (size_t i = 0; i < count; i++) len += (size_t)sprintf(set + len, "%s,", odd[i % COUNT(odd)]);
    len += (size_t)sprintf(set + len, "%s]}", HMAC_KEY);
    struct jwt_handle keys = JWT_NONE;
    clock_t start = clock();
    uint32_t status = jwt_keys_add(&keys, JWT_TEXT, (const uint8_t *)set, len, &items, &kept);
    for (size_t i = 0; i < items; i++) skipped += info_at(&keys, i).status != JWT_OK;
    uint32_t by_last = verified(&keys, HS256, BY_HS256);
    double seconds = (double)(clock() - start) / CLOCKS_PER_SEC;
    is("a set of odd items and one key", status, JWT_OK);
    is("its items", items == count + 1 && kept == 1 && skipped == count, 1);
    is("its one key", by_last, JWT_OK);
    jwt_free(&keys);
    free(set);
    return seconds;
}

/* ten times the items take no more than twenty times the time; in the square they would take a hundred times */
static void large_sets(void) {
    seconds_for(1000);
    double few = seconds_for(10000), again = seconds_for(10000), many = seconds_for(100000);
    if (again > few) few = again;
    printf("10,000 odd items take %.3f seconds, and 100,000 %.3f\n", few, many);
    is("100,000 odd items in linear time", many < 20 * few + 0.05, 1);
}

int main(int argc, char **argv) {
    bool is_few = argc > 1 && strcmp(argv[1], "few") == 0;
    items();
    sources();
    bytes_of_keys();
    if (!is_few) zeros();
    texts_of_items();
    thumbprints();
    lone_keys_and_sets();
    sets_alone();
    bits_of_all();
    places();
    signed_tokens();
    refused_signing();
    empty_handles();
    wrong_handles();
    shares_of_keys();
    threads();
    refusals();
    refused_memory();
    if (!is_few) large_sets();
    printf("%d checks of the handles for C, %d failed\n", passed, failed);
    return failed != 0;
}
