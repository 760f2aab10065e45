/* Tests of the calls for C, from C. The last line counts. Tokens signed by HMAC are worked examples, or were signed by
   Python's hmac; keys.h and signatures.h have tokens of RFCs and rows; the others are made here and accepted by a verdict. */
#include "harness.h"
#include "keys.h"
#include "signatures.h"
#include <malloc.h>
#include <pthread.h>

#define TOKEN                                                                                                          \
    "eyJhbGciOiJIUzI1NiIsInR5cCI6IkpXVCJ9.eyJzdWIiOiJiQGIuY29tIiwiY29tcGFueSI6IkFDTUUiLCJleHAiOjI1MzI1MjQ4OTF9"        \
    ".9r56oF7ZliOBlOAyiOFperTGxBtPykRQiWNFxhDCW98"
#define OPTIONS "{\"algorithms\":[\"HS256\"]}"
/* a token that is verified once, by the keys of a text: the first status that is not JWT_OK */
static struct answer decoded(uint32_t source, const char *text, const char *options, const char *token, uint64_t now,
                             size_t room) {
    struct answer a = fresh();
    struct jwt_handle verifier = JWT_NONE;
    a.len = 0;
    a.status = make(source, text, options, SIZE_MAX, JWT_PREPARE_NOTHING, &verifier);
    if (a.status == JWT_OK) a = decode(&verifier, TEXT(token), now, room).a;
    jwt_free(&verifier);
    return a;
}

static long by_text(const char *text, const char *options, const char *token, uint64_t now) {
    struct answer a = decoded(JWT_TEXT, text, options, token, now, ROOM);
    return status_of(&a);
}

static long hmac(const char *token, const char *secret, const char *options, uint64_t now) {
    struct answer a = decoded(JWT_SECRET, secret, options, token, now, ROOM);
    return status_of(&a);
}

/* signed with an empty secret */
#define EMPTY_HS256 "eyJhbGciOiJIUzI1NiJ9.eyJleHAiOjF9.VKicOCCIc7GH9_2Xn_TAWzILcLOwxC8r9TbwU8bVlzc"

/* ---- tokens that a verdict accepts */

static size_t encode(const char *text, char *part) {
    static const char symbols[] = "ABCDEFGHIJKLMNOPQRSTUVWXYZabcdefghijklmnopqrstuvwxyz0123456789-_";
    size_t len = strlen(text), at = 0;
    for (size_t i = 0; i < len; i += 3) {
        size_t left = len - i;
        unsigned group = (uint8_t)text[i] << 16;
        if (left > 1) group |= (uint8_t)text[i + 1] << 8;
        if (left > 2) group |= (uint8_t)text[i + 2];
        for (size_t k = 0; k < (left > 2 ? 4 : left + 1); k++) part[at++] = symbols[group >> (18 - 6 * k) & 63];
    }
    part[at] = 0;
    return at;
}

static char made[8192];

/* the token of a header and claims, with the signature `s` */
static const char *token_of(const char *header, const char *claims) {
    size_t at = encode(header, made);
    made[at++] = '.';
    at += encode(claims, made + at);
    strcpy(made + at, ".cw");
    return made;
}

static struct answer verdict_on(const char *token, uint32_t algorithm, bool verdict, const char *options,
                                uint64_t now) {
    struct answer a = fresh();
    const char *dot = strrchr(token, '.');
    size_t message = dot ? (size_t)(dot - token) : 0;
    uint32_t claim = 99;
    a.status = jwt_decode_verdict(TEXT(token), algorithm, (const uint8_t *)token, message, BYTES("s"), verdict,
                                  TEXT(options), now, &claim, a.room, ROOM, &a.len);
    if (!is_place(claim, a.status)) a.status = UINT32_MAX;
    return a;
}

#define ES256 "{\"alg\":\"ES256\"}"
#define ES256_LISTED "{\"algorithms\":[\"ES256\"]"

/* the status for claims under ES256, at the time 1000 */
static long claims(const char *text, const char *options) {
    struct answer a = verdict_on(token_of(ES256, text), JWT_ES256, true, options, 1000);
    return status_of(&a);
}

/* ---- the tests */

static void accepted(void) {
    struct answer a = decoded(JWT_SECRET, "secret", OPTIONS, TOKEN, LAST, ROOM);
    is("claims are given", gives(&a, CLAIMS), 1);
    is("after the last moment", hmac(TOKEN, "secret", OPTIONS, LAST + 1), JWT_EXPIRED_SIGNATURE);
    is("another secret", hmac(TOKEN, "Secret", OPTIONS, LAST), JWT_INVALID_SIGNATURE);
    is("an empty secret", hmac(EMPTY_HS256, "", OPTIONS, 61), JWT_ALL_ZERO_SECRET);
}

static void rooms(void) {
    size_t needed = strlen(CLAIMS);
    for (size_t room = 0; room <= needed + 9; room++) {
        struct answer a = decoded(JWT_SECRET, "secret", OPTIONS, TOKEN, LAST, room);
        is("a buffer's status", a.status, room < needed ? JWT_BUFFER_TOO_SMALL : JWT_OK);
        is("the length that is needed", a.len, needed);
        is("bytes behind the result", is_kept(&a, room < needed ? 0 : needed), 1);
    }
}

static void options(void) {
    static const char *const refused[] = {
        "",
        "{",
        "null",
        "[]",
        "\"HS256\"",
        "{\"algorithms\":\"HS256\"}",
        "{\"algorithms\":[\"HS257\"]}",
        "{\"algorithms\":[\"HS256\"],\"leeways\":1}",
        "{\"algorithms\":[\"HS256\"],\"leeway\":-1}",
        "{\"algorithms\":[\"HS256\"],\"leeway\":1.5}",
        "{\"algorithms\":[\"HS256\"],\"aud\":\"a\"}",
        "{\"algorithms\":[\"HS256\"]} x",
        "\xff",
    };
    for (size_t i = 0; i < sizeof refused / sizeof *refused; i++)
        is(refused[i], hmac(TOKEN, "secret", refused[i], LAST), JWT_BAD_OPTIONS);
    is("options before the token", hmac("a", "secret", "{", LAST), JWT_BAD_OPTIONS);
    is("no algorithm", hmac(TOKEN, "secret", "{}", LAST), JWT_NO_USABLE_KEY);
    is("a required claim without a rule",
       hmac(TOKEN, "secret", "{\"algorithms\":[\"HS256\"],\"required_spec_claims\":[\"exp\",\"jti\",\"EXP\"]}", LAST),
       JWT_OK);
    is("another algorithm", hmac(TOKEN, "secret", "{\"algorithms\":[\"HS384\"]}", LAST), JWT_INVALID_ALGORITHM);
    is("every option",
       hmac(TOKEN, "secret",
            "{\"algorithms\":[\"HS256\",\"HS384\"],\"required_spec_claims\":[\"exp\",\"sub\"],\"leeway\":0,"
            "\"reject_tokens_expiring_in_less_than\":10,\"validate_exp\":true,\"validate_nbf\":true,"
            "\"validate_aud\":true,\"aud\":null,\"iss\":[\"i\"],\"sub\":\"b@b.com\",\"understood_crit\":[],"
            "\"issued_at\":true,\"required\":[\"company\"],\"texts\":[\"company\"],\"one_audience\":true}",
            LAST - 70),
       JWT_OK);
    struct jwt_handle keys = JWT_NONE, verifier = JWT_NONE;
    add(&keys, JWT_SECRET, "secret");
    is("options by a null pointer", jwt_verifier_new(&keys, NULL, 0, 0, 0, &verifier), JWT_BAD_OPTIONS);
    is("no verifier is made", verifier.at == NULL, 1);
    jwt_free(&keys);
}

static struct answer fault_of(const char *options) {
    struct answer a = fresh();
    a.status = jwt_options_fault(TEXT(options), a.room, ROOM, &a.len);
    return a;
}

/* the text is said of just those options that are refused */
static void faults_of_options(void) {
    static const struct {
        const char *options;
        const char *said;
    } rows[] = {
        {OPTIONS, ""},
        {"{}", ""},
        {"{\"strict\":null,\"leeway\":18446744073709551615,\"aud\":[]}", ""},
        {"", "the options are not JSON"},
        {"{", "the options are not JSON"},
        {"{\"algorithms\":[\"HS256\"]} x", "the options are not JSON"},
        {"\xff", "the options are not JSON"},
        {"null", "the options are not a JSON object"},
        {"[\"HS256\"]", "the options are not a JSON object"},
        {"{\"algs\":[\"HS256\"]}", "\"algs\" is not an option"},
        {"{\"z\":1,\"Aud\":1,\"leeway\":-1}", "\"Aud\" is not an option"},
        {"{\"a\\nb\\\"c\":1}", "\"a\\nb\\\"c\" is not an option"},
        {"{\"\":1}", "\"\" is not an option"},
        {"{\"algorithms\":\"RS256\"}", "\"algorithms\" is not a list of names of algorithms"},
        {"{\"algorithms\":[\"rs256\"]}", "\"algorithms\" is not a list of names of algorithms"},
        {"{\"algorithms\":[\"HS256\",1]}", "\"algorithms\" is not a list of names of algorithms"},
        {"{\"aud\":\"my-api\"}", "\"aud\" is not a list of strings"},
        {"{\"iss\":[\"i\",null]}", "\"iss\" is not a list of strings"},
        {"{\"understood_crit\":{}}", "\"understood_crit\" is not a list of strings"},
        {"{\"required_spec_claims\":[[]]}", "\"required_spec_claims\" is not a list of strings"},
        {"{\"strict\":true,\"aud\":[]}", "\"aud\" is empty in strict options"},
        {"{\"strict\":true,\"iss\":[]}", "\"iss\" is empty in strict options"},
        {"{\"strict\":true,\"required_spec_claims\":[\"jti\"]}",
         "\"required_spec_claims\" has another claim than exp, nbf, aud, iss and sub in strict options"},
        {"{\"sub\":[\"s\"]}", "\"sub\" is not a string"},
        {"{\"aud\":[\"\"]}", "\"aud\" has an empty text"},
        {"{\"aud\":[\"web\",\"\"],\"validate_aud\":false}", "\"aud\" has an empty text"},
        {"{\"iss\":[\"\",\"web\"],\"strict\":true}", "\"iss\" has an empty text"},
        {"{\"sub\":\"\"}", "\"sub\" has an empty text"},
        {"{\"sub\":\"\",\"iss\":[\"\"]}", "\"iss\" has an empty text"},
        {"{\"sub\":\"\",\"aud\":[null]}", "\"aud\" is not a list of strings"},
        {"{\"sub\":\" \",\"aud\":[\" \"],\"iss\":null}", ""},
        {"{\"leeway\":-1}", "\"leeway\" is not a whole number from 0 to 2^64 - 1"},
        {"{\"leeway\":1.5}", "\"leeway\" is not a whole number from 0 to 2^64 - 1"},
        {"{\"leeway\":18446744073709551616}", "\"leeway\" is not a whole number from 0 to 2^64 - 1"},
        {"{\"reject_tokens_expiring_in_less_than\":\"1\"}",
         "\"reject_tokens_expiring_in_less_than\" is not a whole number from 0 to 2^64 - 1"},
        {"{\"validate_exp\":1}", "\"validate_exp\" is not true or false"},
        {"{\"validate_nbf\":\"true\"}", "\"validate_nbf\" is not true or false"},
        {"{\"validate_aud\":0}", "\"validate_aud\" is not true or false"},
        {"{\"strict\":\"\"}", "\"strict\" is not true or false"},
        {"{\"issued_at\":1}", "\"issued_at\" is not true or false"},
        {"{\"one_audience\":\"true\"}", "\"one_audience\" is not true or false"},
        {"{\"required\":\"jti\"}", "\"required\" is not a list of strings"},
        {"{\"texts\":[\"jti\",7]}", "\"texts\" is not a list of strings"},
        {"{\"issued_at\":null,\"required\":null,\"texts\":[],\"one_audience\":null}", ""},
        {"{\"strict\":true,\"required\":[\"jti\"],\"texts\":[\"jti\"]}", ""},
        {"{\"one_audience\":true,\"texts\":[],\"issuedAt\":true}", "\"issuedAt\" is not an option"},
    };
    for (size_t i = 0; i < COUNT(rows); i++) {
        struct answer a = fault_of(rows[i].options);
        is(rows[i].options, gives(&a, rows[i].said), 1);
        is(rows[i].options, hmac(TOKEN, "secret", rows[i].options, LAST) == JWT_BAD_OPTIONS, *rows[i].said != 0);
    }
    struct answer a = fresh();
    a.status = jwt_options_fault(TEXT("{\"algs\":1}"), a.room, 22, &a.len);
    is("a buffer too small for a fault", status_of(&a), JWT_BUFFER_TOO_SMALL);
    is("the fault's length", a.len, 23);
}

/* ---- texts in options */

static struct answer quoted_in(const void *bytes, size_t size, size_t room) {
    struct answer a = fresh();
    a.status = jwt_quote(bytes, size, a.room, room, &a.len);
    return a;
}

/* the status with an audience that is written into the options by `form` */
static long for_audience(const char *form, const char *audience, size_t len) {
    char options[300];
    snprintf(options, sizeof options, form, (int)len, audience);
    return hmac(TOKEN, "secret", options, LAST + 1);
}

static void quoted(void) {
    static const struct {
        const char *text, *json;
    } rows[] = {
        {"", "\"\""},
        {"web", "\"web\""},
        {"\"", "\"\\\"\""},
        {"\\", "\"\\\\\""},
        {"a\"],\"leeway\":9,\"iss\":[\"b", "\"a\\\"],\\\"leeway\\\":9,\\\"iss\\\":[\\\"b\""},
        {"\b\f\n\r\t", "\"\\b\\f\\n\\r\\t\""},
        {"\x01\x1f\x7f/", "\"\\u0001\\u001f\x7f/\""},
        {"\xc3\xa9\xe2\x80\xa8\xf0\x9f\x98\x80", "\"\xc3\xa9\xe2\x80\xa8\xf0\x9f\x98\x80\""},
        {"\\u0041", "\"\\\\u0041\""},
    };
    for (size_t i = 0; i < COUNT(rows); i++) {
        size_t len = strlen(rows[i].json);
        struct answer a = quoted_in(rows[i].text, strlen(rows[i].text), ROOM);
        is(rows[i].json, gives(&a, rows[i].json), 1);
        a = quoted_in(rows[i].text, strlen(rows[i].text), len);
        is("a buffer that a string just fits", gives(&a, rows[i].json), 1);
        a = quoted_in(rows[i].text, strlen(rows[i].text), len - 1);
        is("a buffer too small for a string", status_of(&a) == JWT_BUFFER_TOO_SMALL && a.len == len, 1);
    }
    struct answer a = quoted_in(NULL, 0, ROOM);
    is("a text by a null pointer", gives(&a, "\"\""), 1);
    static const char *const others[] = {"\xff", "a\x80", "\xc0\x80", "\xe2\x82", "\xed\xa0\x80", "\xf4\x90\x80\x80"};
    for (size_t i = 0; i < sizeof others / sizeof *others; i++) {
        a = quoted_in(others[i], strlen(others[i]), ROOM);
        is("bytes that are not UTF-8", status_of(&a), JWT_UTF8);
    }
}

/* each byte that is a text is read back, in the place of an option or a claim */
static void quoted_texts_are_read_back(void) {
    for (int byte = 0; byte < 256; byte++) {
        char text[3] = {'a', (char)byte, 'b'}, room[16], json[64];
        size_t len;
        uint32_t type;
        struct answer a = quoted_in(text, 3, ROOM);
        is("the status of a byte", status_of(&a), byte < 128 ? JWT_OK : JWT_UTF8);
        if (a.status != JWT_OK) continue;
        int size = snprintf(json, sizeof json, "{\"m\":%.*s}", (int)a.len, a.room);
        uint32_t status = jwt_member(json, (size_t)size, TEXT("[\"m\"]"), &type, room, sizeof room, &len);
        is("a byte that is read back", status == JWT_OK && type == JWT_STRING && len == 3 && memcmp(room, text, 3) == 0,
           1);
    }
    static const char audience[] = "a\"],\"leeway\":999999999,\"iss\":[\"b";
    struct answer a = quoted_in(audience, strlen(audience), ROOM);
    is("an audience with options of its own",
       for_audience("{\"algorithms\":[\"HS256\"],\"aud\":[\"%.*s\"]}", audience, strlen(audience)), JWT_OK);
    is("the same as jwt_quote writes it", for_audience("{\"algorithms\":[\"HS256\"],\"aud\":[%.*s]}", a.room, a.len),
       JWT_EXPIRED_SIGNATURE);
}

static void kinds_of_tokens(void) {
    is("an empty token", hmac("", "secret", OPTIONS, LAST), JWT_INVALID_TOKEN);
    is("one dot", hmac("e30.e30", "secret", OPTIONS, LAST), JWT_INVALID_TOKEN);
    is("padding", hmac("e30=.e30.", "secret", OPTIONS, LAST), JWT_BASE64);
    is("no JSON", hmac("_w.e30.", "secret", OPTIONS, LAST), JWT_JSON);
    is("no header", hmac("e30.e30.", "secret", OPTIONS, LAST), JWT_JSON);
    is("crit", hmac(token_of("{\"alg\":\"HS256\",\"crit\":[\"x\"],\"x\":1}", "{}"), "secret", OPTIONS, LAST),
       JWT_INVALID_CRIT);
    is("by a curve", hmac(token_of(ES256, "{}"), "secret", "{\"algorithms\":[\"HS256\",\"ES256\"]}", LAST),
       JWT_INVALID_ALGORITHM);
}

static void kinds_of_claims(void) {
    is("within its time", claims("{\"exp\":940}", ES256_LISTED "}"), JWT_OK);
    is("after its time", claims("{\"exp\":939}", ES256_LISTED "}"), JWT_EXPIRED_SIGNATURE);
    is("before its time", claims("{\"exp\":940,\"nbf\":1061}", ES256_LISTED ",\"validate_nbf\":true}"),
       JWT_IMMATURE_SIGNATURE);
    is("too late to begin with", claims("{\"exp\":5}", ES256_LISTED ",\"reject_tokens_expiring_in_less_than\":6}"),
       JWT_INVALID_TOKEN);
    is("another issuer", claims("{\"exp\":940,\"iss\":\"j\"}", ES256_LISTED ",\"iss\":[\"i\"]}"), JWT_INVALID_ISSUER);
    is("another audience", claims("{\"exp\":940,\"aud\":[\"b\"]}", ES256_LISTED ",\"aud\":[\"a\"]}"),
       JWT_INVALID_AUDIENCE);
    is("an audience that nobody set", claims("{\"exp\":940,\"aud\":\"a\"}", ES256_LISTED "}"), JWT_INVALID_AUDIENCE);
    is("another subject", claims("{\"exp\":940,\"sub\":\"t\"}", ES256_LISTED ",\"sub\":\"s\"}"), JWT_INVALID_SUBJECT);
    is("claims that are not an object", claims("[]", ES256_LISTED "}"), JWT_JSON);
    is("claims that are not JSON", claims("", ES256_LISTED "}"), JWT_JSON);
}

static void kinds_with_a_claim(void) {
    static const char *const names[] = {"exp", "nbf", "aud", "iss", "sub"};
    for (uint32_t i = 0; i < 5; i++) {
        char asked[200], given[100], text[100];
        struct answer a = fresh();
        snprintf(asked, sizeof asked, ES256_LISTED ",\"required_spec_claims\":[\"%s\"]}", names[i]);
        is("a missing claim", claims("{}", asked), JWT_MISSING_EXP + i);
        a.status = jwt_text(JWT_OF_STATUS, JWT_MISSING_EXP + i, a.room, ROOM, &a.len);
        snprintf(text, sizeof text, "Missing required claim: %s", names[i]);
        is(text, gives(&a, text), 1);
        snprintf(asked, sizeof asked,
                 ES256_LISTED ",\"required_spec_claims\":[],\"validate_nbf\":true,\"iss\":[\"i\"],\"sub\":\"s\"}");
        snprintf(given, sizeof given, "{\"%s\":true}", names[i]);
        is("a malformed claim", claims(given, asked), JWT_MALFORMED_EXP + i);
        a = fresh();
        a.status = jwt_text(JWT_OF_STATUS, JWT_MALFORMED_EXP + i, a.room, ROOM, &a.len);
        snprintf(text, sizeof text, "Invalid format for claim: %s", names[i]);
        is(text, gives(&a, text), 1);
    }
}

static void verdicts(void) {
    const char *token = token_of(ES256, "{\"exp\":940}");
    struct answer a = verdict_on(token, JWT_ES256, true, ES256_LISTED "}", 1000);
    is("a yes", gives(&a, "{\"exp\":940}"), 1);
    a = verdict_on(token, JWT_ES256, false, ES256_LISTED "}", 1000);
    is("a no", status_of(&a), JWT_INVALID_SIGNATURE);
    a = verdict_on(token, JWT_RS256, true, ES256_LISTED "}", 1000);
    is("a yes by another algorithm", status_of(&a), JWT_INVALID_ALGORITHM);
    for (uint32_t number = 0; number < 20; number += 13) {
        a = verdict_on(token, number, true, "", 1000);
        is("a number of no algorithm", status_of(&a), JWT_INVALID_ALGORITHM_NAME);
    }
    a = verdict_on(token, JWT_ES256, true, "{}", 1000);
    is("no algorithm is listed", status_of(&a), JWT_MISSING_ALGORITHM);
    a = verdict_on(token, UINT32_MAX, true, ES256_LISTED "}", 1000);
    is("the greatest number", status_of(&a), JWT_INVALID_ALGORITHM_NAME);
    static const struct {
        const char *name, *token, *message, *signature;
    } others[] = {
        {"a yes to another message", "eyJhbGciOiJFUzI1NiJ9.eyJleHAiOjk0MH0.cw", "eyJhbGciOiJFUzI1NiJ9.eyJleHAiOjk0MH",
         "s"},
        {"a yes to another signature", "eyJhbGciOiJFUzI1NiJ9.eyJleHAiOjk0MH0.cw",
         "eyJhbGciOiJFUzI1NiJ9.eyJleHAiOjk0MH0", "t"},
        {"a yes to nothing", "eyJhbGciOiJFUzI1NiJ9.eyJleHAiOjk0MH0.cw", "", ""},
        {"a yes to another token", "eyJhbGciOiJFUzI1NiJ9.e30.cw", "eyJhbGciOiJFUzI1NiJ9.eyJleHAiOjk0MH0", "s"},
    };
    for (size_t i = 0; i < COUNT(others); i++) {
        uint32_t claim = 99;
        a = fresh();
        a.status =
            jwt_decode_verdict(TEXT(others[i].token), JWT_ES256, BYTES(others[i].message), BYTES(others[i].signature),
                               true, TEXT(ES256_LISTED "}"), 1000, &claim, a.room, ROOM, &a.len);
        is(others[i].name, status_of(&a) == JWT_INVALID_SIGNATURE && claim == 0, 1);
    }
}

static void signed_parts(void) {
    static const struct {
        uint32_t number;
        const char *name;
    } algorithms[] = {
        {JWT_HS256, "HS256"}, {JWT_HS384, "HS384"}, {JWT_HS512, "HS512"}, {JWT_RS256, "RS256"},
        {JWT_RS384, "RS384"}, {JWT_RS512, "RS512"}, {JWT_PS256, "PS256"}, {JWT_PS384, "PS384"},
        {JWT_PS512, "PS512"}, {JWT_ES256, "ES256"}, {JWT_ES384, "ES384"}, {JWT_EDDSA, "EdDSA"},
    };
    uint32_t algorithm;
    size_t message;
    struct answer a;
    for (uint32_t i = 0; i < 12; i++) {
        char header[40];
        snprintf(header, sizeof header, "{\"alg\":\"%s\"}", algorithms[i].name);
        const char *token = token_of(header, "no JSON");
        a = fresh();
        a.status = jwt_signed_part(TEXT(token), &algorithm, &message, (uint8_t *)a.room, ROOM, &a.len);
        is("a signature's bytes", gives(&a, "s"), 1);
        is("the header's algorithm", algorithm, algorithms[i].number);
        is("the message's length", message, strlen(token) - 3);
    }
    a = fresh();
    a.status = jwt_signed_part(TEXT(TOKEN), &algorithm, &message, (uint8_t *)a.room, 31, &a.len);
    is("a buffer too small for a signature", status_of(&a), JWT_BUFFER_TOO_SMALL);
    is("the signature's length", a.len, 32);
    is("the algorithm all the same", algorithm, JWT_HS256);
    is("the message's length all the same", message, strlen(TOKEN) - 44);
    static const struct {
        const char *token;
        uint32_t status;
    } refused[] = {{"", JWT_INVALID_TOKEN},
                   {"e30=.e30.", JWT_BASE64},
                   {"e30.e30.", JWT_JSON},
                   {"eyJhbGciOiJIUzI1NiJ9..Y", JWT_BASE64}};
    for (size_t i = 0; i < 4; i++) {
        a = fresh();
        a.status = jwt_signed_part(TEXT(refused[i].token), &algorithm, &message, (uint8_t *)a.room, ROOM, &a.len);
        is("no signed part", status_of(&a), refused[i].status);
        is("the algorithm of none", algorithm, 0);
        is("the message's length of none", message, 0);
    }
}

static struct answer part_in(const char *token, uint32_t part, size_t room) {
    struct answer a = fresh();
    a.status = jwt_unverified(TEXT(token), part, a.room, room, &a.len);
    return a;
}

static void unverified_parts(void) {
    static const struct {
        const char *header, *payload, *read;
        uint32_t part;
    } read[] = {
        {"{\"x\":[1, \"\\u00e9\"],\"kid\":\"k\",\"alg\":\"EdDSA\"}", "?",
         "{\"x\":[1, \"\\u00e9\"],\"kid\":\"k\",\"alg\":\"EdDSA\"}", JWT_HEADER},
        {"?", " { \"sub\" : \"s\", \"exp\" : 1.0 } ", " { \"sub\" : \"s\", \"exp\" : 1.0 } ", JWT_PAYLOAD},
        /* other algorithms than the twelve, and no header */
        {"{\"alg\":\"none\"}", "{}", "{\"alg\":\"none\"}", JWT_HEADER},
        {"{\"alg\":\"none\"}", "{}", "{}", JWT_PAYLOAD},
        {"{\"alg\":\"ES512\",\"crit\":[]}", "", "{\"alg\":\"ES512\",\"crit\":[]}", JWT_HEADER},
        {"{}", "{\"exp\":null}", "{}", JWT_HEADER},
        {"{\"alg\":7,\"kid\":{}}", "", "{\"alg\":7,\"kid\":{}}", JWT_HEADER},
        /* the last of several members of one name; a float is the nearest double then */
        {"", "{\"b\":1,\"a\":1,\"a\":1.50}", "{\"a\":1.5,\"b\":1}", JWT_PAYLOAD},
        {"{\"alg\":\"none\",\"alg\":\"HS256\",\"x\":[{\"a\":1,\"\\u0061\":2}]}", "",
         "{\"alg\":\"HS256\",\"x\":[{\"a\":2}]}", JWT_HEADER},
    };
    for (size_t i = 0; i < sizeof read / sizeof *read; i++) {
        struct answer a = part_in(token_of(read[i].header, read[i].payload), read[i].part, ROOM);
        is(read[i].read, gives(&a, read[i].read), 1);
    }
    static const struct {
        const char *token;
        uint32_t part, status;
    } refused[] = {
        {"", JWT_HEADER, JWT_INVALID_TOKEN},
        {"e30.e30", JWT_HEADER, JWT_INVALID_TOKEN},
        {"e30.e30", JWT_PAYLOAD, JWT_INVALID_TOKEN},
        /* one dot more is a part of the header */
        {"e30.e30.e30.", JWT_HEADER, JWT_BASE64},
        {"e30.?.e30.", JWT_PAYLOAD, JWT_OK},
        {"e30=.e30.", JWT_HEADER, JWT_BASE64},
        {"e30.e30=.", JWT_PAYLOAD, JWT_BASE64},
        {"e31.e30.", JWT_HEADER, JWT_BASE64},
        {".e30.", JWT_HEADER, JWT_JSON},
        {"e30..", JWT_PAYLOAD, JWT_JSON},
        {"ew.e30.", JWT_HEADER, JWT_JSON},
        {"_w.e30.", JWT_HEADER, JWT_JSON},
        {"e30.ew.", JWT_PAYLOAD, JWT_JSON},
        /* an array, a string, null */
        {"W10.e30.", JWT_HEADER, JWT_JSON},
        {"e30.W10.", JWT_PAYLOAD, JWT_JSON},
        {"IiI.e30.", JWT_HEADER, JWT_JSON},
        {"e30.bnVsbA.", JWT_PAYLOAD, JWT_JSON},
        {"e30.e30.", 0, JWT_UNKNOWN_NUMBER},
        {"e30.e30.", 3, JWT_UNKNOWN_NUMBER},
        {"", 3, JWT_UNKNOWN_NUMBER},
        {"e30.e30.", UINT32_MAX, JWT_UNKNOWN_NUMBER},
        /* the other parts are not read */
        {"e30.?.?", JWT_HEADER, JWT_OK},
        {"?.e30.?", JWT_PAYLOAD, JWT_OK},
    };
    for (size_t i = 0; i < sizeof refused / sizeof *refused; i++) {
        struct answer a = part_in(refused[i].token, refused[i].part, ROOM);
        is(refused[i].token, status_of(&a), refused[i].status);
    }
    struct answer a = part_in(TOKEN, JWT_HEADER, ROOM);
    is("a header", gives(&a, "{\"alg\":\"HS256\",\"typ\":\"JWT\"}"), 1);
    a = part_in(TOKEN, JWT_PAYLOAD, ROOM);
    is("a payload", gives(&a, CLAIMS), 1);
    for (size_t room = 0; room <= 30; room++) {
        a = part_in(TOKEN, JWT_HEADER, room);
        is("a header's buffer", status_of(&a), room < 27 ? JWT_BUFFER_TOO_SMALL : JWT_OK);
        is("a header's length", a.len, 27);
    }
    a.status = jwt_unverified(NULL, 0, JWT_HEADER, a.room, ROOM, &a.len);
    is("a part of nothing", a.status == JWT_INVALID_TOKEN && a.len == 0, 1);
}

static void checked_claims(void) {
    static const struct {
        const char *claims, *options;
        uint64_t now;
        uint32_t status;
    } rows[] = {
        {CLAIMS, OPTIONS, LAST, JWT_OK},
        {CLAIMS, OPTIONS, LAST + 1, JWT_EXPIRED_SIGNATURE},
        /* no algorithms, and any of them */
        {CLAIMS, "{}", LAST, JWT_OK},
        {CLAIMS, "{\"algorithms\":[\"RS256\",\"ES256\",\"EdDSA\"]}", LAST, JWT_OK},
        {CLAIMS, "{\"leeway\":0}", LAST - 60, JWT_OK},
        {CLAIMS, "{\"leeway\":0}", LAST - 59, JWT_EXPIRED_SIGNATURE},
        {CLAIMS, "{\"sub\":\"b@b.com\"}", 0, JWT_OK},
        {CLAIMS, "{\"sub\":\"b\"}", 0, JWT_INVALID_SUBJECT},
        {CLAIMS, "{\"required_spec_claims\":[\"aud\"],\"validate_exp\":false}", UINT64_MAX, JWT_MISSING_AUD},
        {"{}", "{}", 0, JWT_MISSING_EXP},
        {"{}", "{\"required_spec_claims\":[]}", 0, JWT_OK},
        {"{\"exp\":5}", "{\"reject_tokens_expiring_in_less_than\":6}", 0, JWT_INVALID_TOKEN},
        {"{\"exp\":9,\"nbf\":100}", "{\"validate_nbf\":true,\"leeway\":1}", 9, JWT_IMMATURE_SIGNATURE},
        {"{\"exp\":9,\"iss\":\"j\"}", "{\"iss\":[\"i\"]}", 0, JWT_INVALID_ISSUER},
        {"{\"exp\":9,\"iss\":7}", "{\"iss\":[\"i\"]}", 0, JWT_MALFORMED_ISS},
        {"{\"exp\":9,\"aud\":[\"a\",\"b\"]}", "{\"aud\":[\"b\"]}", 0, JWT_OK},
        {"{\"exp\":9,\"aud\":[\"a\"]}", "{\"aud\":[\"b\"]}", 0, JWT_INVALID_AUDIENCE},
        {"{\"exp\":9,\"aud\":\"a\"}", "{}", 0, JWT_INVALID_AUDIENCE},
        {"{\"exp\":\"9\"}", "{\"required_spec_claims\":[]}", 0, JWT_MALFORMED_EXP},
        {"{\"exp\":9}", "{\"strict\":true}", 9, JWT_EXPIRED_SIGNATURE},
        {"{\"exp\":9}", "{\"strict\":true}", 8, JWT_OK},
        /* texts that are not read, first that of the options */
        {CLAIMS, "", LAST, JWT_BAD_OPTIONS},
        {"", "[]", LAST, JWT_BAD_OPTIONS},
        {"{}", "{\"algs\":1}", 0, JWT_BAD_OPTIONS},
        {"{}", "{\"aud\":[\"\"]}", 0, JWT_BAD_OPTIONS},
        {"", "{}", LAST, JWT_BAD_CLAIMS},
        {"[]", "{}", LAST, JWT_BAD_CLAIMS},
        {"null", "{\"required_spec_claims\":[]}", LAST, JWT_BAD_CLAIMS},
        {"{\"exp\":9", "{}", 0, JWT_BAD_CLAIMS},
        {"{\"a\":\"\xff\"}", "{}", 0, JWT_BAD_CLAIMS},
    };
    uint32_t claim;
    for (size_t i = 0; i < COUNT(rows); i++) {
        claim = 99;
        is(rows[i].claims, jwt_check_claims(TEXT(rows[i].claims), TEXT(rows[i].options), rows[i].now, &claim),
           rows[i].status);
        is("no place of a claim", claim, 0);
    }
    is("no bytes by null pointers", jwt_check_claims(NULL, 0, NULL, 0, 0, &claim), JWT_BAD_OPTIONS);
    is("no claims by a null pointer", jwt_check_claims(NULL, 0, TEXT("{}"), 0, &claim), JWT_BAD_CLAIMS);
}

/* ---- keys of every family, by the text of one key and by a set of all of them */

#define NAMED                                                                                                          \
    "eyJhbGciOiJIUzI1NiIsImtpZCI6ImIifQ.eyJzdWIiOiJiQGIuY29tIiwiY29tcGFueSI6IkFDTUUiLCJleHAiOjI1MzI1MjQ4OTF9."         \
    "1JskHpT-3D98qY5_mhPDE5NQG_VgV4hhbnIyZ_RH4xk"
#define SET                                                                                                            \
    "{\"keys\":[{\"kty\":\"oct\",\"kid\":\"a\",\"k\":\"YQ\"},{\"kty\":\"oct\",\"kid\":\"b\",\"k\":\"c2VjcmV0\"}]}"

static const struct {
    const char *token, *key, *options;
} by_all[] = {
    {BY_HS256, HMAC_KEY, "{\"algorithms\":[\"HS256\"]}"}, {BY_RS256, RSA_KEY, "{\"algorithms\":[\"RS256\"]}"},
    {BY_PS256, RSA_KEY, "{\"algorithms\":[\"PS256\"]}"},  {BY_ES256, P256_KEY, "{\"algorithms\":[\"ES256\"]}"},
    {BY_ES384, P384_KEY, "{\"algorithms\":[\"ES384\"]}"}, {BY_EDDSA, ED_KEY, "{\"algorithms\":[\"EdDSA\"]}"},
};
#define ALL (sizeof by_all / sizeof *by_all)

/* the token with another character at this place of its signature */
static const char *tampered(const char *token, size_t place) {
    strcpy(made, token);
    char *at = strrchr(made, '.') + 1 + place;
    *at = *at == 'A' ? 'B' : 'A';
    return made;
}

static void keys_of_all(void) {
    for (size_t i = 0; i < ALL; i++) {
        const char *token = by_all[i].token, *key = by_all[i].key, *options = by_all[i].options;
        struct answer a = decoded(JWT_TEXT, key, options, token, LAST, ROOM);
        is(options, gives(&a, CLAIMS), 1);
        a = decoded(JWT_TEXT, ALL_KEYS, options, token, LAST, ROOM);
        is(options, gives(&a, CLAIMS), 1);
        is("after the last moment by a key", by_text(key, options, token, LAST + 1), JWT_EXPIRED_SIGNATURE);
        for (size_t place = 0; place < 40; place += 13) {
            is("a tampered signature", by_text(key, options, tampered(token, place), LAST), JWT_INVALID_SIGNATURE);
            is("a tampered signature by a set", by_text(ALL_KEYS, options, tampered(token, place), LAST),
               JWT_INVALID_SIGNATURE);
        }
        for (size_t j = 0; j < ALL; j++)
            if (by_all[j].key != key)
                is(by_all[j].key, by_text(by_all[j].key, options, token, LAST), JWT_NO_USABLE_KEY);
        is("another algorithm than those listed", by_text(key, "{\"algorithms\":[\"RS512\"]}", token, LAST),
           strcmp(key, RSA_KEY) == 0 ? JWT_INVALID_ALGORITHM : JWT_NO_USABLE_KEY);
        is("no algorithm listed", by_text(key, "{}", token, LAST), JWT_NO_USABLE_KEY);
        is("algorithms of all families", by_text(key, ALL_OPTIONS, token, LAST), JWT_OK);
        a = decoded(JWT_TEXT, key, options, token, LAST, strlen(CLAIMS) - 1);
        is("a buffer too small for claims by a key", status_of(&a), JWT_BUFFER_TOO_SMALL);
        is("the length that they need by a key", a.len, strlen(CLAIMS));
    }
}

/* ---- messages to sign elsewhere */

#define BY_CURVE_HEADER "{\"alg\":\"ES256\",\"typ\":\"JWT\"}"
#define BY_CURVE_MESSAGE "eyJhbGciOiJFUzI1NiIsInR5cCI6IkpXVCJ9.eyJleHAiOjk0MH0"
/* 64 letters, and two numbers of them in DER */
#define LETTERS "aaaaaaaaaaaaaaaaaaaaaaaaaaaaaaaaaaaaaaaaaaaaaaaaaaaaaaaaaaaaaaaa"
#define DER_OF_LETTERS "0D\2 aaaaaaaaaaaaaaaaaaaaaaaaaaaaaaaa\2 aaaaaaaaaaaaaaaaaaaaaaaaaaaaaaaa"

static struct answer input_in(const char *header, const char *payload, uint32_t *algorithm, size_t room) {
    struct answer a = fresh();
    *algorithm = 99;
    a.status = jwt_signing_input(TEXT(header), TEXT(payload), algorithm, (uint8_t *)a.room, room, &a.len);
    return a;
}

/* the front of a token, before its last dot */
static const char *front_of(const char *token) {
    strcpy(made, token);
    *strrchr(made, '.') = 0;
    return made;
}

static void signing_inputs(void) {
    static const struct {
        const char *header, *payload, *token;
        uint32_t algorithm;
    } rows[] = {
        {A1_HEADER, A1_PAYLOAD, A1_TOKEN, JWT_HS256},
        {"{\"alg\":\"RS256\"}", A1_PAYLOAD, A2_TOKEN, JWT_RS256},
        {"{\"alg\":\"ES256\"}", A1_PAYLOAD, A3_TOKEN, JWT_ES256},
        {"{\"alg\":\"PS512\",\"kid\":\"rsa\",\"typ\":\"JWT\"}", CLAIMS, BY_PS512, JWT_PS512},
        {BY_CURVE_HEADER, "{\"exp\":940}", BY_CURVE_MESSAGE ".", JWT_ES256},
    };
    uint32_t algorithm;
    for (size_t i = 0; i < COUNT(rows); i++) {
        struct answer a = input_in(rows[i].header, rows[i].payload, &algorithm, ROOM);
        is(rows[i].header, gives(&a, front_of(rows[i].token)), 1);
        is("its algorithm", algorithm, rows[i].algorithm);
    }
    for (size_t room = 0; room <= 60; room += 10) {
        struct answer a = input_in(BY_CURVE_HEADER, "{\"exp\":940}", &algorithm, room);
        is("a message's buffer", status_of(&a), room < strlen(BY_CURVE_MESSAGE) ? JWT_BUFFER_TOO_SMALL : JWT_OK);
        is("the message's length", a.len, strlen(BY_CURVE_MESSAGE));
        is("the algorithm all the same", algorithm, JWT_ES256);
    }
}

/* What is signed is read back as it is: no object has a name twice, and every number, space and escape stays. */
static void exact_inputs(void) {
    static const char *const payloads[] = {
        "{}",
        " { \"b\" : 1.10 , \"a\" : [ 18446744073709551616 , -0.0 , 1E+2 ] } \n",
        "{\"z\":\"\\u0041\\/\",\"a\":{\"z\":1,\"a\":{\"z\":2}}}",
        "{\"\xc3\xa9\":\"\xf0\x9f\x98\x80\"}",
    };
    static const struct {
        const char *header, *payload;
        uint32_t status;
    } refused[] = {
        {"", "{}", JWT_BAD_HEADER},
        {"{}", "[]", JWT_BAD_HEADER},
        {"[]", "{}", JWT_BAD_HEADER},
        {"{\"alg\":\"none\"}", "{}", JWT_BAD_HEADER},
        {"{\"alg\":\"ES512\"}", "{}", JWT_BAD_HEADER},
        {"{\"alg\":\"ES256\",\"typ\":1}", "{}", JWT_BAD_HEADER},
        {ES256 " x", "{}", JWT_BAD_HEADER},
        {"{\"alg\":\"ES256\",\"alg\":\"ES256\"}", "{}", JWT_BAD_HEADER},
        {"{\"alg\":\"ES256\",\"\\u0061lg\":\"ES256\"}", "{}", JWT_BAD_HEADER},
        {"{\"alg\":\"ES256\",\"x\":[{\"a\":1,\"a\":1}]}", "{}", JWT_BAD_HEADER},
        {ES256, "", JWT_BAD_CLAIMS},
        {ES256, "[]", JWT_BAD_CLAIMS},
        {ES256, "null", JWT_BAD_CLAIMS},
        {ES256, "\"{}\"", JWT_BAD_CLAIMS},
        {ES256, "{\"a\":1", JWT_BAD_CLAIMS},
        {ES256, "{\"a\":\"\xff\"}", JWT_BAD_CLAIMS},
        {ES256, "{\"a\":1,\"a\":1}", JWT_BAD_CLAIMS},
        {ES256, "{\"a\":1,\"b\":2,\"\\u0061\":1}", JWT_BAD_CLAIMS},
        {ES256, "{\"a\":[{\"o\":{\"a\":1,\"a\":2}}]}", JWT_BAD_CLAIMS},
    };
    uint32_t algorithm;
    for (size_t i = 0; i < COUNT(payloads); i++) {
        struct answer a = input_in(ES256, payloads[i], &algorithm, ROOM - 1);
        is(payloads[i], status_of(&a), JWT_OK);
        strcpy(a.room + a.len, ".");
        struct answer read = part_in(a.room, JWT_PAYLOAD, ROOM);
        is(payloads[i], gives(&read, payloads[i]), 1);
    }
    for (size_t i = 0; i < COUNT(refused); i++) {
        struct answer a = input_in(refused[i].header, refused[i].payload, &algorithm, ROOM);
        is(refused[i].payload, status_of(&a), refused[i].status);
        is("the algorithm of no message", algorithm, 0);
    }
}

static struct answer numbers_of(const uint8_t *der, size_t len, uint32_t algorithm, size_t room) {
    struct answer a = fresh();
    a.status = jwt_ecdsa_signature(der, len, algorithm, (uint8_t *)a.room, room, &a.len);
    return a;
}

static void pairs(void) {
    /* the numbers 1 and 255 (ITU-T X.690 section 8.3), and a 0 too many before the first */
    static const uint8_t der[] = {0x30, 7, 2, 1, 1, 2, 2, 0, 255}, longer[] = {0x30, 8, 2, 2, 0, 1, 2, 2, 0, 255};
    struct answer a = numbers_of(der, sizeof der, JWT_ES256, ROOM);
    is("two numbers", status_of(&a), JWT_OK);
    is("their length", a.len, 64);
    is("the first and the second", a.room[31] == 1 && (uint8_t)a.room[63] == 255 && a.room[0] == 0 && a.room[62] == 0,
       1);
    a = numbers_of(der, sizeof der, JWT_ES384, ROOM);
    is("their length by ES384", a.len, 96);
    a = numbers_of(der, sizeof der, JWT_ES256, 63);
    is("a buffer too small for two numbers", status_of(&a), JWT_BUFFER_TOO_SMALL);
    a = numbers_of(longer, sizeof longer, JWT_ES256, ROOM);
    is("a 0 too many", status_of(&a), JWT_INVALID_SIGNATURE);
    a = numbers_of(der, sizeof der - 1, JWT_ES256, ROOM);
    is("numbers cut short", status_of(&a), JWT_INVALID_SIGNATURE);
    a = numbers_of(BYTES(DER_OF_LETTERS), JWT_ES256, ROOM);
    is("the numbers of letters", gives(&a, LETTERS), 1);
    a = numbers_of(NULL, 0, JWT_ES256, ROOM);
    is("no numbers", status_of(&a), JWT_INVALID_SIGNATURE);
    a = numbers_of(der, sizeof der, JWT_RS256, ROOM);
    is("two numbers by RS256", status_of(&a), JWT_INVALID_ALGORITHM);
    a = numbers_of(der, sizeof der, 0, ROOM);
    is("two numbers by no algorithm", status_of(&a), JWT_INVALID_ALGORITHM_NAME);
}

/* the names of docs/RULES.md, by their numbers */
static void test_texts(void) {
    static const char *names[21] = {
        [JWT_TEST_HAS_THREE_PARTS] = "HasThreeParts",
        [JWT_TEST_HEADER_IS_BASE64URL] = "HeaderIsBase64url",
        [JWT_TEST_HEADER_IS_JSON] = "HeaderIsJson",
        [JWT_TEST_HEADER_IS_VALID] = "HeaderIsValid",
        [JWT_TEST_CRIT_IS_UNDERSTOOD] = "CritIsUnderstood",
        [JWT_TEST_KEY_IS_FOUND] = "KeyIsFound",
        [JWT_TEST_KEY_ALG_MATCHES] = "KeyAlgMatches",
        [JWT_TEST_KEY_IS_USABLE] = "KeyIsUsable",
        [JWT_TEST_ALGORITHMS_ARE_CONFIGURED] = "AlgorithmsAreConfigured",
        [JWT_TEST_ALGORITHM_IS_ALLOWED] = "AlgorithmIsAllowed",
        [JWT_TEST_KEY_FITS_ALGORITHM] = "KeyFitsAlgorithm",
        [JWT_TEST_ALGORITHMS_SHARE_FAMILY] = "AlgorithmsShareFamily",
        [JWT_TEST_SIGNATURE_IS_BASE64URL] = "SignatureIsBase64url",
        [JWT_TEST_SIGNATURE_IS_ACCEPTED] = "SignatureIsAccepted",
        [JWT_TEST_PAYLOAD_IS_BASE64URL] = "PayloadIsBase64url",
        [JWT_TEST_PAYLOAD_IS_JSON] = "PayloadIsJson",
        [JWT_TEST_CLAIMS_MATCH_TYPE] = "ClaimsMatchType",
        [JWT_TEST_CLAIMS_ARE_AN_OBJECT] = "ClaimsAreAnObject",
        [JWT_TEST_CLAIMS_ARE_VALID] = "ClaimsAreValid",
        [JWT_TEST_FURTHER_RULES_HOLD] = "FurtherRulesHold",
    };
    struct answer a;
    for (uint32_t i = 1; i < COUNT(names); i++) {
        a = fresh();
        a.status = jwt_text(JWT_OF_TEST, i, a.room, 32, &a.len);
        is(names[i], gives(&a, names[i]), 1);
    }
    static const uint32_t others[] = {0, 21, 102, 257, UINT32_MAX};
    for (size_t i = 0; i < sizeof others / sizeof *others; i++) {
        a = fresh();
        a.status = jwt_text(JWT_OF_TEST, others[i], a.room, ROOM, &a.len);
        is("no test", status_of(&a), JWT_UNKNOWN_NUMBER);
    }
    for (uint32_t i = 1; i < COUNT(names); i++)
        for (size_t room = 0; room <= 32; room++) {
            a = fresh();
            a.status = jwt_text(JWT_OF_TEST, i, a.room, room, &a.len);
            is("a name's buffer", status_of(&a), room < strlen(names[i]) ? JWT_BUFFER_TOO_SMALL : JWT_OK);
            is("a name's length", a.len, strlen(names[i]));
        }
    is("a name and no buffer", jwt_text(JWT_OF_TEST, JWT_TEST_KEY_IS_FOUND, NULL, 0, &a.len), JWT_BUFFER_TOO_SMALL);
    is("its length", a.len, 10);
}

static void status_texts(void) {
    static const struct {
        uint32_t status;
        const char *text;
    } rows[] = {
        {JWT_OK, "OK"},
        {JWT_INVALID_TOKEN, "InvalidToken"},
        {JWT_INVALID_SIGNATURE, "InvalidSignature"},
        {JWT_INVALID_ECDSA_KEY, "InvalidEcdsaKey"},
        {JWT_INVALID_EDDSA_KEY, "InvalidEddsaKey"},
        {JWT_RSA_FAILED_SIGNING, "RsaFailedSigning"},
        {JWT_INVALID_ALGORITHM_NAME, "InvalidAlgorithmName"},
        {JWT_UNSUPPORTED_ALGORITHM, "UnsupportedAlgorithm"},
        {JWT_INVALID_KEY_FORMAT, "InvalidKeyFormat"},
        {JWT_EXPIRED_SIGNATURE, "ExpiredSignature"},
        {JWT_INVALID_ISSUER, "InvalidIssuer"},
        {JWT_INVALID_AUDIENCE, "InvalidAudience"},
        {JWT_INVALID_SUBJECT, "InvalidSubject"},
        {JWT_IMMATURE_SIGNATURE, "ImmatureSignature"},
        {JWT_INVALID_ALGORITHM, "InvalidAlgorithm"},
        {JWT_MISSING_ALGORITHM, "MissingAlgorithm"},
        {JWT_INVALID_RSA_KEY, "RSA key invalid"},
        {JWT_SIGNING, "Signing failed"},
        {JWT_PROVIDER, "Private key, and not a public one"},
        {JWT_BASE64, "Base64 error"},
        {JWT_JSON, "JSON error"},
        {JWT_UTF8, "UTF-8 error"},
        {JWT_OUT_OF_MEMORY, "Out of memory"},
        {JWT_CLOCK_BEFORE_EPOCH, "Clock before 1970"},
        {JWT_INVALID_CRIT, "InvalidCrit"},
        {JWT_NO_KEY, "NoKey"},
        {JWT_MISSING_EXP, "Missing required claim: exp"},
        {JWT_MISSING_NBF, "Missing required claim: nbf"},
        {JWT_MISSING_AUD, "Missing required claim: aud"},
        {JWT_MISSING_ISS, "Missing required claim: iss"},
        {JWT_MISSING_SUB, "Missing required claim: sub"},
        {JWT_MISSING_CLAIM, "Missing required claim"},
        {JWT_MALFORMED_EXP, "Invalid format for claim: exp"},
        {JWT_MALFORMED_NBF, "Invalid format for claim: nbf"},
        {JWT_MALFORMED_AUD, "Invalid format for claim: aud"},
        {JWT_MALFORMED_ISS, "Invalid format for claim: iss"},
        {JWT_MALFORMED_SUB, "Invalid format for claim: sub"},
        {JWT_MALFORMED_CLAIM, "Invalid format for claim"},
        {JWT_BUFFER_TOO_SMALL, "Buffer too small"},
        {JWT_BAD_OPTIONS, "Invalid options"},
        {JWT_UNKNOWN_NUMBER, "Unknown number"},
        {JWT_BAD_HEADER, "Invalid header"},
        {JWT_BAD_CLAIMS, "Invalid claims"},
        {JWT_BAD_KEY, "Invalid key"},
        {JWT_ALL_ZERO_SECRET, "Secret is empty or all zeros"},
        {JWT_NO_VERIFIER, "No verifier"},
        {JWT_HANDLE_IN_USE, "Handle already in use"},
        {JWT_NO_USABLE_KEY, "No key fits the algorithms"},
        {JWT_TOKEN_TOO_LONG, "Token too long"},
        {JWT_NO_MEMBER, "No such member"},
        {JWT_KEY_AS_SECRET, "Secret is the text of a key"},
        {JWT_NOT_FOR_SIGNATURES, "Key is not for signatures"},
        {JWT_IS_CERTIFICATE, "Certificate, and not a key"},
        {JWT_NO_KEYS, "No keys"},
        {JWT_UNFIT_KEY, "Key fits no algorithm"},
    };
    struct answer a;
    bool is_status[300] = {false};
    for (size_t i = 0; i < COUNT(rows); i++) {
        a = fresh();
        a.status = jwt_text(JWT_OF_STATUS, rows[i].status, a.room, ROOM, &a.len);
        is(rows[i].text, gives(&a, rows[i].text), 1);
        is_status[rows[i].status] = true;
    }
    /* every other number, also one between those of claims */
    for (uint32_t i = 0; i <= 300; i++) {
        if (i < 300 && is_status[i]) continue;
        a = fresh();
        a.status = jwt_text(JWT_OF_STATUS, i < 300 ? i : UINT32_MAX, a.room, ROOM, &a.len);
        is("no status", status_of(&a), JWT_UNKNOWN_NUMBER);
    }
    a = fresh();
    a.status = jwt_text(JWT_OF_STATUS, 2, a.room, 15, &a.len);
    is("a buffer too small for a text", status_of(&a), JWT_BUFFER_TOO_SMALL);
    is("the text's length", a.len, 16);
}

/* an object of this many levels, the object itself counted */
static const char *nested(const char *member, int levels) {
    static char text[1024];
    int at = sprintf(text, "{\"%s\":", member);
    for (int i = 1; i < levels; i++) text[at++] = '[';
    for (int i = 1; i < levels; i++) text[at++] = ']';
    strcpy(text + at, "}");
    return text;
}

static void nesting(void) {
    is("claims of 127 levels", claims(nested("a", 127), ES256_LISTED ",\"required_spec_claims\":[]}"), JWT_OK);
    is("claims of 128 levels", claims(nested("a", 128), ES256_LISTED ",\"required_spec_claims\":[]}"), JWT_JSON);
    struct answer a =
        verdict_on(token_of(ES256, nested("a", 127)), JWT_ES256, true, ES256_LISTED ",\"required_spec_claims\":[]}", 0);
    is("the result of 127 levels", gives(&a, nested("a", 127)), 1);
    is("options of 128 levels", hmac(TOKEN, "secret", nested("aud", 128), LAST), JWT_BAD_OPTIONS);
}

/* ---- the first test that fails, and the times at which a token is accepted */

/* signed by Python's hmac with the secret "secret": a payload that is no part, no JSON and no object; no claims; an exp and an nbf,
   in both orders; the greatest exp */
#define HS256 "eyJhbGciOiJIUzI1NiJ9"
#define NO_PART HS256 ".e30=.NcAGCHOVW_-rw9FPyaOV6cJ902LwwkC0GZk7GERxKgA"
#define NO_JSON HS256 ".ew.XRlHx4Bzpht9oK-XmSaCubx8ZChCNflb30xYD8BG-n0"
#define NO_OBJECT HS256 ".W10.tYdGHAF7YBfiFrnqtcsM-PIsGDradtWY3a2xM-xQiN8"
#define NO_CLAIMS HS256 ".e30.XmNK3GpH3Ys_7wsYBfq4C3M6goz71I7dTgUkuIa5lyQ"
#define FROM_1000_TO_2000 HS256 ".eyJleHAiOjIwMDAsIm5iZiI6MTAwMH0.IheWuM0icGboaAhSNH2zUM82Rtx8aMnINxWx3gA8ahk"
#define FROM_2000_TO_1000 HS256 ".eyJleHAiOjEwMDAsIm5iZiI6MjAwMH0.gQ485viUWWpSiwwZqYNacsKczSeUPgwpGkoEN1_Z7Q8"
#define TO_THE_GREATEST HS256 ".eyJleHAiOjE4NDQ2NzQ0MDczNzA5NTUxNjE1fQ.r9n6bEgfkKtyPKHGungLm-fDrFPurC8XD9pxNaUJUM4"
#define NOT_REQUIRED "{\"algorithms\":[\"HS256\"],\"required_spec_claims\":[]"
/* a key set with the secret under the id of NAMED, and another member */
#define SET_WITH(member) "{\"keys\":[{\"kty\":\"oct\",\"kid\":\"b\"," member "\"k\":\"c2VjcmV0\"}]}"

/* Whether the first failed test has this name; if it is empty, the token is accepted. With another status than JWT_OK no verifier is
   made. */
static void fails(uint32_t source, const char *token, const char *key, const char *options, uint64_t now,
                  const char *name, uint32_t status) {
    struct answer a = fresh();
    struct jwt_handle v = JWT_NONE;
    is("whether a verifier is made", make(source, key, options, SIZE_MAX, JWT_PREPARE_NOTHING, &v), status);
    if (status != JWT_OK) return;
    struct judged got = decode(&v, TEXT(token), now, ROOM);
    is("whether it is accepted", status_of(&got.a) == JWT_OK, *name == 0);
    a.status = jwt_text(JWT_OF_TEST, got.said.test, a.room, ROOM, &a.len);
    is(*name ? name : "no test fails", *name ? gives(&a, name) : got.said.test == 0, 1);
    jwt_free(&v);
}

/* Whether the token is accepted from the first to the last of these times, and at no other; if the first is after the last, it is accepted at
   no time. With another status than JWT_OK no verifier is made. */
static void lasts(uint32_t source, const char *token, const char *key, const char *options, uint64_t first,
                  uint64_t last, uint32_t status) {
    const uint64_t before = first ? first - 1 : 0, after = last == UINT64_MAX ? last : last + 1;
    const uint64_t times[] = {first, last, before, after};
    struct jwt_handle v = JWT_NONE;
    is("whether a verifier is made", make(source, key, options, SIZE_MAX, JWT_PREPARE_NOTHING, &v), status);
    for (size_t i = 0; i < 4; i++) {
        bool is_within = status == JWT_OK && first <= times[i] && times[i] <= last;
        struct judged got = decode(&v, TEXT(token), times[i], ROOM);
        is("at a time", status_of(&got.a) == JWT_OK, is_within);
        is("the last time", got.said.last == (is_within ? last : 0), 1);
    }
    jwt_free(&v);
}

static void failed_tests(void) {
    static const struct {
        const char *token, *secret, *options;
        uint64_t now;
        const char *name;
        uint32_t status;
    } rows[] = {
        {TOKEN, "secret", OPTIONS, LAST, "", JWT_OK},
        {TOKEN, "secret", OPTIONS, LAST + 1, "ClaimsAreValid", JWT_OK},
        {TOKEN, "Secret", OPTIONS, LAST, "SignatureIsAccepted", JWT_OK},
        {TOKEN, "Secret", OPTIONS, LAST + 1, "SignatureIsAccepted", JWT_OK},
        {"", "secret", OPTIONS, LAST, "HasThreeParts", JWT_OK},
        {"e30.e30", "secret", OPTIONS, LAST, "HasThreeParts", JWT_OK},
        {"e30=.e30.", "secret", OPTIONS, LAST, "HeaderIsBase64url", JWT_OK},
        {"_w.e30.", "secret", OPTIONS, LAST, "HeaderIsJson", JWT_OK},
        {"e30.e30.", "secret", OPTIONS, LAST, "HeaderIsValid", JWT_OK},
        /* the header {"alg":"HS256","crit":["x"],"x":1} */
        {"eyJhbGciOiJIUzI1NiIsImNyaXQiOlsieCJdLCJ4IjoxfQ.e30.", "secret", OPTIONS, LAST, "CritIsUnderstood", JWT_OK},
        {TOKEN, "secret", "{}", LAST, "no verifier", JWT_NO_USABLE_KEY},
        {TOKEN, "secret", "{\"algorithms\":[\"HS384\"]}", LAST, "AlgorithmIsAllowed", JWT_OK},
        /* the header {"alg":"ES256"} */
        {"eyJhbGciOiJFUzI1NiJ9.e30.", "secret", "{\"algorithms\":[\"ES256\"]}", LAST, "no verifier", JWT_NO_USABLE_KEY},
        {HS256 ".e30.Y", "secret", OPTIONS, LAST, "SignatureIsBase64url", JWT_OK},
        {NO_PART, "secret", OPTIONS, LAST, "PayloadIsBase64url", JWT_OK},
        {NO_JSON, "secret", OPTIONS, LAST, "PayloadIsJson", JWT_OK},
        {NO_OBJECT, "secret", OPTIONS, LAST, "ClaimsAreAnObject", JWT_OK},
        {NO_CLAIMS, "secret", OPTIONS, LAST, "ClaimsAreValid", JWT_OK},
        {NO_CLAIMS, "secret", NOT_REQUIRED "}", LAST, "", JWT_OK},
    };
    for (size_t i = 0; i < COUNT(rows); i++)
        fails(JWT_SECRET, rows[i].token, rows[i].secret, rows[i].options, rows[i].now, rows[i].name, rows[i].status);
    struct jwt_handle v = JWT_NONE;
    struct jwt_verdict said = {99, 99, 99, 99, 99, 99, 99, 99};
    make(JWT_SECRET, "secret", OPTIONS, 0, 0, &v);
    is("no buffer", jwt_verifier_decode(&v, TEXT(TOKEN), LAST, NULL, 0, &said), JWT_BUFFER_TOO_SMALL);
    is("the claims without a buffer", said.last == LAST && said.len == strlen(CLAIMS) && said.algorithm == JWT_HS256,
       1);
    is("no test without a buffer", said.test == 0 && said.claim == 0 && said.has_kid == 0 && said.as_signed == 1, 1);
    is("the only verifier", (long)said.verifier, 0);
    struct judged got = decode(&v, NULL, 0, LAST, ROOM);
    is("a token by a null pointer", status_of(&got.a), JWT_INVALID_TOKEN);
    is("its test", got.said.test, JWT_TEST_HAS_THREE_PARTS);
    jwt_free(&v);
}

static void failed_tests_by_keys(void) {
    for (size_t i = 0; i < ALL; i++) {
        const char *token = by_all[i].token, *one = by_all[i].key, *options = by_all[i].options;
        fails(JWT_TEXT, token, one, options, LAST, "", JWT_OK);
        fails(JWT_TEXT, token, ALL_KEYS, options, LAST, "", JWT_OK);
        fails(JWT_TEXT, token, one, options, LAST + 1, "ClaimsAreValid", JWT_OK);
        fails(JWT_TEXT, token, ALL_KEYS, options, LAST + 1, "ClaimsAreValid", JWT_OK);
        fails(JWT_TEXT, tampered(token, 0), one, options, LAST, "SignatureIsAccepted", JWT_OK);
        fails(JWT_TEXT, tampered(token, 0), ALL_KEYS, options, LAST, "SignatureIsAccepted", JWT_OK);
        fails(JWT_TEXT, token, by_all[(i + 3) % ALL].key, options, LAST, "no verifier", JWT_NO_USABLE_KEY);
        lasts(JWT_TEXT, token, one, options, 0, LAST, JWT_OK);
        lasts(JWT_TEXT, token, ALL_KEYS, options, 0, LAST, JWT_OK);
        lasts(JWT_TEXT, tampered(token, 0), one, options, 1, 0, JWT_OK);
        lasts(JWT_TEXT, tampered(token, 0), ALL_KEYS, options, 1, 0, JWT_OK);
    }
    static const struct {
        const char *token, *set, *name;
        uint32_t status;
    } rows[] = {
        {NAMED, SET, "", JWT_OK},
        {TOKEN, SET, "KeyIsFound", JWT_OK},
        {NAMED, "{\"keys\":[" HMAC_KEY "]}", "KeyIsFound", JWT_OK},
        {NAMED, SET_WITH("\"alg\":\"HS256\","), "", JWT_OK},
        {NAMED, SET_WITH("\"alg\":\"HS512\","), "no verifier", JWT_NO_USABLE_KEY},
        {NAMED, "{\"keys\":[{\"kty\":\"oct\",\"kid\":\"b\",\"alg\":\"HS512\",\"k\":\"c2VjcmV0\"}," HMAC_KEY "]}",
         "KeyAlgMatches", JWT_OK},
        {NAMED, "{\"keys\":[{\"kty\":\"oct\",\"kid\":\"b\",\"k\":\"YQ\"}]}", "SignatureIsAccepted", JWT_OK},
        /* the first of two keys with one kid counts */
        {NAMED,
         "{\"keys\":[{\"kty\":\"oct\",\"kid\":\"b\",\"k\":\"YQ\"},{\"kty\":\"oct\",\"kid\":\"b\",\"k\":\"c2VjcmV0\"}]}",
         "SignatureIsAccepted", JWT_OK},
        /* items that are skipped are as if they were not in the set */
        {NAMED, "{\"keys\":[]}", "no verifier", JWT_NO_USABLE_KEY},
        {NAMED, "{\"keys\":[{\"kid\":1}]}", "no verifier", JWT_NO_USABLE_KEY},
        {NAMED, "{\"keys\":[{\"kty\":\"oct\",\"kid\":\"b\",\"k\":\"*\"}]}", "no verifier", JWT_NO_USABLE_KEY},
        {NAMED, "{\"keys\":[{\"kty\":\"oct\",\"kid\":\"b\",\"k\":\"*\"}," HMAC_KEY "]}", "KeyIsFound", JWT_OK},
        {NAMED, "{\"keys\":[{\"kty\":\"OKP\",\"crv\":\"Ed25519\",\"kid\":\"b\",\"x\":\"AAAA\"}," HMAC_KEY "]}",
         "KeyIsFound", JWT_OK},
        {NAMED,
         "{\"keys\":[{\"kty\":\"oct\",\"kid\":\"b\",\"k\":\"AAAA\"},{\"kty\":\"oct\",\"kid\":\"b\",\"k\":\"c2VjcmV0\"}]"
         "}",
         "", JWT_OK},
        /* a key of another family under the token's kid */
        {BY_RS256, "{\"keys\":[{\"kty\":\"oct\",\"kid\":\"rsa\",\"k\":\"c2VjcmV0\"}]}", "AlgorithmIsAllowed", JWT_OK},
        {"a", SET, "HasThreeParts", JWT_OK},
    };
    for (size_t i = 0; i < COUNT(rows); i++)
        fails(JWT_TEXT, rows[i].token, rows[i].set, OPTIONS, LAST, rows[i].name, rows[i].status);
}

static void times_of_tokens(void) {
    static const struct {
        const char *token, *secret, *options;
        uint64_t first, last;
        uint32_t status;
    } rows[] = {
        {TOKEN, "secret", OPTIONS, 0, LAST, JWT_OK},
        {TOKEN, "secret", "{\"algorithms\":[\"HS256\"],\"leeway\":0}", 0, LAST - 60, JWT_OK},
        {TOKEN, "secret", "{\"algorithms\":[\"HS256\"],\"reject_tokens_expiring_in_less_than\":10}", 0, LAST - 10,
         JWT_OK},
        {TOKEN, "Secret", OPTIONS, 1, 0, JWT_OK},
        {TOKEN, "secret", "{\"algorithms\":[\"HS256\"],\"sub\":\"s\"}", 1, 0, JWT_OK},
        {TOKEN, "secret", "{\"algorithms\":[\"HS256\"],\"required_spec_claims\":[\"exp\",\"iss\"]}", 1, 0, JWT_OK},
        {TOKEN, "secret", "{}", 1, 0, JWT_NO_USABLE_KEY},
        {"", "secret", OPTIONS, 1, 0, JWT_OK},
        {NO_JSON, "secret", OPTIONS, 1, 0, JWT_OK},
        {FROM_1000_TO_2000, "secret", NOT_REQUIRED ",\"validate_nbf\":true}", 940, 2060, JWT_OK},
        {FROM_1000_TO_2000, "secret", NOT_REQUIRED ",\"validate_nbf\":true,\"leeway\":2000}", 0, 4000, JWT_OK},
        {FROM_1000_TO_2000, "secret", NOT_REQUIRED ",\"validate_exp\":false}", 0, UINT64_MAX, JWT_OK},
        {FROM_2000_TO_1000, "secret", NOT_REQUIRED ",\"validate_nbf\":true}", 1, 0, JWT_OK},
        {FROM_2000_TO_1000, "secret", NOT_REQUIRED ",\"validate_nbf\":true,\"leeway\":500}", 1500, 1500, JWT_OK},
        {TO_THE_GREATEST, "secret", OPTIONS, 0, UINT64_MAX, JWT_OK},
        {NO_CLAIMS, "secret", OPTIONS, 1, 0, JWT_OK},
        {NO_CLAIMS, "secret", NOT_REQUIRED "}", 0, UINT64_MAX, JWT_OK},
    };
    for (size_t i = 0; i < COUNT(rows); i++)
        lasts(JWT_SECRET, rows[i].token, rows[i].secret, rows[i].options, rows[i].first, rows[i].last, rows[i].status);
    lasts(JWT_TEXT, NAMED, SET, OPTIONS, 0, LAST, JWT_OK);
    lasts(JWT_TEXT, TOKEN, SET, OPTIONS, 1, 0, JWT_OK);
}

/* ---- out of memory: every request of a call is refused in turn */

/* a call, and whether its result is right */
static bool claims_given(struct answer *a) {
    *a = decoded(JWT_SECRET, "secret", OPTIONS, TOKEN, LAST, ROOM);
    return gives(a, CLAIMS);
}

static bool vouched_claims_given(struct answer *a) {
    *a = verdict_on(token_of(ES256, "{\"exp\":940}"), JWT_ES256, true, ES256_LISTED ",\"aud\":[\"a\",\"b\"]}", 1000);
    return gives(a, "{\"exp\":940}");
}

static bool signed_part_given(struct answer *a) {
    uint32_t algorithm = 99;
    size_t message = 99;
    a->status = jwt_signed_part(TEXT(TOKEN), &algorithm, &message, (uint8_t *)a->room, ROOM, &a->len);
    if (a->status != JWT_OK) a->len += algorithm + message;
    return status_of(a) == JWT_OK && a->len == 32 && algorithm == JWT_HS256 && message == strlen(TOKEN) - 44;
}

static bool header_given(struct answer *a) {
    a->status = jwt_unverified(TEXT(TOKEN), JWT_HEADER, a->room, ROOM, &a->len);
    return gives(a, "{\"alg\":\"HS256\",\"typ\":\"JWT\"}");
}

static bool payload_given(struct answer *a) {
    a->status = jwt_unverified(TEXT(TOKEN), JWT_PAYLOAD, a->room, ROOM, &a->len);
    return gives(a, CLAIMS);
}

static bool rules_checked(struct answer *a) {
    uint32_t claim = 99;
    a->status = jwt_check_claims(TEXT("{\"exp\":9,\"sub\":7}"), TEXT("{\"iss\":[\"i\"],\"texts\":[\"iss\",\"sub\"]}"),
                                 9, &claim);
    a->len = a->status == JWT_MALFORMED_CLAIM ? 0 : claim;
    return a->status == JWT_MALFORMED_CLAIM && claim == 2;
}

static bool set_claims_given(struct answer *a) {
    *a = decoded(JWT_TEXT, SET, OPTIONS, NAMED, LAST, ROOM);
    return gives(a, CLAIMS);
}

static bool key_claims_given(struct answer *a) {
    *a = decoded(JWT_TEXT, RSA_KEY, "{\"algorithms\":[\"RS256\"]}", BY_RS256, LAST, ROOM);
    return gives(a, CLAIMS);
}

static bool claims_by_all_keys_given(struct answer *a) {
    *a = decoded(JWT_TEXT, ALL_KEYS, "{\"algorithms\":[\"PS256\"]}", BY_PS256, LAST, ROOM);
    return gives(a, CLAIMS);
}

static bool token_given(struct answer *a) {
    *a = signed_by(JWT_SECRET, "secret", "{\"alg\":\"HS256\",\"kid\":\"b\"}", CLAIMS, ROOM);
    return gives(a, NAMED);
}

static bool input_given(struct answer *a) {
    uint32_t algorithm;
    *a = input_in(BY_CURVE_HEADER, "{\"exp\":940}", &algorithm, ROOM);
    if (a->status != JWT_OK) a->len += algorithm;
    return gives(a, BY_CURVE_MESSAGE) && algorithm == JWT_ES256;
}

static bool numbers_given(struct answer *a) {
    static const uint8_t der[] = {0x30, 6, 2, 1, 1, 2, 1, 2};
    *a = numbers_of(der, sizeof der, JWT_ES256, ROOM);
    return status_of(a) == JWT_OK && a->len == 64 && a->room[31] == 1 && a->room[63] == 2;
}

static bool fault_given(struct answer *a) {
    *a = fault_of("{\"algs\":1}");
    return gives(a, "\"algs\" is not an option");
}

/* Has one call of a verifier: memory is refused once the verifier is made. Returns the first test that fails. */
static uint32_t by_verifier(struct answer *a, uint32_t source, const char *token, const char *key, const char *options,
                            uint64_t now) {
    struct jwt_handle v = JWT_NONE;
    long allowed = refused_one;
    refused_one = 0;
    make(source, key, options, 0, JWT_PREPARE_NOTHING, &v);
    requests = 0, refused_one = allowed;
    struct judged got = decode(&v, TEXT(token), now, ROOM);
    jwt_free(&v);
    *a = got.a;
    return got.said.test;
}

static bool test_given(struct answer *a) {
    uint32_t test = by_verifier(a, JWT_SECRET, TOKEN, "Secret", OPTIONS, LAST);
    return status_of(a) == JWT_INVALID_SIGNATURE && test == JWT_TEST_SIGNATURE_IS_ACCEPTED;
}

static bool test_by_a_key_given(struct answer *a) {
    uint32_t test = by_verifier(a, JWT_TEXT, BY_ES256, P256_KEY, "{\"algorithms\":[\"ES256\"]}", LAST + 1);
    return status_of(a) == JWT_EXPIRED_SIGNATURE && test == JWT_TEST_CLAIMS_ARE_VALID;
}

static bool further_test_given(struct answer *a) {
    uint32_t test =
        by_verifier(a, JWT_SECRET, TOKEN, "secret", "{\"algorithms\":[\"HS256\"],\"required\":[\"jti\"]}", LAST);
    return status_of(a) == JWT_MISSING_CLAIM && test == JWT_TEST_FURTHER_RULES_HOLD;
}

static bool no_test_by_a_set_given(struct answer *a) {
    return by_verifier(a, JWT_TEXT, NAMED, SET, OPTIONS, LAST) == 0 && gives(a, CLAIMS);
}

/* a name twice: the claims are written from their value */
static bool claims_of_value_given(struct answer *a) {
    return by_verifier(a, JWT_SECRET, TWICE, "secret", OPTIONS, 0) == 0 && gives(a, "{\"a\":2,\"exp\":9}");
}

static bool string_given(struct answer *a) {
    a->status = jwt_quote(TEXT("a\"b\nc"), a->room, ROOM, &a->len);
    return gives(a, "\"a\\\"b\\nc\"");
}

static bool member_given(struct answer *a) {
    uint32_t type = 99;
    a->status = jwt_member(TEXT("{\"o\":{\"a\":[1.10, \"b\"]}}"), TEXT("[\"o\",\"a\"]"), &type, a->room, ROOM, &a->len);
    if (a->status != JWT_OK) a->len += type;
    return gives(a, "[1.10,\"b\"]") && type == JWT_ARRAY;
}

static bool checked_member_given(struct answer *a) {
    a->status =
        jwt_check_member(TEXT("{\"o\":{\"roles\":[\"user\",\"admin\"]}}"), TEXT("[\"o\",\"roles\"]"), TEXT("admin"));
    a->len = 0;
    return a->status == JWT_OK;
}

/* how often the call was out of memory, until no request was left to refuse; -1 for another status */
static long refused_in_turn(bool (*call)(struct answer *)) {
    long seen = 0;
    for (long number = 1; number < 1000; number++) {
        struct answer a = fresh();
        requests = 0, refused_one = number;
        bool is_right = call(&a), was_refused = requests >= number;
        refused_one = 0;
        if (!was_refused) return is_right ? seen : -1;
        if (!is_right && status_of(&a) != JWT_OUT_OF_MEMORY) return -1;
        seen += !is_right;
    }
    return -1;
}

/* Each call is refused in turn, in eight rounds. Freed blocks that malloc keeps for a thread count as used: after three rounds there are few
   more of them, while a block that a refusal leaves is there as often as memory is refused. */
static void refused_memory(void) {
    static const struct {
        const char *name;
        bool (*call)(struct answer *);
    } calls[] = {
        {"claims", claims_given},
        {"vouched claims", vouched_claims_given},
        {"a signed part", signed_part_given},
        {"a header", header_given},
        {"claims by a set", set_claims_given},
        {"claims by a key", key_claims_given},
        {"claims by a set of all families", claims_by_all_keys_given},
        {"a token", token_given},
        {"a message to be signed", input_given},
        {"two numbers", numbers_given},
        {"a fault of options", fault_given},
        {"a string", string_given},
        {"a test", test_given},
        {"a test by a key", test_by_a_key_given},
        {"a test of a further rule", further_test_given},
        {"no test by a set", no_test_by_a_set_given},
        {"claims with a name twice", claims_of_value_given},
        {"a payload", payload_given},
        {"a check of claims", rules_checked},
        {"a member", member_given},
        {"a check of a member", checked_member_given},
    };
    size_t before = 0;
    for (int round = 0; round < 8; round++) {
        for (size_t i = 0; i < COUNT(calls); i++) is(calls[i].name, refused_in_turn(calls[i].call) > 0, 1);
        if (round == 2) before = mallinfo2().uordblks;
    }
    is("memory after all that was refused", mallinfo2().uordblks <= before + 4096, 1);
}

/* ---- sizes: no call is out of memory because of a length */

#define GREATEST (1 << 20)

static char text[GREATEST + 100], token[3 * GREATEST + 300];
static char big_room[2 * GREATEST];

/* `before`, this many letters, and `after` */
static const char *filled(const char *before, size_t count, const char *after) {
    size_t at = strlen(before);
    memcpy(text, before, at);
    memset(text + at, 'a', count);
    strcpy(text + at + count, after);
    return text;
}

static bool is_in_room(uint32_t status, size_t len, const char *wanted) {
    return status == JWT_OK && len == strlen(wanted) && memcmp(big_room, wanted, len) == 0;
}

/* the status of a token by a verifier of a key's text, with the claims in big_room */
static uint32_t in_big_room(const char *key, const char *token, size_t token_len, size_t *len) {
    struct jwt_handle v = JWT_NONE;
    struct jwt_verdict said = {0};
    uint32_t status = make(JWT_TEXT, key, OPTIONS, SIZE_MAX, JWT_PREPARE_NOTHING, &v);
    if (status == JWT_OK) status = jwt_verifier_decode(&v, token, token_len, 1000, big_room, sizeof big_room, &said);
    jwt_free(&v);
    *len = said.len;
    return status == JWT_OK && said.last != 1000 ? UINT32_MAX : status;
}

/* the status of the thumbprint of a key */
static uint32_t thumbprint(const char *key, size_t *len) {
    struct jwt_handle keys = JWT_NONE;
    uint32_t status = add(&keys, JWT_TEXT, key);
    if (status == JWT_OK) status = jwt_thumbprint(&keys, 0, 256, big_room, sizeof big_room, len);
    jwt_free(&keys);
    return status;
}

/* Of this size: claims that are issued and read back by a set, the set's text, and the key that verifies and that has a thumbprint; claims
   that are read unverified, and checked. */
static long wrong_issued_at(size_t size) {
    static char part[3 * GREATEST + 300];
    size_t len = 0, given;
    long wrong = 0;
    uint32_t claim;
    struct jwt_handle keys = JWT_NONE;
    filled("{\"exp\":940,\"sub\":\"", size, "\"}");
    add(&keys, JWT_SECRET, "secret");
    wrong += jwt_sign(&keys, TEXT("{\"alg\":\"HS256\",\"kid\":\"b\"}"), TEXT(text), part, sizeof part, &len) != JWT_OK;
    jwt_free(&keys);
    uint32_t status = in_big_room(SET, part, len, &given);
    wrong += !is_in_room(status, given, text);
    status = jwt_unverified(part, len, JWT_PAYLOAD, big_room, sizeof big_room, &given);
    wrong += !is_in_room(status, given, text);
    wrong += jwt_check_claims(TEXT(text), TEXT(OPTIONS), 1000, &claim) != JWT_OK;
    wrong += jwt_check_claims(TEXT(text), TEXT(OPTIONS), 1001, &claim) != JWT_EXPIRED_SIGNATURE;
    filled("{\"keys\":[{\"kty\":\"oct\",\"kid\":\"b\",\"k\":\"c2VjcmV0\"}],\"x\":\"", size, "\"}");
    wrong += in_big_room(text, part, len, &given) != JWT_OK;
    filled("{\"kty\":\"oct\",\"k\":\"c2VjcmV0\",\"kid\":\"", size, "\"}");
    wrong += in_big_room(text, part, len, &given) != JWT_OK;
    status = thumbprint(text, &given);
    return wrong + !is_in_room(status, given, "DWBh0SEIAPYh1x5uvot4z3AhaikHkxNJa3Ada2fT-Cg");
}

/* the status of the token before its last dot, at `message_len`, with the claims in big_room */
static uint32_t vouched(size_t message_len, const char *options, size_t *len) {
    uint32_t claim;
    return jwt_decode_verdict(TEXT(token), JWT_ES256, (const uint8_t *)token, message_len, BYTES("s"), true,
                              TEXT(options), 1000, &claim, big_room, sizeof big_room, len);
}

/* the claims, the signed part and the header of a token whose claims, signature, key id or options have this size */
static long wrong_at(size_t size) {
    uint32_t algorithm;
    size_t len = 0, message;
    long wrong = 0;
    size_t at = encode(ES256, token);
    token[at++] = '.';
    at += encode(filled("{\"exp\":940,\"sub\":\"", size, "\"}"), token + at);
    strcpy(token + at, ".cw");
    uint32_t status = vouched(at, ES256_LISTED "}", &len);
    wrong += !is_in_room(status, len, text);
    status = vouched(at, filled(ES256_LISTED ",\"sub\":\"", size, "\"}"), &len);
    wrong += status != (size ? JWT_OK : JWT_BAD_OPTIONS);
    status = vouched(at, filled(ES256_LISTED ",\"aud\":[\"", size, "\"]}"), &len);
    wrong += status != (size ? JWT_OK : JWT_BAD_OPTIONS);
    /* an encoded text for a signature */
    token[at++] = '.';
    encode(filled("", size, ""), token + at);
    status = jwt_signed_part(TEXT(token), &algorithm, &message, (uint8_t *)big_room, sizeof big_room, &len);
    wrong += !is_in_room(status, len, text) || message != at - 1;
    at = encode(filled("{\"alg\":\"ES256\",\"kid\":\"", size, "\"}"), token);
    strcpy(token + at, "..");
    status = jwt_unverified(TEXT(token), JWT_HEADER, big_room, sizeof big_room, &len);
    return wrong + !is_in_room(status, len, text) + wrong_issued_at(size);
}

static void sizes(void) {
    for (size_t size = 0; size <= 300; size++) is("a small size", wrong_at(size), 0);
    for (size_t size = 512; size <= GREATEST; size *= 2) is("a large size", wrong_at(size), 0);
}

static void growth(void) {
    long wrong = 0;
    for (int i = 0; i < 100; i++) {
        hmac(TOKEN, "secret", OPTIONS, LAST), hmac(TOKEN, "other", OPTIONS, LAST);
        for (size_t k = 0; k < ALL; k++) by_text(by_all[k].key, by_all[k].options, by_all[k].token, LAST);
    }
    /* a byte that a call leaves is far more in the sum; freed blocks that malloc keeps for a thread count as used */
    size_t most = mallinfo2().uordblks + 4096;
    for (int i = 0; i < 50000; i++) {
        wrong += hmac(TOKEN, "secret", OPTIONS, LAST) != JWT_OK;
        wrong += hmac(TOKEN, "other", OPTIONS, LAST) != JWT_INVALID_SIGNATURE;
    }
    is("results of 100000 calls", wrong, 0);
    is("memory after 100000 calls", mallinfo2().uordblks <= most, 1);
    for (int i = 0; i < 1000; i++)
        for (size_t k = 0; k < ALL; k++)
            wrong += by_text(by_all[k].key, by_all[k].options, by_all[k].token, LAST) != JWT_OK;
    is("results of 1000 calls by each key", wrong, 0);
    is("memory after 1000 calls by each key", mallinfo2().uordblks <= most, 1);
}

static void *many(void *wrong) {
    for (int i = 0; i < 5000; i++) {
        struct answer a = decoded(JWT_SECRET, "secret", OPTIONS, TOKEN, LAST, ROOM);
        *(long *)wrong += !gives(&a, CLAIMS);
        *(long *)wrong += hmac(TOKEN, "secret", OPTIONS, LAST + 1) != JWT_EXPIRED_SIGNATURE;
        *(long *)wrong += i % 10 == 0 && by_text(RSA_KEY, "{\"algorithms\":[\"RS256\"]}", BY_RS256, LAST) != JWT_OK;
    }
    return NULL;
}

static void threads(void) {
    pthread_t started[8];
    long wrong[8] = {0};
    for (int i = 0; i < 8; i++) pthread_create(&started[i], NULL, many, &wrong[i]);
    for (int i = 0; i < 8; i++) {
        pthread_join(started[i], NULL);
        is("a thread among eight", wrong[i], 0);
    }
}

/* ---- values at a path of an object */

static void members(void) {
    static const char object[] =
        "{\"sub\":\"b\\u0040b.com\",\"n\":12,\"f\":1.50,\"big\":18446744073709551616,\"e\":1E+2,"
        "\"z\":-0.0,\"ok\":true,\"no\":null,\"a\":[1.0, \"x\\n\", {\"b\":1}],"
        "\"o\":{\"b\":1 , \"a\":{\"z\":[ ],\"y\":2.0}},\"\":\"empty\",\"smile\":\"\\ud83d\\ude00\"}";
    static const struct {
        const char *json, *path;
        uint32_t status, type;
        const char *text;
    } rows[] = {
        {object, "[\"sub\"]", JWT_OK, JWT_STRING, "b@b.com"},
        {object, "[\"smile\"]", JWT_OK, JWT_STRING, "\xf0\x9f\x98\x80"},
        {object, "[\"\"]", JWT_OK, JWT_STRING, "empty"},
        {object, "[\"ok\"]", JWT_OK, JWT_BOOLEAN, "true"},
        {object, "[\"no\"]", JWT_OK, JWT_NULL, "null"},
        /* digits stay as they are, and members in their order */
        {object, "[\"n\"]", JWT_OK, JWT_NUMBER, "12"},
        {object, "[\"f\"]", JWT_OK, JWT_NUMBER, "1.50"},
        {object, "[\"big\"]", JWT_OK, JWT_NUMBER, "18446744073709551616"},
        {object, "[\"e\"]", JWT_OK, JWT_NUMBER, "1E+2"},
        {object, "[\"z\"]", JWT_OK, JWT_NUMBER, "-0.0"},
        {object, "[\"a\"]", JWT_OK, JWT_ARRAY, "[1.0,\"x\\n\",{\"b\":1}]"},
        {object, "[\"o\"]", JWT_OK, JWT_OBJECT, "{\"b\":1,\"a\":{\"z\":[],\"y\":2.0}}"},
        /* nested */
        {object, "[\"o\",\"b\"]", JWT_OK, JWT_NUMBER, "1"},
        {object, " [ \"o\" , \"\\u0061\" , \"z\" ] ", JWT_OK, JWT_ARRAY, "[]"},
        {object, "[\"o\",\"a\",\"y\"]", JWT_OK, JWT_NUMBER, "2.0"},
        {"{\"\":{\"\":{\"\":1}}}", "[\"\",\"\"]", JWT_OK, JWT_OBJECT, "{\"\":1}"},
        /* the last of several members counts */
        {"{\"a\":1,\"a\":2}", "[\"a\"]", JWT_OK, JWT_NUMBER, "2"},
        {"{\"a\":1,\"\\u0061\":2}", "[\"a\"]", JWT_OK, JWT_NUMBER, "2"},
        {"{\"o\":{\"a\":1.10,\"b\":0,\"a\":2.20}}", "[\"o\",\"a\"]", JWT_OK, JWT_NUMBER, "2.20"},
        {"{\"o\":{\"a\":1},\"o\":{\"b\":2}}", "[\"o\",\"b\"]", JWT_OK, JWT_NUMBER, "2"},
        {"{\"o\":{\"a\":1},\"o\":{\"b\":2}}", "[\"o\",\"a\"]", JWT_NO_MEMBER, 0, ""},
        {"{\"o\":{\"a\":1},\"o\":7}", "[\"o\",\"a\"]", JWT_NO_MEMBER, 0, ""},
        /* no value, or none below a value that is no object */
        {object, "[\"iss\"]", JWT_NO_MEMBER, 0, ""},
        {object, "[\"su\"]", JWT_NO_MEMBER, 0, ""},
        {object, "[\"SUB\"]", JWT_NO_MEMBER, 0, ""},
        {object, "[\"b\"]", JWT_NO_MEMBER, 0, ""},
        {object, "[\"o\",\"c\"]", JWT_NO_MEMBER, 0, ""},
        {object, "[\"o\",\"o\"]", JWT_NO_MEMBER, 0, ""},
        {object, "[\"o\",\"a\",\"y\",\"z\"]", JWT_NO_MEMBER, 0, ""},
        {object, "[\"sub\",\"b\"]", JWT_NO_MEMBER, 0, ""},
        {object, "[\"no\",\"b\"]", JWT_NO_MEMBER, 0, ""},
        {object, "[\"a\",\"b\"]", JWT_NO_MEMBER, 0, ""},
        {object, "[\"a\",\"0\"]", JWT_NO_MEMBER, 0, ""},
        {"{}", "[\"\"]", JWT_NO_MEMBER, 0, ""},
        /* not a path */
        {object, "", JWT_BAD_OPTIONS, 0, ""},
        {object, "[]", JWT_BAD_OPTIONS, 0, ""},
        {object, "sub", JWT_BAD_OPTIONS, 0, ""},
        {object, "\"sub\"", JWT_BAD_OPTIONS, 0, ""},
        {object, "{\"sub\":1}", JWT_BAD_OPTIONS, 0, ""},
        {object, "null", JWT_BAD_OPTIONS, 0, ""},
        {object, "[\"sub\"", JWT_BAD_OPTIONS, 0, ""},
        {object, "[\"sub\"] x", JWT_BAD_OPTIONS, 0, ""},
        {object, "[7]", JWT_BAD_OPTIONS, 0, ""},
        {object, "[\"o\",null]", JWT_BAD_OPTIONS, 0, ""},
        {object, "[[\"sub\"]]", JWT_BAD_OPTIONS, 0, ""},
        {object, "[\"\xff\"]", JWT_BAD_OPTIONS, 0, ""},
        /* not an object */
        {"[1]", "[\"a\"]", JWT_BAD_CLAIMS, 0, ""},
        {"\"a\"", "[\"a\"]", JWT_BAD_CLAIMS, 0, ""},
        {"{", "[\"a\"]", JWT_BAD_CLAIMS, 0, ""},
        {"", "[\"a\"]", JWT_BAD_CLAIMS, 0, ""},
    };
    uint32_t type;
    for (size_t i = 0; i < COUNT(rows); i++) {
        struct answer a = fresh();
        type = 9;
        a.status = jwt_member(TEXT(rows[i].json), TEXT(rows[i].path), &type, a.room, ROOM, &a.len);
        is(rows[i].path, status_of(&a), rows[i].status);
        is("its type", type, rows[i].type);
        is("its text", a.status != JWT_OK || gives(&a, rows[i].text), 1);
    }
    struct answer a = fresh();
    a.status = jwt_member(TEXT(object), TEXT("[\"sub\"]"), &type, a.room, 2, &a.len);
    is("a small buffer", status_of(&a), JWT_BUFFER_TOO_SMALL);
    is("what it needs", a.len == 7 && type == JWT_STRING, 1);
    is("a path by a null pointer", jwt_member(TEXT(object), NULL, 0, &type, a.room, ROOM, &a.len), JWT_BAD_OPTIONS);
}

static void checked_members(void) {
    static const char object[] = "{\"roles\":[\"user\",\"admin\",7,[\"deep\"],{\"named\":1},\"a "
                                 "b\",\"\",\"\\u00e9\\n\"],\"scope\":\"read write  all\","
                                 "\"n\":7,\"o\":{\"admin\":\"admin\"},\"no\":null,\"ok\":true,\"e\":\"\",\"l\":[],\"\":"
                                 "\"empty\",\"twice\":\"a\","
                                 "\"twice\":\"b\",\"t\":\"x\\ty\\nz \\u0000\","
                                 "\"realm\":{\"roles\":[\"user\",\"auditor\"],\"scope\":\"a b\",\"none\":[]}}";
    static const struct {
        const char *json, *path, *text;
        uint32_t status;
    } rows[] = {
        {object, "[\"roles\"]", "user", JWT_OK},
        {object, "[\"roles\"]", "admin", JWT_OK},
        {object, "[\"roles\"]", "a b", JWT_OK},
        {object, "[\"roles\"]", "", JWT_OK},
        {object, "[\"roles\"]", "\xc3\xa9\n", JWT_OK},
        {object, "[\"roles\"]", "a", JWT_NO_MEMBER},
        {object, "[\"roles\"]", "Admin", JWT_NO_MEMBER},
        {object, "[\"roles\"]", "admi", JWT_NO_MEMBER},
        {object, "[\"roles\"]", "admins", JWT_NO_MEMBER},
        {object, "[\"roles\"]", " admin", JWT_NO_MEMBER},
        {object, "[\"roles\"]", "\"admin\"", JWT_NO_MEMBER},
        {object, "[\"roles\"]", "7", JWT_NO_MEMBER},
        {object, "[\"roles\"]", "deep", JWT_NO_MEMBER},
        {object, "[\"roles\"]", "named", JWT_NO_MEMBER},
        {object, "[\"roles\"]", "\xc3\xa9", JWT_NO_MEMBER},
        {object, "[\"roles\"]", "\xff", JWT_NO_MEMBER},
        {object, "[\"scope\"]", "read", JWT_OK},
        {object, "[\"scope\"]", "write", JWT_OK},
        {object, "[\"scope\"]", "all", JWT_OK},
        {object, "[\"scope\"]", "", JWT_NO_MEMBER},
        {object, "[\"scope\"]", " ", JWT_NO_MEMBER},
        {object, "[\"scope\"]", "rea", JWT_NO_MEMBER},
        {object, "[\"scope\"]", "rite", JWT_NO_MEMBER},
        {object, "[\"scope\"]", "READ", JWT_NO_MEMBER},
        {object, "[\"scope\"]", "read write", JWT_NO_MEMBER},
        {object, "[\"n\"]", "7", JWT_NO_MEMBER},
        {object, "[\"o\"]", "admin", JWT_NO_MEMBER},
        {object, "[\"no\"]", "null", JWT_NO_MEMBER},
        {object, "[\"ok\"]", "true", JWT_NO_MEMBER},
        {object, "[\"e\"]", "", JWT_NO_MEMBER},
        {object, "[\"l\"]", "", JWT_NO_MEMBER},
        {object, "[\"\"]", "empty", JWT_OK},
        {object, "[\"twice\"]", "b", JWT_OK},
        {object, "[\"twice\"]", "a", JWT_NO_MEMBER},
        {object, "[\"t\"]", "x\ty\nz", JWT_OK},
        {object, "[\"t\"]", "x", JWT_NO_MEMBER},
        {object, "[\"Roles\"]", "admin", JWT_NO_MEMBER},
        {object, "[\"role\"]", "admin", JWT_NO_MEMBER},
        {"{}", "[\"\"]", "", JWT_NO_MEMBER},
        {object, "[\"realm\",\"roles\"]", "auditor", JWT_OK},
        {object, "[\"realm\",\"roles\"]", "admin", JWT_NO_MEMBER},
        {object, "[\"realm\",\"scope\"]", "b", JWT_OK},
        {object, "[\"realm\",\"none\"]", "", JWT_NO_MEMBER},
        {object, "[\"realm\",\"o\"]", "admin", JWT_NO_MEMBER},
        {object, "[\"realm\"]", "roles", JWT_NO_MEMBER},
        {object, "[\"roles\",\"user\"]", "user", JWT_NO_MEMBER},
        {object, "[]", "user", JWT_BAD_OPTIONS},
        {object, "roles", "user", JWT_BAD_OPTIONS},
        {object, "\"roles\"", "user", JWT_BAD_OPTIONS},
        {object, "[\"roles\",7]", "user", JWT_BAD_OPTIONS},
        {object, "[\"\xff\"]", "admin", JWT_BAD_OPTIONS},
        {"{\"\\u0061\":[\"\\u0062\"]}", "[\"a\"]", "b", JWT_OK},
        {"[\"a\"]", "[\"a\"]", "a", JWT_BAD_CLAIMS},
        {"\"a\"", "[\"a\"]", "a", JWT_BAD_CLAIMS},
        {"{\"a\":[\"a\"}", "[\"a\"]", "a", JWT_BAD_CLAIMS},
        {"", "[\"a\"]", "a", JWT_BAD_CLAIMS},
    };
    for (size_t i = 0; i < COUNT(rows); i++)
        is(rows[i].text, jwt_check_member(TEXT(rows[i].json), TEXT(rows[i].path), TEXT(rows[i].text)), rows[i].status);
    is("a byte 0 of a text", jwt_check_member(TEXT(object), TEXT("[\"t\"]"), "", 1), JWT_OK);
    is("a byte 0 behind a text", jwt_check_member(TEXT(object), TEXT("[\"roles\"]"), "user", 5), JWT_NO_MEMBER);
    is("a text by a null pointer", jwt_check_member(TEXT("{\"\":[\"\"]}"), TEXT("[\"\"]"), NULL, 0), JWT_OK);
    is("a path by a null pointer", jwt_check_member(TEXT("{\"\":[\"\"]}"), NULL, 0, NULL, 0), JWT_BAD_OPTIONS);
}

static void algorithms(void) {
    static const char *const names[] = {"HS256", "HS384", "HS512", "RS256", "RS384", "RS512",
                                        "PS256", "PS384", "PS512", "ES256", "ES384", "EdDSA"};
    static const char *const others[] = {"",     "HS",      "HS256 ", "hs256",  "ES512",
                                         "none", "Ed25519", "EdDS",   "EdDSAA", "\xff"};
    for (uint32_t i = 1; i <= 12; i++) {
        struct answer a = fresh();
        is(names[i - 1], jwt_algorithm(TEXT(names[i - 1])), i);
        a.status = jwt_text(JWT_OF_ALGORITHM, i, a.room, 5, &a.len);
        is("its name", gives(&a, names[i - 1]), 1);
    }
    is("the numbers", JWT_HS256 == 1 && JWT_RS256 == 4 && JWT_PS256 == 7 && JWT_ES256 == 10 && JWT_EDDSA == 12, 1);
    for (size_t i = 0; i < sizeof others / sizeof *others; i++) is(others[i], jwt_algorithm(TEXT(others[i])), 0);
    is("a name with a byte 0", jwt_algorithm("HS256", 6), 0);
    is("no name by a null pointer", jwt_algorithm(NULL, 0), 0);
}

static void texts(void) {
    static const struct {
        uint32_t of, number;
    } rows[] = {
        {JWT_OF_ALGORITHM, 0},
        {JWT_OF_ALGORITHM, 13},
        {JWT_OF_ALGORITHM, UINT32_MAX},
        {JWT_OF_VERSION, 1},
        {JWT_OF_VERSION, UINT32_MAX},
        {0, 0},
        {0, 1},
        {5, 0},
        {5, 1},
        {UINT32_MAX, 0},
        {257, 1},
    };
    struct answer a = fresh();
    a.status = jwt_text(JWT_OF_VERSION, 0, a.room, ROOM, &a.len);
    is("the version", gives(&a, JWT_VERSION), 1);
    a = fresh();
    a.status = jwt_text(JWT_OF_VERSION, 0, a.room, 4, &a.len);
    is("the version in a buffer that is too small",
       status_of(&a) == JWT_BUFFER_TOO_SMALL && a.len == strlen(JWT_VERSION), 1);
    for (size_t i = 0; i < COUNT(rows); i++) {
        a = fresh();
        a.status = jwt_text(rows[i].of, rows[i].number, a.room, ROOM, &a.len);
        is("a number without a text", status_of(&a), JWT_UNKNOWN_NUMBER);
    }
    size_t longest = 0;
    for (uint32_t of = 0; of < 6; of++)
        for (uint32_t number = 0; number < 300; number++)
            if (jwt_text(of, number, NULL, 0, &a.len) == JWT_BUFFER_TOO_SMALL && a.len > longest) longest = a.len;
    is("64 bytes hold every text", longest > 0 && longest <= 64, 1);
}

static void version_number(void) {
    int first, second, third;
    is("a version of three parts", sscanf(JWT_VERSION, "%d.%d.%d", &first, &second, &third), 3);
    is("the version's number", JWT_VERSION_NUMBER, first * 65536 + second * 256 + third);
}

int main(void) {
    version_number();
    accepted();
    rooms();
    options();
    faults_of_options();
    quoted();
    quoted_texts_are_read_back();
    kinds_of_tokens();
    kinds_of_claims();
    kinds_with_a_claim();
    verdicts();
    signed_parts();
    unverified_parts();
    checked_claims();
    keys_of_all();
    signing_inputs();
    exact_inputs();
    pairs();
    test_texts();
    status_texts();
    members();
    checked_members();
    algorithms();
    texts();
    nesting();
    failed_tests();
    failed_tests_by_keys();
    times_of_tokens();
    refused_memory();
    sizes();
    growth();
    threads();
    printf("%d checks of the calls for C, %d failed\n", passed, failed);
    return failed != 0;
}
