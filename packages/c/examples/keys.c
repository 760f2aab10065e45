/* Verifies tokens with JSON Web Keys: one key, and a key set as an identity provider publishes it. Some items of a set are skipped, each with a
   reason. The last line counts. */
#include "jwtproved.h"
#include "samples.h"
#include <stdio.h>
#include <string.h>

/* a key set, and a token by its key, as Python's cryptography signed it */
static const char set[] = "{\"keys\":[{\"kty\":\"OKP\",\"kid\":\"ed\",\"crv\":\"Ed25519\","
                          "\"x\":\"ebVWLo_mVPlAeLES6KmLp5AfhTrmlb7X4OORC60ElmQ\"}]}";
static const char eddsa[] = "eyJhbGciOiJFZERTQSIsImtpZCI6ImVkIiwidHlwIjoiSldUIn0"
                            ".eyJzdWIiOiJiQGIuY29tIiwiY29tcGFueSI6IkFDTUUiLCJleHAiOjI1MzI1MjQ4OTF9"
                            ".V2f0xjCRmHrHKsWhMzrp91OvOYSkwrdUIAjseMaWsY8Asjt9PsiSUrdH4sW2H_e7eJ_Xc2pFoN_vAUCvw2njAw";
/* a set with that key, a key for encryption, one of a kind that the library does not have, and a secret of zeros */
static const char odd_set[] = "{\"keys\":[{\"kty\":\"RSA\",\"use\":\"enc\",\"n\":\"AQAB\",\"e\":\"AQAB\"},"
                              "{\"kty\":\"AKP\",\"alg\":\"ML-DSA-44\",\"pub\":\"AA\"},"
                              "{\"kty\":\"OKP\",\"kid\":\"ed\",\"crv\":\"Ed25519\","
                              "\"x\":\"ebVWLo_mVPlAeLES6KmLp5AfhTrmlb7X4OORC60ElmQ\"},"
                              "{\"kty\":\"oct\",\"kid\":\"a\",\"k\":\"AAAA\"}]}";
/* a token by the empty secret, as Python's hmac signed it: zeros verify it too (RFC 2104 section 2) */
static const char hs256[] = "eyJhbGciOiAiSFMyNTYiLCAia2lkIjogImEifQ.eyJleHAiOjEzMDA4MTkzODB9"
                            ".eRrCS5DjEElEBX68rPx8LXOQ1KnmkWd3CciR1QXTRZ4";
static const char zeros_key[] = "{\"kty\":\"oct\",\"kid\":\"a\",\"k\":\"AAAA\"}";
#define EDDSA_CLAIMS "{\"sub\":\"b@b.com\",\"company\":\"ACME\",\"exp\":2532524891}"

/* Writes options that list this algorithm and no other. A name that is not the program's own is written by jwt_quote: between
   quotation marks as it is, it could end the string, and add other options. */
static enum jwt_status list(const char *algorithm, char *options, size_t size, int *options_len) {
    char quoted[64];
    size_t len;
    enum jwt_status status = jwt_quote(algorithm, strlen(algorithm), quoted, sizeof quoted, &len);
    if (status == JWT_OK) *options_len = snprintf(options, size, "{\"algorithms\":[%.*s]}", (int)len, quoted);
    return status;
}

/* Logs the items that are skipped, each with its reason. */
static void log_skipped(struct jwt_handle *keys, size_t items) {
    struct jwt_key_info info;
    char reason[64];
    size_t len;
    for (size_t at = 0; at < items; at++)
        if (jwt_keys_info(keys, at, &info) == JWT_OK && info.status != JWT_OK &&
            jwt_text(JWT_OF_STATUS, info.status, reason, sizeof reason, &len) == JWT_OK)
            printf("key %zu is skipped: %.*s\n", at, (int)len, reason);
}

/* Returns whether the claims, or the refusal's text, are these. The text is a key, a key set or a file of a key: jwt_keys_add sees which.
   The options list the algorithm: a key without an alg verifies by each algorithm of its kind. */
static bool says(const char *token, const char *text, const char *algorithm, const char *wanted) {
    struct jwt_handle keys = JWT_NONE, verifier = JWT_NONE;
    char options[128], buffer[512];
    size_t items, kept;
    struct jwt_verdict said = {0};
    int options_len = 0;
    enum jwt_status status = list(algorithm, options, sizeof options, &options_len);
    if (status == JWT_OK) status = jwt_keys_add(&keys, JWT_TEXT, (const uint8_t *)text, strlen(text), &items, &kept);
    if (status == JWT_OK) {
        log_skipped(&keys, items);
        status = jwt_verifier_new(&keys, options, (size_t)options_len, 0, 0, &verifier);
    }
    if (status == JWT_OK)
        status = jwt_verifier_decode(&verifier, token, strlen(token), 1300819380, buffer, sizeof buffer, &said);
    jwt_free(&keys), jwt_free(&verifier);
    size_t len = said.len;
    if (status != JWT_OK) jwt_text(JWT_OF_STATUS, status, buffer, sizeof buffer, &len);
    printf("%.*s\n", (int)len, buffer);
    return len == strlen(wanted) && memcmp(buffer, wanted, len) == 0;
}

int main(void) {
    int right = says(RS256_TOKEN, RSA_KEY, "RS256", CLAIMS);
    right += says(RS256_TOKEN, RSA_PEM, "RS256", CLAIMS);
    right += says(ES256_TOKEN, P256_KEY, "ES256", CLAIMS);
    right += says(eddsa, set, "EdDSA", EDDSA_CLAIMS);
    right += says(eddsa, odd_set, "EdDSA", EDDSA_CLAIMS);
    /* a key for other algorithms, a token that names no key of the set, and a text that is not a key */
    right += says(RS256_TOKEN, P256_KEY, "RS256", "No key fits the algorithms");
    right += says(RS256_TOKEN, RSA_KEY, "PS256", "InvalidAlgorithm");
    right += says(RS256_TOKEN, set, "EdDSA", "NoKey");
    right += says(RS256_TOKEN, "", "RS256", "Invalid key");
    right += says(hs256, zeros_key, "HS256", "Secret is empty or all zeros");
    right += says(hs256, odd_set, "HS256", "No key fits the algorithms");
    right += says(RS256_TOKEN, RSA_KEY, "RS256\"],\"leeway\":9,\"aud\":[\"", "Invalid options");
    printf("%d tokens by keys from C, %d failed\n", right, 12 - right);
    return right != 12;
}
