/* Verifies a token with a secret, by a verifier that reads the secret and the options once, and shows refusals by the tests that failed
   and by their texts. The last line counts. */
#include "jwtproved.h"
#include <stdio.h>
#include <string.h>

/* signed by Python's hmac with the secret below */
static const char token[] =
    "eyJhbGciOiJIUzI1NiIsInR5cCI6IkpXVCJ9.eyJjb21wYW55IjoiQUNNRSIsImV4cCI6MjUzMjUyNDg5MSwic3ViIjoiYkBiLmNvbSJ9"
    ".5n9UAJL1AIlwf4kSXHbtQDkDOXMqJ3onY44FQziHZ0o";
static const char options[] = "{\"algorithms\":[\"HS256\"]}";
/* A real secret comes from a file, and is random. */
static const uint8_t secret[] = "0123456789abcdef0123456789abcdef";

/* Prints the test of the token that failed. It belongs in the log, and not in the response: the sender only learns that the token was
   refused. */
static void print_test(uint32_t test) {
    char name[32];
    size_t len;
    if (jwt_text(JWT_OF_TEST, test, name, sizeof name, &len) == JWT_OK)
        printf("the test %.*s failed\n", (int)len, name);
}

/* Returns whether the claims, or the refusal's text, are these. The length of the secret is tested here (RFC 7518 section 3.2);
   jwt_keys_add refuses empty and all-zero secrets, and the text of a key. */
static bool says(const uint8_t *key, size_t key_len, uint64_t now, const char *wanted) {
    struct jwt_handle keys = JWT_NONE, verifier = JWT_NONE;
    char text[512];
    size_t items, kept;
    struct jwt_verdict said = {0};
    if (key_len < 32) {
        printf("the secret is too short for HS256\n");
        return strcmp(wanted, "too short") == 0;
    }
    enum jwt_status status = jwt_keys_add(&keys, JWT_SECRET, key, key_len, &items, &kept);
    if (status == JWT_OK) status = jwt_verifier_new(&keys, options, strlen(options), 0, 0, &verifier);
    if (status == JWT_OK) status = jwt_verifier_decode(&verifier, token, strlen(token), now, text, sizeof text, &said);
    jwt_free(&keys), jwt_free(&verifier);
    print_test(said.test);
    size_t len = said.len;
    if (status != JWT_OK) jwt_text(JWT_OF_STATUS, status, text, sizeof text, &len);
    printf("%.*s\n", (int)len, text);
    return len == strlen(wanted) && memcmp(text, wanted, len) == 0;
}

int main(void) {
    static const uint8_t other[] = "another secret of 32 or more bytes", zeros[300] = {0};
    const size_t secret_len = sizeof secret - 1;
    int right = says(secret, secret_len, 2532524951, "{\"company\":\"ACME\",\"exp\":2532524891,\"sub\":\"b@b.com\"}");
    right += says(secret, secret_len, 2532524952, "ExpiredSignature");
    right += says(other, sizeof other - 1, 2532524951, "InvalidSignature");
    right += says(secret, 0, 2532524951, "too short");
    right += says(secret, 6, 2532524951, "too short");
    right += says(zeros, 32, 2532524951, "Secret is empty or all zeros");
    right += says(zeros, sizeof zeros, 2532524951, "Secret is empty or all zeros");
    printf("%d tokens with a secret from C, %d failed\n", right, 7 - right);
    return right != 7;
}
