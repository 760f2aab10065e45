/* Verifies the tokens of two issuers, each with its own key: an identity provider with an RSA key, and this program, which signs with a
   secret. Looks for a role in the claims. The last line counts. */
#include "jwtproved.h"
#include "samples.h"
#include <stdio.h>
#include <string.h>

#define TEXT(text) (text), strlen(text)
#define HEADER "{\"alg\":\"HS256\",\"typ\":\"JWT\"}"
#define OF_JOE "{\"algorithms\":[\"RS256\"],\"strict\":true,\"iss\":[\"joe\"]}"
#define OF_US "{\"algorithms\":[\"HS256\"],\"strict\":true,\"iss\":[\"us\"],\"required\":[\"sub\"],\"texts\":[\"sub\"]}"
/* A real secret comes from a file, and is random. */
static const char secret[] = "0123456789abcdef0123456789abcdef";

/* Makes a verifier of one key. */
static enum jwt_status make(uint32_t source, const char *key, const char *options, struct jwt_handle *verifier) {
    struct jwt_handle keys = JWT_NONE;
    size_t items, kept;
    enum jwt_status status = jwt_keys_add(&keys, source, (const uint8_t *)key, strlen(key), &items, &kept);
    if (status == JWT_OK) status = jwt_verifier_new(&keys, TEXT(options), 0, 0, verifier);
    jwt_free(&keys);
    return status;
}

/* Makes one verifier of both issuers'. Each has its own "iss", so that the key of one signs no token of the other. */
static enum jwt_status make_either(struct jwt_handle *either) {
    struct jwt_handle joe = JWT_NONE, us = JWT_NONE;
    enum jwt_status status = make(JWT_TEXT, RSA_KEY, OF_JOE, &joe);
    if (status == JWT_OK) status = make(JWT_SECRET, secret, OF_US, &us);
    if (status == JWT_OK) status = jwt_verifier_or(&joe, &us, either);
    jwt_free(&joe), jwt_free(&us);
    return status;
}

/* Signs claims with the secret: they go into the token as they are. */
static enum jwt_status sign(const char *claims, char *token, size_t room, size_t *len) {
    struct jwt_handle keys = JWT_NONE;
    size_t items, kept;
    enum jwt_status status = jwt_keys_add(&keys, JWT_SECRET, (const uint8_t *)secret, strlen(secret), &items, &kept);
    if (status == JWT_OK) status = jwt_sign(&keys, TEXT(HEADER), TEXT(claims), token, room, len);
    jwt_free(&keys);
    return status;
}

/* Returns whether the status of a token is this one, and prints whether its user is an administrator. */
static bool says(struct jwt_handle *verifier, const char *token, size_t token_len, enum jwt_status wanted) {
    char claims[512];
    struct jwt_verdict said;
    enum jwt_status status = jwt_verifier_decode(verifier, token, token_len, 1300819379, claims, sizeof claims, &said);
    bool is_admin = status == JWT_OK &&
                    jwt_check_member(claims, said.len, TEXT("[\"realm_access\",\"roles\"]"), TEXT("admin")) == JWT_OK;
    printf("status %d, %s\n", (int)status, is_admin ? "an administrator" : "no administrator");
    return status == wanted;
}

int main(void) {
    static const struct {
        const char *claims;
        enum jwt_status status;
    } ours[] = {
        {"{\"iss\":\"us\",\"sub\":\"ada\",\"exp\":1300819380,\"realm_access\":{\"roles\":[\"admin\"]}}", JWT_OK},
        {"{\"iss\":\"us\",\"exp\":1300819380}", JWT_MISSING_CLAIM},
        {"{\"iss\":\"joe\",\"sub\":\"ada\",\"exp\":1300819380}", JWT_INVALID_ISSUER},
    };
    struct jwt_handle verifier = JWT_NONE;
    char token[512];
    size_t len;
    int right = make_either(&verifier) == JWT_OK && says(&verifier, TEXT(RS256_TOKEN), JWT_OK);
    for (int i = 0; i < 3; i++)
        right +=
            sign(ours[i].claims, token, sizeof token, &len) == JWT_OK && says(&verifier, token, len, ours[i].status);
    jwt_free(&verifier);
    printf("%d tokens of two issuers from C, %d failed\n", right, 4 - right);
    return right != 4;
}
