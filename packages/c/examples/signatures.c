/* Verifies tokens with RS256, ES256 and EdDSA whose signatures OpenSSL checks, as an HSM would; the library makes every other test.
   The last line counts. */
#include "jwtproved.h"
#include "samples.h"
#include <openssl/pem.h>
#include <stdio.h>
#include <string.h>

#define TEXT(text) (text), strlen(text)

/* Writes a signature with ES256, two numbers of 32 bytes (RFC 7518 section 3.4), in DER, and returns its length. */
static size_t in_der(const uint8_t *signature, uint8_t *der) {
    ECDSA_SIG *numbers = ECDSA_SIG_new();
    ECDSA_SIG_set0(numbers, BN_bin2bn(signature, 32, NULL), BN_bin2bn(signature + 32, 32, NULL));
    int size = i2d_ECDSA_SIG(numbers, &der);
    ECDSA_SIG_free(numbers);
    return size > 0 ? (size_t)size : 0;
}

/* Returns whether the signature is the message's, by a key for this algorithm. */
static bool checks(EVP_PKEY *key, uint32_t algorithm, const uint8_t *message, size_t message_len,
                   const uint8_t *signature, size_t len) {
    uint8_t der[128];
    if (algorithm == JWT_ES256) {
        if (len != 64) return false;
        len = in_der(signature, der);
        signature = der;
    }
    EVP_MD_CTX *state = EVP_MD_CTX_new();
    bool yes = EVP_DigestVerifyInit(state, NULL, algorithm == JWT_EDDSA ? NULL : EVP_sha256(), NULL, key) == 1 &&
               EVP_DigestVerify(state, signature, len, message, message_len) == 1;
    EVP_MD_CTX_free(state);
    return yes;
}

/* Returns whether the claims of the token, or the refusal's text, are these. The verdict is by the algorithm that the key is for,
   whichever one the header names. */
static bool says(const char *token, EVP_PKEY *key, uint32_t algorithm, const char *options, uint64_t now,
                 const char *wanted) {
    uint8_t signature[512];
    char buffer[512];
    uint32_t named, claim;
    size_t message_len, signature_len, len;
    const uint8_t *message = (const uint8_t *)token;
    enum jwt_status status =
        jwt_signed_part(TEXT(token), &named, &message_len, signature, sizeof signature, &signature_len);
    if (status == JWT_OK) {
        bool yes = checks(key, algorithm, message, message_len, signature, signature_len);
        status = jwt_decode_verdict(TEXT(token), algorithm, message, message_len, signature, signature_len, yes,
                                    TEXT(options), now, &claim, buffer, sizeof buffer, &len);
    }
    if (status != JWT_OK) jwt_text(JWT_OF_STATUS, status, buffer, sizeof buffer, &len);
    printf("%.*s\n", (int)len, buffer);
    return len == strlen(wanted) && memcmp(buffer, wanted, len) == 0;
}

static EVP_PKEY *key_of(const char *pem) {
    BIO *text = BIO_new_mem_buf(pem, -1);
    EVP_PKEY *key = PEM_read_bio_PUBKEY(text, NULL, NULL, NULL);
    BIO_free(text);
    return key;
}

int main(void) {
    const char *rs256 = "{\"algorithms\":[\"RS256\"]}", *es256 = "{\"algorithms\":[\"ES256\"]}";
    const char *eddsa = "{\"algorithms\":[\"EdDSA\"]}";
    EVP_PKEY *rsa = key_of(RSA_PEM), *curve = key_of(P256_PEM), *edwards = key_of(EDWARDS_PEM);
    int right = says(RS256_TOKEN, rsa, JWT_RS256, rs256, 1300819440, CLAIMS);
    right += says(ES256_TOKEN, curve, JWT_ES256, es256, 1300819440, CLAIMS);
    right += says(RS256_TOKEN, rsa, JWT_RS256, rs256, 1300819441, "ExpiredSignature");
    /* a key for another algorithm, a payload that is not JSON, and tokens that the key did not sign */
    right += says(RS256_TOKEN, rsa, JWT_PS256, "{\"algorithms\":[\"PS256\"]}", 0, "InvalidAlgorithm");
    right += says(EDDSA_TOKEN, edwards, JWT_EDDSA, eddsa, 0, "JSON error");
    right += says("eyJhbGciOiJFZERTQSJ9.e30.AAAA", edwards, JWT_EDDSA, eddsa, 0, "InvalidSignature");
    right += says("eyJhbGciOiJFUzI1NiJ9.e30.AAAA", curve, JWT_ES256, es256, 0, "InvalidSignature");
    EVP_PKEY_free(rsa), EVP_PKEY_free(curve), EVP_PKEY_free(edwards);
    printf("%d tokens by OpenSSL from C, %d failed\n", right, 7 - right);
    return right != 7;
}
