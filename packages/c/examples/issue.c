/* Issues tokens with RS256, ES256 and EdDSA whose signatures OpenSSL makes, as a KMS or an HSM would: the library never sees the private
   keys. It tests each signature with the public key before the token goes out. The last line counts. */
#include "jwtproved.h"
#include <openssl/pem.h>
#include <stdio.h>
#include <string.h>

#define TEXT(text) (text), strlen(text)
#define CLAIMS "{\"sub\":\"ada\",\"exp\":2532524891}"

/* Makes a verifier of the public half of a key. */
static enum jwt_status verifier_of(EVP_PKEY *key, const char *options, struct jwt_handle *verifier) {
    struct jwt_handle keys = JWT_NONE;
    size_t items, kept;
    char *pem;
    BIO *text = BIO_new(BIO_s_mem());
    PEM_write_bio_PUBKEY(text, key);
    size_t pem_len = (size_t)BIO_get_mem_data(text, &pem);
    enum jwt_status status = jwt_keys_add(&keys, JWT_TEXT, (const uint8_t *)pem, pem_len, &items, &kept);
    if (status == JWT_OK) status = jwt_verifier_new(&keys, TEXT(options), 0, 0, verifier);
    jwt_free(&keys);
    BIO_free(text);
    return status;
}

/* Returns the length of the signature, or 0 if signing fails. OpenSSL writes an ES256 signature in DER, and a token has two numbers. */
static size_t sign(EVP_PKEY *key, uint32_t algorithm, const uint8_t *message, size_t message_len, uint8_t *signature,
                   size_t room) {
    uint8_t der[128];
    bool is_der = algorithm == JWT_ES256;
    size_t len = is_der ? sizeof der : room;
    EVP_MD_CTX *state = EVP_MD_CTX_new();
    bool is_signed = EVP_DigestSignInit(state, NULL, algorithm == JWT_EDDSA ? NULL : EVP_sha256(), NULL, key) == 1 &&
                     EVP_DigestSign(state, is_der ? der : signature, &len, message, message_len) == 1;
    EVP_MD_CTX_free(state);
    if (is_signed && is_der) is_signed = jwt_ecdsa_signature(der, len, algorithm, signature, room, &len) == JWT_OK;
    return is_signed ? len : 0;
}

/* Writes the token of the claims, and returns the status. */
static enum jwt_status issue(EVP_PKEY *key, struct jwt_handle *verifier, const char *header, char *token, size_t room,
                             size_t *len) {
    uint8_t message[1024], signature[512];
    uint32_t algorithm;
    size_t message_len;
    enum jwt_status status =
        jwt_signing_input(TEXT(header), TEXT(CLAIMS), &algorithm, message, sizeof message, &message_len);
    if (status != JWT_OK) return status;
    size_t signature_len = sign(key, algorithm, message, message_len, signature, sizeof signature);
    return jwt_attach(verifier, message, message_len, signature, signature_len, token, room, len);
}

/* Returns whether the status of a token that the key signs, and the verifier's public key tests, is this one. */
static bool issues(EVP_PKEY *key, EVP_PKEY *public_key, const char *header, const char *options,
                   enum jwt_status wanted) {
    struct jwt_handle verifier = JWT_NONE;
    char token[2048];
    size_t len;
    enum jwt_status status = verifier_of(public_key, options, &verifier);
    if (status == JWT_OK) status = issue(key, &verifier, header, token, sizeof token, &len);
    jwt_free(&verifier);
    if (status != JWT_OK) jwt_text(JWT_OF_STATUS, status, token, sizeof token, &len);
    printf("%.*s\n", (int)len, token);
    return status == wanted;
}

int main(void) {
    const char *rs256 = "{\"algorithms\":[\"RS256\"]}", *es256 = "{\"algorithms\":[\"ES256\"]}",
               *eddsa = "{\"algorithms\":[\"EdDSA\"]}", *es256_header = "{\"alg\":\"ES256\",\"typ\":\"JWT\"}";
    EVP_PKEY *rsa = EVP_RSA_gen(2048), *edwards = EVP_PKEY_Q_keygen(NULL, NULL, "ED25519");
    EVP_PKEY *curve = EVP_EC_gen("P-256"), *other = EVP_EC_gen("P-256");
    int right = issues(rsa, rsa, "{\"alg\":\"RS256\",\"typ\":\"JWT\"}", rs256, JWT_OK);
    right += issues(curve, curve, es256_header, es256, JWT_OK);
    right += issues(edwards, edwards, "{\"alg\":\"EdDSA\",\"typ\":\"JWT\"}", eddsa, JWT_OK);
    /* the wrong private key, and a header that names another algorithm */
    right += issues(other, curve, es256_header, es256, JWT_INVALID_SIGNATURE);
    right += issues(rsa, rsa, "{\"alg\":\"PS256\",\"typ\":\"JWT\"}", rs256, JWT_INVALID_ALGORITHM);
    EVP_PKEY_free(rsa), EVP_PKEY_free(edwards), EVP_PKEY_free(curve), EVP_PKEY_free(other);
    printf("%d tokens issued from C, %d failed\n", right, 5 - right);
    return right != 5;
}
