/* Verifies a token as tests/packages/release calls it: PROGRAM secret|set ALGORITHM KEY_FILE TOKEN NOW prints its claims. */
#include <jwtproved.h>
#include <stdio.h>
#include <stdlib.h>
#include <string.h>

int main(int count, char **words) {
    static char key[1 << 16], claims[1 << 12];
    char options[64];
    size_t key_len, items, kept;
    FILE *file = count == 6 ? fopen(words[3], "rb") : NULL;
    if (!file) return 2;
    key_len = fread(key, 1, sizeof key, file);
    fclose(file);
    size_t options_len = (size_t)snprintf(options, sizeof options, "{\"algorithms\":[\"%s\"]}", words[2]);
    const char *token = words[4];
    uint64_t now = strtoull(words[5], NULL, 10);
    struct jwt_handle keys = JWT_NONE, verifier = JWT_NONE;
    struct jwt_verdict said = {0};
    uint32_t source = strcmp(words[1], "set") == 0 ? JWT_TEXT : JWT_SECRET;
    enum jwt_status status = jwt_keys_add(&keys, source, (const uint8_t *)key, key_len, &items, &kept);
    if (status == JWT_OK) status = jwt_verifier_new(&keys, options, options_len, 0, 0, &verifier);
    if (status == JWT_OK)
        status = jwt_verifier_decode(&verifier, token, strlen(token), now, claims, sizeof claims, &said);
    jwt_free(&keys), jwt_free(&verifier);
    size_t len = said.len;
    if (status != JWT_OK) jwt_text(JWT_OF_STATUS, status, claims, sizeof claims, &len);
    printf("%.*s\n", (int)len, claims);
    return status != JWT_OK;
}
