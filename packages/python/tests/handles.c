/*
 * The calls of handles for test_handles.py, before those of the real library: they end the program if two calls use a handle at once,
 * which the real ones can't see. A token's length decides what is said of it: 2 is accepted, 4 has long claims, 5 is out of memory,
 * and any other is refused.
 */
#define _DEFAULT_SOURCE
#include <jwtproved.h>
#include <stdatomic.h>
#include <stdio.h>
#include <stdlib.h>
#include <string.h>
#include <unistd.h>

#define LONG_CLAIMS 20000

struct held {
    atomic_int is_busy;
};

static atomic_int living;

/* Returns how many handles there are. */
int living_handles(void);

int living_handles(void) {
    return living;
}

static void enter(struct jwt_handle *handle) {
    struct held *held = handle->at;

    if (held == NULL || atomic_exchange(&held->is_busy, 1)) {
        fputs("a handle is in two calls at once, or was freed\n", stderr);
        abort();
    }
}

static void leave(struct jwt_handle *handle) {
    atomic_store(&((struct held *)handle->at)->is_busy, 0);
}

/* Stands for what a call does with a handle. */
static void use(struct jwt_handle *handle) {
    enter(handle);
    usleep(50);
    leave(handle);
}

static enum jwt_status make(struct jwt_handle *handle) {
    handle->at = calloc(1, sizeof(struct held));
    if (handle->at == NULL) {
        return JWT_OUT_OF_MEMORY;
    }
    living++;
    return JWT_OK;
}

enum jwt_status jwt_keys_add(struct jwt_handle *keys, uint32_t source, const uint8_t *bytes, size_t bytes_len,
                             size_t *items, size_t *kept) {
    (void)source, (void)bytes, (void)bytes_len;
    *items = *kept = 1;
    return make(keys);
}

enum jwt_status jwt_keys_info(struct jwt_handle *keys, size_t at, struct jwt_key_info *info) {
    (void)at;
    use(keys);
    *info = (struct jwt_key_info){.verifies = 1 << JWT_HS256};
    return JWT_OK;
}

enum jwt_status jwt_share(struct jwt_handle *handle, struct jwt_handle *other) {
    use(handle);
    return make(other);
}

void jwt_free(struct jwt_handle *handle) {
    if (handle->at != NULL) {
        enter(handle);
        free(handle->at);
        handle->at = NULL;
        living--;
    }
}

enum jwt_status jwt_verifier_new(struct jwt_handle *keys, const char *options, size_t options_len, size_t max_token_len,
                                 size_t max_prepared, struct jwt_handle *verifier) {
    (void)options, (void)max_token_len, (void)max_prepared;
    use(keys);
    return options_len == 3 ? JWT_NO_USABLE_KEY : make(verifier);
}

static enum jwt_status say(const char *claims, size_t size, char *buffer, size_t buffer_len, size_t *len) {
    *len = size;
    if (buffer_len < size) {
        return JWT_BUFFER_TOO_SMALL;
    }
    memset(buffer, ' ', size);
    memcpy(buffer, claims, strlen(claims));
    return JWT_OK;
}

enum jwt_status jwt_keys_text(struct jwt_handle *keys, size_t at, char *buffer, size_t buffer_len, size_t *len) {
    (void)at;
    use(keys);
    return say("{}", 2, buffer, buffer_len, len);
}

enum jwt_status jwt_sign(struct jwt_handle *keys, const char *header, size_t header_len, const char *payload,
                         size_t payload_len, char *buffer, size_t buffer_len, size_t *len) {
    (void)header, (void)header_len, (void)payload, (void)payload_len;
    use(keys);
    return say("a.b.c", 5, buffer, buffer_len, len);
}

enum jwt_status jwt_verifier_decode(struct jwt_handle *verifier, const char *token, size_t token_len, uint64_t now,
                                    char *buffer, size_t buffer_len, struct jwt_verdict *said) {
    enum jwt_status status = token_len == 5 ? JWT_OUT_OF_MEMORY : JWT_MISSING_CLAIM;

    (void)token;
    enter(verifier);
    usleep(200);
    *said = (struct jwt_verdict){.last = now, .test = JWT_TEST_FURTHER_RULES_HOLD, .claim = 7};
    if (token_len == 2 || token_len == 4) {
        said->test = said->claim = 0;
        status = say("{\"a\":1}", token_len == 2 ? 7 : LONG_CLAIMS, buffer, buffer_len, &said->len);
    }
    leave(verifier);
    return status;
}

enum jwt_status jwt_verifier_check(struct jwt_handle *verifier, uint32_t algorithm, const uint8_t *message,
                                   size_t message_len, const uint8_t *signature, size_t signature_len) {
    (void)message, (void)message_len, (void)signature;
    use(verifier);
    return algorithm == JWT_HS256 && signature_len == 2 ? JWT_OK : JWT_INVALID_SIGNATURE;
}

enum jwt_status jwt_attach(struct jwt_handle *verifier, const uint8_t *message, size_t message_len,
                           const uint8_t *signature, size_t signature_len, char *buffer, size_t buffer_len, size_t *len) {
    (void)message, (void)message_len, (void)signature, (void)signature_len;
    use(verifier);
    return say("a.b.c", 5, buffer, buffer_len, len);
}

enum jwt_status jwt_verifier_or(struct jwt_handle *first, struct jwt_handle *second, struct jwt_handle *either) {
    enter(first);
    use(second);
    leave(first);
    return make(either);
}
