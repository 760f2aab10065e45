/* Writes what the library says of keys: it decides what a key is for. */
#include "ngx_http_jwt.h"


/*
 * how many keys of a set are logged, each with its reason: a set of 1 MiB may
 * have 500,000
 */
#define NGX_HTTP_JWT_LISTED  10


static u_char *
ngx_http_jwt_write_status(uint32_t status, u_char *p, u_char *last)
{
    char    text[NGX_HTTP_JWT_TEXT];
    size_t  len;

    (void) jwt_text(JWT_OF_STATUS, status, text, sizeof(text), &len);

    return ngx_slprintf(p, last, "%*s", len, text);
}


static u_char *
ngx_http_jwt_write_skipped(size_t at, uint32_t status, u_char *p, u_char *last)
{
    p = ngx_slprintf(p, last, "keys[%uz] is skipped: ", at);

    return ngx_http_jwt_write_status(status, p, last);
}


/* Writes why a key of a set is not used, and returns the end. */
static u_char *
ngx_http_jwt_write_reason(ngx_http_jwt_keys_t *keys, size_t at, u_char *p,
    u_char *last)
{
    struct jwt_key_info  info, all;

    (void) jwt_keys_info(&keys->handle, at, &info);
    (void) jwt_keys_info(&keys->handle, JWT_ALL, &all);

    if (info.status != JWT_OK) {
        return ngx_http_jwt_write_skipped(at, info.status, p, last);
    }

    p = ngx_slprintf(p, last, "keys[%uz] is for ", at);
    p = ngx_http_jwt_write_algorithms(p, last, info.verifies);

    /* all have the algorithms of each key with a kid */
    return (info.verifies & ~all.verifies) == 0 ? p
           : ngx_slprintf(p, last, ", without a kid");
}


/* Writes why no key is usable, and returns the end. */
static u_char *
ngx_http_jwt_write_unusable(ngx_http_jwt_keys_t *keys, u_char *p,
    u_char *last)
{
    size_t               at, count = ngx_min(keys->items, NGX_HTTP_JWT_LISTED);
    struct jwt_key_info  info;

    if (!keys->is_set) {
        (void) jwt_keys_info(&keys->handle, 0, &info);
        p = ngx_slprintf(p, last, ": the key is for ");
        p = ngx_http_jwt_write_algorithms(p, last, info.verifies);
        return ngx_slprintf(p, last, ", and not for auth_jwt_alg");
    }

    if (count == 0) {
        return ngx_slprintf(p, last, ": the set is empty");
    }

    for (at = 0; at < count; at++) {
        p = ngx_slprintf(p, last, at == 0 ? ": " : "; ");
        p = ngx_http_jwt_write_reason(keys, at, p, last);
    }

    return count == keys->items ? p
           : ngx_slprintf(p, last, "; and %uz more", keys->items - count);
}


/* Writes why keys are refused, and what helps; returns the end. */
u_char *
ngx_http_jwt_write_fault(ngx_http_jwt_keys_t *keys, uint32_t status, u_char *p,
    u_char *last)
{
    const char  *hint = "";

    p = ngx_http_jwt_write_status(status, p, last);

    switch (status) {

    case JWT_NO_USABLE_KEY:
        return ngx_http_jwt_write_unusable(keys, p, last);

    case JWT_BAD_KEY:
        hint = ": no JSON Web Key Set, JSON Web Key or public key in PEM or "
               "DER, or a malformed one";
        break;

    case JWT_UNSUPPORTED_ALGORITHM:
        hint = ": no JSON Web Key Set, and no key of RSA, P-256, P-384, "
               "Ed25519 or HMAC with all its members";
        break;

    case JWT_PROVIDER:
        hint = ": openssl pkey -pubout prints the public key";
        break;

    case JWT_IS_CERTIFICATE:
        hint = ": openssl x509 -pubkey -noout prints its key";
        break;

    case JWT_UNFIT_KEY:
        hint = ": it is too weak, such as RSA of less than 2048 bits, not on "
               "its curve, or its alg is not one of its kind";
        break;
    }

    return ngx_slprintf(p, last, "%s", hint);
}


/* The server is NULL for a file. */
static void
ngx_http_jwt_warn(ngx_log_t *log, ngx_http_jwt_key_t *key, ngx_str_t *server,
    u_char *text, u_char *end)
{
    if (server == NULL) {
        ngx_log_error(NGX_LOG_WARN, log, 0, "auth_jwt_key_file \"%V\": %*s",
                      &key->name, (size_t) (end - text), text);

    } else {
        ngx_log_error(NGX_LOG_WARN, log, 0, "auth_jwt_key_request \"%V\" of "
                      "server \"%V\": %*s", &key->name, server,
                      (size_t) (end - text), text);
    }
}


/* Logs the first skipped keys of a set, and how many more there are. */
void
ngx_http_jwt_log_skipped(ngx_log_t *log, ngx_http_jwt_key_t *key,
    ngx_str_t *server, ngx_http_jwt_keys_t *keys)
{
    size_t               at, count = 0, skipped = keys->items - keys->kept;
    u_char               text[NGX_HTTP_JWT_NAMES], *p;
    u_char              *last = text + sizeof(text);
    struct jwt_key_info  info;

    for (at = 0; at < keys->items; at++) {
        if (count == ngx_min(skipped, NGX_HTTP_JWT_LISTED)) {
            break;
        }

        (void) jwt_keys_info(&keys->handle, at, &info);

        if (info.status != JWT_OK) {
            p = ngx_http_jwt_write_skipped(at, info.status, text, last);
            ngx_http_jwt_warn(log, key, server, text, p);
            count++;
        }
    }

    if (count < skipped) {
        p = ngx_slprintf(text, last, "also skipped: %uz of %uz keys",
                         skipped - count, keys->items);
        ngx_http_jwt_warn(log, key, server, text, p);
    }
}
