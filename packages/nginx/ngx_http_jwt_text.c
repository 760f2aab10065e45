#include "ngx_http_jwt.h"


#define NGX_HTTP_JWT_LETTERS                                                 \
    "abcdefghijklmnopqrstuvwxyzABCDEFGHIJKLMNOPQRSTUVWXYZ0123456789_"


/* Reads a part of a token, of which nothing is verified. */
uint32_t
ngx_http_jwt_read_part(ngx_pool_t *pool, ngx_str_t *token, uint32_t part,
    ngx_str_t *json)
{
    size_t    size;
    uint32_t  status;

    json->len = token->len;

    do {
        size = json->len;
        json->data = ngx_pnalloc(pool, size);
        if (json->data == NULL) {
            return JWT_OUT_OF_MEMORY;
        }

        status = jwt_unverified(ngx_http_jwt_args(token), part,
                                (char *) json->data, size, &json->len);
    } while (status == JWT_BUFFER_TOO_SMALL);

    return status;
}


/* Writes texts as a list of strings in JSON. */
uint32_t
ngx_http_jwt_write_list(ngx_pool_t *pool, ngx_str_t *texts, ngx_uint_t n,
    ngx_str_t *list)
{
    size_t       len, size = sizeof("[]") - 1;
    u_char      *p, *last;
    uint32_t     status = JWT_OK;
    ngx_uint_t   i;

    for (i = 0; i < n; i++) {
        /* a string is at most six times as long as its text, and a comma */
        size += 6 * texts[i].len + sizeof("\"\",") - 1;
    }

    p = ngx_pnalloc(pool, size);
    if (p == NULL) {
        return JWT_OUT_OF_MEMORY;
    }

    list->data = p;
    last = p + size;

    for (i = 0; i < n && status == JWT_OK; i++) {
        *p++ = i == 0 ? '[' : ',';
        status = jwt_quote(ngx_http_jwt_args(&texts[i]), (char *) p, last - p,
                           &len);
        p += len;
    }

    *p++ = ']';
    list->len = p - list->data;
    return status;
}


/* Writes the names of algorithms whose bits are set, and returns the end. */
u_char *
ngx_http_jwt_write_algorithms(u_char *p, u_char *last, uint32_t bits)
{
    char         text[NGX_HTTP_JWT_TEXT];
    size_t       len;
    uint32_t     i;
    const char  *comma = "";

    for (i = 1; i < 32; i++) {
        if ((bits & ((uint32_t) 1 << i)) != 0
            && jwt_text(JWT_OF_ALGORITHM, i, text, sizeof(text), &len)
               == JWT_OK)
        {
            p = ngx_slprintf(p, last, "%s%*s", comma, len, text);
            comma = ", ";
        }
    }

    return p;
}


ngx_uint_t
ngx_http_jwt_is_same_text(ngx_str_t *a, ngx_str_t *b)
{
    return a->len == b->len && ngx_memcmp(a->data, b->data, a->len) == 0;
}


ngx_uint_t
ngx_http_jwt_has_control(ngx_str_t *text)
{
    u_char  *p;

    for (p = text->data; p < text->data + text->len; p++) {
        if (*p < 0x20 || *p == 0x7f) {
            return 1;
        }
    }

    return 0;
}


ngx_uint_t
ngx_http_jwt_has_variable(ngx_str_t *text)
{
    return ngx_strlchr(text->data, text->data + text->len, '$') != NULL;
}


/* Takes the $ from a text that is one variable, and returns 0 of any other. */
ngx_uint_t
ngx_http_jwt_take_name(ngx_str_t *text)
{
    if (text->len < 2 || text->data[0] != '$'
        || strspn((char *) text->data + 1, NGX_HTTP_JWT_LETTERS)
           != text->len - 1)
    {
        return 0;
    }

    text->data++;
    text->len--;
    return 1;
}
