#include "ngx_http_jwt.h"


/* Returns whether a text begins with a name, maybe percent-encoded, and =. */
static ngx_uint_t
ngx_http_jwt_is_named(u_char *p, u_char *last, ngx_str_t *name)
{
    u_char      c;
    ngx_int_t   n;
    ngx_uint_t  i;

    for (i = 0; i < name->len; i++) {
        if (p == last) {
            return 0;
        }

        c = *p++;

        if (c == '%' && last - p >= 2 && (n = ngx_hextoi(p, 2)) >= 0) {
            c = (u_char) n;
            p += 2;
        }

        if (ngx_tolower(c) != ngx_tolower(name->data[i])) {
            return 0;
        }
    }

    while (p < last && (*p == ' ' || *p == '\t')) {
        p++;
    }

    return p < last && *p == '=';
}


/* Counts the cookies or arguments of a name, in any case as nginx finds it. */
static ngx_uint_t
ngx_http_jwt_count(ngx_str_t *text, ngx_str_t *name, const char *separators)
{
    u_char      *p, *last = text->data + text->len;
    ngx_uint_t   count = 0;

    for (p = text->data; p < last; p++) {
        if ((p == text->data || strchr(separators, p[-1]) != NULL)
            && ngx_http_jwt_is_named(p, last, name))
        {
            count++;
        }
    }

    return count;
}


static ngx_uint_t
ngx_http_jwt_count_cookies(ngx_http_request_t *r, ngx_str_t *name)
{
    ngx_uint_t        i, count = 0;
    ngx_list_part_t  *part;
    ngx_table_elt_t  *h;

    for (part = &r->headers_in.headers.part; part; part = part->next) {
        h = part->elts;

        for (i = 0; i < part->nelts; i++) {
            if (h[i].key.len == sizeof("Cookie") - 1
                && ngx_strncasecmp(h[i].key.data, (u_char *) "Cookie", 6) == 0)
            {
                count += ngx_http_jwt_count(&h[i].value, name, ";, \t");
            }
        }
    }

    return count;
}


/*
 * Returns whether a request has several cookies or arguments of the name of a
 * variable: nginx reads the first, and a service may read another one.
 */
static ngx_uint_t
ngx_http_jwt_has_several(ngx_http_request_t *r, ngx_str_t *variable)
{
    ngx_str_t  cookie = { variable->len - 7, variable->data + 7 };
    ngx_str_t  argument = { variable->len - 4, variable->data + 4 };

    if (ngx_strncasecmp(variable->data, (u_char *) "cookie_", 7) == 0) {
        return ngx_http_jwt_count_cookies(r, &cookie) > 1;
    }

    return ngx_strncasecmp(variable->data, (u_char *) "arg_", 4) == 0
           && ngx_http_jwt_count(&r->args, &argument, "&;") > 1;
}


/*
 * Reads a variable, or the header Authorization (RFC 6750 section 2.1).
 * Returns NGX_DECLINED if there is no token, and NGX_ABORT if there are
 * several.
 */
ngx_int_t
ngx_http_jwt_find_token(ngx_http_request_t *r, ngx_http_jwt_loc_conf_t *jlcf,
    ngx_str_t *token)
{
    ngx_table_elt_t            *h = r->headers_in.authorization;
    ngx_http_variable_value_t  *vv;

    ngx_str_null(token);

    if (jlcf->token != NGX_CONF_UNSET) {
        if (ngx_http_jwt_has_several(r, &jlcf->variable)) {
            return NGX_ABORT;
        }

        /* read again, as a rewrite may have changed it */
        vv = ngx_http_get_flushed_variable(r, jlcf->token);
        if (vv == NULL || vv->not_found) {
            return NGX_DECLINED;
        }

        token->len = vv->len;
        token->data = vv->data;

    } else if (h != NULL
               && ngx_strncasecmp(h->value.data, (u_char *) "Bearer ", 7) == 0)
    {
        token->len = h->value.len - 7;
        token->data = h->value.data + 7;

        while (token->len > 0 && *token->data == ' ') {
            token->len--;
            token->data++;
        }
    }

    return token->len > 0 ? NGX_OK : NGX_DECLINED;
}
