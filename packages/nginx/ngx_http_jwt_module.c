/*
 * Lets a request pass if it has a JSON Web Token that the proved library
 * accepts (jwtproved.h), and answers it with 401 otherwise (RFC 6750).
 */
#include "ngx_http_jwt.h"


static ngx_http_output_header_filter_pt  ngx_http_next_header_filter;
/* its address marks headers of this module, also those that nginx copies */
static u_char  ngx_http_jwt_challenge[] = "WWW-Authenticate";


/*
 * Removes the challenges of earlier refusals, such as those before an internal
 * redirect, and also the last one if the token is accepted.
 */
static void
ngx_http_jwt_drop_challenges(ngx_http_request_t *r, ngx_uint_t is_accepted)
{
    ngx_uint_t        i;
    ngx_list_part_t  *part;
    ngx_table_elt_t  *h, *last = NULL;

    for (part = &r->headers_out.headers.part; part; part = part->next) {
        h = part->elts;

        for (i = 0; i < part->nelts; i++) {
            if (h[i].key.data != ngx_http_jwt_challenge) {
                continue;
            }

            if (last != NULL) {
                last->hash = 0;
            }

            last = &h[i];
        }
    }

    if (is_accepted && last != NULL) {
        last->hash = 0;
    }
}


static ngx_int_t
ngx_http_jwt_refuse(ngx_http_request_t *r, ngx_str_t *realm, ngx_int_t answer,
    const char *error)
{
    size_t            size;
    ngx_table_elt_t  *h;

    size = sizeof("Bearer realm=") + realm->len + ngx_strlen(error);

    h = ngx_list_push(&r->headers_out.headers);
    if (h == NULL) {
        return NGX_HTTP_INTERNAL_SERVER_ERROR;
    }

    h->value.data = ngx_pnalloc(r->pool, size);
    if (h->value.data == NULL) {
        h->hash = 0;
        return NGX_HTTP_INTERNAL_SERVER_ERROR;
    }

    h->value.len = ngx_snprintf(h->value.data, size, "Bearer realm=%V%s",
                                realm, error)
                   - h->value.data;
    h->key.len = sizeof(ngx_http_jwt_challenge) - 1;
    h->key.data = ngx_http_jwt_challenge;
    h->hash = 1;
#if (nginx_version >= 1023000)
    h->next = NULL;
#endif
    r->headers_out.www_authenticate = h;

    return answer;
}


/* Returns whether a variable has a byte that is not '0'. */
static ngx_uint_t
ngx_http_jwt_is_met(ngx_http_request_t *r, ngx_int_t variable)
{
    ngx_uint_t                  i;
    ngx_http_variable_value_t  *vv;

    vv = ngx_http_get_flushed_variable(r, variable);

    for (i = 0; vv != NULL && !vv->not_found && i < vv->len; i++) {
        if (vv->data[i] != '0') {
            return 1;
        }
    }

    return 0;
}


/* Tests the values of auth_jwt_require. */
static ngx_int_t
ngx_http_jwt_test(ngx_http_request_t *r, ngx_http_jwt_loc_conf_t *jlcf,
    ngx_http_jwt_ctx_t *ctx)
{
    ngx_uint_t               i, is_met = 0;
    ngx_http_jwt_require_t  *it;

    if (jlcf->required == NULL) {
        return NGX_OK;
    }

    it = jlcf->required->elts;

    for (i = 0; i < jlcf->required->nelts; i++) {
        is_met = is_met || ngx_http_jwt_is_met(r, it[i].variable);

        if (it[i].has_other) {
            continue;
        }

        if (!is_met) {
            ctx->unmet = it[i].text;

            return ngx_http_jwt_refuse(r, &jlcf->realm, it[i].answer,
                                       it[i].answer == NGX_HTTP_FORBIDDEN
                                       ? ", error=\"insufficient_scope\""
                                       : ", error=\"invalid_token\"");
        }

        is_met = 0;
    }

    return NGX_OK;
}


/* Answers by the verdict on a token. */
static ngx_int_t
ngx_http_jwt_answer(ngx_http_request_t *r, ngx_http_jwt_loc_conf_t *jlcf,
    ngx_http_jwt_ctx_t *ctx)
{
    ngx_int_t            rc;
    ngx_http_request_t  *it;

    switch (ctx->status) {

    case JWT_OK:
        rc = ngx_http_jwt_test(r, jlcf, ctx);

        /* auth_request has copied the challenge of an earlier subrequest */
        for (it = r; rc == NGX_OK && it != NULL; it = it->parent) {
            ngx_http_jwt_drop_challenges(it, 1);
        }

        return rc;

    case JWT_OUT_OF_MEMORY:
    case JWT_CLOCK_BEFORE_EPOCH:
        /* the log of a connection has the request's line, and so a token */
        ngx_log_error(NGX_LOG_ERR, ngx_cycle->log, 0,
                      "auth_jwt: no token is verified, status %uD",
                      ctx->status);
        return NGX_HTTP_INTERNAL_SERVER_ERROR;
    }

    return ngx_http_jwt_refuse(r, &jlcf->realm, NGX_HTTP_UNAUTHORIZED,
                               ", error=\"invalid_token\"");
}


/* Finds the token, or answers that there is none or that there are several. */
static ngx_int_t
ngx_http_jwt_require_token(ngx_http_request_t *r,
    ngx_http_jwt_loc_conf_t *jlcf, ngx_http_jwt_ctx_t *ctx)
{
    ngx_int_t  rc;

    rc = ngx_http_jwt_find_token(r, jlcf, &ctx->token);
    ctx->has_several = rc == NGX_ABORT;

    if (ctx->has_several) {
        /* auth_request makes 500 of 400 */
        return ngx_http_jwt_refuse(r, &jlcf->realm,
                                   r == r->main ? NGX_HTTP_BAD_REQUEST
                                   : NGX_HTTP_UNAUTHORIZED,
                                   ", error=\"invalid_request\"");
    }

    return rc == NGX_OK ? rc
           : ngx_http_jwt_refuse(r, &jlcf->realm, NGX_HTTP_UNAUTHORIZED, "");
}


static ngx_int_t
ngx_http_jwt_handler(ngx_http_request_t *r)
{
    ngx_int_t                 rc;
    ngx_http_jwt_ctx_t       *ctx;
    ngx_http_jwt_loc_conf_t  *jlcf;

    jlcf = ngx_http_get_module_loc_conf(r, ngx_http_jwt_module);

    if (!jlcf->enabled) {
        return NGX_DECLINED;
    }

    ctx = ngx_http_jwt_add_ctx(r);
    if (ctx == NULL) {
        return NGX_HTTP_INTERNAL_SERVER_ERROR;
    }

    if (ctx->is_waiting) {
        return NGX_AGAIN;
    }

    rc = ngx_http_jwt_require_token(r, jlcf, ctx);
    if (rc != NGX_OK) {
        return rc;
    }

    ctx->status = ngx_http_jwt_verify(jlcf->rules, ctx);

    if (jlcf->rules->is_fetched) {
        rc = ngx_http_jwt_await(jlcf->rules, ctx);
    }

    return rc == NGX_OK ? ngx_http_jwt_answer(r, jlcf, ctx) : rc;
}


/* nginx leaves out the access phase for subrequests. */
static ngx_int_t
ngx_http_jwt_subrequest_handler(ngx_http_request_t *r)
{
    ngx_int_t  rc;

    if (r == r->main || ngx_http_jwt_is_fetch(r)) {
        return NGX_DECLINED;
    }

    rc = ngx_http_jwt_handler(r);

    /* NGX_OK would leave out the other handlers of the phase */
    return rc == NGX_OK ? NGX_DECLINED : rc;
}


/*
 * Verifies a subrequest that is answered before the preaccess phase, such as
 * by return: auth_request would take that answer for consent.
 */
static ngx_int_t
ngx_http_jwt_header_filter(ngx_http_request_t *r)
{
    ngx_int_t                 rc = NGX_OK;
    ngx_http_jwt_ctx_t       *ctx;
    ngx_http_jwt_loc_conf_t  *jlcf;

    jlcf = ngx_http_get_module_loc_conf(r, ngx_http_jwt_module);
    ngx_http_jwt_drop_challenges(r, 0);

    if (ngx_http_jwt_is_fetch(r)) {
        if (r->upstream != NULL && !r->upstream->cacheable) {
            /* what is too long does not go to a temporary file first */
            r->upstream->buffering = 0;
        }

    } else if (jlcf->enabled && r != r->main
               && r->headers_out.status < NGX_HTTP_SPECIAL_RESPONSE
               && ngx_http_get_module_ctx(r, ngx_http_jwt_module) == NULL
               && !ngx_http_jwt_is_clone(r))
    {
        /* nothing can wait here */
        ctx = ngx_http_jwt_add_ctx(r);
        if (ctx == NULL) {
            return NGX_ERROR;
        }

        ctx->cannot_wait = 1;
        rc = ngx_http_jwt_handler(r);
    }

    return rc == NGX_OK ? ngx_http_next_header_filter(r) : rc;
}


static ngx_int_t
ngx_http_jwt_init(ngx_conf_t *cf)
{
    ngx_http_handler_pt        *preaccess, *access;
    ngx_http_core_main_conf_t  *cmcf;

    if (ngx_http_jwt_check_blocks(cf) != NGX_OK) {
        return NGX_ERROR;
    }

    cmcf = ngx_http_conf_get_module_main_conf(cf, ngx_http_core_module);

    preaccess = ngx_array_push(
                    &cmcf->phases[NGX_HTTP_PREACCESS_PHASE].handlers);
    access = ngx_array_push(&cmcf->phases[NGX_HTTP_ACCESS_PHASE].handlers);
    if (preaccess == NULL || access == NULL) {
        return NGX_ERROR;
    }

    *preaccess = ngx_http_jwt_subrequest_handler;
    *access = ngx_http_jwt_handler;

    ngx_http_next_header_filter = ngx_http_top_header_filter;
    ngx_http_top_header_filter = ngx_http_jwt_header_filter;
    ngx_http_jwt_init_fetches();

    return NGX_OK;
}


static void *
ngx_http_jwt_create_main_conf(ngx_conf_t *cf)
{
    return ngx_pcalloc(cf->pool, sizeof(ngx_http_jwt_main_conf_t));
}


static ngx_http_module_t  ngx_http_jwt_module_ctx = {
    ngx_http_jwt_add_variables,    /* preconfiguration */
    ngx_http_jwt_init,             /* postconfiguration */
    ngx_http_jwt_create_main_conf, /* create main configuration */
    NULL,                          /* init main configuration */
    NULL,                          /* create server configuration */
    NULL,                          /* merge server configuration */
    ngx_http_jwt_create_loc_conf,  /* create location configuration */
    ngx_http_jwt_merge_loc_conf    /* merge location configuration */
};


ngx_module_t  ngx_http_jwt_module = {
    NGX_MODULE_V1,
    &ngx_http_jwt_module_ctx,      /* module context */
    ngx_http_jwt_commands,         /* module directives */
    NGX_HTTP_MODULE,               /* module type */
    NULL,                          /* init master */
    ngx_http_jwt_watch_variables,  /* init module */
    NULL, NULL, NULL, NULL, NULL,
    NGX_MODULE_V1_PADDING
};
