#include "ngx_http_jwt.h"


/* what a variable shows */
typedef struct {
    ngx_str_t   path;       /* a list of names in JSON */
    ngx_str_t   text;       /* to be found there; empty for the value itself */
    unsigned    is_header:1;  /* and not of the claims */
    unsigned    is_kid:1;   /* of a refused token */
} ngx_http_jwt_path_t;


/* how nginx reads a variable */
typedef struct {
    ngx_http_get_variable_pt  get_handler;
    uintptr_t                 data;
} ngx_http_jwt_reader_t;


/* whether a variable of this module was read */
static ngx_uint_t  ngx_http_jwt_is_read;


/* Marks a context among the cleanups of a pool. */
static void
ngx_http_jwt_cleanup(void *data)
{
    ngx_http_jwt_ctx_t  *ctx = data;

    ngx_http_jwt_stop_waiting(ctx);
}


/*
 * Returns the context, or adds one, which stays in the pool after an internal
 * redirect.
 */
ngx_http_jwt_ctx_t *
ngx_http_jwt_add_ctx(ngx_http_request_t *r)
{
    ngx_pool_cleanup_t  *cln;
    ngx_http_jwt_ctx_t  *ctx;

    ctx = ngx_http_get_module_ctx(r, ngx_http_jwt_module);
    if (ctx != NULL) {
        return ctx;
    }

    cln = ngx_pool_cleanup_add(r->pool, sizeof(ngx_http_jwt_ctx_t));
    if (cln == NULL) {
        return NULL;
    }

    ctx = cln->data;
    ngx_memzero(ctx, sizeof(ngx_http_jwt_ctx_t));
    ctx->request = r;
    cln->handler = ngx_http_jwt_cleanup;
    ngx_http_set_ctx(r, ctx, ngx_http_jwt_module);

    return ctx;
}


/* Returns the last context that an internal redirect took from a request. */
static ngx_http_jwt_ctx_t *
ngx_http_jwt_kept_ctx(ngx_http_request_t *r)
{
    ngx_pool_cleanup_t  *cln;
    ngx_http_jwt_ctx_t  *ctx;

    if (!r->internal && !r->filter_finalize) {
        return NULL;
    }

    /* subrequests have the same pool */
    for (cln = r->pool->cleanup; cln != NULL; cln = cln->next) {
        ctx = cln->data;

        if (cln->handler == ngx_http_jwt_cleanup && ctx->request == r) {
            return ctx;
        }
    }

    return NULL;
}


/*
 * Returns whether a subrequest without a context goes on in the content phase
 * of the request that made it (NGX_HTTP_SUBREQUEST_CLONE), with which it is
 * verified.
 */
ngx_uint_t
ngx_http_jwt_is_clone(ngx_http_request_t *r)
{
    ngx_http_core_main_conf_t  *cmcf;

    cmcf = ngx_http_get_module_main_conf(r, ngx_http_core_module);

    return cmcf->phase_engine.handlers[r->phase_handler].checker
           == ngx_http_core_content_phase;
}


/*
 * Returns the context of the variables, or NULL.  In a location that asks for
 * a token it is that of the token that was verified there.  Elsewhere it is
 * that of before an internal redirect, or of the request that made a
 * subrequest.  After the answer is sent, as for the log, it is in each
 * location that of before an internal redirect.
 */
static ngx_http_jwt_ctx_t *
ngx_http_jwt_find_ctx(ngx_http_request_t *r)
{
    ngx_http_jwt_ctx_t       *ctx;
    ngx_http_jwt_loc_conf_t  *jlcf;

    ngx_http_jwt_is_read = 1;

    for ( ;; ) {
        ctx = ngx_http_get_module_ctx(r, ngx_http_jwt_module);
        if (ctx != NULL) {
            return ctx;
        }

        jlcf = ngx_http_get_module_loc_conf(r, ngx_http_jwt_module);

        ctx = ngx_http_jwt_kept_ctx(r);
        if (ctx != NULL) {
            return !jlcf->enabled || r->header_sent ? ctx : NULL;
        }

        if (r == r->main || (jlcf->enabled && !ngx_http_jwt_is_clone(r))) {
            return NULL;
        }

        r = r->parent;
    }
}


/*
 * Replaces a string by JSON if it has a control character, so that it ends no
 * line of a header or of a log, and if it begins with a quotation mark, so
 * that two strings never become one value.  The kid of a refused token always
 * has the escapes of JSON, and no quotation marks.
 */
static ngx_int_t
ngx_http_jwt_escape(ngx_pool_t *pool, ngx_str_t *value, ngx_uint_t is_kid)
{
    ngx_str_t  list;

    if (!is_kid && !ngx_http_jwt_has_control(value)
        && (value->len == 0 || value->data[0] != '"'))
    {
        return NGX_OK;
    }

    if (ngx_http_jwt_write_list(pool, value, 1, &list) != JWT_OK) {
        return NGX_ERROR;
    }

    /* without the brackets */
    value->data = list.data + 1 + is_kid;
    value->len = list.len - 2 - 2 * is_kid;
    return NGX_OK;
}


static ngx_int_t
ngx_http_jwt_set_value(ngx_http_variable_value_t *v, u_char *data, size_t len)
{
    v->data = data;
    v->len = len;
    v->valid = 1;
    v->no_cacheable = 0;
    v->not_found = 0;

    return NGX_OK;
}


/* Sets a variable to the value at a path of an object, if there is one. */
static ngx_int_t
ngx_http_jwt_set_member(ngx_http_request_t *r, ngx_http_variable_value_t *v,
    ngx_str_t *object, ngx_http_jwt_path_t *path)
{
    uint32_t   type, status;
    ngx_str_t  value;

    value.data = ngx_pnalloc(r->pool, object->len);
    if (value.data == NULL) {
        return NGX_ERROR;
    }

    status = jwt_member(ngx_http_jwt_args(object),
                        ngx_http_jwt_args(&path->path), &type,
                        (char *) value.data, object->len, &value.len);

    if (status == JWT_NO_MEMBER
        || (status == JWT_OK && path->is_kid && type != JWT_STRING))
    {
        return NGX_OK;
    }

    if (status != JWT_OK
        || (type == JWT_STRING
            && ngx_http_jwt_escape(r->pool, &value, path->is_kid) != NGX_OK))
    {
        return NGX_ERROR;
    }

    return ngx_http_jwt_set_value(v, value.data, value.len);
}


/* data is a path */
static ngx_int_t
ngx_http_jwt_path_variable(ngx_http_request_t *r,
    ngx_http_variable_value_t *v, uintptr_t data)
{
    uint32_t              status;
    ngx_str_t             object;
    ngx_http_jwt_ctx_t   *ctx;
    ngx_http_jwt_path_t  *path = (ngx_http_jwt_path_t *) data;

    v->not_found = 1;
    ctx = ngx_http_jwt_find_ctx(r);

    if (ctx == NULL || ctx->token.len == 0
        || path->is_kid == (ctx->status == JWT_OK))
    {
        return NGX_OK;
    }

    object = ctx->claims;

    if (path->is_header
        && ngx_http_jwt_read_part(r->pool, &ctx->token, JWT_HEADER, &object)
           != JWT_OK)
    {
        return path->is_kid ? NGX_OK : NGX_ERROR;
    }

    if (path->text.len == 0) {
        return ngx_http_jwt_set_member(r, v, &object, path);
    }

    status = jwt_check_member(ngx_http_jwt_args(&object),
                              ngx_http_jwt_args(&path->path),
                              ngx_http_jwt_args(&path->text));

    return status == JWT_OK ? ngx_http_jwt_set_value(v, (u_char *) "1", 1)
           : status == JWT_NO_MEMBER ? NGX_OK : NGX_ERROR;
}


/* Sets a variable to the member whose name follows a prefix. */
static ngx_int_t
ngx_http_jwt_set_named(ngx_http_request_t *r, ngx_http_variable_value_t *v,
    ngx_str_t name, size_t prefix, ngx_uint_t is_header)
{
    uint32_t             status;
    ngx_http_jwt_path_t  path = { ngx_null_string, ngx_null_string, 0, 0 };

    path.is_header = is_header;
    name.data += prefix;
    name.len -= prefix;
    status = ngx_http_jwt_write_list(r->pool, &name, 1, &path.path);

    if (status == JWT_OK) {
        return ngx_http_jwt_path_variable(r, v, (uintptr_t) &path);
    }

    /* SSI may name a variable by other bytes */
    v->not_found = 1;
    return status == JWT_UTF8 ? NGX_OK : NGX_ERROR;
}


/* jwt_claim_NAME: data is this name. */
static ngx_int_t
ngx_http_jwt_claim_variable(ngx_http_request_t *r,
    ngx_http_variable_value_t *v, uintptr_t data)
{
    return ngx_http_jwt_set_named(r, v, *(ngx_str_t *) data,
                                  sizeof("jwt_claim_") - 1, 0);
}


/* jwt_header_NAME: data is this name. */
static ngx_int_t
ngx_http_jwt_header_variable(ngx_http_request_t *r,
    ngx_http_variable_value_t *v, uintptr_t data)
{
    return ngx_http_jwt_set_named(r, v, *(ngx_str_t *) data,
                                  sizeof("jwt_header_") - 1, 1);
}


/* Sets a variable to the text of a number of one of the library's tables. */
static ngx_int_t
ngx_http_jwt_set_text(ngx_http_request_t *r, ngx_http_variable_value_t *v,
    uint32_t of, uint32_t number)
{
    char    *text;
    size_t   len;

    text = ngx_pnalloc(r->pool, NGX_HTTP_JWT_TEXT);

    return text != NULL
           && jwt_text(of, number, text, NGX_HTTP_JWT_TEXT, &len) == JWT_OK
           ? ngx_http_jwt_set_value(v, (u_char *) text, len) : NGX_ERROR;
}


static ngx_int_t
ngx_http_jwt_status_variable(ngx_http_request_t *r,
    ngx_http_variable_value_t *v, uintptr_t data)
{
    u_char              *own;
    ngx_http_jwt_ctx_t  *ctx;

    v->not_found = 1;
    ctx = ngx_http_jwt_find_ctx(r);
    if (ctx == NULL) {
        return NGX_OK;
    }

    if (ctx->token.len == 0) {
        own = (u_char *) (ctx->has_several ? "SeveralTokens" : "NoToken");
        return ngx_http_jwt_set_value(v, own, ngx_strlen(own));
    }

    /* of the claims iss alone has to be a text */
    return ngx_http_jwt_set_text(r, v, JWT_OF_STATUS,
                                 ctx->status == JWT_MALFORMED_CLAIM
                                 ? JWT_MALFORMED_ISS : ctx->status);
}


static ngx_int_t
ngx_http_jwt_test_variable(ngx_http_request_t *r,
    ngx_http_variable_value_t *v, uintptr_t data)
{
    ngx_http_jwt_ctx_t  *ctx;

    v->not_found = 1;
    ctx = ngx_http_jwt_find_ctx(r);

    if (ctx != NULL && ctx->unmet.len > 0) {
        return ngx_http_jwt_set_value(v, ctx->unmet.data, ctx->unmet.len);
    }

    return ctx == NULL || ctx->said.test == 0 ? NGX_OK
           : ngx_http_jwt_set_text(r, v, JWT_OF_TEST, ctx->said.test);
}


static ngx_http_jwt_path_t  ngx_http_jwt_refused_kid = {
    ngx_string("[\"kid\"]"), ngx_null_string, 1, 1
};


static ngx_http_variable_t  ngx_http_jwt_variables[] = {

    { ngx_string("jwt_status"), NULL, ngx_http_jwt_status_variable, 0,
      NGX_HTTP_VAR_NOCACHEABLE, 0 },

    { ngx_string("jwt_failed_test"), NULL, ngx_http_jwt_test_variable, 0,
      NGX_HTTP_VAR_NOCACHEABLE, 0 },

    { ngx_string("jwt_refused_kid"), NULL, ngx_http_jwt_path_variable,
      (uintptr_t) &ngx_http_jwt_refused_kid, NGX_HTTP_VAR_NOCACHEABLE, 0 },

    { ngx_string("jwt_claim_"), NULL, ngx_http_jwt_claim_variable, 0,
      NGX_HTTP_VAR_NOCACHEABLE|NGX_HTTP_VAR_PREFIX, 0 },

    { ngx_string("jwt_header_"), NULL, ngx_http_jwt_header_variable, 0,
      NGX_HTTP_VAR_NOCACHEABLE|NGX_HTTP_VAR_PREFIX, 0 },

      ngx_http_null_variable
};


ngx_int_t
ngx_http_jwt_add_variables(ngx_conf_t *cf)
{
    ngx_http_variable_t  *var, *v;

    for (v = ngx_http_jwt_variables; v->name.len; v++) {
        var = ngx_http_add_variable(cf, &v->name, v->flags);
        if (var == NULL) {
            return NGX_ERROR;
        }

        var->get_handler = v->get_handler;
        var->data = v->data;
    }

    return NGX_OK;
}


/*
 * Reads a variable of nginx.  If it reads one of this module, such as a map of
 * a claim, it is not cached: a request may have several tokens.
 */
static ngx_int_t
ngx_http_jwt_watch(ngx_http_request_t *r, ngx_http_variable_value_t *v,
    uintptr_t data)
{
    ngx_int_t               rc;
    ngx_uint_t              was_read = ngx_http_jwt_is_read;
    ngx_http_jwt_reader_t  *reader = (ngx_http_jwt_reader_t *) data;

    ngx_http_jwt_is_read = 0;
    rc = reader->get_handler(r, v, reader->data);

    if (ngx_http_jwt_is_read) {
        v->no_cacheable = 1;
    }

    ngx_http_jwt_is_read |= was_read;
    return rc;
}


/* Lets ngx_http_jwt_watch read each variable that nginx caches. */
ngx_int_t
ngx_http_jwt_watch_variables(ngx_cycle_t *cycle)
{
    ngx_uint_t                  i;
    ngx_http_variable_t        *var;
    ngx_http_jwt_reader_t      *reader;
    ngx_http_jwt_main_conf_t   *jmcf;
    ngx_http_core_main_conf_t  *cmcf;

    jmcf = ngx_http_cycle_get_module_main_conf(cycle, ngx_http_jwt_module);
    if (jmcf == NULL || jmcf->rules == NULL) {
        return NGX_OK;
    }

    cmcf = ngx_http_cycle_get_module_main_conf(cycle, ngx_http_core_module);
    var = cmcf->variables.elts;
    reader = ngx_palloc(cycle->pool, cmcf->variables.nelts
                                     * sizeof(ngx_http_jwt_reader_t));
    if (reader == NULL) {
        return NGX_ERROR;
    }

    for (i = 0; i < cmcf->variables.nelts; i++) {
        reader[i].get_handler = var[i].get_handler;
        reader[i].data = var[i].data;
        var[i].get_handler = ngx_http_jwt_watch;
        var[i].data = (uintptr_t) &reader[i];
    }

    return NGX_OK;
}


/* Returns whether the variables of a prefix have such a name already. */
static ngx_uint_t
ngx_http_jwt_is_taken(ngx_conf_t *cf, ngx_str_t *name)
{
    ngx_uint_t                  i;
    ngx_http_variable_t        *prefix;
    ngx_http_core_main_conf_t  *cmcf;

    cmcf = ngx_http_conf_get_module_main_conf(cf, ngx_http_core_module);
    prefix = cmcf->prefix_variables.elts;

    for (i = 0; i < cmcf->prefix_variables.nelts; i++) {
        if (name->len >= prefix[i].name.len
            && ngx_strncasecmp(name->data, prefix[i].name.data,
                               prefix[i].name.len)
               == 0)
        {
            return 1;
        }
    }

    return ngx_strncasecmp(name->data, (u_char *) "jwt_", 4) == 0;
}


/* Takes the $ from a variable, or returns why these directives bind none. */
static char *
ngx_http_jwt_check_variable(ngx_conf_t *cf, ngx_str_t *name)
{
    if (!ngx_http_jwt_take_name(name)) {
        return "takes $variable, of letters, digits and _, first";
    }

    if (ngx_http_jwt_is_taken(cf, name)) {
        return "takes no variable whose name begins like those of nginx or "
               "of this module, such as $arg_, $http_ and $jwt_";
    }

    return NGX_CONF_OK;
}


/* Reads the names of a path, and the text after them if there is to be one. */
static char *
ngx_http_jwt_path(ngx_conf_t *cf, ngx_uint_t has_text,
    ngx_http_jwt_path_t *path)
{
    uint32_t     status;
    ngx_str_t   *value = cf->args->elts;
    ngx_uint_t   i, n = cf->args->nelts;

    if (n < 3 + has_text) {
        return "takes $variable, names and at last a text";
    }

    status = ngx_http_jwt_write_list(cf->temp_pool, &value[2], n - 2,
                                     &path->path);

    for (i = 2; i < n; i++) {
        if (status == JWT_UTF8 || value[i].len == 0
            || ngx_http_jwt_has_control(&value[i]))
        {
            return "takes names and texts that are UTF-8 without control "
                   "characters, and not empty";
        }
    }

    if (has_text) {
        path->text = value[n - 1];

        if (ngx_http_jwt_has_variable(&path->text)) {
            return "takes no variable as its text";
        }
    }

    status = ngx_http_jwt_write_list(cf->pool, &value[2], n - 2 - has_text,
                                     &path->path);

    return status == JWT_OK ? NGX_CONF_OK : NGX_CONF_ERROR;
}


/* Binds a variable to the claim at a path, or to whether it has a text. */
char *
ngx_http_jwt_claim(ngx_conf_t *cf, ngx_command_t *cmd, void *conf)
{
    char                 *rv;
    ngx_str_t            *value = cf->args->elts;
    ngx_http_variable_t  *var;
    ngx_http_jwt_path_t  *path;

    rv = ngx_http_jwt_check_variable(cf, &value[1]);
    if (rv != NGX_CONF_OK) {
        return rv;
    }

    path = ngx_pcalloc(cf->pool, sizeof(ngx_http_jwt_path_t));
    var = ngx_http_add_variable(cf, &value[1], NGX_HTTP_VAR_NOCACHEABLE);
    if (var == NULL || path == NULL) {
        return NGX_CONF_ERROR;
    }

    if (var->get_handler != NULL) {
        return "has a variable that another directive sets";
    }

    var->get_handler = ngx_http_jwt_path_variable;
    var->data = (uintptr_t) path;

    return ngx_http_jwt_path(cf, cmd->post != NULL, path);
}
