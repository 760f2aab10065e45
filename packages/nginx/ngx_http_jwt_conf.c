#include "ngx_http_jwt.h"


/*
 * how many tokens a worker remembers by default, and at most: a token comes
 * with many requests, and to verify it costs more than a small file
 */
#define NGX_HTTP_JWT_SLOTS  1024
#define NGX_HTTP_JWT_MOST   1048576


/* Keeps where the directives of a block stand, for what is found later. */
static void
ngx_http_jwt_keep_place(ngx_conf_t *cf, ngx_http_jwt_loc_conf_t *jlcf)
{
    ngx_str_t                 *value = cf->args->elts;
    ngx_http_jwt_main_conf_t  *jmcf;

    if (jlcf->directive.len == 0) {
        jmcf = ngx_http_conf_get_module_main_conf(cf, ngx_http_jwt_module);
        jlcf->next = jmcf->blocks;
        jmcf->blocks = jlcf;
    }

    jlcf->directive = value[0];
    jlcf->file = cf->conf_file->file.name.data;
    jlcf->line = cf->conf_file->line;
}


void *
ngx_http_jwt_create_loc_conf(ngx_conf_t *cf)
{
    ngx_http_jwt_loc_conf_t  *conf;

    conf = ngx_pcalloc(cf->pool, sizeof(ngx_http_jwt_loc_conf_t));
    if (conf == NULL) {
        return NULL;
    }

    conf->enabled = NGX_CONF_UNSET;
    conf->token = NGX_CONF_UNSET;
    conf->keys = NGX_CONF_UNSET_PTR;
    conf->period = NGX_CONF_UNSET;
    conf->leeway = NGX_CONF_UNSET;
    conf->slot_count = NGX_CONF_UNSET;
    conf->required = NGX_CONF_UNSET_PTR;

    return conf;
}


static void
ngx_http_jwt_keep_block(ngx_conf_t *cf, ngx_http_jwt_loc_conf_t *conf,
    ngx_http_jwt_loc_conf_t *parent)
{
    ngx_http_core_loc_conf_t  *clcf;

    clcf = ngx_http_conf_get_module_loc_conf(cf, ngx_http_core_module);
    conf->parent = parent;
    conf->is_part = clcf->noname;
    conf->is_location = clcf->name.len > 0;
}


/* Notes that a block asks for a token, and so applies what stands above it. */
static void
ngx_http_jwt_apply(ngx_http_jwt_loc_conf_t *conf)
{
    ngx_uint_t  is_here = 1;

    for ( ; conf != NULL; conf = conf->parent) {
        /* a location around it serves other requests */
        if (is_here || !conf->is_location) {
            conf->is_applied = 1;
        }

        is_here = is_here && conf->is_part;
    }
}


/* Refuses rules that no block applies. */
ngx_int_t
ngx_http_jwt_check_blocks(ngx_conf_t *cf)
{
    ngx_http_jwt_loc_conf_t   *it;
    ngx_http_jwt_main_conf_t  *jmcf;

    jmcf = ngx_http_conf_get_module_main_conf(cf, ngx_http_jwt_module);

    for (it = jmcf->blocks; it != NULL; it = it->next) {
        if (!it->is_applied && !it->is_off) {
            ngx_log_error(NGX_LOG_EMERG, cf->log, 0,
                          "%V protects nothing without auth_jwt in %s:%ui",
                          &it->directive, it->file, it->line);
            return NGX_ERROR;
        }
    }

    return NGX_OK;
}


/* Returns whether a location in a block serves a path, but as "/" does. */
static ngx_uint_t
ngx_http_jwt_is_served(ngx_http_core_loc_conf_t *block, ngx_str_t *uri)
{
    ngx_queue_t                *q;
    ngx_http_core_loc_conf_t   *clcf;
    ngx_http_location_queue_t  *it;

    if (block->locations == NULL) {
        return 0;
    }

    for (q = ngx_queue_head(block->locations);
         q != ngx_queue_sentinel(block->locations);
         q = ngx_queue_next(q))
    {
        it = (ngx_http_location_queue_t *) q;
        clcf = it->exact ? it->exact : it->inclusive;

#if (NGX_PCRE)
        if (clcf->regex != NULL) {
            if (ngx_regex_exec(clcf->regex->regex, uri, NULL, 0) >= 0) {
                return 1;
            }

            continue;
        }
#endif

        if (uri->len >= clcf->name.len
            && ngx_memcmp(uri->data, clcf->name.data, clcf->name.len) == 0
            && (clcf->exact_match ? uri->len == clcf->name.len
                : clcf->name.len > 1 || ngx_http_jwt_is_served(clcf, uri)))
        {
            return 1;
        }
    }

    return 0;
}


/* Refuses a path for which the server has no location. */
static char *
ngx_http_jwt_check_locations(ngx_conf_t *cf, ngx_http_jwt_loc_conf_t *conf)
{
    ngx_uint_t                 i;
    ngx_http_jwt_key_t        *key = conf->keys->elts;
    ngx_http_core_loc_conf_t  *clcf;
    ngx_http_core_srv_conf_t  *cscf = conf->server;

    clcf = cscf->ctx->loc_conf[ngx_http_core_module.ctx_index];

    for (i = 0; i < conf->keys->nelts; i++) {
        if (key[i].is_fetched
            && !ngx_http_jwt_is_served(clcf, &key[i].name))
        {
            ngx_conf_log_error(NGX_LOG_EMERG, cf, 0, "auth_jwt_key_request "
                               "\"%V\" has no location but that of \"/\"",
                               &key[i].name);
            return NGX_CONF_ERROR;
        }
    }

    return NGX_CONF_OK;
}


static char *
ngx_http_jwt_enable(ngx_conf_t *cf, ngx_http_jwt_loc_conf_t *conf)
{
    const char  *lacking = NULL;

    if (conf->keys == NULL) {
        conf->keys = ngx_array_create(cf->pool, 1, sizeof(ngx_http_jwt_key_t));
        if (conf->keys == NULL) {
            return NGX_CONF_ERROR;
        }
    }

    conf->server = ngx_http_conf_get_module_srv_conf(cf, ngx_http_core_module);
    ngx_http_jwt_apply(conf);

    /* what is reported from here on is of the directives */
    if (conf->file != NULL) {
        cf->conf_file->file.name.data = conf->file;
        cf->conf_file->line = conf->line;
    }

    if (conf->keys->nelts == 0) {
        lacking = "auth_jwt_key_file or auth_jwt_key_request";

    } else if (conf->algorithms.len == 0) {
        lacking = "auth_jwt_alg";
    }

    if (lacking != NULL) {
        ngx_conf_log_error(NGX_LOG_EMERG, cf, 0, "auth_jwt needs %s", lacking);
        return NGX_CONF_ERROR;
    }

    return ngx_http_jwt_check_locations(cf, conf) == NGX_CONF_OK
           ? ngx_http_jwt_set_rules(cf, conf) : NGX_CONF_ERROR;
}


char *
ngx_http_jwt_merge_loc_conf(ngx_conf_t *cf, void *parent, void *child)
{
    char                     *rv;
    ngx_uint_t                line = cf->conf_file->line;
    ngx_str_t                 name = cf->conf_file->file.name;
    ngx_http_jwt_loc_conf_t  *prev = parent;
    ngx_http_jwt_loc_conf_t  *conf = child;

    ngx_http_jwt_keep_block(cf, conf, prev);

    if (conf->enabled == NGX_CONF_UNSET) {
        conf->token = prev->token;
        conf->variable = prev->variable;
    }

    if (conf->file == NULL) {
        conf->file = prev->file;
        conf->line = prev->line;
    }

    ngx_conf_merge_ptr_value(conf->keys, prev->keys, NULL);
    ngx_conf_merge_value(conf->enabled, prev->enabled, 0);
    ngx_conf_merge_str_value(conf->realm, prev->realm, "");
    ngx_conf_merge_sec_value(conf->period, prev->period, 3600);
    ngx_conf_merge_bitmask_value(conf->bits, prev->bits, 0);
    ngx_conf_merge_str_value(conf->algorithms, prev->algorithms, "");
    ngx_conf_merge_str_value(conf->audiences, prev->audiences, "null");
    ngx_conf_merge_str_value(conf->issuers, prev->issuers, "null");
    ngx_conf_merge_sec_value(conf->leeway, prev->leeway, 0);
    ngx_conf_merge_value(conf->slot_count, prev->slot_count,
                         NGX_HTTP_JWT_SLOTS);
    ngx_conf_merge_ptr_value(conf->required, prev->required, NULL);

    if (!conf->enabled) {
        return NGX_CONF_OK;
    }

    rv = ngx_http_jwt_enable(cf, conf);
    cf->conf_file->file.name = name;
    cf->conf_file->line = line;
    return rv;
}


static char *
ngx_http_jwt_read_realm(ngx_conf_t *cf, ngx_str_t *text, ngx_str_t *realm)
{
    if (ngx_http_jwt_has_variable(text)) {
        return "has a realm with a variable";
    }

    /* without control characters the escapes are those of a quoted-string */
    if (ngx_http_jwt_has_control(text)
        || ngx_http_jwt_write_list(cf->pool, text, 1, realm) != JWT_OK)
    {
        return "has a realm that is not UTF-8 without control characters";
    }

    /* without the brackets */
    realm->data++;
    realm->len -= 2;
    return NGX_CONF_OK;
}


static char *
ngx_http_jwt(ngx_conf_t *cf, ngx_command_t *cmd, void *conf)
{
    char                     *rv;
    ngx_str_t                *value = cf->args->elts, *name;
    ngx_http_jwt_loc_conf_t  *jlcf = conf;

    if (jlcf->enabled != NGX_CONF_UNSET) {
        return "is duplicate";
    }

    ngx_http_jwt_keep_place(cf, jlcf);
    jlcf->enabled = cf->args->nelts > 2 || ngx_strcmp(value[1].data, "off");
    jlcf->is_off = !jlcf->enabled;

    rv = ngx_http_jwt_read_realm(cf, &value[1], &jlcf->realm);

    if (rv != NGX_CONF_OK || cf->args->nelts == 2) {
        return rv;
    }

    name = &jlcf->variable;
    name->data = value[2].data + sizeof("token=$") - 1;
    name->len = value[2].len - (sizeof("token=$") - 1);

    if (ngx_strncmp(value[2].data, "token=$", 7) != 0 || name->len == 0) {
        return "takes token=$variable as its second argument";
    }

    jlcf->token = ngx_http_get_variable_index(cf, name);
    return jlcf->token != NGX_ERROR ? NGX_CONF_OK : NGX_CONF_ERROR;
}


/* Has the library read the name of an algorithm. */
static char *
ngx_http_jwt_check_algorithm(ngx_conf_t *cf, ngx_str_t *name)
{
    u_char  names[NGX_HTTP_JWT_NAMES], *last;

    if (jwt_algorithm(ngx_http_jwt_args(name)) != 0) {
        return NGX_CONF_OK;
    }

    last = ngx_http_jwt_write_algorithms(names, names + sizeof(names),
                                         (uint32_t) -1);
    ngx_conf_log_error(NGX_LOG_EMERG, cf, 0,
                       "auth_jwt_alg \"%V\": no such algorithm, write one of "
                       "%*s", name, (size_t) (last - names), names);
    return NGX_CONF_ERROR;
}


/* Has the library read a list as an option. */
static char *
ngx_http_jwt_check_option(ngx_conf_t *cf, ngx_command_t *cmd, ngx_str_t *list)
{
    char       fault[NGX_HTTP_JWT_FAULT];
    size_t     len;
    u_char    *p, *last;
    uint32_t   status;

    p = ngx_pnalloc(cf->temp_pool, list->len + NGX_HTTP_JWT_TEXT);
    if (p == NULL) {
        return NGX_CONF_ERROR;
    }

    last = ngx_sprintf(p, "{\"%s\":%V}", cmd->post, list);
    status = jwt_options_fault((char *) p, last - p, fault, sizeof(fault),
                               &len);

    if (status == JWT_OK && len > 0) {
        ngx_conf_log_error(NGX_LOG_EMERG, cf, 0, "%V: %*s", &cmd->name, len,
                           fault);
    }

    return status == JWT_OK && len == 0 ? NGX_CONF_OK : NGX_CONF_ERROR;
}


/* Reads names of a directive as a list in JSON. */
static char *
ngx_http_jwt_names(ngx_conf_t *cf, ngx_command_t *cmd, ngx_str_t *name,
    ngx_uint_t n, ngx_str_t *list)
{
    uint32_t    status;
    ngx_uint_t  i;

    for (i = 0; i < n; i++) {
        if (ngx_http_jwt_has_variable(&name[i])) {
            return "takes no variables";
        }

        if (cmd->offset == offsetof(ngx_http_jwt_loc_conf_t, algorithms)
            && ngx_http_jwt_check_algorithm(cf, &name[i]) != NGX_CONF_OK)
        {
            return NGX_CONF_ERROR;
        }
    }

    status = ngx_http_jwt_write_list(cf->pool, name, n, list);

    if (status != JWT_OK) {
        return status == JWT_UTF8 ? "takes names that are UTF-8"
                                  : NGX_CONF_ERROR;
    }

    return ngx_http_jwt_check_option(cf, cmd, list);
}


static char *
ngx_http_jwt_list(ngx_conf_t *cf, ngx_command_t *cmd, void *conf)
{
    char                     *rv;
    ngx_str_t                *value = cf->args->elts;
    ngx_str_t                *list = (ngx_str_t *) ((char *) conf
                                                    + cmd->offset);
    ngx_uint_t                i;
    ngx_http_jwt_loc_conf_t  *jlcf = conf;

    if (list->data != NULL) {
        return "is duplicate";
    }

    ngx_http_jwt_keep_place(cf, jlcf);

    rv = ngx_http_jwt_names(cf, cmd, &value[1], cf->args->nelts - 1, list);

    if (rv == NGX_CONF_OK && list == &jlcf->algorithms) {
        for (i = 1; i < cf->args->nelts; i++) {
            jlcf->bits |= (uint32_t) 1
                          << jwt_algorithm(ngx_http_jwt_args(&value[i]));
        }
    }

    return rv;
}


/* Returns why a path is not that of a set. */
static char *
ngx_http_jwt_check_path(ngx_http_jwt_loc_conf_t *jlcf, ngx_http_jwt_key_t *key)
{
    ngx_uint_t           i;
    ngx_http_jwt_key_t  *it = jlcf->keys->elts;

    if (key->name.len == 0 || key->name.data[0] != '/'
        || strpbrk((char *) key->name.data, "?#$") != NULL)
    {
        return "takes the path of a location, without variables and arguments";
    }

    for (i = 0; i < jlcf->keys->nelts - 1; i++) {
        if (it[i].is_fetched
            && ngx_http_jwt_is_same_text(&it[i].name, &key->name)
            && ngx_http_jwt_is_same_text(&it[i].issuer, &key->issuer))
        {
            return "is duplicate";
        }
    }

    return NGX_CONF_OK;
}


/* Reads a file, or the path of a set, and the issuer whose keys it has. */
static char *
ngx_http_jwt_key(ngx_conf_t *cf, ngx_command_t *cmd, void *conf)
{
    char                     *rv;
    ngx_str_t                *value = cf->args->elts;
    ngx_http_jwt_key_t       *key;
    ngx_http_jwt_loc_conf_t  *jlcf = conf;

    if (jlcf->keys == NGX_CONF_UNSET_PTR) {
        jlcf->keys = ngx_array_create(cf->pool, 1, sizeof(ngx_http_jwt_key_t));
    }

    key = jlcf->keys != NULL ? ngx_array_push(jlcf->keys) : NULL;
    if (key == NULL) {
        return NGX_CONF_ERROR;
    }

    ngx_http_jwt_keep_place(cf, jlcf);
    ngx_memzero(key, sizeof(ngx_http_jwt_key_t));
    key->name = value[1];
    key->is_fetched = ngx_strcmp(cmd->name.data, "auth_jwt_key_request") == 0;

    if (cf->args->nelts > 2) {
        key->issuer.data = value[2].data + 4;
        key->issuer.len = value[2].len - 4;

        if (ngx_strncmp(value[2].data, "iss=", 4) != 0) {
            return "takes iss=NAME as its second argument";
        }

        rv = ngx_http_jwt_names(cf, cmd, &key->issuer, 1, &key->issuers);
        if (rv != NGX_CONF_OK) {
            return rv;
        }
    }

    return key->is_fetched ? ngx_http_jwt_check_path(jlcf, key)
                           : ngx_http_jwt_read_key(cf, key);
}


/* Requires each variable, or one of those after the word any. */
static char *
ngx_http_jwt_add_required(ngx_conf_t *cf, ngx_array_t *required,
    ngx_uint_t is_any, ngx_uint_t n, ngx_int_t answer)
{
    u_char                  *p;
    ngx_str_t               *value = cf->args->elts, name, any = value[1];
    ngx_uint_t               i;
    ngx_http_jwt_require_t  *it;

    for (i = 1 + is_any; i < n; i++) {
        name = value[i];

        if (!ngx_http_jwt_take_name(&name)) {
            return "takes one $variable in each value: write $a $b to require "
                   "both, and any $a $b to require one of them";
        }

        it = ngx_array_push(required);
        p = ngx_pnalloc(cf->pool, any.len + 1 + value[i].len);
        if (it == NULL || p == NULL) {
            return NGX_CONF_ERROR;
        }

        any.len = ngx_sprintf(p, "%V %V", &any, &value[i]) - p;
        any.data = p;
        it->text = is_any ? any : value[i];
        it->has_other = is_any && i < n - 1;
        it->answer = answer;
        it->variable = ngx_http_get_variable_index(cf, &name);

        if (it->variable == NGX_ERROR) {
            return NGX_CONF_ERROR;
        }
    }

    return NGX_CONF_OK;
}


static char *
ngx_http_jwt_require(ngx_conf_t *cf, ngx_command_t *cmd, void *conf)
{
    ngx_str_t                *value = cf->args->elts;
    ngx_int_t                 answer = NGX_HTTP_FORBIDDEN;
    ngx_uint_t                n = cf->args->nelts, is_any;
    ngx_http_jwt_loc_conf_t  *jlcf = conf;

    if (ngx_strncmp(value[n - 1].data, "error=", 6) == 0) {
        n--;
        answer = ngx_atoi(value[n].data + 6, value[n].len - 6);
    }

    is_any = ngx_strcmp(value[1].data, "any") == 0;

    if (n < 2 + is_any
        || (answer != NGX_HTTP_UNAUTHORIZED && answer != NGX_HTTP_FORBIDDEN))
    {
        return "takes $variables, or any and $variables, and error=401 or "
               "error=403 at the end";
    }

    ngx_http_jwt_keep_place(cf, jlcf);

    if (jlcf->required == NGX_CONF_UNSET_PTR) {
        jlcf->required = ngx_array_create(cf->pool, n - 1,
                                          sizeof(ngx_http_jwt_require_t));
    }

    return jlcf->required == NULL ? NGX_CONF_ERROR
           : ngx_http_jwt_add_required(cf, jlcf->required, is_any, n, answer);
}


static char *
ngx_http_jwt_period(ngx_conf_t *cf, ngx_command_t *cmd, void *conf)
{
    char                     *rv;
    ngx_http_jwt_loc_conf_t  *jlcf = conf;

    rv = ngx_conf_set_sec_slot(cf, cmd, conf);

    return rv == NGX_CONF_OK && jlcf->period < NGX_HTTP_JWT_PAUSE
           ? "takes 10s at least, since keys are not fetched more often: "
             "write 10s" : rv;
}


static ngx_conf_num_bounds_t  ngx_http_jwt_slot_bounds = {
    ngx_conf_check_num_bounds, 0, NGX_HTTP_JWT_MOST
};


#define ngx_http_jwt_command(name, args, set, field, post)                   \
    { ngx_string(name), NGX_HTTP_MAIN_CONF|NGX_HTTP_SRV_CONF                 \
      |NGX_HTTP_LOC_CONF|NGX_HTTP_LMT_CONF|args,                             \
      set, NGX_HTTP_LOC_CONF_OFFSET,                                         \
      offsetof(ngx_http_jwt_loc_conf_t, field), post }


ngx_command_t  ngx_http_jwt_commands[] = {
    ngx_http_jwt_command("auth_jwt", NGX_CONF_TAKE12, ngx_http_jwt, enabled,
                         NULL),
    ngx_http_jwt_command("auth_jwt_key_file", NGX_CONF_TAKE12,
                         ngx_http_jwt_key, keys, "iss"),
    ngx_http_jwt_command("auth_jwt_key_request", NGX_CONF_TAKE12,
                         ngx_http_jwt_key, keys, "iss"),
    ngx_http_jwt_command("auth_jwt_key_cache", NGX_CONF_TAKE1,
                         ngx_http_jwt_period, period, NULL),
    ngx_http_jwt_command("auth_jwt_alg", NGX_CONF_1MORE, ngx_http_jwt_list,
                         algorithms, "algorithms"),
    ngx_http_jwt_command("auth_jwt_aud", NGX_CONF_1MORE, ngx_http_jwt_list,
                         audiences, "aud"),
    ngx_http_jwt_command("auth_jwt_iss", NGX_CONF_1MORE, ngx_http_jwt_list,
                         issuers, "iss"),
    ngx_http_jwt_command("auth_jwt_leeway", NGX_CONF_TAKE1,
                         ngx_conf_set_sec_slot, leeway, NULL),
    ngx_http_jwt_command("auth_jwt_cache", NGX_CONF_TAKE1,
                         ngx_conf_set_num_slot, slot_count,
                         &ngx_http_jwt_slot_bounds),
    ngx_http_jwt_command("auth_jwt_require", NGX_CONF_1MORE,
                         ngx_http_jwt_require, required, NULL),
    { ngx_string("auth_jwt_claim"), NGX_HTTP_MAIN_CONF|NGX_CONF_2MORE,
      ngx_http_jwt_claim, NGX_HTTP_MAIN_CONF_OFFSET, 0, NULL },
    { ngx_string("auth_jwt_contains"), NGX_HTTP_MAIN_CONF|NGX_CONF_2MORE,
      ngx_http_jwt_claim, NGX_HTTP_MAIN_CONF_OFFSET, 0, "text" },
    ngx_null_command
};
