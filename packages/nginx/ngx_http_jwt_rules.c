#include "ngx_http_jwt.h"


#define NGX_HTTP_JWT_OPTIONS                                                 \
    "{\"strict\":true,\"leeway\":%T,\"algorithms\":%V,\"aud\":%V,"           \
    "\"iss\":%V,\"texts\":%s}"


/* if a set is longer in which one is fetched, none of its keys is prepared */
#define NGX_HTTP_JWT_LONG  65536
/*
 * bytes of prepared keys of such a set: 64 keys on P-256 take 0.1 s, in which
 * the worker serves no other request
 */
#define NGX_HTTP_JWT_PREPARED  1048576


/* Says why the library refuses a key file. */
static char *
ngx_http_jwt_report(ngx_conf_t *cf, ngx_http_jwt_key_t *key, uint32_t status)
{
    u_char  text[NGX_HTTP_JWT_FAULT], *p;

    p = ngx_http_jwt_write_fault(key->keys, status, text,
                                 text + sizeof(text));
    ngx_conf_log_error(NGX_LOG_EMERG, cf, 0, "auth_jwt_key_file \"%V\": %*s",
                       &key->name, (size_t) (p - text), text);
    return NGX_CONF_ERROR;
}


/* Reads a file of 1 byte to 1 MiB. */
static char *
ngx_http_jwt_read_file(ngx_conf_t *cf, ngx_str_t *name, ngx_str_t *text)
{
    ssize_t    n;
    ngx_fd_t   fd;
    ngx_str_t  buffer;

    buffer.data = ngx_palloc(cf->temp_pool, NGX_HTTP_JWT_SET + 1);

    if (buffer.data == NULL
        || ngx_conf_full_name(cf->cycle, name, 1) != NGX_OK)
    {
        return NGX_CONF_ERROR;
    }

    /* a FIFO does not wait for a writer */
    fd = ngx_open_file(name->data, NGX_FILE_RDONLY|NGX_FILE_NONBLOCK,
                       NGX_FILE_OPEN, 0);
    if (fd == NGX_INVALID_FILE) {
        ngx_conf_log_error(NGX_LOG_EMERG, cf, ngx_errno,
                           ngx_open_file_n " \"%V\" failed", name);
        return NGX_CONF_ERROR;
    }

    n = ngx_read_fd(fd, buffer.data, NGX_HTTP_JWT_SET + 1);
    (void) ngx_close_file(fd);

    if (n < 1 || n > NGX_HTTP_JWT_SET) {
        return "names no file of 1 byte to 1 MiB";
    }

    buffer.len = text->len = n;
    text->data = ngx_pstrdup(cf->pool, &buffer);

    return text->data != NULL ? NGX_CONF_OK : NGX_CONF_ERROR;
}


static void
ngx_http_jwt_free_keys(void *data)
{
    ngx_http_jwt_keys_t  *keys = data;

    jwt_free(&keys->handle);
}


/* Reads a key file, and logs which of its keys are skipped. */
char *
ngx_http_jwt_read_key(ngx_conf_t *cf, ngx_http_jwt_key_t *key)
{
    char                *rv;
    size_t               len;
    uint32_t             status, type;
    ngx_str_t            path = ngx_string("[\"keys\"]");
    ngx_pool_cleanup_t  *cln;

    rv = ngx_http_jwt_read_file(cf, &key->name, &key->text);
    if (rv != NGX_CONF_OK) {
        return rv;
    }

    cln = ngx_pool_cleanup_add(cf->temp_pool, sizeof(ngx_http_jwt_keys_t));
    if (cln == NULL) {
        return NGX_CONF_ERROR;
    }

    key->keys = cln->data;
    ngx_memzero(key->keys, sizeof(ngx_http_jwt_keys_t));
    cln->handler = ngx_http_jwt_free_keys;

    status = jwt_keys_add(&key->keys->handle, JWT_TEXT, key->text.data,
                          key->text.len, &key->keys->items, &key->keys->kept);
    if (status != JWT_OK) {
        return ngx_http_jwt_report(cf, key, status);
    }

    /* a key that is not in a set has no list of keys */
    (void) jwt_member(ngx_http_jwt_args(&key->text), ngx_http_jwt_args(&path),
                      &type, NULL, 0, &len);
    key->keys->is_set = type == JWT_ARRAY;

    ngx_http_jwt_log_skipped(cf->log, key, NULL, key->keys);
    return NGX_CONF_OK;
}


static ngx_int_t
ngx_http_jwt_write_options(ngx_pool_t *pool, ngx_http_jwt_loc_conf_t *conf,
    ngx_str_t *issuers, const char *texts, ngx_str_t *options)
{
    options->len = sizeof(NGX_HTTP_JWT_OPTIONS) + NGX_TIME_T_LEN
                   + conf->algorithms.len + conf->audiences.len
                   + issuers->len + ngx_strlen(texts);
    options->data = ngx_pnalloc(pool, options->len);
    if (options->data == NULL) {
        return NGX_ERROR;
    }

    options->len = ngx_snprintf(options->data, options->len,
                                NGX_HTTP_JWT_OPTIONS, conf->leeway,
                                &conf->algorithms, &conf->audiences, issuers,
                                texts)
                   - options->data;

    return NGX_OK;
}


static ngx_uint_t
ngx_http_jwt_is_same_keys(ngx_http_jwt_loc_conf_t *a,
    ngx_http_jwt_loc_conf_t *b)
{
    ngx_uint_t           i;
    ngx_http_jwt_key_t  *it = a->keys->elts, *other = b->keys->elts;

    if (a->keys->nelts != b->keys->nelts) {
        return 0;
    }

    for (i = 0; i < a->keys->nelts; i++) {
        if (it[i].is_fetched != other[i].is_fetched
            || !ngx_http_jwt_is_same_text(&it[i].issuer, &other[i].issuer)
            || !ngx_http_jwt_is_same_text(&it[i].text, &other[i].text)
            || (it[i].is_fetched
                && (a->server != b->server || a->period != b->period
                    || !ngx_http_jwt_is_same_text(&it[i].name,
                                                  &other[i].name))))
        {
            return 0;
        }
    }

    return 1;
}


static void
ngx_http_jwt_free_rules(void *data)
{
    ngx_uint_t             i;
    ngx_http_jwt_rules_t  *rules = data;

    jwt_free(&rules->verifier);

    for (i = 0; i < rules->count; i++) {
        jwt_free(&rules->sources[i].verifier);

        if (rules->sources[i].key->is_fetched) {
            ngx_free(rules->sources[i].text.data);
        }
    }
}


/* Makes rules whose verifiers are none. */
static ngx_http_jwt_rules_t *
ngx_http_jwt_add_rules(ngx_pool_t *pool, ngx_http_jwt_loc_conf_t *conf,
    ngx_str_t *options)
{
    ngx_pool_cleanup_t    *cln;
    ngx_http_jwt_rules_t  *rules;

    cln = ngx_pool_cleanup_add(pool, sizeof(ngx_http_jwt_rules_t));
    if (cln == NULL) {
        return NULL;
    }

    rules = cln->data;
    ngx_memzero(rules, sizeof(ngx_http_jwt_rules_t));
    rules->conf = conf;
    rules->options = *options;
    ngx_queue_init(&rules->waiting);

    rules->slots = ngx_pcalloc(pool, conf->slot_count
                                     * sizeof(ngx_http_jwt_slot_t));
    rules->sources = ngx_pcalloc(pool, conf->keys->nelts
                                       * sizeof(ngx_http_jwt_source_t));
    if (rules->slots == NULL || rules->sources == NULL) {
        return NULL;
    }

    cln->handler = ngx_http_jwt_free_rules;
    return rules;
}


/* Returns the first source of an issuer, or NULL. */
ngx_http_jwt_source_t *
ngx_http_jwt_find_source(ngx_http_jwt_rules_t *rules, ngx_str_t *issuer)
{
    ngx_uint_t              i;
    ngx_http_jwt_source_t  *it = rules->sources;

    for (i = 0; i < rules->count; i++) {
        if (ngx_http_jwt_is_same_text(&it[i].key->issuer, issuer)) {
            return &it[i];
        }
    }

    return NULL;
}


/* Adds the sources, whose verifiers are none. */
static void
ngx_http_jwt_add_sources(ngx_http_jwt_rules_t *rules)
{
    ngx_uint_t              i;
    ngx_http_jwt_key_t     *key = rules->conf->keys->elts;
    ngx_http_jwt_source_t  *source;

    rules->is_bound = key->issuer.len > 0;

    for (i = 0; i < rules->conf->keys->nelts; i++) {
        source = &rules->sources[rules->count++];
        source->rules = rules;
        source->key = &key[i];
        source->text = key[i].text;
        source->first = ngx_http_jwt_find_source(rules, &key[i].issuer);
        source->first->count++;
        rules->is_fetched |= key[i].is_fetched;
    }
}


/* Returns whether keys verify with an algorithm of the location. */
static uint32_t
ngx_http_jwt_check_keys(ngx_http_jwt_loc_conf_t *conf,
    ngx_http_jwt_keys_t *keys)
{
    struct jwt_key_info  info;

    (void) jwt_keys_info(&keys->handle, JWT_ALL, &info);

    return (info.verifies & conf->bits) != 0 ? JWT_OK : JWT_NO_USABLE_KEY;
}


/* Refuses a source beside the others, or a file without a usable key. */
static char *
ngx_http_jwt_check_source(ngx_conf_t *cf, ngx_http_jwt_source_t *source)
{
    uint32_t                  status;
    const char               *fault = NULL;
    ngx_uint_t                is_bound = source->key->issuer.len > 0;
    ngx_http_jwt_key_t       *key = source->key;
    ngx_http_jwt_loc_conf_t  *conf = source->rules->conf;

    if (is_bound && conf->issuers.len > sizeof("null") - 1) {
        fault = "has iss= besides auth_jwt_iss";

    } else if (is_bound != source->rules->is_bound) {
        fault = "needs iss= if other keys have it, and else has none";

    } else if (source->first->count > 1 && !key->is_fetched
               && !key->keys->is_set)
    {
        fault = is_bound ? "is a single key, which has to be the only source "
                           "of keys with its iss="
                : "is a single key, which has to be the only source of keys "
                  "if it has no iss=";
    }

    if (fault != NULL) {
        ngx_conf_log_error(NGX_LOG_EMERG, cf, 0, "%s \"%V\" %s",
                           key->is_fetched ? "auth_jwt_key_request"
                           : "auth_jwt_key_file", &key->name, fault);
        return NGX_CONF_ERROR;
    }

    status = key->is_fetched ? JWT_OK
             : ngx_http_jwt_check_keys(conf, key->keys);

    return status == JWT_OK ? NGX_CONF_OK
           : ngx_http_jwt_report(cf, key, status);
}


/*
 * Makes the verifier of the keys that the sources of a set have by now.  The
 * keys are those of its only source, which are read already, or NULL.
 */
static uint32_t
ngx_http_jwt_make_verifier(ngx_http_jwt_source_t *first,
    ngx_http_jwt_keys_t *keys, ngx_uint_t is_worker,
    struct jwt_handle *verifier)
{
    size_t                  items, kept, len = 0, prepared = 0;
    uint32_t                status = JWT_OK;
    struct jwt_handle       joined = JWT_NONE, *handle = &joined;
    ngx_http_jwt_rules_t   *rules = first->rules;
    ngx_http_jwt_source_t  *it;

    if (first->count == 1 && keys != NULL) {
        handle = &keys->handle;
    }

    for (it = first; it < rules->sources + rules->count; it++) {
        if (it->first == first && it->text.len > 0) {
            len += it->text.len;

            if (handle == &joined && status == JWT_OK) {
                status = jwt_keys_add(handle, JWT_SET, it->text.data,
                                      it->text.len, &items, &kept);
            }
        }
    }

    if (is_worker) {
        prepared = len > NGX_HTTP_JWT_LONG ? JWT_PREPARE_NOTHING
                   : NGX_HTTP_JWT_PREPARED;
    }

    if (status == JWT_OK) {
        status = jwt_verifier_new(handle, ngx_http_jwt_args(&first->options),
                                  0, prepared, verifier);
    }

    jwt_free(&joined);
    return status;
}


/*
 * Makes one verifier of those of all sets.  Each has its own issuer, or there
 * is one set.
 */
static uint32_t
ngx_http_jwt_join_verifiers(ngx_http_jwt_rules_t *rules,
    struct jwt_handle *joined)
{
    uint32_t                status;
    ngx_http_jwt_source_t  *it;

    for (it = rules->sources; it < rules->sources + rules->count; it++) {
        struct jwt_handle  either = JWT_NONE;

        status = jwt_verifier_or(joined, &it->verifier, &either);

        if (status == JWT_NO_VERIFIER) {
            /* the first with keys, or one without */
            status = jwt_share(&it->verifier, &either);
        }

        if (status == JWT_OK) {
            jwt_free(joined);
            *joined = either;

        } else if (status != JWT_NO_VERIFIER) {
            return status;
        }
    }

    return JWT_OK;
}


/* Makes the verifier of the files of a set, or none if it has no file. */
static char *
ngx_http_jwt_make_first(ngx_conf_t *cf, ngx_http_jwt_source_t *first)
{
    uint32_t                  status;
    ngx_uint_t                is_bound = first->rules->is_bound;
    ngx_http_jwt_key_t       *key = first->key;
    ngx_http_jwt_loc_conf_t  *conf = first->rules->conf;

    /* an issuer with its own keys is one text, and not a list with others */
    if (ngx_http_jwt_write_options(cf->pool, conf,
                                   is_bound ? &key->issuers : &conf->issuers,
                                   is_bound ? "[\"iss\"]" : "null",
                                   &first->options)
        != NGX_OK)
    {
        return NGX_CONF_ERROR;
    }

    status = ngx_http_jwt_make_verifier(first, key->keys, 0, &first->verifier);

    return status == JWT_OK || status == JWT_NO_KEYS ? NGX_CONF_OK
           : ngx_http_jwt_report(cf, key, status);
}


/*
 * Makes the verifier of each set of key files.  This is done while the
 * configuration is read, so that nginx keeps the old one if a file is bad;
 * workers then use their copies.
 */
static char *
ngx_http_jwt_make_verifiers(ngx_conf_t *cf, ngx_http_jwt_rules_t *rules)
{
    ngx_http_jwt_source_t  *it, *end;

    ngx_http_jwt_add_sources(rules);
    end = rules->sources + rules->count;

    for (it = rules->sources; it < end; it++) {
        if (ngx_http_jwt_check_source(cf, it) != NGX_CONF_OK) {
            return NGX_CONF_ERROR;
        }
    }

    for (it = rules->sources; it < end; it++) {
        if (it->first == it && ngx_http_jwt_make_first(cf, it) != NGX_CONF_OK)
        {
            return NGX_CONF_ERROR;
        }
    }

    return ngx_http_jwt_join_verifiers(rules, &rules->verifier) == JWT_OK
           ? NGX_CONF_OK : NGX_CONF_ERROR;
}


/* Finds or makes the rules of a location. */
char *
ngx_http_jwt_set_rules(ngx_conf_t *cf, ngx_http_jwt_loc_conf_t *conf)
{
    ngx_str_t                  options;
    ngx_http_jwt_rules_t      *it;
    ngx_http_jwt_main_conf_t  *jmcf;

    jmcf = ngx_http_conf_get_module_main_conf(cf, ngx_http_jwt_module);

    if (ngx_http_jwt_write_options(cf->pool, conf, &conf->issuers, "",
                                   &options)
        != NGX_OK)
    {
        return NGX_CONF_ERROR;
    }

    for (it = jmcf->rules; it != NULL; it = it->next) {
        if (it->conf->slot_count == conf->slot_count
            && ngx_http_jwt_is_same_text(&it->options, &options)
            && ngx_http_jwt_is_same_keys(it->conf, conf))
        {
            conf->rules = it;
            return NGX_CONF_OK;
        }
    }

    it = ngx_http_jwt_add_rules(cf->pool, conf, &options);
    if (it == NULL) {
        return NGX_CONF_ERROR;
    }

    it->next = jmcf->rules;
    jmcf->rules = it;
    conf->rules = it;

    return ngx_http_jwt_make_verifiers(cf, it);
}


/* Takes a text that is usable, and a verifier of it and of those besides. */
static uint32_t
ngx_http_jwt_replace_text(ngx_http_jwt_source_t *source, ngx_str_t *text,
    ngx_http_jwt_keys_t *keys)
{
    uint32_t                status;
    ngx_str_t               last = source->text;
    struct jwt_handle       joined = JWT_NONE, none = JWT_NONE, before;
    ngx_http_jwt_source_t  *first = source->first;
    ngx_http_jwt_rules_t   *rules = source->rules;

    before = first->verifier;
    first->verifier = none;
    source->text = *text;
    status = ngx_http_jwt_make_verifier(first, keys, 1, &first->verifier);
    if (status == JWT_OK) {
        status = ngx_http_jwt_join_verifiers(rules, &joined);
    }

    if (status != JWT_OK) {
        jwt_free(&joined);
        jwt_free(&first->verifier);
        first->verifier = before;
        source->text = last;
        return status;
    }

    ngx_free(last.data);
    jwt_free(&before);
    jwt_free(&rules->verifier);
    rules->verifier = joined;
    rules->sets++;

    return JWT_OK;
}


/* Replaces a set, if the next one is usable by itself. */
static uint32_t
ngx_http_jwt_replace_set(ngx_http_jwt_source_t *source, ngx_str_t *text,
    ngx_http_jwt_keys_t *keys)
{
    uint32_t   status;
    ngx_str_t  copy;

    /* one key alone would verify tokens of any kid, also after a rotation */
    status = jwt_keys_add(&keys->handle, JWT_SET, text->data, text->len,
                          &keys->items, &keys->kept);
    if (status == JWT_OK) {
        status = ngx_http_jwt_check_keys(source->rules->conf, keys);
    }

    if (status != JWT_OK) {
        return status;
    }

    copy.len = text->len;
    copy.data = ngx_alloc(text->len, ngx_cycle->log);
    if (copy.data == NULL) {
        return JWT_OUT_OF_MEMORY;
    }

    ngx_memcpy(copy.data, text->data, text->len);
    status = ngx_http_jwt_replace_text(source, &copy, keys);

    if (status != JWT_OK) {
        ngx_free(copy.data);
    }

    return status;
}


/* Takes a fetched set, if it is usable.  The same set is not read again. */
uint32_t
ngx_http_jwt_take_set(ngx_http_jwt_source_t *source, ngx_array_t *set,
    ngx_http_jwt_keys_t *keys)
{
    uint32_t   status = JWT_OK;
    ngx_str_t  text = { set->nelts, set->elts };

    if (source->text.len == 0
        || !ngx_http_jwt_is_same_text(&source->text, &text))
    {
        status = ngx_http_jwt_replace_set(source, &text, keys);
    }

    if (status == JWT_OK) {
        source->is_failing = 0;
        source->fetched = ngx_time();
    }

    return status;
}
