/*
 * Fetches a set of keys by a subrequest in the background, which goes on if
 * the request that began it is answered before.  Requests that need it wait.
 * Each worker fetches for itself: a set in shared memory would need a verifier
 * there.  The request is nginx's own and has nothing of the client's: no
 * client chooses what is asked, and none waits if there is a set.
 */
#include "ngx_http_jwt.h"


/* seconds from the end of a fetch to the next if there is no set yet */
#define NGX_HTTP_JWT_FIRST_PAUSE  1
/* seconds after which a fetch is given up */
#define NGX_HTTP_JWT_LIMIT        60
/* of the connections of a worker one in so many may wait for keys */
#define NGX_HTTP_JWT_PART         4


/* Returns whether a time is long ago, also if the clock was set back. */
#define ngx_http_jwt_is_past(time, seconds)                                  \
    ((ngx_uint_t) (ngx_time() - (time)) >= (ngx_uint_t) (seconds))


/* in the pool of the request that began it */
struct ngx_http_jwt_fetch_s {
    ngx_http_jwt_source_t  *source;
    ngx_array_t             set;        /* bytes */
    time_t                  begun;
    ngx_uint_t              is_whole;
    ngx_uint_t              is_bad;     /* too long, or not read */
};


static ngx_http_output_body_filter_pt  ngx_http_next_body_filter;
/* requests of this worker that wait */
static ngx_uint_t                      ngx_http_jwt_waiting;


void
ngx_http_jwt_stop_waiting(ngx_http_jwt_ctx_t *ctx)
{
    if (ctx->is_waiting) {
        ngx_queue_remove(&ctx->queue);
        ctx->is_waiting = 0;
        ngx_http_jwt_waiting--;
    }
}


/* Lets those that wait for its set go on, and another fetch begin. */
static void
ngx_http_jwt_end_fetch(ngx_http_jwt_source_t *source, ngx_uint_t is_done)
{
    ngx_queue_t         *q, *next, *waiting = &source->rules->waiting;
    ngx_connection_t    *c;
    ngx_http_jwt_ctx_t  *ctx;

    source->fetch = NULL;
    *(is_done ? &source->tried : &source->cut) = ngx_time();

    for (q = ngx_queue_head(waiting); q != waiting; q = next) {
        next = ngx_queue_next(q);
        ctx = ngx_queue_data(q, ngx_http_jwt_ctx_t, queue);

        if (ctx->source != source->first) {
            continue;
        }

        ngx_http_jwt_stop_waiting(ctx);
        ctx->waited += is_done;
        c = ctx->request->connection;

        /* the request that ends with its fetch is not woken */
        if (!c->destroyed) {
            (void) ngx_http_post_request(ctx->request, NULL);
            ngx_post_event(c->write, &ngx_posted_events);
        }
    }
}


/* The request of a fetch ended before it. */
static void
ngx_http_jwt_cut_fetch(void *data)
{
    ngx_http_jwt_fetch_t  *fetch = data;

    if (fetch->source->fetch == fetch) {
        ngx_http_jwt_end_fetch(fetch->source, 0);
    }
}


/* Says why a fetch gave no set. */
static void
ngx_http_jwt_report_fetch(ngx_http_jwt_fetch_t *fetch, ngx_uint_t answer,
    uint32_t status, ngx_http_jwt_keys_t *keys)
{
    u_char                     text[NGX_HTTP_JWT_FAULT], *p = text;
    const char                *fault = "";
    ngx_http_jwt_source_t     *source = fetch->source;
    ngx_http_core_srv_conf_t  *cscf = source->rules->conf->server;

    if (answer != NGX_HTTP_OK) {
        fault = "another status than 200";

    } else if (fetch->is_bad) {
        fault = "more than 1 MiB, or not read";

    } else if (!fetch->is_whole) {
        fault = "cut";

    } else if (status == JWT_BAD_KEY) {
        fault = "no JSON Web Key Set";

    } else {
        p = ngx_http_jwt_write_fault(keys, status, text, text + sizeof(text));
    }

    /* the log of a connection has the request's line, and so a token */
    ngx_log_error(NGX_LOG_ERR, ngx_cycle->log, 0,
                  "auth_jwt: no keys from \"%V\" of server \"%V\": status "
                  "%ui, %ui bytes: %s%*s", &source->key->name,
                  &cscf->server_name, answer, fetch->set.nelts, fault,
                  (size_t) (p - text), text);
}


static void
ngx_http_jwt_take(ngx_http_jwt_fetch_t *fetch, ngx_uint_t answer)
{
    uint32_t                   status = JWT_BAD_KEY;
    ngx_http_jwt_keys_t        keys = { JWT_NONE, 0, 0, 1 };
    ngx_http_jwt_source_t     *source = fetch->source;
    ngx_http_core_srv_conf_t  *cscf = source->rules->conf->server;

    if (answer == NGX_HTTP_OK && fetch->is_whole && !fetch->is_bad) {
        status = ngx_http_jwt_take_set(source, &fetch->set, &keys);
    }

    if (status == JWT_OK) {
        ngx_http_jwt_log_skipped(ngx_cycle->log, source->key,
                                 &cscf->server_name, &keys);

    } else {
        source->is_failing = 1;
        ngx_http_jwt_report_fetch(fetch, answer, status, &keys);
    }

    jwt_free(&keys.handle);
}


static ngx_int_t
ngx_http_jwt_fetched(ngx_http_request_t *r, void *data, ngx_int_t rc)
{
    ngx_http_jwt_fetch_t  *fetch = data;

    /* an error's page, or that of error_page, ends the subrequest later */
    if (rc >= NGX_HTTP_SPECIAL_RESPONSE) {
        return rc;
    }

    if (fetch->source->fetch == fetch) {
        ngx_http_jwt_take(fetch, r->headers_out.status);
        ngx_http_jwt_end_fetch(fetch->source, 1);
    }

    /* NGX_ERROR would end the request that began the fetch */
    return rc == NGX_ERROR ? NGX_OK : rc;
}


ngx_uint_t
ngx_http_jwt_is_fetch(ngx_http_request_t *r)
{
    return r->post_subrequest != NULL
           && r->post_subrequest->handler == ngx_http_jwt_fetched;
}


/* Adds a part of the answer to the set. */
static ngx_int_t
ngx_http_jwt_add(ngx_array_t *set, ngx_buf_t *b)
{
    off_t    size;
    u_char  *p;

    size = ngx_buf_size(b);

    if (size > NGX_HTTP_JWT_SET - (off_t) set->nelts) {
        return NGX_ERROR;
    }

    p = ngx_array_push_n(set, size);
    if (p == NULL) {
        return NGX_ERROR;
    }

    if (ngx_buf_in_memory(b)) {
        ngx_memcpy(p, b->pos, size);
        return NGX_OK;
    }

    return size == 0 || ngx_read_file(b->file, p, size, b->file_pos) == size
           ? NGX_OK : NGX_ERROR;
}


/*
 * Keeps the answer to a fetch, which is sent to nobody.  NGX_ERROR would close
 * the connection of the client.
 */
static ngx_int_t
ngx_http_jwt_body_filter(ngx_http_request_t *r, ngx_chain_t *in)
{
    ngx_buf_t             *b;
    ngx_http_upstream_t   *u = r->upstream;
    ngx_http_jwt_fetch_t  *fetch;

    if (!ngx_http_jwt_is_fetch(r)) {
        return ngx_http_next_body_filter(r, in);
    }

    fetch = r->post_subrequest->data;

    for ( ; in != NULL; in = in->next) {
        b = in->buf;

        if (!fetch->is_bad && ngx_http_jwt_add(&fetch->set, b) != NGX_OK) {
            fetch->is_bad = 1;

            if (u != NULL && u->peer.connection != NULL) {
                /* the rest is not read */
                u->peer.connection->read->error = 1;

                /* memcached_pass and grpc_pass have no pipe */
                if (u->pipe != NULL) {
                    u->pipe->downstream_error = 1;
                }
            }
        }

        b->pos = b->last;
        b->file_pos = b->file_last;
        fetch->is_whole |= b->last_buf || b->last_in_chain;
    }

    return NGX_OK;
}


void
ngx_http_jwt_init_fetches(void)
{
    ngx_http_next_body_filter = ngx_http_top_body_filter;
    ngx_http_top_body_filter = ngx_http_jwt_body_filter;
}


/*
 * Takes from a subrequest what it has of the client's: the set is one for all
 * requests.
 */
static ngx_int_t
ngx_http_jwt_make_neutral(ngx_http_request_t *sr)
{
    ngx_http_core_main_conf_t  *cmcf;

    cmcf = ngx_http_get_module_main_conf(sr, ngx_http_core_module);

    ngx_str_null(&sr->request_line);
    sr->unparsed_uri = sr->uri;
    sr->request_body = ngx_pcalloc(sr->pool, sizeof(ngx_http_request_body_t));
    sr->variables = ngx_pcalloc(sr->pool,
                                cmcf->variables.nelts
                                * sizeof(ngx_http_variable_value_t));

    ngx_memzero(&sr->headers_in, sizeof(ngx_http_headers_in_t));
    sr->headers_in.content_length_n = -1;
    sr->headers_in.keep_alive_n = -1;

    return sr->request_body != NULL && sr->variables != NULL
           && ngx_list_init(&sr->headers_in.headers, sr->pool, 1,
                            sizeof(ngx_table_elt_t))
              == NGX_OK ? NGX_OK : NGX_ERROR;
}


/* Without memory for it there is no fetch. */
static void
ngx_http_jwt_begin_fetch(ngx_http_request_t *r, ngx_http_jwt_source_t *source)
{
    ngx_http_request_t          *sr;
    ngx_pool_cleanup_t          *cln;
    ngx_http_jwt_fetch_t        *fetch;
    ngx_http_post_subrequest_t  *ps;

    cln = ngx_pool_cleanup_add(r->pool, sizeof(ngx_http_jwt_fetch_t));
    ps = ngx_palloc(r->pool, sizeof(ngx_http_post_subrequest_t));
    if (cln == NULL || ps == NULL) {
        return;
    }

    fetch = cln->data;
    ngx_memzero(fetch, sizeof(ngx_http_jwt_fetch_t));
    fetch->source = source;
    fetch->begun = ngx_time();
    ps->handler = ngx_http_jwt_fetched;
    ps->data = fetch;

    if (ngx_array_init(&fetch->set, r->pool, 4096, 1) != NGX_OK
        || ngx_http_subrequest(r, &source->key->name, NULL, &sr, ps,
                               NGX_HTTP_SUBREQUEST_BACKGROUND)
           != NGX_OK
        || ngx_http_jwt_make_neutral(sr) != NGX_OK)
    {
        return;
    }

    cln->handler = ngx_http_jwt_cut_fetch;
    source->fetch = fetch;
}


/*
 * Returns the set of the issuer that a token names, of which nothing is
 * verified, or NULL: keys of other issuers are not fetched for it.
 */
static ngx_http_jwt_source_t *
ngx_http_jwt_named_set(ngx_http_jwt_rules_t *rules, ngx_http_jwt_ctx_t *ctx)
{
    uint32_t    status, type = 0;
    ngx_str_t   payload, issuer, path = ngx_string("[\"iss\"]");

    status = ngx_http_jwt_read_part(ctx->request->pool, &ctx->token,
                                    JWT_PAYLOAD, &payload);

    if (status == JWT_OK) {
        issuer.data = ngx_pnalloc(ctx->request->pool, payload.len);

        status = issuer.data == NULL ? JWT_OUT_OF_MEMORY
                 : jwt_member(ngx_http_jwt_args(&payload),
                              ngx_http_jwt_args(&path), &type,
                              (char *) issuer.data, payload.len, &issuer.len);
    }

    if (status == JWT_OUT_OF_MEMORY) {
        ctx->status = status;
    }

    return status == JWT_OK && type == JWT_STRING
           ? ngx_http_jwt_find_source(rules, &issuer) : NULL;
}


/* Returns whether a token is refused, and a set lacks its key or is none yet. */
static ngx_uint_t
ngx_http_jwt_may_lack_key(ngx_http_jwt_rules_t *rules, ngx_http_jwt_ctx_t *ctx)
{
    ngx_uint_t  i, may_lack = ctx->said.has_kid;

    for (i = 0; i < rules->count; i++) {
        may_lack |= rules->sources[i].text.len == 0;
    }

    return may_lack && (ctx->said.test > 0 || ctx->status == JWT_NO_VERIFIER);
}


/* Returns the set to which a fetch could add the key of a token, or NULL. */
static ngx_http_jwt_source_t *
ngx_http_jwt_lacking_set(ngx_http_jwt_rules_t *rules, ngx_http_jwt_ctx_t *ctx)
{
    uint32_t                status = ctx->status;
    struct jwt_verdict      said = ctx->said;
    ngx_http_jwt_source_t  *set = rules->sources;

    if (rules->is_bound) {
        set = ngx_http_jwt_may_lack_key(rules, ctx)
              ? ngx_http_jwt_named_set(rules, ctx) : NULL;
        if (set == NULL) {
            return NULL;
        }

        /* the verdict does not say which of the sets lacks the key */
        status = jwt_verifier_decode(&set->verifier,
                                     ngx_http_jwt_args(&ctx->token),
                                     ngx_time(), NULL, 0, &said);
    }

    if (status != JWT_NO_VERIFIER && (status != JWT_NO_KEY || !said.has_kid)) {
        return NULL;
    }

    ctx->status = status;
    ctx->said = said;
    return set;
}


/* Begins a fetch if there is no set, or if it is old, or lacks a key. */
static void
ngx_http_jwt_renew(ngx_http_jwt_source_t *source, ngx_http_request_t *r,
    ngx_uint_t lacks_key)
{
    time_t  pause = NGX_HTTP_JWT_PAUSE, period = source->rules->conf->period;

    if (source->fetch != NULL
        && ngx_http_jwt_is_past(source->fetch->begun, NGX_HTTP_JWT_LIMIT))
    {
        source->is_failing = 1;
        ngx_http_jwt_end_fetch(source, 1);
    }

    if (lacks_key && source->text.len == 0) {
        pause = NGX_HTTP_JWT_FIRST_PAUSE;
    }

    /*
     * A request that waits is not cut off by its client.  One that goes on
     * with an old set is, and then another client could do the same.
     */
    if (source->fetch == NULL && ngx_http_jwt_is_past(source->tried, pause)
        && (lacks_key
            || (ngx_http_jwt_is_past(source->fetched, period)
                && ngx_http_jwt_is_past(source->cut,
                                        NGX_HTTP_JWT_FIRST_PAUSE))))
    {
        ngx_http_jwt_begin_fetch(r, source);
    }
}


/* Lets a request wait, if not too many do. */
static ngx_int_t
ngx_http_jwt_wait(ngx_http_jwt_rules_t *rules, ngx_http_jwt_ctx_t *ctx)
{
    if (ngx_http_jwt_waiting >= ngx_cycle->connection_n / NGX_HTTP_JWT_PART) {
        ngx_log_error(NGX_LOG_ERR, ngx_cycle->log, 0,
                      "auth_jwt: %ui requests wait for keys, and no more can",
                      ngx_http_jwt_waiting);
        return NGX_HTTP_SERVICE_UNAVAILABLE;
    }

    ctx->is_waiting = 1;
    ngx_http_jwt_waiting++;
    ngx_queue_insert_tail(&rules->waiting, &ctx->queue);

    return NGX_AGAIN;
}


/*
 * Returns NGX_OK if the verdict stands, NGX_AGAIN if the request waits for a
 * fetch, and 503 if there is no verdict.
 */
ngx_int_t
ngx_http_jwt_await(ngx_http_jwt_rules_t *rules, ngx_http_jwt_ctx_t *ctx)
{
    ngx_int_t               rc = NGX_OK;
    ngx_uint_t              i, is_lacking, is_awaited = 0;
    ngx_http_jwt_source_t  *it;

    ctx->source = ngx_http_jwt_lacking_set(rules, ctx);

    if (ctx->status == JWT_NO_VERIFIER) {
        rc = NGX_HTTP_SERVICE_UNAVAILABLE;
    }

    for (i = 0; i < rules->count; i++) {
        it = &rules->sources[i];

        if (!it->key->is_fetched) {
            continue;
        }

        is_lacking = it->first == ctx->source;
        ngx_http_jwt_renew(it, ctx->request, is_lacking);

        if (is_lacking) {
            is_awaited |= it->fetch != NULL;

            if (it->text.len == 0 || it->is_failing) {
                rc = NGX_HTTP_SERVICE_UNAVAILABLE;
            }
        }
    }

    /* each fetch is waited for once */
    if (is_awaited && !ctx->cannot_wait
        && ctx->waited < ctx->source->count)
    {
        return ngx_http_jwt_wait(rules, ctx);
    }

    return rc;
}
