/*
 * Remembers accepted tokens.  The cache makes no verdict of its own: that a
 * token accepted now is accepted until exp and the leeway is among the laws of
 * decode.
 */
#include "ngx_http_jwt.h"


/*
 * in how many neighbouring slots a token may be: of 500 tokens in turn 98 of
 * 100 are found so, and 60 with a single slot
 */
#define NGX_HTTP_JWT_WAYS  4


/* Compares two texts in constant time. */
static ngx_uint_t
ngx_http_jwt_is_same(u_char *a, u_char *b, size_t len)
{
    u_char  differs = 0;

    while (len--) {
        differs |= *a++ ^ *b++;
    }

    return differs == 0;
}


/* Returns the token's slot, or else the least recently used of its slots. */
static ngx_http_jwt_slot_t *
ngx_http_jwt_find_slot(ngx_http_jwt_rules_t *rules, ngx_str_t *token,
    uint32_t hash, ngx_uint_t *is_found)
{
    ngx_uint_t            i;
    ngx_http_jwt_slot_t  *slot, *oldest = NULL;

    for (i = 0; i < NGX_HTTP_JWT_WAYS; i++) {
        slot = &rules->slots[(hash + i) % rules->conf->slot_count];

        if (slot->hash == hash && slot->token_len == token->len
            && ngx_http_jwt_is_same(slot->text, token->data, token->len))
        {
            *is_found = 1;
            return slot;
        }

        if (oldest == NULL || slot->used < oldest->used) {
            oldest = slot;
        }
    }

    *is_found = 0;
    return oldest;
}


/* Keeps a token that was accepted now, if a slot has room for it. */
static void
ngx_http_jwt_keep(ngx_http_jwt_rules_t *rules, ngx_http_jwt_slot_t *slot,
    ngx_http_jwt_ctx_t *ctx, uint32_t hash)
{
    u_char  *p;

    if (ctx->token.len + ctx->claims.len > NGX_HTTP_JWT_SLOT) {
        return;
    }

    slot->first = ngx_time();
    slot->last = ctx->said.last;
    slot->used = ++rules->uses;
    slot->hash = hash;
    slot->token_len = ctx->token.len;
    slot->claims_len = ctx->claims.len;
    p = ngx_cpymem(slot->text, ctx->token.data, ctx->token.len);
    ngx_memcpy(p, ctx->claims.data, ctx->claims.len);
}


/* The verifier decides about a token. */
static uint32_t
ngx_http_jwt_decode(ngx_http_jwt_rules_t *rules, ngx_http_jwt_ctx_t *ctx)
{
    size_t    size;
    uint32_t  status;

    ctx->claims.len = ctx->token.len;

    do {
        size = ctx->claims.len;
        ctx->claims.data = ngx_pnalloc(ctx->request->pool, size);
        if (ctx->claims.data == NULL) {
            return JWT_OUT_OF_MEMORY;
        }

        status = jwt_verifier_decode(&rules->verifier,
                                     ngx_http_jwt_args(&ctx->token),
                                     ngx_time(), (char *) ctx->claims.data,
                                     size, &ctx->said);
        ctx->claims.len = ctx->said.len;
    } while (status == JWT_BUFFER_TOO_SMALL);

    return status;
}


/*
 * A token that was accepted at one time is accepted at each later one up to
 * the last, until another set is fetched.  Its claims are copied, as another
 * request may take the slot.
 */
uint32_t
ngx_http_jwt_verify(ngx_http_jwt_rules_t *rules, ngx_http_jwt_ctx_t *ctx)
{
    uint32_t              hash, status;
    uint64_t              now = ngx_time();
    ngx_uint_t            is_found;
    ngx_http_jwt_slot_t  *slot;

    ngx_memzero(&ctx->said, sizeof(struct jwt_verdict));

    if (ngx_time() < 0) {
        return JWT_CLOCK_BEFORE_EPOCH;
    }

    if (rules->conf->slot_count == 0) {
        return ngx_http_jwt_decode(rules, ctx);
    }

    /* the same token has another hash after another set */
    hash = ngx_murmur_hash2(ctx->token.data, ctx->token.len) + rules->sets;
    slot = ngx_http_jwt_find_slot(rules, &ctx->token, hash, &is_found);

    if (is_found && slot->first <= now && now <= slot->last) {
        slot->used = ++rules->uses;
        ctx->claims.len = slot->claims_len;
        ctx->claims.data = slot->text + slot->token_len;
        ctx->claims.data = ngx_pstrdup(ctx->request->pool, &ctx->claims);

        return ctx->claims.data != NULL ? JWT_OK : JWT_OUT_OF_MEMORY;
    }

    status = ngx_http_jwt_decode(rules, ctx);

    if (status == JWT_OK) {
        ngx_http_jwt_keep(rules, slot, ctx, hash);
    }

    return status;
}
