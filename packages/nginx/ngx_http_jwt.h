#ifndef _NGX_HTTP_JWT_H_INCLUDED_
#define _NGX_HTTP_JWT_H_INCLUDED_


#include <ngx_config.h>
#include <ngx_core.h>
#include <ngx_http.h>
#include <jwtproved.h>


/* a longer key file or fetched set is refused */
#define NGX_HTTP_JWT_SET   1048576
/* seconds from the end of a fetch to the next */
#define NGX_HTTP_JWT_PAUSE  10
/* room for each text of the library */
#define NGX_HTTP_JWT_TEXT  64
/* room for the names of all algorithms, and a few words */
#define NGX_HTTP_JWT_NAMES  256
/* room for why keys are refused, which is cut if it is longer */
#define NGX_HTTP_JWT_FAULT  1024
/* the longest token with its claims that is remembered */
#define NGX_HTTP_JWT_SLOT  4000


/* a text as two arguments of a call of the library */
#define ngx_http_jwt_args(text)  (const char *) (text)->data, (text)->len


/* a fetch that is under way */
typedef struct ngx_http_jwt_fetch_s  ngx_http_jwt_fetch_t;

/* verifiers of the same options, and the tokens that they accepted */
typedef struct ngx_http_jwt_rules_s  ngx_http_jwt_rules_t;


/* keys that the library has read */
typedef struct {
    struct jwt_handle      handle;
    size_t                 items;
    size_t                 kept;        /* of them: the others are skipped */
    ngx_uint_t             is_set;      /* and not one key alone */
} ngx_http_jwt_keys_t;


/* a key file, or the location of a set */
typedef struct {
    ngx_str_t              name;
    ngx_str_t              issuer;      /* or empty */
    ngx_str_t              issuers;     /* a list of it in JSON */
    ngx_uint_t             is_fetched;
    ngx_str_t              text;        /* of a file */
    ngx_http_jwt_keys_t   *keys;        /* of a file, while nginx reads the
                                           configuration */
} ngx_http_jwt_key_t;


/* a variable that must be met, and the answer if neither it nor another is */
typedef struct {
    ngx_int_t              variable;    /* its index */
    ngx_uint_t             has_other;   /* the next one is enough too */
    ngx_str_t              text;        /* as it and those before are written */
    ngx_int_t              answer;
} ngx_http_jwt_require_t;


typedef struct ngx_http_jwt_loc_conf_s  ngx_http_jwt_loc_conf_t;

struct ngx_http_jwt_loc_conf_s {
    u_char                *file;        /* where the directives stand */
    ngx_uint_t             line;
    ngx_flag_t             enabled;
    ngx_str_t              realm;       /* with escapes */
    ngx_int_t              token;       /* index of a variable, or -1 */
    ngx_str_t              variable;    /* its name */
    ngx_array_t           *keys;        /* of ngx_http_jwt_key_t */
    void                  *server;      /* of the locations of sets */
    time_t                 period;      /* between fetches */
    uint32_t               bits;        /* of the algorithms */
    ngx_str_t              algorithms;  /* lists in JSON */
    ngx_str_t              audiences;
    ngx_str_t              issuers;
    time_t                 leeway;
    ngx_int_t              slot_count;
    ngx_array_t           *required;    /* of ngx_http_jwt_require_t */
    ngx_http_jwt_rules_t  *rules;

    /* to find rules that no location applies */
    ngx_http_jwt_loc_conf_t  *parent;
    ngx_http_jwt_loc_conf_t  *next;     /* of those with such a directive */
    ngx_str_t              directive;   /* the last of the block, or empty */
    unsigned               is_location:1;  /* or a block in one */
    unsigned               is_part:1;   /* if or limit_except */
    unsigned               is_off:1;    /* by auth_jwt off of the block */
    unsigned               is_applied:1;
};


typedef struct {
    ngx_http_jwt_rules_t     *rules;    /* the last that was made */
    ngx_http_jwt_loc_conf_t  *blocks;   /* the last with rules of its own */
} ngx_http_jwt_main_conf_t;


/* a token that is accepted at each time from the first to the last */
typedef struct {
    uint64_t               first;
    uint64_t               last;
    uint64_t               used;
    uint32_t               hash;
    uint32_t               token_len;   /* 0 in a free slot */
    uint32_t               claims_len;
    u_char                 text[NGX_HTTP_JWT_SLOT];
} ngx_http_jwt_slot_t;


typedef struct ngx_http_jwt_source_s  ngx_http_jwt_source_t;

/*
 * keys that are verified with, as a worker has them: all sources of an issuer,
 * or all without an issuer, are one set with one verifier
 */
struct ngx_http_jwt_source_s {
    ngx_http_jwt_rules_t     *rules;
    ngx_http_jwt_key_t       *key;
    ngx_http_jwt_source_t    *first;    /* of the same set, in their order */
    ngx_str_t                 text;     /* empty until a set is fetched */

    /* only of the first of a set */
    ngx_uint_t                count;    /* of sources of the set */
    ngx_str_t                 options;
    struct jwt_handle         verifier; /* none without a text */

    /* only of keys that are fetched */
    ngx_http_jwt_fetch_t     *fetch;    /* under way, or NULL */
    time_t                    tried;    /* when the last fetch ended */
    time_t                    cut;      /* when the last one was cut off */
    time_t                    fetched;  /* when one gave a set */
    ngx_uint_t                is_failing;  /* the last gave none */
};


/*
 * shared by the locations whose keys, options and slot_count are the same: a
 * directive that changes a verdict changes the text of keys or options
 */
struct ngx_http_jwt_rules_s {
    ngx_http_jwt_rules_t     *next;
    ngx_http_jwt_loc_conf_t  *conf;     /* of the first location */
    ngx_str_t                 options;
    ngx_http_jwt_source_t    *sources;
    ngx_uint_t                count;    /* of sources */
    ngx_uint_t                is_bound; /* each source has its issuer */
    struct jwt_handle         verifier; /* of all sets, or none */
    ngx_uint_t                is_fetched;  /* a source is */
    ngx_http_jwt_slot_t      *slots;
    uint64_t                  uses;     /* of slots */
    uint32_t                  sets;     /* how many were fetched */
    ngx_queue_t               waiting;  /* contexts */
};


/* the verdict on the token of a request or of a subrequest */
typedef struct {
    ngx_http_request_t    *request;
    ngx_str_t              token;       /* empty if none, or several */
    ngx_str_t              claims;      /* of an accepted token, in JSON */
    uint32_t               status;
    struct jwt_verdict     said;        /* all 0 for a remembered token */
    ngx_http_jwt_source_t *source;      /* the first of a set that lacks its
                                           key, or NULL */
    ngx_str_t              unmet;       /* what is required, or empty */
    ngx_queue_t            queue;       /* of those that wait for a set */
    ngx_uint_t             waited;      /* for so many sets */
    unsigned               is_waiting:1;
    unsigned               cannot_wait:1;
    unsigned               has_several:1;  /* tokens */
} ngx_http_jwt_ctx_t;


/* ngx_http_jwt_cache.c */
uint32_t ngx_http_jwt_verify(ngx_http_jwt_rules_t *rules,
    ngx_http_jwt_ctx_t *ctx);

/* ngx_http_jwt_conf.c */
extern ngx_command_t  ngx_http_jwt_commands[];
void *ngx_http_jwt_create_loc_conf(ngx_conf_t *cf);
char *ngx_http_jwt_merge_loc_conf(ngx_conf_t *cf, void *parent, void *child);
ngx_int_t ngx_http_jwt_check_blocks(ngx_conf_t *cf);

/* ngx_http_jwt_fetch.c */
void ngx_http_jwt_init_fetches(void);
ngx_uint_t ngx_http_jwt_is_fetch(ngx_http_request_t *r);
ngx_int_t ngx_http_jwt_await(ngx_http_jwt_rules_t *rules,
    ngx_http_jwt_ctx_t *ctx);
void ngx_http_jwt_stop_waiting(ngx_http_jwt_ctx_t *ctx);

/* ngx_http_jwt_keys.c */
u_char *ngx_http_jwt_write_fault(ngx_http_jwt_keys_t *keys, uint32_t status,
    u_char *p, u_char *last);
void ngx_http_jwt_log_skipped(ngx_log_t *log, ngx_http_jwt_key_t *key,
    ngx_str_t *server, ngx_http_jwt_keys_t *keys);

/* ngx_http_jwt_rules.c */
char *ngx_http_jwt_read_key(ngx_conf_t *cf, ngx_http_jwt_key_t *key);
char *ngx_http_jwt_set_rules(ngx_conf_t *cf, ngx_http_jwt_loc_conf_t *conf);
ngx_http_jwt_source_t *ngx_http_jwt_find_source(ngx_http_jwt_rules_t *rules,
    ngx_str_t *issuer);
uint32_t ngx_http_jwt_take_set(ngx_http_jwt_source_t *source,
    ngx_array_t *set, ngx_http_jwt_keys_t *keys);

/* ngx_http_jwt_text.c */
uint32_t ngx_http_jwt_read_part(ngx_pool_t *pool, ngx_str_t *token,
    uint32_t part, ngx_str_t *json);
uint32_t ngx_http_jwt_write_list(ngx_pool_t *pool, ngx_str_t *texts,
    ngx_uint_t n, ngx_str_t *list);
u_char *ngx_http_jwt_write_algorithms(u_char *p, u_char *last, uint32_t bits);
ngx_uint_t ngx_http_jwt_is_same_text(ngx_str_t *a, ngx_str_t *b);
ngx_uint_t ngx_http_jwt_has_control(ngx_str_t *text);
ngx_uint_t ngx_http_jwt_has_variable(ngx_str_t *text);
ngx_uint_t ngx_http_jwt_take_name(ngx_str_t *text);

/* ngx_http_jwt_token.c */
ngx_int_t ngx_http_jwt_find_token(ngx_http_request_t *r,
    ngx_http_jwt_loc_conf_t *jlcf, ngx_str_t *token);

/* ngx_http_jwt_variables.c */
ngx_http_jwt_ctx_t *ngx_http_jwt_add_ctx(ngx_http_request_t *r);
ngx_uint_t ngx_http_jwt_is_clone(ngx_http_request_t *r);
ngx_int_t ngx_http_jwt_add_variables(ngx_conf_t *cf);
ngx_int_t ngx_http_jwt_watch_variables(ngx_cycle_t *cycle);
char *ngx_http_jwt_claim(ngx_conf_t *cf, ngx_command_t *cmd, void *conf);


extern ngx_module_t  ngx_http_jwt_module;


#endif /* _NGX_HTTP_JWT_H_INCLUDED_ */
