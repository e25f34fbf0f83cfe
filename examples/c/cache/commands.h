/* The commands: what describes one, the functions that run them, and what these call. cache.h includes it. */
#ifndef CACHE_COMMANDS_H
#define CACHE_COMMANDS_H

/* A command's function replies and returns NULL, or returns an error to reply with. */
typedef const char *run_fn(struct connection *c);

/* What a command is: the words of COMMAND, and from ALONE on what this server makes of it. */
enum {
    WRITES = 1,
    READS = 1 << 1,
    GROWS = 1 << 2, /* denyoom */
    ADMIN = 1 << 3,
    NO_SCRIPT = 1 << 4,
    LOADING = 1 << 5,
    STALE = 1 << 6,
    FAST = 1 << 7,
    NO_AUTH = 1 << 8,
    BUSY = 1 << 9, /* allow_busy */
    SKIP_SLOWLOG = 1 << 10,
    SKIP_MONITOR = 1 << 11,
    NO_KEYS = 1 << 12, /* no_mandatory_keys */
    PUBSUB = 1 << 14,
    COUNTED = 1 << 13,        /* movablekeys: the third word is the number of keys behind it */
    ALONE = 1 << 16,          /* runs while no other request does */
    UNQUEUED = 1 << 17,       /* runs at once in a transaction too */
    SUBSCRIBED = 1 << 19,     /* also of a connection that subscribed something */
    OUT_OF_SCRIPTS = 1 << 18, /* for parts of Redis's command that are */
};

/* `arity` is the number of words with the name, or, below 0, the least such number. The keys are every `step`-th word from
 * `first` to `last`, which counts from the end where it is below 0. `number` is for the function. */
struct command {
    const char *name;
    run_fn *run;
    int arity;
    unsigned flags;
    int first, last, step;
    int64_t number;
};

enum { LONGEST_NAME = 32 };

void commands_begin(void);
size_t commands_count(void);
const struct command *command_at(size_t number);
size_t command_number(const struct command *command);
const struct command *command_of(struct bytes name);
bool takes_count(const struct command *command, size_t count);

/* strings.c */
run_fn run_get, run_mget, run_getdel, run_strlen, run_getrange, run_append, run_setrange;
const char *reply_found(struct connection *c, uint32_t status, const struct found *found);
/* set.c */
run_fn run_set, run_setex, run_setnx, run_getset, run_getex, run_mset, run_msetnx;
/* numbers.c */
run_fn run_add, run_add_float;
/* keys.c */
run_fn run_each_key, run_type, run_dbsize, run_flush, run_rename, run_copy;
/* databases.c */
run_fn run_select, run_move;
const char *read_database(struct bytes text, unsigned *db);
uint32_t copy_key(struct connection *c, unsigned db, struct bytes from, struct bytes to, bool replaces, bool *is_done);
/* deadlines.c */
run_fn run_expire, run_persist, run_ttl;
/* scan.c */
run_fn run_scan, run_keys, run_randomkey;
/* pattern.c */
bool is_like(struct bytes text, struct bytes pattern);
/* client.c */
run_fn run_client, run_hello;
void write_peer(char *text, size_t most, const struct connection *c);
/* options.c */
bool bytes_from(struct bytes text, uint64_t *bytes);
/* config.c */
run_fn run_config, run_object, run_memory;
/* describe.c */
run_fn run_command;
const char *find_part(struct connection *c, const struct command *parts, size_t count);
const char *run_part(struct connection *c, const struct command *parts, size_t count);
/* cluster.c */
run_fn run_cluster;
bool is_in_cluster(void);
bool cluster_open(const char *slots, const char *path);
const char *cluster_refuses(struct connection *c);
/* transactions.c */
run_fn run_multi, run_exec, run_discard, run_watch, run_unwatch;
/* stats.c */
run_fn run_slowlog, run_latency;
uint64_t ticks_now(void);
void ticks_learn(struct cache *cache);
void set_slow_ticks(struct cache *cache);
void count_rejected(struct connection *c);
void command_ran(struct connection *c, const struct command *command, uint64_t ticks, bool has_failed);
void write_stats_of_commands(struct cache *cache, struct buffer *text);
void forget_stats(struct cache *cache);
void stats_close(void);
/* pubsub.c */
run_fn run_publish, run_subscribe, run_unsubscribe, run_pubsub;
/* scripts.c */
run_fn run_eval, run_script;
/* server.c */
run_fn run_ping, run_info, run_auth, run_quit, run_reset, run_time, run_role;

/* == run.c, transactions.c, server.c == */

void run_request(struct connection *c);
const char *run_command_of(struct connection *c, const struct command *command);
const char *queue_request(struct connection *c);
void forget_transaction(struct connection *c);
const char *policy_of(const struct limits *limits);
const char *authenticate(struct connection *c, struct bytes user, struct bytes password);
const char *wrong_count(struct connection *c);
const char *no_deadline(struct connection *c);
const char *error_with(struct connection *c, const char *before, struct bytes bytes, const char *after);
const char *error_of_option(struct connection *c, struct bytes option);

#endif
