/* A cache server: strings under keys, many connections, one map of facing_bytes.h, and the Redis protocol (RESP2, RESP3).
 *
 * options.c reads the options, listen.c listens. main.c opens the map, starts the threads, accepts connections and deals
 * them out, and removes expired keys in slices. worker.c has a thread's loop over its connections; request.c takes requests
 * apart, run.c runs them, reply.c writes replies. store.c changes the value of a key by one atomic call, databases.c has a
 * map for each database, walk.c goes over the keys, evict.c makes room; holding.c bounds what connections hold, closing.c
 * counts why connections were closed; pubsub.c has channels, turn.c lets a request run alone, watch.c tells whether a key
 * was changed. scripts.c runs scripts in Lua. clock.c has deadlines, cluster.c the servers beside this one. heap.c counts
 * memory, slabs.c has small blocks. commands.c has the table of commands; commands.h tells where each is. */
#ifndef CACHE_H
#define CACHE_H
#include "facing_bytes.h"
#include <pthread.h>
#include <stdatomic.h>
#include <stdbool.h>

/* Bytes that lie somewhere else. */
struct bytes {
    const uint8_t *at;
    size_t len;
};
#define NOTHING ((struct bytes){NULL, 0})

/* Bytes in memory of their own, which grows. A connection that waits for its next request keeps none: the worker lends it
 * memory for a request and for replies, up to KEPT bytes. */
enum { KEPT = 1 << 16 };

/* A connection with so many bytes of replies that wait is not read until they are sent. */
enum { HELD = 1 << 20 };

struct buffer {
    uint8_t *at;
    size_t len, room;
};

/* == heap.c: memory, which is counted == */

void *heap_resize(void *at, size_t size);
void *heap_zeros(size_t size);
void heap_free(void *at);
void heap_tell(void);
uint64_t heap_used(void);
uint64_t heap_resident(void);
bool buffer_reserve(struct buffer *buffer, size_t more);
void buffer_fit(struct buffer *buffer);
void buffer_free(struct buffer *buffer);
void buffer_move(struct buffer *to, struct buffer *from);

/* == slabs.c: small blocks == */

enum { BLOCK_STEP = 8, LARGEST_BLOCK = 128 };

size_t block_steps(const void *at);
void *block_take(size_t steps);
void block_give(void *at, size_t steps);
bool blocks_rest(void);

/* == The server == */

/* What is removed where the memory is full: nothing; a key that was not used for long; the key that expires first. */
enum evicts { EVICT_NONE, EVICT_LRU, EVICT_TTL };

/* What the server may use, by its options; the password, which is empty where there is none. */
struct limits {
    _Atomic uint64_t connections, memory, timeout;
    uint64_t request, output, buffers, grace, instructions;
    _Atomic int64_t slow, slow_len, latency; /* of SLOWLOG, in microseconds, and its length; of LATENCY, in milliseconds */
    enum evicts evicts;
    struct bytes password;
};

/* What threads count, and tell the others when their turn ends. */
struct counts {
    int64_t dataset; /* the bytes of all keys and values, with their heads */
    int64_t stored;  /* how many keys are stored, live or not */
    int64_t calls, hits, misses, evicted, expired;
};
enum { COUNTS = sizeof(struct counts) / sizeof(int64_t) };

/* Connections that the main thread or a worker refused, each for a reason. */
enum refusal { TOO_MANY, CROSS_PROTOCOL, WRONG_PASSWORD, REFUSALS };

/* Why a connection was closed; closing.c has their names. */
enum closing {
    STILL_OPEN,
    BY_CLIENT,
    BY_QUIT,
    BY_SOCKET,   /* the system reports an error of it */
    BY_PROTOCOL, /* a request that cannot be taken apart */
    BY_HTTP,
    BY_TIMEOUT,
    BY_OUTPUT,  /* the replies to one request go past --output */
    BY_MEMORY,  /* the limit of memory or the system has none for its request or replies */
    BY_BUFFERS, /* it held the most where connections together held more than --buffers */
    BY_KILL,    /* CLIENT KILL */
    BY_STOP,
    CLOSINGS
};

struct seat {
    _Alignas(64) atomic_bool is_taken;
};

struct touched {
    _Atomic uint64_t *words;
    size_t mask; /* of the number of a bit */
};

struct watched;
struct scripting;

enum { DATABASES = 16 };

/* A database has a map of its own, which is opened when the first client asks for it. */
struct database {
    facing_bytes_handle map;
    atomic_bool is_open;
    _Atomic uint64_t generation; /* of the values that are stored now */
    _Atomic uint64_t swept;      /* values of generations before it are removed */
    _Atomic int64_t timed;       /* how many keys have a deadline */
    _Atomic int64_t dead;        /* how many keys are still stored that a FLUSHALL removed */
};

struct cache {
    struct limits limits;
    uint64_t started;
    struct worker *workers;
    size_t workers_len;
    struct seat *seats; /* one for each store */
    size_t seats_len;
    struct touched touched;
    uint64_t seed;                     /* of the hashes of touched and of watched keys */
    _Alignas(64) atomic_bool is_alone; /* a request runs alone, or waits to */
    _Atomic uint64_t watching;         /* how many keys connections watch */
    pthread_mutex_t alone, hand_lock, watch_lock, open_lock;
    struct database databases[DATABASES];
    uint32_t stores;             /* each has a client of each map */
    struct scripting *scripting; /* NULL before the first script; who runs alone touches it */
    uint64_t hand;               /* where eviction goes on, in which database; hand_lock is held */
    unsigned hand_db;
    atomic_bool is_barren;   /* a write looked for keys to evict and found none */
    struct watched **chains; /* watch_lock is held */
    _Alignas(64) _Atomic int64_t counts[COUNTS];
    _Atomic uint64_t ticks_a_ms, slow_ticks;  /* how long a tick of the processor is; and a command that is slow */
    _Alignas(64) _Atomic uint64_t holding[2]; /* what connections hold, those without a password first */
    _Alignas(64) _Atomic uint64_t connections, accepted, ids, refused[REFUSALS], closed[CLOSINGS];
};

int64_t read_count(struct cache *cache, size_t offset);
#define COUNT_OF(cache, name) read_count(cache, offsetof(struct counts, name))

/* == walk.c: going over the keys, some buckets at a time == */

struct walk {
    uint64_t at; /* 0 at the beginning, UINT64_MAX at the end */
    uint64_t *key_lens, *value_lens;
    uint8_t *room;
    size_t len, room_len, pairs, looked; /* how many it copied, and how many buckets the last step looked into */
};

/* What a walk copies of a value: its head, or all of it where it is shorter; and how long it is. */
struct stored {
    const uint8_t *head;
    size_t len;
};

struct store;
typedef bool each_fn(struct store *store, struct bytes key, struct stored stored, void *of);

uint32_t walk_next(struct walk *walk, struct store *store, size_t most);
size_t copied_of(struct stored stored);
bool walk_each(const struct walk *walk, struct store *store, each_fn *each, void *of);
void walk_free(struct walk *walk);
uint32_t walk_sweep(struct walk *walk, struct store *store);

/* == clock.c == */

uint64_t now_ms(void);
bool deadline_from(int64_t count, int64_t unit, bool is_moment, uint64_t now, uint64_t *deadline);
int64_t day_of(uint64_t deadline);

/* == store.c: a client of the map, with room for a value == */

/* A value in the map has a head before its bytes: a generation, and a deadline in milliseconds of CLOCK_MONOTONIC, if it has
 * one. Without one the head is short, so that a value of up to 18 bytes lies in the map's node. */
enum { HEAD = 8, SHORT_HEAD = 4, LONGEST_HEAD = 16 };

#define LONGEST_VALUE ((size_t)FACING_LONGEST_VALUE - HEAD)

/* Of the store alone, beside facing.h's: the limit of memory does not allow what the call would store. */
enum { STORE_FULL = 100 };

/* Keys that may be evicted: a part of the map that was copied, and how far it is looked through. */
struct candidates {
    struct walk walk;
    size_t next, from;
    unsigned db; /* of whose map */
};

struct store {
    struct cache *cache;
    struct seat *seat;
    facing_bytes_handle clients[DATABASES];
    unsigned db; /* the database of the request, of which these are the map's client and the counts */
    struct database *database;
    facing_bytes_handle *client;
    int64_t timed, dead;        /* of its counts, what is not yet told */
    struct buffer seen, next;   /* what was there, and what is to be stored */
    uint8_t head[LONGEST_HEAD]; /* of what was there, where the rest is not copied */
    uint64_t next_deadline;
    size_t next_head;     /* how many bytes the head of `next` has */
    uint32_t next_status; /* why `next` cannot be stored; FACING_DONE where it can */
    struct candidates candidates;
    struct counts counts; /* what is not yet told */
    uint64_t now;         /* when the request runs, or 0 where it has not asked yet */
    bool is_alone;        /* this store's request runs alone */
};

/* What a call found at a key. A value is stored until it is removed; it is live until its deadline, or a FLUSHALL. */
struct found {
    bool is_stored, is_live, is_dead;
    size_t stored_len, head_len;
    uint64_t deadline;
    struct bytes value; /* its bytes where the call copies them, and else only how many they are */
};

enum change { LEAVE, STORE, REMOVE };

/* Decides on what a key has. Before it returns STORE it calls store_next. It may be asked again, of another value. */
typedef enum change decide_fn(struct store *store, const struct found *found, void *of);

uint64_t store_now(struct store *store);
bool has_passed(struct store *store, uint64_t deadline);
uint32_t store_open(struct store *store, struct cache *cache);
uint32_t store_select(struct store *store, unsigned db);
void store_close(struct store *store);
void store_tell(struct store *store);
void store_rest(struct store *store);
void store_next(struct store *store, uint64_t deadline, struct bytes front, struct bytes back);
void store_over(struct store *store, size_t at, struct bytes bytes);
void store_find(struct store *store, struct stored stored, struct found *found);
uint32_t store_get(struct store *store, struct bytes key, struct found *found);
uint32_t store_view(struct store *store, struct bytes key, struct found *found, facing_bytes_handle *held);
uint32_t store_look(struct store *store, struct bytes key, struct found *found);
void store_count_look(struct store *store, struct bytes key, uint32_t status, const struct found *found);
uint32_t store_put(struct store *store, struct bytes key, struct found *before);
uint32_t store_remove(struct store *store, struct bytes key, struct found *before);
uint32_t store_expire(struct store *store, struct bytes key, struct stored stored);
uint32_t store_change(struct store *store, struct bytes key, decide_fn *decide, void *of);
uint32_t store_clear(struct store *store);
uint64_t store_count(struct store *store, uint32_t *status);

/* == databases.c == */

uint32_t database_open(struct cache *cache, unsigned db, uint64_t buckets);
void databases_close(struct cache *cache);
int64_t timed_of_all(const struct cache *cache);
int64_t dead_of_all(const struct cache *cache);

/* == evict.c: room for what is stored == */

bool touched_begin(struct cache *cache);
void touch(const struct store *store, struct bytes key);
size_t memory_of(size_t key_len, size_t value_len);
bool has_room(const struct cache *cache, uint64_t more);
bool make_room(struct store *store, uint64_t more);

/* == turn.c: requests that run at once, and one that runs alone == */

bool turns_begin(struct cache *cache, size_t stores);
void turn_share(struct store *store);
void turn_pass(struct store *store);
void turn_end(struct store *store);
void turn_take_alone(struct store *store);
void turn_leave_alone(struct store *store);

/* == watch.c: keys that connections watch == */

struct watched {
    struct watched *next;
    uint64_t hash, raised;
    size_t watchers;
};

/* A key that a connection watches, and how often it was changed before. */
struct watch {
    struct watched *of;
    uint64_t raised, generation;
    unsigned db;
    uint8_t *key;
    size_t key_len;
    bool is_live;
};

uint64_t hash_of(const struct store *store, struct bytes key);
bool watch_key(const struct store *store, struct bytes key, struct watch *watch);
void unwatch_key(struct cache *cache, struct watch *watch);
bool is_changed(struct cache *cache, const struct watch *watch);
void changed(const struct store *store, struct bytes key);

/* == log.c, sha1.c, scripts.c == */

enum { SHA1_HEX = 41 };

__attribute__((format(printf, 1, 2))) void log_line(const char *format, ...);
void notify_system(const char *state);
void sha1_hex(struct bytes text, char hex[SHA1_HEX]);
void scripts_close(struct cache *cache);

/* == worker.c: a thread and its connections == */

/* What a thread counts of a command. */
struct command_stats {
    _Atomic uint64_t calls, ticks, rejected, failed;
};

struct worker {
    struct cache *cache;
    struct store store;
    struct walk walk;
    int epoll, inbox, outbox; /* the main thread writes descriptors of connections to the outbox, and closes it to stop */
    int bell;                 /* rings when connections have mail */
    struct connection *mailed;
    struct connection *first, *last; /* those that were served last are first */
    pthread_mutex_t list_lock;       /* of the list, and of what its connections hold */
    struct buffer in, out;           /* empty, to be lent */
    uint64_t now, drain_by;          /* when a stopping worker closes all that is left, or 0 */
    char error[1024];                /* the last error with an argument in it */
    struct command_stats *stats;     /* of each command */
    bool is_rested;                  /* it had nothing to do, and gave its free blocks back */
    pthread_t thread;
};

/* An argument of a request: where it begins behind the request's beginning, and its length. */
struct span {
    uint32_t from, len;
};

/* The requests of a transaction, one behind the other. */
struct transaction {
    bool is_open, is_wrong;
    size_t count;
    struct buffer requests;
    struct watch *watches;
    size_t watches_len, watches_room, watched; /* how many bytes the watched keys have */
};

struct connection {
    struct worker *worker;
    struct connection *before, *after;
    int socket;
    uint32_t watched;
    bool is_ending; /* takes no more requests, and is closed once its replies are sent */
    bool is_broken; /* is closed at once */
    bool is_held;   /* has too many replies to send, and takes no requests until they are sent */
    bool is_known;  /* gave the password, or needs none */
    enum closing why;
    atomic_int shed;            /* why another thread has it closed, or 0 */
    atomic_bool is_spared;      /* by CLIENT NO-EVICT */
    _Atomic size_t holds;       /* what cache->holding has of it; it changes under the worker's list_lock */
    atomic_bool holds_known;    /* and where */
    uint64_t id, began, served; /* when it was served last */
    uint8_t *name;              /* its bytes and a 0, or NULL */
    size_t name_len;
    struct buffer in, out;
    size_t begin, at;             /* of `in`: where the request begins, and how far it is read */
    size_t left, count, arg_room; /* how many arguments are still to come, are there, and have room in `args` */
    struct span *args;
    const uint8_t *base;           /* where the request begins that runs */
    const struct command *command; /* of the request that runs */
    size_t sent;                   /* how much of `out` is sent */
    uint64_t answered;             /* how many bytes of replies the request has that runs */
    struct transaction transaction;
    unsigned db;
    _Atomic int resp; /* the version of the protocol: 3, or another number for 2 */
    struct subscription *subscribed;
    size_t subscriptions[2]; /* to channels, to patterns */
    bool was_subscribed;
    bool has_mail; /* under the lock of pubsub.c, with what follows */
    struct connection *next_mailed;
    struct buffer mail;
};

void worker_begin(struct worker *worker, struct seat *seat);
bool worker_open(struct worker *worker, struct cache *cache);
void worker_close(struct worker *worker);
void *worker_run(void *of);

/* == pubsub.c: channels == */

/* A subscriber is closed that leaves more bytes than this unread. */
enum { MOST_MAIL = 1 << 25 };

struct connection *next_mailed(struct worker *worker, struct buffer *mail);
void leave_channels(struct connection *c);

/* == holding.c: what connections hold == */

bool may_hold(struct connection *c, size_t more);
void hold_within(struct connection *c);
void hold_nothing(struct connection *c);
void shed(struct connection *c, enum closing why);

/* == closing.c: connections that end, and why == */

void end_connection(struct connection *c, enum closing why);
void break_connection(struct connection *c, enum closing why);
size_t write_closings(struct cache *cache, char *text, size_t most);

#define NOT_A_NUMBER "ERR value is not an integer or out of range"
#define NOT_A_FLOAT "ERR value is not a valid float"
#define NO_SYNTAX "ERR syntax error"

/* The Redis whose commands and words these are. */
#define REDIS_VERSION "7.0.15"

/* == request.c == */

enum parsed { PARSED, MORE, WRONG };

enum parsed request_next(struct connection *c);
void request_done(struct connection *c);
bool add_arg(struct connection *c, size_t from, size_t len);
struct bytes arg(const struct connection *c, size_t number);
struct bytes bytes_of(const char *text);
bool number_of(struct bytes text, int64_t *number);
bool is_word(struct bytes text, const char *word);

/* == reply.c == */

size_t unsent(const struct connection *c);
void send_replies(struct connection *c);
void reply_simple(struct connection *c, const char *text);
void reply_error(struct connection *c, const char *text);
void reply_number(struct connection *c, int64_t number);
void reply_raw(struct connection *c, struct bytes bytes);
void reply_bulk(struct connection *c, struct bytes bytes);
void reply_held(struct connection *c, facing_bytes_handle *held, size_t from, size_t len);
void reply_field(struct connection *c, const char *name, const char *text);
void reply_count(struct connection *c, const char *name, int64_t number);
void reply_none(struct connection *c);
void reply_no_list(struct connection *c);
void reply_list(struct connection *c, size_t count);
void reply_map(struct connection *c, size_t count);
void reply_set(struct connection *c, size_t count);
void reply_push(struct connection *c, size_t count);
void reply_true(struct connection *c, bool is_so);
void reply_verbatim(struct connection *c, struct bytes text);
const char *error_of(uint32_t status);
const char *done_or_error(struct connection *c, uint32_t status, int64_t number);

/* == main.c == */

void allow_connections(uint64_t connections, uint64_t threads);

#include "commands.h"

#endif
