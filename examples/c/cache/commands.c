/* The table of commands, and what finds the command of a request. */
#include "cache.h"
#include <ctype.h>
#include <string.h>

#define SUBSCRIBES (PUBSUB | NO_SCRIPT | LOADING | STALE | SUBSCRIBED)
#define SCRIPTS (NO_SCRIPT | STALE | SKIP_MONITOR | NO_KEYS | COUNTED | ALONE)

/* Name, function, number of words, flags, first and last key, step, number; in the order of the files. */
static const struct command all[] = {
    /* strings.c */
    {"get", run_get, 2, READS | FAST, 1, 1, 1, 0},
    {"mget", run_mget, -2, READS | FAST, 1, -1, 1, 0},
    {"getdel", run_getdel, 2, WRITES | FAST, 1, 1, 1, 0},
    {"strlen", run_strlen, 2, READS | FAST, 1, 1, 1, 0},
    {"getrange", run_getrange, 4, READS, 1, 1, 1, 0},
    {"substr", run_getrange, 4, READS, 1, 1, 1, 0},
    {"append", run_append, 3, WRITES | GROWS | FAST, 1, 1, 1, 0},
    {"setrange", run_setrange, 4, WRITES | GROWS, 1, 1, 1, 0},
    /* set.c */
    {"set", run_set, -3, WRITES | GROWS, 1, 1, 1, 0},
    {"setex", run_setex, 4, WRITES | GROWS, 1, 1, 1, 1000},
    {"psetex", run_setex, 4, WRITES | GROWS, 1, 1, 1, 1},
    {"setnx", run_setnx, 3, WRITES | GROWS | FAST, 1, 1, 1, 0},
    {"getset", run_getset, 3, WRITES | GROWS | FAST, 1, 1, 1, 0},
    {"getex", run_getex, -2, WRITES | FAST, 1, 1, 1, 0},
    {"mset", run_mset, -3, WRITES | GROWS, 1, -1, 2, 0},
    {"msetnx", run_msetnx, -3, WRITES | GROWS | ALONE, 1, -1, 2, 0},
    /* numbers.c */
    {"incr", run_add, 2, WRITES | GROWS | FAST, 1, 1, 1, 1},
    {"decr", run_add, 2, WRITES | GROWS | FAST, 1, 1, 1, -1},
    {"incrby", run_add, 3, WRITES | GROWS | FAST, 1, 1, 1, 1},
    {"decrby", run_add, 3, WRITES | GROWS | FAST, 1, 1, 1, -1},
    {"incrbyfloat", run_add_float, 3, WRITES | GROWS | FAST, 1, 1, 1, 0},
    /* keys.c */
    {"del", run_each_key, -2, WRITES, 1, -1, 1, 1},
    {"unlink", run_each_key, -2, WRITES | FAST, 1, -1, 1, 1},
    {"exists", run_each_key, -2, READS | FAST, 1, -1, 1, 0},
    {"touch", run_each_key, -2, READS | FAST, 1, -1, 1, 0},
    {"type", run_type, 2, READS | FAST, 1, 1, 1, 0},
    {"dbsize", run_dbsize, 1, READS | FAST, 0, 0, 0, 0},
    {"flushall", run_flush, -1, WRITES | ALONE, 0, 0, 0, 1},
    {"flushdb", run_flush, -1, WRITES | ALONE, 0, 0, 0, 0},
    {"rename", run_rename, 3, WRITES | ALONE, 1, 2, 1, 0},
    {"renamenx", run_rename, 3, WRITES | FAST | ALONE, 1, 2, 1, 1},
    {"copy", run_copy, -3, WRITES | GROWS | ALONE, 1, 2, 1, 0},
    /* databases.c */
    {"select", run_select, 2, LOADING | STALE | FAST, 0, 0, 0, 0},
    {"move", run_move, 3, WRITES | FAST | ALONE, 1, 1, 1, 0},
    /* deadlines.c */
    {"expire", run_expire, -3, WRITES | FAST, 1, 1, 1, 1000},
    {"pexpire", run_expire, -3, WRITES | FAST, 1, 1, 1, 1},
    {"expireat", run_expire, -3, WRITES | FAST, 1, 1, 1, -1000},
    {"pexpireat", run_expire, -3, WRITES | FAST, 1, 1, 1, -1},
    {"persist", run_persist, 2, WRITES | FAST, 1, 1, 1, 0},
    {"ttl", run_ttl, 2, READS | FAST, 1, 1, 1, 1000},
    {"pttl", run_ttl, 2, READS | FAST, 1, 1, 1, 1},
    {"expiretime", run_ttl, 2, READS | FAST, 1, 1, 1, -1000},
    {"pexpiretime", run_ttl, 2, READS | FAST, 1, 1, 1, -1},
    /* scan.c */
    {"scan", run_scan, -2, READS, 0, 0, 0, 0},
    {"keys", run_keys, 2, READS, 0, 0, 0, 0},
    {"randomkey", run_randomkey, 1, READS, 0, 0, 0, 0},
    /* client.c */
    {"client", run_client, -2, OUT_OF_SCRIPTS, 0, 0, 0, 0},
    {"hello", run_hello, -1, NO_SCRIPT | LOADING | STALE | FAST | NO_AUTH | BUSY, 0, 0, 0, 0},
    /* cluster.c */
    {"cluster", run_cluster, -2, 0, 0, 0, 0, 0},
    /* config.c */
    {"config", run_config, -2, OUT_OF_SCRIPTS, 0, 0, 0, 0},
    {"object", run_object, -2, 0, 0, 0, 0, 0},
    {"memory", run_memory, -2, 0, 0, 0, 0, 0},
    /* describe.c */
    {"command", run_command, -1, LOADING | STALE, 0, 0, 0, 0},
    /* transactions.c */
    {"multi", run_multi, 1, NO_SCRIPT | LOADING | STALE | FAST | BUSY | UNQUEUED, 0, 0, 0, 0},
    {"exec", run_exec, 1, NO_SCRIPT | LOADING | STALE | SKIP_SLOWLOG | UNQUEUED | ALONE, 0, 0, 0, 0},
    {"discard", run_discard, 1, NO_SCRIPT | LOADING | STALE | FAST | BUSY | UNQUEUED, 0, 0, 0, 0},
    {"watch", run_watch, -2, NO_SCRIPT | LOADING | STALE | FAST | BUSY | UNQUEUED, 1, -1, 1, 0},
    {"unwatch", run_unwatch, 1, NO_SCRIPT | LOADING | STALE | FAST | BUSY, 0, 0, 0, 0},
    /* stats.c */
    {"slowlog", run_slowlog, -2, OUT_OF_SCRIPTS, 0, 0, 0, 0},
    {"latency", run_latency, -2, OUT_OF_SCRIPTS, 0, 0, 0, 0},
    /* pubsub.c */
    {"publish", run_publish, 3, PUBSUB | LOADING | STALE | FAST, 0, 0, 0, 0},
    {"subscribe", run_subscribe, -2, SUBSCRIBES, 0, 0, 0, 0},
    {"psubscribe", run_subscribe, -2, SUBSCRIBES, 0, 0, 0, 1},
    {"unsubscribe", run_unsubscribe, -1, SUBSCRIBES, 0, 0, 0, 0},
    {"punsubscribe", run_unsubscribe, -1, SUBSCRIBES, 0, 0, 0, 1},
    {"pubsub", run_pubsub, -2, 0, 0, 0, 0, 0},
#ifdef CACHE_LUA
    /* scripts.c */
    {"eval", run_eval, -3, SCRIPTS, 0, 0, 0, 0},
    {"eval_ro", run_eval, -3, READS | SCRIPTS, 0, 0, 0, 0},
    {"evalsha", run_eval, -3, SCRIPTS, 0, 0, 0, 1},
    {"evalsha_ro", run_eval, -3, READS | SCRIPTS, 0, 0, 0, 1},
    {"script", run_script, -2, OUT_OF_SCRIPTS, 0, 0, 0, 0},
#endif
    /* server.c */
    {"reset", run_reset, 1, NO_SCRIPT | LOADING | STALE | FAST | NO_AUTH | BUSY | UNQUEUED | SUBSCRIBED, 0, 0, 0, 0},
    {"ping", run_ping, -1, FAST | SUBSCRIBED, 0, 0, 0, 0},
    {"time", run_time, 1, LOADING | STALE | FAST, 0, 0, 0, 0},
    {"role", run_role, 1, NO_SCRIPT | LOADING | STALE | FAST, 0, 0, 0, 0},
    {"echo", run_ping, 2, LOADING | STALE | FAST, 0, 0, 0, 0},
    {"info", run_info, -1, LOADING | STALE, 0, 0, 0, 0},
    {"auth", run_auth, -2, NO_SCRIPT | LOADING | STALE | FAST | NO_AUTH | BUSY, 0, 0, 0, 0},
    {"quit", run_quit, -1, NO_SCRIPT | LOADING | STALE | FAST | NO_AUTH | BUSY | UNQUEUED | SUBSCRIBED, 0, 0, 0, 0},
};

enum { COUNT = sizeof all / sizeof *all, PLACES = 512 };

/* Each command's number plus one at the first free place from the hash of its name on; 0 where there is none. */
static uint16_t places[PLACES];

static size_t place_of(struct bytes name) {
    size_t place = name.len;
    for (size_t i = 0; i < name.len; i++)
        place = 31 * place + (name.at[i] | 32U);
    return place % PLACES;
}

/* Fills the places. It is called once, before there are threads. */
void commands_begin(void) {
    for (size_t i = 0; i < COUNT; i++) {
        size_t at = place_of(bytes_of(all[i].name));
        while (places[at] != 0)
            at = (at + 1) % PLACES;
        places[at] = (uint16_t)(i + 1);
    }
}

size_t commands_count(void) {
    return COUNT;
}

const struct command *command_at(size_t number) {
    return &all[number];
}

/* The number of a command of the table; for another one, such as a part of one, how many there are. */
size_t command_number(const struct command *command) {
    return command >= all && command < all + COUNT ? (size_t)(command - all) : COUNT;
}

/* The command of a name, whatever the case of its letters; NULL where there is none. */
const struct command *command_of(struct bytes name) {
    if (name.len > LONGEST_NAME) return NULL;
    for (size_t at = place_of(name); places[at] != 0; at = (at + 1) % PLACES)
        if (is_word(name, all[places[at] - 1].name)) return &all[places[at] - 1];
    return NULL;
}

/* Whether a command may have so many words, with its name. */
bool takes_count(const struct command *command, size_t count) {
    return command->arity < 0 ? count >= (size_t)-command->arity : count == (size_t)command->arity;
}
