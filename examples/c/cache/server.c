/* The commands on the server and the connection. */
#define _GNU_SOURCE
#include "cache.h"
#include <inttypes.h>
#include <stdio.h>
#include <string.h>
#include <time.h>
#include <unistd.h>

const char *run_ping(struct connection *c) {
    if (c->count > 2) return wrong_count(c);
    if (c->subscribed != NULL && c->resp != 3) {
        reply_list(c, 2);
        reply_bulk(c, bytes_of("pong"));
        reply_bulk(c, c->count == 2 ? arg(c, 1) : NOTHING);
        return NULL;
    }
    c->count == 1 ? reply_simple(c, "PONG") : reply_bulk(c, arg(c, 1));
    return NULL;
}

const char *run_quit(struct connection *c) {
    reply_simple(c, "OK");
    end_connection(c, BY_QUIT);
    return NULL;
}

/* Makes the connection as it was at first. */
const char *run_reset(struct connection *c) {
    forget_transaction(c);
    leave_channels(c);
    c->is_known = c->worker->cache->limits.password.len == 0;
    c->db = 0;
    c->resp = 2;
    heap_free(c->name);
    c->name = NULL;
    c->name_len = 0;
    reply_simple(c, "RESET");
    return NULL;
}

const char *run_time(struct connection *c) {
    struct timespec now;
    char seconds[24], rest[24];
    clock_gettime(CLOCK_REALTIME, &now);
    snprintf(seconds, sizeof seconds, "%lld", (long long)now.tv_sec);
    snprintf(rest, sizeof rest, "%ld", now.tv_nsec / 1000);
    reply_list(c, 2);
    reply_bulk(c, bytes_of(seconds));
    reply_bulk(c, bytes_of(rest));
    return NULL;
}

/* A server without replicas. */
const char *run_role(struct connection *c) {
    reply_list(c, 3);
    reply_bulk(c, bytes_of("master"));
    reply_number(c, 0);
    reply_list(c, 0);
    return NULL;
}

/* Whether INFO is asked for a section. */
static bool is_asked(const struct connection *c, const char *name) {
    static const char *const all[] = {"all", "default", "everything"};
    for (size_t i = 1; i < c->count; i++) {
        if (is_word(arg(c, i), name)) return true;
        for (size_t at = 0; at < sizeof all / sizeof *all; at++)
            if (is_word(arg(c, i), all[at])) return true;
    }
    return c->count == 1;
}

enum { PART = 1024 };

static void write_server(struct cache *cache, char part[PART]) {
    snprintf(part, PART,
             "redis_version:" REDIS_VERSION "\r\nredis_mode:%s\r\nprocess_id:%d\r\nuptime_in_seconds:%" PRIu64 "\r\n",
             is_in_cluster() ? "cluster" : "standalone", (int)getpid(), (now_ms() - cache->started) / 1000);
}

static void write_clients(struct cache *cache, char part[PART]) {
    snprintf(part, PART, "connected_clients:%" PRIu64 "\r\nmaxclients:%" PRIu64 "\r\n",
             atomic_load_explicit(&cache->connections, memory_order_relaxed), cache->limits.connections);
}

/* Redis's word for what is removed where the memory is full. */
const char *policy_of(const struct limits *limits) {
    static const char *const policies[] = {"noeviction", "allkeys-lru", "volatile-ttl"};
    return policies[limits->evicts];
}

static void write_memory(struct cache *cache, char part[PART]) {
    uint64_t used = heap_used(), resident = heap_resident();
    snprintf(part, PART,
             "used_memory:%" PRIu64 "\r\nused_memory_rss:%" PRIu64 "\r\nused_memory_dataset:%" PRId64
             "\r\nmaxmemory:%" PRIu64
             "\r\nmaxmemory_policy:%s\r\nmem_fragmentation_ratio:%.2f\r\nmem_clients_normal:%" PRIu64 "\r\n",
             used, resident, COUNT_OF(cache, dataset), cache->limits.memory, policy_of(&cache->limits),
             (double)resident / (double)(used > 0 ? used : 1),
             atomic_load_explicit(&cache->holding[0], memory_order_relaxed)
                 + atomic_load_explicit(&cache->holding[1], memory_order_relaxed));
}

static void write_stats(struct cache *cache, char part[PART]) {
    snprintf(part, PART,
             "total_connections_received:%" PRIu64 "\r\ntotal_commands_processed:%" PRId64
             "\r\nrejected_connections:%" PRIu64 "\r\nexpired_keys:%" PRId64 "\r\nevicted_keys:%" PRId64
             "\r\nkeyspace_hits:%" PRId64 "\r\nkeyspace_misses:%" PRId64 "\r\n",
             atomic_load_explicit(&cache->accepted, memory_order_relaxed), COUNT_OF(cache, calls),
             atomic_load_explicit(&cache->refused[TOO_MANY], memory_order_relaxed), COUNT_OF(cache, expired),
             COUNT_OF(cache, evicted), COUNT_OF(cache, hits), COUNT_OF(cache, misses));
}

/* A line for each database that has keys. */
static void write_keyspace(struct connection *c, char part[PART]) {
    struct store *store = &c->worker->store;
    size_t len = 0;
    part[0] = 0;
    for (unsigned db = 0; db < DATABASES; db++) {
        uint32_t status;
        uint64_t keys;
        if (!atomic_load(&store->cache->databases[db].is_open) || store_select(store, db) != FACING_DONE) continue;
        keys = store_count(store, &status);
        if (keys == 0 || len >= PART) continue;
        len += (size_t)snprintf(part + len, PART - len, "db%u:keys=%" PRIu64 ",expires=%" PRId64 ",avg_ttl=0\r\n", db, keys,
                                atomic_load_explicit(&store->database->timed, memory_order_relaxed));
    }
    (void)store_select(store, c->db);
}

/* Whether the counts of commands are asked for: they are not among the sections by default. */
static bool asks_for_commands(const struct connection *c) {
    bool is_so = false;
    for (size_t i = 1; i < c->count; i++)
        is_so = is_so || is_word(arg(c, i), "commandstats") || is_word(arg(c, i), "all") || is_word(arg(c, i), "everything");
    return is_so;
}

/* Replies with the text, and with the counts of commands behind it where they are asked for. */
static const char *reply_info(struct connection *c, const char *text, size_t len) {
    struct buffer all = {0};
    bool is_whole = buffer_reserve(&all, len + 64);
    if (is_whole) {
        memcpy(all.at, text, len);
        all.len = len;
    }
    if (is_whole && asks_for_commands(c)) {
        all.len += (size_t)snprintf((char *)all.at + len, 64, "%s# Commandstats\r\n", len > 0 ? "\r\n" : "");
        write_stats_of_commands(c->worker->cache, &all);
    }
    if (is_whole) reply_verbatim(c, (struct bytes){all.at, all.len});
    buffer_free(&all);
    return is_whole ? NULL : error_of(FACING_NO_MEMORY);
}

/* Replies with the sections that are asked for, and an empty line between them. */
const char *run_info(struct connection *c) {
    static const char *const names[] = {"Server", "Clients", "Memory", "Stats", "Closed", "Cluster", "Keyspace"};
    struct cache *cache = c->worker->cache;
    char parts[sizeof names / sizeof *names][PART], text[sizeof parts + sizeof parts / 4];
    size_t len = 0;
    store_tell(&c->worker->store);
    write_server(cache, parts[0]);
    write_clients(cache, parts[1]);
    write_memory(cache, parts[2]);
    write_stats(cache, parts[3]);
    write_closings(cache, parts[4], PART);
    snprintf(parts[5], PART, "cluster_enabled:%d\r\n", is_in_cluster());
    write_keyspace(c, parts[6]);
    text[0] = 0;
    for (size_t i = 0; i < sizeof names / sizeof *names; i++)
        if (is_asked(c, names[i]))
            len +=
                (size_t)snprintf(text + len, sizeof text - len, "%s# %s\r\n%s", len > 0 ? "\r\n" : "", names[i], parts[i]);
    return reply_info(c, text, len);
}

/* == Passwords == */

/* Whether a word is the password, in a time that does not tell where they differ. */
static bool is_password(struct bytes word, struct bytes password) {
    unsigned differs = word.len != password.len;
    for (size_t i = 0; i < word.len && password.len > 0; i++)
        differs |= (unsigned)(word.at[i] ^ password.at[i % password.len]);
    return differs == 0;
}

/* Lets a connection make all commands. There is one user, `default`. Returns an error, or NULL. */
const char *authenticate(struct connection *c, struct bytes user, struct bytes password) {
    struct cache *cache = c->worker->cache;
    struct bytes wanted = cache->limits.password;
    if (user.len == 7 && memcmp(user.at, "default", 7) == 0 && (wanted.len == 0 || is_password(password, wanted))) {
        c->is_known = true;
        return NULL;
    }
    atomic_fetch_add_explicit(&cache->refused[WRONG_PASSWORD], 1, memory_order_relaxed);
    return "WRONGPASS invalid username-password pair or user is disabled.";
}

const char *run_auth(struct connection *c) {
    struct bytes user = c->count == 3 ? arg(c, 1) : bytes_of("default");
    const char *error;
    if (c->count > 3) return NO_SYNTAX;
    if (c->count == 2 && c->worker->cache->limits.password.len == 0)
        return "ERR AUTH <password> called without any password configured for the default user. Are you sure your "
               "configuration is correct?";
    error = authenticate(c, user, arg(c, c->count - 1));
    if (error == NULL) reply_simple(c, "OK");
    return error;
}
