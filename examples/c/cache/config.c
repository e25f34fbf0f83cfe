/* What the server is set to, and what it tells of a key: CONFIG, OBJECT, MEMORY. */
#include "cache.h"
#include <ctype.h>
#include <inttypes.h>
#include <limits.h>
#include <stdio.h>
#include <stdlib.h>
#include <string.h>

/* The longest pattern of a setting's name, and the longest text that Redis keeps beside its head. */
enum { PATTERN = 128, EMBEDDED = 44, SETTING = 520 };

/* The longest password, and the least memory. */
enum { MOST_PASSWORD = 512, LEAST_MEMORY = 1 << 20 };

/* A setting of Redis, and what it is here. */
struct setting_of {
    const char *name;
    char value[SETTING];
};

enum { SETTINGS = 12 };

static void read_settings(const struct connection *c, struct setting_of settings[SETTINGS]) {
    struct limits *limits = &c->worker->cache->limits;
    const struct setting_of all[SETTINGS] = {
        {"appendonly", "no"},
        {"databases", "16"},
        {"latency-monitor-threshold", ""},
        {"maxclients", ""},
        {"maxmemory", ""},
        {"maxmemory-policy", ""},
        {"proto-max-bulk-len", ""},
        {"requirepass", ""},
        {"save", ""},
        {"slowlog-log-slower-than", ""},
        {"slowlog-max-len", ""},
        {"timeout", ""},
    };
    memcpy(settings, all, sizeof all);
    snprintf(settings[2].value, SETTING, "%" PRId64, limits->latency);
    snprintf(settings[3].value, SETTING, "%" PRIu64, limits->connections);
    snprintf(settings[4].value, SETTING, "%" PRIu64, limits->memory);
    snprintf(settings[5].value, SETTING, "%s", policy_of(limits));
    snprintf(settings[6].value, SETTING, "%" PRIu64, limits->request);
    snprintf(settings[7].value, SETTING, "%.*s", (int)limits->password.len,
             limits->password.len > 0 ? (const char *)limits->password.at : "");
    snprintf(settings[9].value, SETTING, "%" PRId64, limits->slow);
    snprintf(settings[10].value, SETTING, "%" PRId64, limits->slow_len);
    snprintf(settings[11].value, SETTING, "%" PRIu64, limits->timeout);
}

/* Whether a name is of one of the patterns of CONFIG GET, whatever the case of their letters. */
static bool is_asked(const struct connection *c, const char *name) {
    for (size_t i = 2; i < c->count; i++) {
        uint8_t pattern[PATTERN];
        struct bytes text = arg(c, i);
        if (text.len > PATTERN) continue;
        for (size_t at = 0; at < text.len; at++)
            pattern[at] = (uint8_t)tolower(text.at[at]);
        if (is_like(bytes_of(name), (struct bytes){pattern, text.len})) return true;
    }
    return false;
}

static const char *get(struct connection *c) {
    struct setting_of settings[SETTINGS];
    size_t count = 0;
    read_settings(c, settings);
    for (size_t i = 0; i < SETTINGS; i++)
        count += is_asked(c, settings[i].name);
    reply_map(c, count);
    for (size_t i = 0; i < SETTINGS; i++)
        if (is_asked(c, settings[i].name)) reply_field(c, settings[i].name, settings[i].value);
    return NULL;
}

/* == CONFIG SET: it runs alone == */

/* Takes a setting's value into limits. Returns what is wrong with it, or NULL. */
typedef const char *take_fn(struct bytes value, struct limits *limits);

/* A whole number in a range. */
static const char *take_range(struct bytes value, int64_t least, int64_t most, const char *wrong, int64_t *number) {
    if (!number_of(value, number)) return "argument couldn't be parsed into an integer";
    return *number >= least && *number <= most ? NULL : wrong;
}

static const char *take_memory(struct bytes value, struct limits *limits) {
    uint64_t bytes;
    if (!bytes_from(value, &bytes)) return "argument must be a memory value";
    if (bytes < LEAST_MEMORY) return "argument must be 1mb at least";
    limits->memory = bytes;
    return NULL;
}

static const char *take_policy(struct bytes value, struct limits *limits) {
    for (int i = 0; i <= EVICT_TTL; i++) {
        const struct limits of = {.evicts = (enum evicts)i};
        if (!is_word(value, policy_of(&of))) continue;
        limits->evicts = (enum evicts)i;
        return NULL;
    }
    return "argument(s) must be one of the following: volatile-ttl, allkeys-lru, noeviction";
}

static const char *take_password(struct bytes value, struct limits *limits) {
    uint8_t *kept = value.len > MOST_PASSWORD ? NULL : malloc(value.len + 1);
    if (kept == NULL) return "argument is too long";
    if (value.len > 0) memcpy(kept, value.at, value.len);
    limits->password = (struct bytes){kept, value.len};
    return NULL;
}

static const char *take_timeout(struct bytes value, struct limits *limits) {
    int64_t number;
    const char *wrong = take_range(value, 0, INT_MAX, "argument must be between 0 and 2147483647 inclusive", &number);
    if (wrong == NULL) limits->timeout = (uint64_t)number;
    return wrong;
}

static const char *take_clients(struct bytes value, struct limits *limits) {
    int64_t number;
    const char *wrong = take_range(value, 1, 1 << 20, "argument must be between 1 and 1048576 inclusive", &number);
    if (wrong == NULL) limits->connections = (uint64_t)number;
    return wrong;
}

static const char *take_slow(struct bytes value, struct limits *limits) {
    int64_t number;
    const char *wrong =
        take_range(value, -1, INT64_MAX / 1000000, "argument must be between -1 and 9223372036854 inclusive", &number);
    if (wrong == NULL) limits->slow = number;
    return wrong;
}

static const char *take_slow_len(struct bytes value, struct limits *limits) {
    int64_t number;
    const char *wrong = take_range(value, 0, 10000, "argument must be between 0 and 10000 inclusive", &number);
    if (wrong == NULL) limits->slow_len = number;
    return wrong;
}

static const char *take_latency(struct bytes value, struct limits *limits) {
    int64_t number;
    const char *wrong =
        take_range(value, 0, INT64_MAX / 1000000, "argument must be between 0 and 9223372036854 inclusive", &number);
    if (wrong == NULL) limits->latency = number;
    return wrong;
}

static const struct {
    const char *name;
    take_fn *take;
} settable[] = {
    {"latency-monitor-threshold", take_latency}, {"maxclients", take_clients},   {"maxmemory", take_memory},
    {"maxmemory-policy", take_policy},           {"requirepass", take_password}, {"slowlog-log-slower-than", take_slow},
    {"slowlog-max-len", take_slow_len},          {"timeout", take_timeout},
};

/* Takes a setting. Returns an error, or NULL. */
static const char *take_setting(struct connection *c, size_t at, struct limits *limits) {
    for (size_t i = 0; i < sizeof settable / sizeof *settable; i++) {
        const char *wrong;
        if (!is_word(arg(c, at), settable[i].name)) continue;
        wrong = NULL;
        for (size_t before = 2; before < at; before += 2)
            if (is_word(arg(c, before), settable[i].name)) wrong = "duplicate parameter";
        if (wrong == NULL) wrong = settable[i].take(arg(c, at + 1), limits);
        if (wrong == NULL) return NULL;
        snprintf(c->worker->error, sizeof c->worker->error, "ERR CONFIG SET failed (possibly related to argument '%s') - %s",
                 settable[i].name, wrong);
        return c->worker->error;
    }
    error_with(c, "Unknown option or number of arguments for CONFIG SET -", arg(c, at), "");
    return c->worker->error;
}

/* Either all settings are taken, or none. */
static const char *set(struct connection *c) {
    struct cache *cache = c->worker->cache;
    struct limits limits = cache->limits;
    const char *error = c->count % 2 == 0 ? NULL : wrong_count(c);
    for (size_t i = 2; i < c->count && error == NULL; i += 2)
        error = take_setting(c, i, &limits);
    if (limits.password.at != cache->limits.password.at)
        free((void *)(uintptr_t)(error == NULL ? cache->limits.password.at : limits.password.at));
    if (error != NULL) return error;
    cache->limits.connections = limits.connections;
    cache->limits.memory = limits.memory;
    cache->limits.timeout = limits.timeout;
    cache->limits.slow = limits.slow;
    cache->limits.slow_len = limits.slow_len;
    cache->limits.latency = limits.latency;
    cache->limits.evicts = limits.evicts;
    cache->limits.password = limits.password;
    if (cache->touched.words == NULL && !touched_begin(cache)) return error_of(FACING_NO_MEMORY);
    allow_connections(limits.connections, cache->workers_len);
    set_slow_ticks(cache);
    reply_simple(c, "OK");
    return NULL;
}

static const char *reset_stats(struct connection *c) {
    forget_stats(c->worker->cache);
    reply_simple(c, "OK");
    return NULL;
}

const char *run_config(struct connection *c) {
    static const struct command parts[] = {
        {"config|get", get, -3, 0, 0, 0, 0, 0},
        {"config|resetstat", reset_stats, 2, ALONE, 0, 0, 0, 0},
        {"config|set", set, -4, ALONE, 0, 0, 0, 0},
    };
    return run_part(c, parts, sizeof parts / sizeof *parts);
}

/* How Redis would keep a value that was set as it is. */
static const char *encoding_of(struct bytes value) {
    int64_t number;
    return value.len > EMBEDDED ? "raw" : number_of(value, &number) ? "int" : "embstr";
}

static const char *encoding(struct connection *c) {
    struct found found;
    uint32_t status = store_look(&c->worker->store, arg(c, 2), &found);
    if (found.is_live) found.value = bytes_of(encoding_of(found.value));
    return reply_found(c, status, &found);
}

/* Replies with a number where a key is there. */
static const char *reply_of_key(struct connection *c, uint32_t status, const struct found *found, int64_t number) {
    if (status != FACING_DONE || found->is_live) return done_or_error(c, status, number);
    reply_none(c);
    return NULL;
}

/* No key's last use is kept. */
static const char *idle_time(struct connection *c) {
    struct found found;
    uint32_t status = store_look(&c->worker->store, arg(c, 2), &found);
    return reply_of_key(c, status, &found, 0);
}

const char *run_object(struct connection *c) {
    static const struct command parts[] = {
        {"object|encoding", encoding, 3, 0, 0, 0, 0, 0},
        {"object|idletime", idle_time, 3, 0, 0, 0, 0, 0},
    };
    return run_part(c, parts, sizeof parts / sizeof *parts);
}

/* SAMPLES is for values of many parts, which are not here. */
static const char *usage(struct connection *c) {
    struct found found;
    int64_t samples;
    uint32_t status;
    for (size_t i = 3; i < c->count; i += 2) {
        if (!is_word(arg(c, i), "SAMPLES") || i + 1 == c->count) return NO_SYNTAX;
        if (!number_of(arg(c, i + 1), &samples)) return NOT_A_NUMBER;
        if (samples < 0) return NO_SYNTAX;
    }
    status = store_look(&c->worker->store, arg(c, 2), &found);
    return reply_of_key(c, status, &found, (int64_t)memory_of(arg(c, 2).len, found.value.len));
}

const char *run_memory(struct connection *c) {
    static const struct command parts[] = {{"memory|usage", usage, -3, 0, 0, 0, 0, 0}};
    return run_part(c, parts, sizeof parts / sizeof *parts);
}
