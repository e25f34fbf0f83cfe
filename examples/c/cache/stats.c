/* What commands take: the counts of INFO commandstats, SLOWLOG and LATENCY. */
#define _GNU_SOURCE
#include "cache.h"
#include <inttypes.h>
#include <stdio.h>
#include <string.h>
#include <time.h>

/* What an entry of SLOWLOG shows: words, and bytes of each; and how many entries LATENCY keeps. */
enum { WORDS = 32, SHOWN = 128, PLACE = 64, EVENTS = 160 };

struct entry {
    struct entry *next;
    int64_t id, at, usec;
    size_t count, lens[WORDS];
    char words[WORDS][SHOWN + 32], place[PLACE], name[PLACE];
};

struct event {
    int64_t at, ms;
};

/* Under the lock. */
static pthread_mutex_t lock = PTHREAD_MUTEX_INITIALIZER;
static struct entry *entries;
static size_t entries_len;
static int64_t ids;
static struct event events[EVENTS]; /* a ring, of which the last is at events_len - 1 */
static size_t events_len;
static int64_t longest;

/* == Time == */

static uint64_t nanoseconds(void) {
    struct timespec now;
    clock_gettime(CLOCK_MONOTONIC, &now);
    return (uint64_t)now.tv_sec * 1000000000U + (uint64_t)now.tv_nsec;
}

uint64_t ticks_now(void) {
    return __builtin_ia32_rdtsc();
}

/* Learns how long a tick is: the longer ago it began, the better. */
void ticks_learn(struct cache *cache) {
    static uint64_t ticks, at;
    struct timespec pause = {0, 2000000};
    if (at == 0) {
        ticks = ticks_now();
        at = nanoseconds();
        nanosleep(&pause, NULL);
    }
    atomic_store(&cache->ticks_a_ms, (ticks_now() - ticks) * 1000000 / (nanoseconds() - at) + 1);
}

/* == Counts of each command == */

static void add(_Atomic uint64_t *to, uint64_t more) {
    atomic_store_explicit(to, atomic_load_explicit(to, memory_order_relaxed) + more, memory_order_relaxed);
}

void count_rejected(struct connection *c) {
    if (c->command != NULL) add(&c->worker->stats[command_number(c->command)].rejected, 1);
}

/* The lines of INFO commandstats. */
void write_stats_of_commands(struct cache *cache, struct buffer *text) {
    for (size_t i = 0; i < commands_count(); i++) {
        uint64_t calls = 0, ticks = 0, rejected = 0, failed = 0, usec;
        for (size_t w = 0; w < cache->workers_len; w++) {
            const struct command_stats *of = &cache->workers[w].stats[i];
            calls += atomic_load_explicit(&of->calls, memory_order_relaxed);
            ticks += atomic_load_explicit(&of->ticks, memory_order_relaxed);
            rejected += atomic_load_explicit(&of->rejected, memory_order_relaxed);
            failed += atomic_load_explicit(&of->failed, memory_order_relaxed);
        }
        if (calls + rejected == 0 || !buffer_reserve(text, 256)) continue;
        usec = ticks * 1000 / atomic_load(&cache->ticks_a_ms);
        text->len += (size_t)snprintf((char *)text->at + text->len, 256,
                                      "cmdstat_%s:calls=%" PRIu64 ",usec=%" PRIu64
                                      ",usec_per_call=%.2f,rejected_calls=%" PRIu64 ",failed_calls=%" PRIu64 "\r\n",
                                      command_at(i)->name, calls, usec, calls > 0 ? (double)usec / (double)calls : 0.0,
                                      rejected, failed);
    }
}

/* CONFIG RESETSTAT: forgets what was counted, but for what is there now. */
void forget_stats(struct cache *cache) {
    const size_t kept = offsetof(struct counts, calls) / sizeof(int64_t);
    for (size_t i = kept; i < COUNTS; i++)
        atomic_store(&cache->counts[i], 0);
    for (size_t i = 0; i < REFUSALS; i++)
        atomic_store(&cache->refused[i], 0);
    for (size_t i = 0; i < CLOSINGS; i++)
        atomic_store(&cache->closed[i], 0);
    atomic_store(&cache->accepted, 0);
    for (size_t w = 0; w < cache->workers_len; w++)
        for (size_t i = 0; i < commands_count(); i++) {
            struct command_stats *of = &cache->workers[w].stats[i];
            atomic_store(&of->calls, 0);
            atomic_store(&of->ticks, 0);
            atomic_store(&of->rejected, 0);
            atomic_store(&of->failed, 0);
        }
}

/* == Slow commands == */

/* Keeps a word; what is left out is told, as Redis does. */
static void keep_word(struct entry *it, size_t at, const struct connection *c) {
    struct bytes word = arg(c, at);
    size_t len = word.len < SHOWN ? word.len : SHOWN;
    if (at == WORDS - 1 && c->count > WORDS) {
        it->lens[at] = (size_t)snprintf(it->words[at], SHOWN, "... (%zu more arguments)", c->count - WORDS + 1);
        return;
    }
    if (len > 0) memcpy(it->words[at], word.at, len);
    if (word.len > len) len += (size_t)snprintf(it->words[at] + len, 32, "... (%zu more bytes)", word.len - len);
    it->lens[at] = len;
}

/* The lock is held. */
static void forget_entries(size_t left) {
    struct entry **at = &entries;
    for (size_t i = 0; i < left && *at != NULL; i++)
        at = &(*at)->next;
    while (*at != NULL) {
        struct entry *it = *at;
        *at = it->next;
        heap_free(it);
        entries_len--;
    }
}

static void keep_slow(struct connection *c, int64_t usec) {
    struct entry *it = heap_zeros(sizeof *it);
    if (it == NULL) return;
    it->at = (int64_t)time(NULL);
    it->usec = usec;
    it->count = c->count < WORDS ? c->count : WORDS;
    for (size_t i = 0; i < it->count; i++)
        keep_word(it, i, c);
    if (c->socket >= 0) write_peer(it->place, PLACE, c);
    snprintf(it->name, PLACE, "%.*s", (int)c->name_len, c->name_len > 0 ? (const char *)c->name : "");
    pthread_mutex_lock(&lock);
    it->id = ids++;
    it->next = entries;
    entries = it;
    entries_len++;
    forget_entries((size_t)c->worker->cache->limits.slow_len);
    pthread_mutex_unlock(&lock);
}

static void keep_event(int64_t ms) {
    struct event it = {(int64_t)time(NULL), ms};
    pthread_mutex_lock(&lock);
    if (events_len > 0 && events[(events_len - 1) % EVENTS].at == it.at) {
        if (events[(events_len - 1) % EVENTS].ms < ms) events[(events_len - 1) % EVENTS].ms = ms;
    } else {
        events[events_len++ % EVENTS] = it;
    }
    if (ms > longest) longest = ms;
    pthread_mutex_unlock(&lock);
}

/* Counts that a command has run, in so many ticks. */
void command_ran(struct connection *c, const struct command *command, uint64_t ticks, bool has_failed) {
    struct cache *cache = c->worker->cache;
    size_t number = command_number(command);
    uint64_t usec;
    if (number == commands_count()) return;
    add(&c->worker->stats[number].calls, 1);
    add(&c->worker->stats[number].ticks, ticks);
    if (has_failed) add(&c->worker->stats[number].failed, 1);
    if (ticks < atomic_load_explicit(&cache->slow_ticks, memory_order_relaxed) || (command->flags & SKIP_SLOWLOG)) return;
    usec = ticks * 1000 / atomic_load(&cache->ticks_a_ms);
    if (cache->limits.slow >= 0 && usec >= (uint64_t)cache->limits.slow) keep_slow(c, (int64_t)usec);
    if (cache->limits.latency > 0 && usec / 1000 >= (uint64_t)cache->limits.latency) keep_event((int64_t)(usec / 1000));
}

/* From how many ticks on a command is looked at. It is called when a limit changes, and now and then. */
void set_slow_ticks(struct cache *cache) {
    uint64_t usec = UINT64_MAX / (1 << 20);
    if (cache->limits.slow >= 0) usec = (uint64_t)cache->limits.slow;
    if (cache->limits.latency > 0 && (uint64_t)cache->limits.latency * 1000 < usec)
        usec = (uint64_t)cache->limits.latency * 1000;
    ticks_learn(cache);
    atomic_store(&cache->slow_ticks,
                 usec / 1000 * atomic_load(&cache->ticks_a_ms) + usec % 1000 * atomic_load(&cache->ticks_a_ms) / 1000);
}

void stats_close(void) {
    pthread_mutex_lock(&lock);
    forget_entries(0);
    pthread_mutex_unlock(&lock);
}

/* == SLOWLOG == */

static const char *slow_get(struct connection *c) {
    int64_t count = 10;
    if (c->count > 3)
        return error_with(c, "unknown subcommand or wrong number of arguments for", arg(c, 1), ". Try SLOWLOG HELP.");
    if (c->count == 3 && !number_of(arg(c, 2), &count)) count = -2;
    if (count < -1) return "ERR count should be greater than or equal to -1";
    pthread_mutex_lock(&lock);
    if (count == -1 || count > (int64_t)entries_len) count = (int64_t)entries_len;
    reply_list(c, (size_t)count);
    for (const struct entry *it = entries; it != NULL && count > 0; it = it->next, count--) {
        reply_list(c, 6);
        reply_number(c, it->id);
        reply_number(c, it->at);
        reply_number(c, it->usec);
        reply_list(c, it->count);
        for (size_t i = 0; i < it->count; i++)
            reply_bulk(c, (struct bytes){(const uint8_t *)it->words[i], it->lens[i]});
        reply_bulk(c, bytes_of(it->place));
        reply_bulk(c, bytes_of(it->name));
    }
    pthread_mutex_unlock(&lock);
    return NULL;
}

static const char *slow_len(struct connection *c) {
    pthread_mutex_lock(&lock);
    reply_number(c, (int64_t)entries_len);
    pthread_mutex_unlock(&lock);
    return NULL;
}

static const char *slow_reset(struct connection *c) {
    stats_close();
    reply_simple(c, "OK");
    return NULL;
}

const char *run_slowlog(struct connection *c) {
    static const struct command parts[] = {
        {"slowlog|get", slow_get, -2, 0, 0, 0, 0, 0},
        {"slowlog|len", slow_len, 2, 0, 0, 0, 0, 0},
        {"slowlog|reset", slow_reset, 2, 0, 0, 0, 0, 0},
    };
    return run_part(c, parts, sizeof parts / sizeof *parts);
}

/* == LATENCY: its only event is `command` == */

static const char *latest(struct connection *c) {
    pthread_mutex_lock(&lock);
    reply_list(c, events_len > 0);
    if (events_len > 0) {
        reply_list(c, 4);
        reply_bulk(c, bytes_of("command"));
        reply_number(c, events[(events_len - 1) % EVENTS].at);
        reply_number(c, events[(events_len - 1) % EVENTS].ms);
        reply_number(c, longest);
    }
    pthread_mutex_unlock(&lock);
    return NULL;
}

static const char *history(struct connection *c) {
    size_t first, last;
    pthread_mutex_lock(&lock);
    last = is_word(arg(c, 2), "command") ? events_len : 0;
    first = last > EVENTS ? last - EVENTS : 0;
    reply_list(c, last - first);
    for (size_t i = first; i < last; i++) {
        reply_list(c, 2);
        reply_number(c, events[i % EVENTS].at);
        reply_number(c, events[i % EVENTS].ms);
    }
    pthread_mutex_unlock(&lock);
    return NULL;
}

static const char *latency_reset(struct connection *c) {
    bool is_meant = c->count == 2;
    for (size_t i = 2; i < c->count; i++)
        is_meant = is_meant || is_word(arg(c, i), "command");
    pthread_mutex_lock(&lock);
    reply_number(c, is_meant && events_len > 0);
    if (is_meant) events_len = 0, longest = 0;
    pthread_mutex_unlock(&lock);
    return NULL;
}

const char *run_latency(struct connection *c) {
    static const struct command parts[] = {
        {"latency|history", history, 3, 0, 0, 0, 0, 0},
        {"latency|latest", latest, 2, 0, 0, 0, 0, 0},
        {"latency|reset", latency_reset, -2, 0, 0, 0, 0, 0},
    };
    return run_part(c, parts, sizeof parts / sizeof *parts);
}
