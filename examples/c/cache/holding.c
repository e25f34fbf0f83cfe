/* What connections hold: requests that are not whole, replies that wait, transactions, the keys that they watch. All of them
 * together have a limit, and those that gave no password a small one. Beyond it the one is closed that holds the most. */
#include "cache.h"
#include <sys/socket.h>

/* Those without a password have one of so many parts of the limit. */
enum { UNKNOWN_PART = 32 };

static size_t held_by(const struct connection *c) {
    const struct transaction *t = &c->transaction;
    size_t lists = c->arg_room * sizeof *c->args + t->watches_room * sizeof *t->watches;
    return c->in.room + c->out.room + t->requests.room + t->watched + lists + c->name_len;
}

/* Counts what a connection holds now. Its worker's list_lock is held. */
static void count(struct connection *c, size_t now) {
    struct cache *cache = c->worker->cache;
    atomic_fetch_sub_explicit(&cache->holding[c->holds_known], c->holds, memory_order_relaxed);
    atomic_fetch_add_explicit(&cache->holding[c->is_known], now, memory_order_relaxed);
    c->holds_known = c->is_known;
    c->holds = now;
}

/* Counts what a connection of this thread holds, unless it is to be closed. */
static void tell(struct connection *c) {
    size_t now = held_by(c);
    if (now == c->holds && c->is_known == c->holds_known) return;
    pthread_mutex_lock(&c->worker->list_lock);
    if (atomic_load_explicit(&c->shed, memory_order_relaxed) == 0) count(c, now);
    pthread_mutex_unlock(&c->worker->list_lock);
}

/* A connection that ends holds nothing. */
void hold_nothing(struct connection *c) {
    if (c->holds == 0) return;
    pthread_mutex_lock(&c->worker->list_lock);
    count(c, 0);
    pthread_mutex_unlock(&c->worker->list_lock);
}

/* Has a connection of any thread closed by its own. The list_lock of its worker is held. */
void shed(struct connection *c, enum closing why) {
    if (atomic_exchange(&c->shed, why) != 0) return;
    count(c, 0);
    shutdown(c->socket, SHUT_RDWR);
}

/* The most that a connection holds of those that may be closed, known ones too where these are asked for. */
static size_t most_held(struct cache *cache, bool of_known, struct worker **owner) {
    size_t most = 0;
    for (struct worker *worker = cache->workers; worker < cache->workers + cache->workers_len; worker++) {
        pthread_mutex_lock(&worker->list_lock);
        for (const struct connection *it = worker->first; it != NULL; it = it->after) {
            if (it->holds <= most || (it->holds_known && !of_known) || atomic_load(&it->is_spared)) continue;
            most = it->holds;
            *owner = worker;
        }
        pthread_mutex_unlock(&worker->list_lock);
    }
    return most;
}

/* Has the connection closed that holds the most, if it is more than so much. Returns false where there is none. */
static bool shed_largest(struct cache *cache, bool of_known, size_t least) {
    struct worker *owner = NULL;
    size_t most = most_held(cache, of_known, &owner);
    struct connection *it;
    if (owner == NULL || most <= least) return false;
    pthread_mutex_lock(&owner->list_lock);
    it = owner->first;
    while (it != NULL && (it->holds != most || (it->holds_known && !of_known) || atomic_load(&it->is_spared)))
        it = it->after;
    if (it != NULL) shed(it, BY_BUFFERS);
    pthread_mutex_unlock(&owner->list_lock);
    return true;
}

/* Whether connections hold more than they may together, with so much more; of those without a password alone, or of all. */
static bool is_beyond(struct cache *cache, bool of_known, size_t more) {
    uint64_t unknown = atomic_load_explicit(&cache->holding[0], memory_order_relaxed);
    uint64_t known = atomic_load_explicit(&cache->holding[1], memory_order_relaxed);
    uint64_t most = cache->limits.buffers != 0 ? cache->limits.buffers : cache->limits.memory / 2;
    return of_known ? known + unknown + more > most : unknown + more > most / UNKNOWN_PART;
}

/* Sees to it that a connection may hold so much more. Returns false where it would be the one that holds the most: it is to
 * be closed then. */
bool may_hold(struct connection *c, size_t more) {
    struct cache *cache = c->worker->cache;
    tell(c);
    for (int of_known = c->is_known; of_known < 2; of_known++)
        while (is_beyond(cache, of_known, more))
            if (!shed_largest(cache, of_known, c->holds + more)) return false;
    return atomic_load_explicit(&c->shed, memory_order_relaxed) == 0;
}

/* Counts what a connection holds that was served, and has the largest ones closed where it is too much. */
void hold_within(struct connection *c) {
    struct cache *cache = c->worker->cache;
    tell(c);
    if (c->holds == 0) return;
    for (int of_known = 0; of_known < 2; of_known++)
        while (is_beyond(cache, of_known, 0) && shed_largest(cache, of_known, 0))
            continue;
}
