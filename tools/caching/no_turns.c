/* In place of turn.c and watch.c, for a server whose requests take no turns and count no changes: what a SET takes beside it
 * is what transactions cost. Such a server serves no transactions. */
#include "cache.h"
#include <stdlib.h>

bool turns_begin(struct cache *cache, size_t stores) {
    cache->seats = calloc(stores, sizeof *cache->seats);
    return cache->seats != NULL;
}

void turn_share(struct store *store) {
    store->now = 0;
}

void turn_pass(struct store *store) {
    (void)store;
}

void turn_end(struct store *store) {
    store_tell(store);
}

void turn_take_alone(struct store *store) {
    (void)store;
}

void turn_leave_alone(struct store *store) {
    (void)store;
}

uint64_t hash_of(const struct store *store, struct bytes key) {
    (void)key;
    return store->cache->seed;
}

bool watch_key(const struct store *store, struct bytes key, struct watch *watch) {
    (void)store, (void)key, (void)watch;
    return false;
}

void unwatch_key(struct cache *cache, struct watch *watch) {
    (void)cache, (void)watch;
}

bool is_changed(struct cache *cache, const struct watch *watch) {
    (void)cache, (void)watch;
    return false;
}

void changed(const struct store *store, struct bytes key) {
    (void)store, (void)key;
}
