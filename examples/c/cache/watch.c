/* The keys that connections watch. A request that changes a key raises the key's number while somebody watches it; who
 * watched it compares. A key is known by a hash of 64 bits with a secret seed. */
#include "cache.h"
#include <string.h>

enum { CHAINS = 4096 };

/* How many watchers the keys of each chain have. */
static _Atomic uint32_t crowds[CHAINS];

static uint64_t mixed(uint64_t a, uint64_t b) {
    __extension__ typedef unsigned __int128 wide;
    wide product = (wide)(a ^ 0x9e3779b97f4a7c15U) * (b ^ 0xd1b54a32d192ed03U);
    return (uint64_t)product ^ (uint64_t)(product >> 64);
}

/* A hash of a key, for what lies beside the map. */
uint64_t hash_of(const struct store *store, struct bytes key) {
    uint64_t seed = store->cache->seed, hash = seed ^ key.len ^ (uint64_t)store->db << 32, word = 0;
    size_t i = 0;
    for (; i + sizeof word <= key.len; i += sizeof word) {
        memcpy(&word, key.at + i, sizeof word);
        hash = mixed(hash, word);
    }
    word = 0;
    if (i < key.len) memcpy(&word, key.at + i, key.len - i);
    return mixed(mixed(hash, word), seed);
}

static struct watched **find(struct cache *cache, uint64_t hash) {
    struct watched **at = &cache->chains[hash % CHAINS];
    while (*at != NULL && (*at)->hash != hash)
        at = &(*at)->next;
    return at;
}

/* Watches a key from now on. The number of watched keys is raised before the key is read: a request that changes the key
 * after that reads the number after its change. Returns false where there is no memory. */
bool watch_key(const struct store *store, struct bytes key, struct watch *watch) {
    struct cache *cache = store->cache;
    uint64_t hash = hash_of(store, key);
    struct watched **at;
    *watch = (struct watch){.key = heap_resize(NULL, key.len + 1), .key_len = key.len, .db = store->db};
    if (watch->key == NULL) return false;
    if (key.len > 0) memcpy(watch->key, key.at, key.len);
    pthread_mutex_lock(&cache->watch_lock);
    if (cache->chains == NULL) cache->chains = heap_zeros(CHAINS * sizeof *cache->chains);
    at = cache->chains == NULL ? NULL : find(cache, hash);
    if (at != NULL && *at == NULL) {
        *at = heap_zeros(sizeof **at);
        if (*at != NULL) (*at)->hash = hash;
    }
    watch->of = at == NULL ? NULL : *at;
    if (watch->of != NULL) {
        watch->of->watchers++;
        watch->raised = watch->of->raised;
        atomic_fetch_add(&crowds[hash % CHAINS], 1);
        atomic_fetch_add(&cache->watching, 1);
    }
    pthread_mutex_unlock(&cache->watch_lock);
    if (watch->of == NULL) heap_free(watch->key);
    return watch->of != NULL;
}

void unwatch_key(struct cache *cache, struct watch *watch) {
    pthread_mutex_lock(&cache->watch_lock);
    atomic_fetch_sub(&cache->watching, 1);
    atomic_fetch_sub(&crowds[watch->of->hash % CHAINS], 1);
    if (--watch->of->watchers == 0) {
        struct watched **at = find(cache, watch->of->hash);
        *at = watch->of->next;
        heap_free(watch->of);
    }
    pthread_mutex_unlock(&cache->watch_lock);
    heap_free(watch->key);
}

/* Whether a key was changed since it is watched. The request that asks runs alone. */
bool is_changed(struct cache *cache, const struct watch *watch) {
    bool is_so;
    pthread_mutex_lock(&cache->watch_lock);
    is_so = watch->of->raised != watch->raised;
    pthread_mutex_unlock(&cache->watch_lock);
    return is_so;
}

/* Says that a request has changed a key. */
void changed(const struct store *store, struct bytes key) {
    struct cache *cache = store->cache;
    struct watched *it;
    uint64_t hash;
    if (atomic_load(&cache->watching) == 0) return;
    hash = hash_of(store, key);
    if (atomic_load(&crowds[hash % CHAINS]) == 0) return;
    pthread_mutex_lock(&cache->watch_lock);
    it = cache->chains == NULL ? NULL : *find(cache, hash);
    if (it != NULL) it->raised++;
    pthread_mutex_unlock(&cache->watch_lock);
}
