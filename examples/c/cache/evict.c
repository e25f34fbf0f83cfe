/* Room for what is stored. Where the limit of memory is reached a write removes other keys: those that no command has used
 * since the hand last came by, as a clock does, or those of some that expire first. The hand goes over the map by its own
 * cursor. What was used are two bits for each key, by a hash, in a table beside the map. */
#define _GNU_SOURCE
#include "cache.h"
#include <string.h>
#include <sys/mman.h>

enum { LOOKED_AT = 64, SPARING = 16, MOST_EVICTED = 128, FIRSTS = 8, LEAST_BITS = 1 << 13 };

/* The most buckets that a write looks into, some 8 ms; and where the one before found nothing there, less than 1 ms. */
enum { MOST_LOOKED = 1 << 16, MOST_BARREN = 1 << 12 };

enum { NODE = 100, SHORT_KEY = 18, SHORT = 22, BLOCK = 16, ONE_BLOCK = 320, OWNERS = 32 };

/* About how many bytes a key takes with its value and the longest head: a new deadline is never refused. */
size_t memory_of(size_t key_len, size_t value_len) {
    size_t stored = HEAD + value_len, beside = stored > ONE_BLOCK ? BLOCK + OWNERS : BLOCK;
    return NODE + (key_len > SHORT_KEY ? key_len + BLOCK : 0) + (stored > SHORT ? stored + beside : 0);
}

/* Makes the table of bits: 8 for each key of 128 bytes. The system gives its pages when they are used. */
bool touched_begin(struct cache *cache) {
    size_t bits = LEAST_BITS;
    void *at;
    if (cache->limits.evicts != EVICT_LRU) return true;
    while (bits < cache->limits.memory / 16 && bits < (size_t)1 << 36)
        bits *= 2;
    at = mmap(NULL, bits / 8, PROT_READ | PROT_WRITE, MAP_PRIVATE | MAP_ANONYMOUS | MAP_NORESERVE, -1, 0);
    if (at == MAP_FAILED) return false;
    cache->touched = (struct touched){at, bits - 1};
    return true;
}

static bool is_tracked(const struct cache *cache) {
    return cache->limits.evicts == EVICT_LRU && heap_used() > cache->limits.memory / 2;
}

/* Where a key's two bits lie: the upper one says that it was used, the lower one that the hand came by since. */
static _Atomic uint64_t *bits_of(const struct store *store, struct bytes key, uint64_t *used, uint64_t *passed) {
    const struct cache *cache = store->cache;
    uint64_t at = 2 * hash_of(store, key) & cache->touched.mask;
    *passed = (uint64_t)1 << at % 64;
    *used = *passed << 1;
    return &cache->touched.words[at / 64];
}

/* Says that a command uses a key. Nothing is kept until half of the memory is used. */
void touch(const struct store *store, struct bytes key) {
    uint64_t used, passed;
    _Atomic uint64_t *word;
    if (!is_tracked(store->cache)) return;
    word = bits_of(store, key, &used, &passed);
    if ((atomic_load_explicit(word, memory_order_relaxed) & used) == 0)
        atomic_fetch_or_explicit(word, used, memory_order_relaxed);
}

/* Whether a key was used since the hand came by the time before last. Keys that share their bits spare one another. */
static bool was_touched(const struct store *store, struct bytes key) {
    uint64_t used, passed;
    _Atomic uint64_t *word = bits_of(store, key, &used, &passed);
    if (atomic_fetch_and_explicit(word, ~used, memory_order_relaxed) & used) {
        atomic_fetch_or_explicit(word, passed, memory_order_relaxed);
        return true;
    }
    return (atomic_fetch_and_explicit(word, ~passed, memory_order_relaxed) & passed) != 0;
}

/* Whether the limit of memory allows so many more bytes. */
bool has_room(const struct cache *cache, uint64_t more) {
    uint64_t used = heap_used();
    return used <= cache->limits.memory && more <= cache->limits.memory - used;
}

/* Copies the next part of a map, behind the one that any thread copied last. Behind its end comes the next database. */
static bool take_candidates(struct store *store) {
    struct cache *cache = store->cache;
    struct candidates *of = &store->candidates;
    uint32_t status;
    pthread_mutex_lock(&cache->hand_lock);
    of->walk.at = cache->hand;
    of->db = cache->hand_db;
    status = store_select(store, of->db);
    if (status == FACING_DONE) status = walk_next(&of->walk, store, LOOKED_AT);
    cache->hand = status != FACING_DONE || of->walk.at == UINT64_MAX ? 0 : of->walk.at;
    while (cache->hand == 0 && !atomic_load(&cache->databases[cache->hand_db = (cache->hand_db + 1) % DATABASES].is_open))
        continue;
    pthread_mutex_unlock(&cache->hand_lock);
    of->next = of->from = 0;
    return status == FACING_DONE;
}

/* What a write has removed for the room that it needs. */
struct removed {
    size_t keys, bytes;
};

static void evict_key(struct store *store, struct bytes key, struct removed *removed) {
    struct found before;
    if (store_remove(store, key, &before) != FACING_DONE || !before.is_stored) return;
    store->counts.evicted += before.is_live;
    removed->keys++;
    removed->bytes += memory_of(key.len, before.stored_len);
    heap_tell();
}

/* The next candidate, and what is stored there. */
static struct bytes next_of(struct candidates *of, struct stored *stored) {
    struct bytes key = {of->walk.room + of->from, (size_t)of->walk.key_lens[of->next]};
    *stored = (struct stored){key.at + key.len, (size_t)of->walk.value_lens[of->next]};
    of->from += key.len + copied_of(*stored);
    of->next++;
    return key;
}

/* Goes over the candidates until there is room, and removes those that were not used, or all. */
static void evict_unused(struct store *store, uint64_t more, bool is_sparing, struct removed *removed) {
    struct candidates *of = &store->candidates;
    while (of->next < of->walk.pairs && !has_room(store->cache, more)) {
        struct stored stored;
        struct bytes key = next_of(of, &stored);
        struct found found;
        store_find(store, stored, &found);
        if (found.is_live && was_touched(store, key) && is_sparing) continue;
        evict_key(store, key, removed);
    }
}

/* Keys that expire before others, in that order. */
struct firsts {
    size_t len;
    struct bytes keys[FIRSTS];
    uint64_t deadlines[FIRSTS];
};

static void put_in_order(struct firsts *firsts, struct bytes key, uint64_t deadline) {
    size_t at = firsts->len;
    if (at == FIRSTS && firsts->deadlines[--at] <= deadline) return;
    for (; at > 0 && firsts->deadlines[at - 1] > deadline; at--) {
        firsts->keys[at] = firsts->keys[at - 1];
        firsts->deadlines[at] = firsts->deadlines[at - 1];
    }
    firsts->keys[at] = key;
    firsts->deadlines[at] = deadline;
    if (firsts->len < FIRSTS) firsts->len++;
}

/* Of the candidates with a deadline removes an eighth, those that expire first. */
static void evict_first(struct store *store, struct removed *removed) {
    struct candidates *of = &store->candidates;
    struct firsts firsts = {0};
    size_t timed = 0;
    while (of->next < of->walk.pairs) {
        struct stored stored;
        struct bytes key = next_of(of, &stored);
        struct found found;
        store_find(store, stored, &found);
        if (found.is_live && found.deadline == 0) continue;
        put_in_order(&firsts, key, found.deadline);
        timed++;
    }
    for (size_t i = 0; i < firsts.len && i < (timed + FIRSTS - 1) / FIRSTS; i++)
        evict_key(store, firsts.keys[i], removed);
}

/* Whether a write has done its part: where the table grew, the writes that follow remove the rest. */
static bool is_enough(const struct removed *removed, uint64_t more) {
    return removed->keys >= MOST_EVICTED && removed->bytes >= more;
}

/* Whether there would be room for so many more bytes if all keys were removed that may be. */
static bool can_have_room(struct store *store, uint64_t more) {
    struct cache *cache = store->cache;
    int64_t keys = COUNT_OF(cache, stored) + store->counts.stored, bytes = COUNT_OF(cache, dataset) + store->counts.dataset;
    int64_t lacking = (int64_t)(heap_used() + more - cache->limits.memory);
    if (cache->limits.evicts == EVICT_NONE || more > cache->limits.memory) return false;
    if (cache->limits.evicts == EVICT_TTL && timed_of_all(cache) + store->timed <= 0) return false;
    return keys > 0 && lacking <= bytes + keys * (NODE + 2 * BLOCK + OWNERS);
}

/* Removes keys until there is room, in a bounded number of buckets. Where all were used, those go that the hand comes by. */
static void evict_some(struct store *store, uint64_t more, struct removed *removed) {
    struct cache *cache = store->cache;
    struct candidates *of = &store->candidates;
    unsigned db = store->db;
    size_t since = 0, looked = 0, most = atomic_load(&cache->is_barren) ? MOST_BARREN : MOST_LOOKED;
    while (looked < most && !has_room(cache, more) && !is_enough(removed, more)) {
        size_t before = removed->keys;
        bool is_over = of->next == of->walk.pairs;
        if (is_over ? !take_candidates(store) : store_select(store, of->db) != FACING_DONE) break;
        if (is_over) looked += of->walk.looked;
        if (cache->limits.evicts == EVICT_LRU)
            evict_unused(store, more, since < SPARING, removed);
        else
            evict_first(store, removed);
        since = removed->keys > before ? 0 : since + 1;
    }
    (void)store_select(store, db);
    if ((looked >= most && removed->keys == 0) != atomic_load(&cache->is_barren))
        atomic_store(&cache->is_barren, removed->keys == 0);
}

/* Sees to it that the limit of memory allows so many more bytes, but for what the map's table takes when it grows. Returns
 * false where what can be removed is not enough, and removes nothing then; or where no key to remove was found. */
bool make_room(struct store *store, uint64_t more) {
    struct removed removed = {0, 0};
    if (has_room(store->cache, more)) return true;
    heap_tell();
    if (has_room(store->cache, more)) return true;
    if (!can_have_room(store, more)) return false;
    evict_some(store, more, &removed);
    return has_room(store->cache, more) || is_enough(&removed, more);
}
