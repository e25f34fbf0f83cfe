/* Goes over the keys by a cursor of the map, some buckets at a time: for SCAN, for eviction, and to remove what is live no
 * more. */
#include "cache.h"
#include <string.h>

/* The most buckets that a step looks into, and the most pairs of a sweep's step: either takes some 0.1 ms. */
enum { BUCKETS = 4096, SWEPT = 256 };

/* Makes room for so many pairs of so many bytes. */
static bool make_room_in(struct walk *walk, size_t pairs, size_t bytes) {
    if (walk->len < pairs) {
        walk_free(walk);
        walk->key_lens = heap_resize(NULL, pairs * sizeof *walk->key_lens);
        walk->value_lens = heap_resize(NULL, pairs * sizeof *walk->value_lens);
        if (walk->key_lens == NULL || walk->value_lens == NULL) return false;
        walk->len = pairs;
    }
    if (walk->room_len < bytes) {
        uint8_t *room = heap_resize(NULL, bytes);
        if (room == NULL) return false;
        heap_free(walk->room);
        walk->room = room;
        walk->room_len = bytes;
    }
    return true;
}

/* Copies the keys of the bucket where the walk is, and the heads of their values, behind those that are there. */
static uint32_t copy_bucket(struct walk *walk, struct store *store, size_t most, size_t *bytes, facing_bytes_sizes *sizes) {
    uint64_t next = walk->at;
    uint32_t status;
    unsigned round = 0;
    do {
        status = facing_bytes_try_copy(store->client, walk->at, &next, LONGEST_HEAD, walk->key_lens + walk->pairs,
                                       walk->value_lens + walk->pairs, most - walk->pairs, walk->room + *bytes,
                                       walk->room_len - *bytes, sizes);
        if (status == FACING_BUSY) facing_wait(round);
        round += round < 64;
    } while (status == FACING_BUSY);
    if (status == FACING_DONE) {
        walk->pairs += sizes->pairs;
        *bytes += sizes->bytes;
        walk->at = next;
    }
    return status;
}

/* Copies the keys of the next buckets and their values' heads: at most so many, and one bucket's at least where it has some.
 * It may find none before the end, since it looks into a bounded number of buckets. */
uint32_t walk_next(struct walk *walk, struct store *store, size_t most) {
    facing_bytes_sizes sizes = {most, 2 * (size_t)KEPT};
    uint32_t status = FACING_DONE;
    size_t bytes = 0;
    walk->pairs = walk->looked = 0;
    if (walk->room_len > sizes.bytes) walk_free(walk);
    if (!make_room_in(walk, sizes.pairs, sizes.bytes)) status = FACING_NO_MEMORY;
    for (size_t i = 0; status == FACING_DONE && i < BUCKETS && walk->at != UINT64_MAX; i++) {
        walk->looked++;
        status = copy_bucket(walk, store, most, &bytes, &sizes);
        if (status != FACING_NO_ROOM || walk->pairs > 0) continue;
        if (most < sizes.pairs) most = sizes.pairs;
        status = make_room_in(walk, most, sizes.bytes) ? FACING_DONE : FACING_NO_MEMORY;
    }
    FACING_SEE_ALL();
    if (status == FACING_NO_MEMORY) walk_free(walk);
    return walk->pairs > 0 ? FACING_DONE : status;
}

void walk_free(struct walk *walk) {
    heap_free(walk->key_lens);
    heap_free(walk->value_lens);
    heap_free(walk->room);
    *walk = (struct walk){.at = walk->at};
}

/* How many bytes of a value are copied. */
size_t copied_of(struct stored stored) {
    return stored.len < LONGEST_HEAD ? stored.len : LONGEST_HEAD;
}

/* Shows the function each key that was copied, until it returns false. */
bool walk_each(const struct walk *walk, struct store *store, each_fn *each, void *of) {
    const uint8_t *at = walk->room;
    for (size_t i = 0; i < walk->pairs; i++) {
        struct bytes key = {at, (size_t)walk->key_lens[i]};
        struct stored stored = {at + key.len, (size_t)walk->value_lens[i]};
        if (!each(store, key, stored, of)) return false;
        at += key.len + copied_of(stored);
    }
    return true;
}

static bool remove_expired(struct store *store, struct bytes key, struct stored stored, void *of) {
    uint32_t *status = of;
    *status = store_expire(store, key, stored);
    return *status == FACING_DONE;
}

/* Removes what is live no more from the next buckets. At the end of the map the walk begins again. */
uint32_t walk_sweep(struct walk *walk, struct store *store) {
    uint32_t status = walk_next(walk, store, SWEPT);
    if (status == FACING_DONE) walk_each(walk, store, remove_expired, &status);
    if (walk->at == UINT64_MAX) walk->at = 0;
    return status;
}
