/* The maps whose values are numbers, by one name: that of facing.h or, with COUNTS defined, that of facing_counts.h, where the key
 * of a number is a text. */
#ifndef VALUES_H
#define VALUES_H

#include "facing_change.h"
#include "facing_pool.h"
#include <stdio.h>
#include <stdlib.h>
#include <string.h>

/* The most pairs that one call reads. */
enum { AT_ONCE = 4096 };

/* A key and its value, as pairs are read. */
struct read_pair {
    uint64_t key, value;
};

#ifdef COUNTS
typedef facing_counts_handle any_handle;
typedef facing_counts_pool any_pool;
#define DO(name) facing_counts_##name
#define POOL(name) facing_counts_pool_##name
#define EXPORT(name) facing_c_counts_##name
#define OPEN_WITH(capacity, clients) capacity, clients
#define KEY(number) text_of(number), length_of(number)
#define EXPORT_KEY(number) (const uint8_t *)text_of(number), length_of(number)
#define CLIENT_OF(slot) (&(slot)->client.counts)

/* The text of a number, of which some are long. It is there until the thread's next one. */
static const char *text_of(uint64_t number) {
    static __thread char text[64];
    snprintf(text, sizeof text, number % 3 == 0 ? "a longer key, which has the number %llu" : "%llu", (unsigned long long)number);
    return text;
}

static size_t length_of(uint64_t number) {
    return strlen(text_of(number));
}

/* Reads the next pairs of a closed map or a client, at most so many. */
static uint32_t read_pairs(any_handle *any, facing_cursor *cursor, struct read_pair *pairs, size_t len, size_t *copied) {
    static uint64_t lens[AT_ONCE], values[AT_ONCE];
    static char room[64 * AT_ONCE];
    const char *at = room;
    facing_bytes_sizes sizes;
    uint32_t status;
    if (len > AT_ONCE) len = AT_ONCE;
    status = facing_counts_pairs(any, cursor, lens, values, len, room, len * 64, &sizes);
    *copied = sizes.pairs;
    for (size_t i = 0; status == FACING_DONE && i < sizes.pairs; at += lens[i++]) {
        char text[64];
        memcpy(text, at, lens[i]);
        text[lens[i]] = 0;
        pairs[i].key = strtoull(strchr(text, 'a') != NULL ? strrchr(text, ' ') : text, NULL, 10);
        pairs[i].value = values[i];
    }
    return status;
}
#else
typedef facing_handle any_handle;
typedef facing_pool any_pool;
#define DO(name) facing_##name
#define POOL(name) facing_pool_##name
#define EXPORT(name) facing_c_##name
#define OPEN_WITH(capacity, clients) capacity, clients, 0
#define KEY(number) number
#define EXPORT_KEY(number) number
#define CLIENT_OF(slot) (&(slot)->client.numbers)

/* Reads the next pairs of a closed map or a client, at most so many. */
static inline uint32_t read_pairs(any_handle *any, facing_cursor *cursor, struct read_pair *pairs, size_t len, size_t *copied) {
    static uint64_t keys[AT_ONCE], values[AT_ONCE];
    uint32_t status;
    if (len > AT_ONCE) len = AT_ONCE;
    status = facing_pairs(any, cursor, keys, values, len, copied);
    for (size_t i = 0; status == FACING_DONE && i < *copied; i++) {
        pairs[i].key = keys[i];
        pairs[i].value = values[i];
    }
    return status;
}
#endif

/* Reads all pairs of a closed map; there is room for `len` of them. */
static inline size_t read_all(any_handle *closed, struct read_pair *pairs, size_t len) {
    facing_cursor cursor = {0};
    size_t all = 0, copied;
    while (cursor.at != UINT64_MAX) {
        if (read_pairs(closed, &cursor, pairs + all, len - all, &copied) != FACING_DONE) return SIZE_MAX;
        all += copied;
    }
    return all;
}

#endif
