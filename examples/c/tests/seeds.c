/* Keys of facing.h under a seed. Keys that were chosen to collide without it share buckets no more than 0, 1, 2 .. do, and neither
 * do multiples of 2^32 and of 2^50; a reopened map has the seed of the closed one; a seed that is given gives one order of pairs,
 * in maps of each kind. */
#include "facing_counts.h"
#include <stdio.h>
#include <string.h>

enum { KEYS = 10000, KINDS = 4 };

static unsigned wrong;

static void want(int is_so, const char *what) {
    if (is_so) return;
    wrong++;
    printf("%s\n", what);
}

/* A map multiplies keys by 2^64 over the golden ratio. Times this number that is 1: so without a seed multiples of this number
 * whose factors are near each other are in one bucket. */
#define INVERSE 0xf1de83e19937733du

static uint64_t key_of(int kind, uint64_t number) {
    switch (kind) {
    case 0: return number;
    case 1: return INVERSE * (((uint64_t)7 << 32) + number);
    case 2: return number << 32;
    default: return number << 50;
    }
}

static int put_all(facing_handle *client, int kind) {
    for (uint64_t i = 0; i < KEYS; i++)
        if (facing_put(client, key_of(kind, i), i, NULL) != FACING_DONE) return 0;
    return 1;
}

static int has_all(facing_handle *client, int kind) {
    facing_answer answer;
    for (uint64_t i = 0; i < KEYS; i++)
        if (facing_get(client, key_of(kind, i), &answer) != FACING_DONE || answer.value != i || !answer.found) return 0;
    return 1;
}

/* How many keys the inserts passed: each passes those that are in its bucket. An export tells how many a bucket has, if there is
 * no room for them. */
static uint64_t passed(facing_handle *closed) {
    uint64_t at = 0, sum = 0, nowhere[1];
    while (at != UINT64_MAX) {
        facing_answer answer = {0, 0};
        facing_handle lent = facing_lend(closed->at, FACING_NUMBERS), back = {NULL};
        uint32_t status = facing_c_try_pairs(lent, &back, at, &at, nowhere, 0, nowhere, 0, &answer);
        closed->at = facing_back(closed->at, lent.at, back.at);
        if (status != FACING_DONE && status != FACING_NO_ROOM) return UINT64_MAX;
        if (answer.value > 0) sum += answer.value * (answer.value - 1) / 2;
    }
    return sum;
}

/* The map of these keys, closed; and what it passes. The seed is drawn. */
static uint64_t passed_by(int kind, facing_handle *map) {
    facing_handle client;
    if (facing_open(16, 1, 0, map) != FACING_DONE || facing_client(map, &client) != FACING_DONE) return UINT64_MAX;
    want(put_all(&client, kind) && has_all(&client, kind), "a key has another value");
    facing_free(&client);
    return facing_close(map) == FACING_DONE ? passed(map) : UINT64_MAX;
}

static void reopen(facing_handle *closed, int kind) {
    facing_handle map, client = {NULL};
    want(facing_reopen(closed, 1, &map) == FACING_DONE && facing_client(&map, &client) == FACING_DONE, "a map is not reopened");
    want(has_all(&client, kind), "a reopened map has another seed");
    facing_free(&client);
    facing_free(&map);
}

static void choose(void) {
    facing_handle maps[KINDS];
    uint64_t counts[KINDS];
    for (int kind = 0; kind < KINDS; kind++) {
        counts[kind] = passed_by(kind, &maps[kind]);
        want(2 * counts[kind] <= 3 * counts[0], "chosen keys share buckets more than others");
        reopen(&maps[kind], kind);
        facing_free(&maps[kind]);
    }
    want(counts[0] > 0, "no keys share a bucket");
}

/* The keys 0 to 99 in the order in which a map of this seed has them; of a seed that is drawn where it is NULL. */
static void order_of(const uint64_t *seed, uint64_t keys[100]) {
    uint64_t values[100];
    facing_handle map, client = {NULL};
    facing_cursor cursor = {0};
    size_t copied = 0, len = 0;
    uint32_t status = seed != NULL ? facing_open_seeded(256, 1, seed, &map) : facing_open(256, 1, 0, &map);
    want(status == FACING_DONE && facing_client(&map, &client) == FACING_DONE, "no map");
    for (uint64_t key = 0; key < 100; key++)
        want(facing_put(&client, key, key, NULL) == FACING_DONE, "a put");
    while (cursor.at != UINT64_MAX && facing_pairs(&client, &cursor, keys + len, values, 100 - len, &copied) == FACING_DONE)
        len += copied;
    want(len == 100, "the pairs");
    facing_free(&client);
    facing_free(&map);
}

/* The same of the byte strings that these numbers are, in a map of counts. */
static void order_of_counts(const uint64_t *seed, uint64_t keys[100]) {
    uint64_t lens[100], values[100];
    facing_counts_handle map, client = {NULL};
    facing_cursor cursor = {0};
    facing_bytes_sizes copied = {0, 0};
    size_t len = 0;
    uint32_t status = seed != NULL ? facing_counts_open_seeded(256, 1, seed, &map) : facing_counts_open(256, 1, &map);
    want(status == FACING_DONE && facing_counts_client(&map, &client) == FACING_DONE, "no map of counts");
    for (uint64_t key = 0; key < 100; key++)
        want(facing_counts_put(&client, &key, sizeof key, key, NULL) == FACING_DONE, "a put of a count");
    while (cursor.at != UINT64_MAX
           && facing_counts_pairs(&client, &cursor, lens, values, 100 - len, keys + len, 8 * (100 - len), &copied) == FACING_DONE)
        len += copied.pairs;
    want(len == 100, "the pairs of counts");
    facing_counts_free(&client);
    facing_counts_free(&map);
}

/* And in a map of byte strings, whose values are empty. */
static void order_of_bytes(const uint64_t *seed, uint64_t keys[100]) {
    uint64_t lens[100], value_lens[100];
    facing_bytes_handle map, client = {NULL};
    facing_cursor cursor = {0};
    facing_bytes_sizes copied = {0, 0};
    size_t len = 0;
    uint32_t status = seed != NULL ? facing_bytes_open_seeded(256, 1, seed, &map) : facing_bytes_open(256, 1, &map);
    want(status == FACING_DONE && facing_bytes_client(&map, &client) == FACING_DONE, "no map of bytes");
    for (uint64_t key = 0; key < 100; key++)
        want(facing_bytes_put(&client, &key, sizeof key, NULL, 0, NULL, 0, NULL) == FACING_DONE, "a put of bytes");
    while (cursor.at != UINT64_MAX
           && facing_bytes_pairs(&client, &cursor, lens, value_lens, 100 - len, keys + len, 8 * (100 - len), &copied) == FACING_DONE)
        len += copied.pairs;
    want(len == 100, "the pairs of bytes");
    facing_bytes_free(&client);
    facing_bytes_free(&map);
}

/* Each of the seed's numbers matters, and a seed that is drawn is another one each time. */
static void give_seeds(void (*order)(const uint64_t *seed, uint64_t keys[100])) {
    const uint64_t seed[2] = {0x243f6a8885a308d3u, 0x13198a2e03707344u};
    const uint64_t other[2] = {seed[0], seed[1] + 1}, another[2] = {seed[0] + 2, seed[1]};
    uint64_t first[100], second[100], third[100], drawn[100];
    order(seed, first);
    order(seed, second);
    order(other, third);
    want(memcmp(first, second, sizeof first) == 0, "one seed gives two orders");
    want(memcmp(first, third, sizeof first) != 0, "two seeds give one order");
    order(another, third);
    want(memcmp(first, third, sizeof first) != 0, "seeds of two first numbers give one order");
    order(NULL, second);
    order(NULL, drawn);
    want(memcmp(second, drawn, sizeof drawn) != 0, "two maps drew one seed");
}

int main(void) {
    choose();
    give_seeds(order_of);
    give_seeds(order_of_counts);
    give_seeds(order_of_bytes);
    printf("%d keys of each kind, %u wrong\n", KEYS, wrong);
    return wrong != 0;
}
