/* A call that copies pairs looks at 1,024 buckets at most. A table of 65,536 buckets with three pairs is read in 64 calls or
 * more, of which most copy nothing, and each pair is copied once. */
#include "facing_pool.h"
#include <stdio.h>
#include <string.h>

enum { BUCKETS = 65536, STEPS = BUCKETS / 1024, LEN = 8 };

static unsigned wrong;

static void want(int is_so, const char *what) {
    if (is_so) return;
    wrong++;
    printf("%s\n", what);
}

static void want_steps(unsigned calls, unsigned empty, size_t pairs, uint64_t sum, const char *what) {
    if (calls >= STEPS && empty >= STEPS - 3 && pairs == 3 && sum == 60) return;
    wrong++;
    printf("%s: %u calls, %u without a pair, %d pairs, their sum %d\n", what, calls, empty, (int)pairs, (int)sum);
}

static void read_numbers(facing_handle *any, facing_pool *pool, const char *what) {
    uint64_t keys[LEN], values[LEN], sum = 0;
    size_t copied, pairs = 0;
    unsigned calls = 0, empty = 0;
    facing_cursor cursor = {0};
    while (cursor.at != UINT64_MAX && calls < 2 * BUCKETS) {
        uint32_t status = pool != NULL ? facing_pool_pairs(pool, &cursor, keys, values, LEN, &copied)
                                       : facing_pairs(any, &cursor, keys, values, LEN, &copied);
        want(status == FACING_DONE, what);
        calls++;
        empty += copied == 0;
        for (size_t i = 0; i < copied; i++, pairs++)
            sum += values[i];
    }
    want_steps(calls, empty, pairs, sum, what);
}

static void read_counts(facing_counts_handle *any, const char *what) {
    uint64_t lens[LEN], values[LEN], sum = 0;
    char room[64];
    size_t pairs = 0;
    unsigned calls = 0, empty = 0;
    facing_bytes_sizes copied;
    facing_cursor cursor = {0};
    while (cursor.at != UINT64_MAX && calls < 2 * BUCKETS) {
        want(facing_counts_pairs(any, &cursor, lens, values, LEN, room, sizeof room, &copied) == FACING_DONE, what);
        calls++;
        empty += copied.pairs == 0;
        for (size_t i = 0; i < copied.pairs; i++, pairs++)
            sum += values[i];
    }
    want_steps(calls, empty, pairs, sum, what);
}

/* Reads whole values, or keys alone. */
static void read_bytes(facing_bytes_handle *any, int is_whole, const char *what) {
    uint64_t lens[LEN], value_lens[LEN], sum = 0;
    char room[64];
    size_t pairs = 0;
    unsigned calls = 0, empty = 0;
    facing_bytes_sizes copied;
    facing_cursor cursor = {0};
    while (cursor.at != UINT64_MAX && calls < 2 * BUCKETS) {
        if (is_whole)
            want(facing_bytes_pairs(any, &cursor, lens, value_lens, LEN, room, sizeof room, &copied) == FACING_DONE, what);
        else
            want(facing_bytes_heads(any, &cursor, 0, lens, value_lens, LEN, room, LEN, &copied) == FACING_DONE, what);
        calls++;
        empty += copied.pairs == 0;
        for (size_t i = 0; i < copied.pairs; i++, pairs++)
            sum += value_lens[i];
    }
    want_steps(calls, empty, pairs, sum, what);
}

int main(void) {
    static const char value[30];
    facing_handle map, client;
    facing_bytes_handle bytes_map, bytes_client;
    facing_counts_handle counts_map, counts_client;
    facing_pool pool;
    facing_bytes_sizes sizes;
    if (facing_open(BUCKETS, 1, 0, &map) || facing_client(&map, &client)) return 1;
    if (facing_bytes_open(BUCKETS, 1, &bytes_map) || facing_bytes_client(&bytes_map, &bytes_client)) return 1;
    if (facing_counts_open(BUCKETS, 1, &counts_map) || facing_counts_client(&counts_map, &counts_client)) return 1;
    if (facing_pool_open(BUCKETS, 1, 0, &pool)) return 1;
    for (unsigned i = 1; i <= 3; i++) {
        char key = (char)i;
        want(facing_put(&client, i, 10 * i, NULL) == FACING_DONE, "put");
        want(facing_pool_put(&pool, i, 10 * i, NULL) == FACING_DONE, "put");
        want(facing_bytes_put(&bytes_client, &key, 1, value, 10 * i, NULL, 0, NULL) == FACING_DONE, "put");
        want(facing_counts_put(&counts_client, &key, 1, 10 * i, NULL) == FACING_DONE, "put");
    }
    read_numbers(&client, NULL, "numbers, by a client");
    read_numbers(NULL, &pool, "numbers, by a pool");
    read_bytes(&bytes_client, 1, "bytes, by a client");
    read_bytes(&bytes_client, 0, "keys of bytes, by a client");
    read_counts(&counts_client, "counts, by a client");
    want(facing_bytes_sizes_of(&bytes_client, &sizes) == FACING_DONE && sizes.pairs == 3 && sizes.bytes == 63, "all sizes");
    facing_free(&client);
    facing_bytes_free(&bytes_client);
    facing_counts_free(&counts_client);
    want(!facing_close(&map) && !facing_bytes_close(&bytes_map) && !facing_counts_close(&counts_map), "close");
    read_numbers(&map, NULL, "numbers, closed");
    read_bytes(&bytes_map, 1, "bytes, closed");
    read_bytes(&bytes_map, 0, "keys of bytes, closed");
    read_counts(&counts_map, "counts, closed");
    facing_free(&map);
    facing_bytes_free(&bytes_map);
    facing_counts_free(&counts_map);
    facing_pool_free(&pool);
    printf("%u wrong\n", wrong);
    return wrong != 0;
}
