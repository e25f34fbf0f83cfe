/* Calls on many byte strings at once, and by a pool. */
#include "facing_pool.h"
#include <stdio.h>
#include <string.h>

enum { LEN = 1000 };

static unsigned long wrong;

static void want(int is_so) {
    wrong += !is_so;
}

/* The keys "a", "bb", "" and "ccc" with the values "1", "", "333" and "4444". */
static const uint64_t key_lens[4] = {1, 2, 0, 3}, value_lens[4] = {1, 0, 3, 4};
static const char pairs[] = "a1bb333ccc4444", keys[] = "abbccc";

static void put_and_get(facing_bytes_handle *client) {
    facing_bytes_answer answers[4];
    char room[10] = ".........";
    size_t done = 9;
    want(facing_bytes_put_all(client, key_lens, value_lens, 4, pairs, 14, &done) == FACING_DONE && done == 4);
    want(facing_bytes_get_all(client, key_lens, 4, keys, 6, room, 8, answers, &done) == FACING_DONE && done == 4);
    want(memcmp(room, "13334444.", 9) == 0);
    for (int i = 0; i < 4; i++) want(answers[i].found == 1 && answers[i].len == value_lens[i]);
    want(facing_bytes_remove(client, "bb", 2, NULL, 0, NULL) == FACING_DONE);
    want(facing_bytes_get_all(client, key_lens, 2, keys, 6, room, 9, answers, NULL) == FACING_DONE);
    want(answers[0].found == 1 && answers[0].len == 1 && answers[1].found == 0 && answers[1].len == 0);
    want(facing_bytes_put_all(client, NULL, NULL, 0, NULL, 0, &done) == FACING_DONE && done == 0);
    want(facing_bytes_get_all(client, NULL, 0, NULL, 0, NULL, 0, NULL, &done) == FACING_DONE && done == 0);
}

/* There is room for two values: the third is told, and the calls go on behind it. */
static void get_in_two_steps(facing_bytes_handle *client) {
    facing_bytes_answer answers[4];
    char room[10] = ".........";
    size_t done = 9;
    want(facing_bytes_put_all(client, key_lens, value_lens, 4, pairs, 14, NULL) == FACING_DONE);
    want(facing_bytes_get_all(client, key_lens, 4, keys, 6, room, 3, answers, &done) == FACING_NO_ROOM && done == 2);
    want(answers[2].found == 1 && answers[2].len == 3 && answers[3].found == 0 && answers[3].len == 0);
    want(facing_bytes_get_all(client, &key_lens[2], 2, &keys[3], 3, &room[1], 8, &answers[2], &done) == FACING_DONE && done == 2);
    want(memcmp(room, "13334444.", 9) == 0 && answers[3].len == 4);
}

/* The second key is too long. The first call was made, and those behind it were not. */
static void fail_in_the_middle(facing_bytes_handle *client) {
    static const uint64_t lens[3] = {1, FACING_LONGEST + 1, 1}, none[3] = {0, 0, 0};
    static char long_keys[FACING_LONGEST + 3];
    facing_bytes_answer answers[3] = {{9, 9}, {9, 9}, {9, 9}}, answer;
    char room[4];
    size_t done = 9;
    long_keys[0] = 'x';
    long_keys[sizeof long_keys - 1] = 'y';
    want(facing_bytes_put_all(client, lens, none, 3, long_keys, sizeof long_keys, &done) == FACING_TOO_LONG && done == 1);
    want(facing_bytes_contains(client, "x", 1, &answer) == FACING_DONE && answer.found == 1);
    want(facing_bytes_contains(client, "y", 1, &answer) == FACING_DONE && answer.found == 0);
    want(facing_bytes_get_all(client, lens, 3, long_keys, sizeof long_keys, room, 4, answers, &done) == FACING_TOO_LONG);
    want(done == 1 && answers[0].found == 1 && answers[0].len == 0);
    want(answers[1].found == 0 && answers[1].len == 0 && answers[2].found == 0 && answers[2].len == 0);
}

static void refuse(facing_bytes_handle *client) {
    static const uint64_t huge[2] = {UINT64_MAX, 2};
    facing_bytes_answer answers[4] = {{9, 9}, {9, 9}, {9, 9}, {9, 9}};
    char room[16];
    size_t done = 9;
    want(facing_bytes_put_all(NULL, key_lens, value_lens, 4, pairs, 14, &done) == FACING_BAD_ARGUMENT && done == 0);
    want(facing_bytes_put_all(client, NULL, value_lens, 4, pairs, 14, NULL) == FACING_BAD_ARGUMENT);
    want(facing_bytes_put_all(client, key_lens, NULL, 4, pairs, 14, NULL) == FACING_BAD_ARGUMENT);
    want(facing_bytes_put_all(client, key_lens, value_lens, 4, NULL, 14, NULL) == FACING_BAD_ARGUMENT);
    want(facing_bytes_put_all(client, key_lens, value_lens, 4, pairs, 13, NULL) == FACING_BAD_ARGUMENT);
    want(facing_bytes_put_all(client, huge, value_lens, 2, pairs, 14, NULL) == FACING_BAD_ARGUMENT);
    want(facing_bytes_put_all(client, key_lens, huge, 2, pairs, 14, NULL) == FACING_BAD_ARGUMENT);
    want(facing_bytes_put_all(client, key_lens, value_lens, SIZE_MAX, pairs, 14, NULL) == FACING_BAD_ARGUMENT);
    want(facing_bytes_get_all(client, key_lens, 4, keys, 5, room, 16, answers, &done) == FACING_BAD_ARGUMENT && done == 0);
    want(answers[0].found == 0 && answers[0].len == 0 && answers[3].found == 0 && answers[3].len == 0);
    want(facing_bytes_get_all(NULL, key_lens, 4, keys, 6, room, 16, answers, NULL) == FACING_BAD_ARGUMENT);
    want(facing_bytes_get_all(client, NULL, 4, keys, 6, room, 16, answers, NULL) == FACING_BAD_ARGUMENT);
    want(facing_bytes_get_all(client, key_lens, 4, keys, 6, room, 16, NULL, NULL) == FACING_BAD_ARGUMENT);
    want(facing_bytes_get_all(client, key_lens, 4, keys, 6, NULL, 16, answers, NULL) == FACING_BAD_ARGUMENT);
    want(facing_bytes_get_all(client, key_lens, SIZE_MAX, keys, 6, room, 16, answers, NULL) == FACING_BAD_ARGUMENT);
    want(facing_bytes_get_all(client, key_lens, 2, room, 16, room, 16, answers, NULL) == FACING_BAD_ARGUMENT);
    want(facing_bytes_get_all(client, key_lens, 2, keys, 6, answers, 16, answers, NULL) == FACING_BAD_ARGUMENT);
}

/* A thousand pairs, as facing_bytes_pairs copies them, go into a pool. */
static void copy_into_a_pool(facing_bytes_handle *client) {
    static uint64_t lens[LEN], lens_of_values[LEN];
    static char room[LEN * 12];
    facing_bytes_pool pool;
    facing_cursor cursor = {0};
    facing_bytes_sizes copied;
    uint64_t count = 0;
    for (int i = 0; i < LEN; i++) {
        char text[12];
        snprintf(text, sizeof text, "%04d", i);
        want(facing_bytes_put(client, text, 4, text, 4, NULL, 0, NULL) == FACING_DONE);
    }
    want(facing_bytes_pool_open(16, 1, &pool) == FACING_DONE);
    while (cursor.at != UINT64_MAX) {
        facing_bytes_answer answers[1];
        want(facing_bytes_pairs(client, &cursor, lens, lens_of_values, LEN, room, sizeof room, &copied) == FACING_DONE);
        want(facing_bytes_pool_put_all(&pool, lens, lens_of_values, copied.pairs, room, copied.bytes, NULL) == FACING_DONE);
        if (copied.pairs == 0) continue;
        want(facing_bytes_pool_get_all(&pool, lens, 1, room, lens[0], NULL, 0, answers, NULL)
             == (lens_of_values[0] != 0 ? FACING_NO_ROOM : FACING_DONE));
        want(answers[0].found == 1 && answers[0].len == lens_of_values[0]);
    }
    /* ("a", "bb", "", "ccc" and "x" are there too) */
    want(facing_bytes_pool_count(&pool, &count) == FACING_DONE && count == LEN + 5);
    facing_bytes_pool_free(&pool);
}

int main(void) {
    facing_bytes_handle map, client;
    if (facing_bytes_open(16, 1, &map) || facing_bytes_client(&map, &client)) return 1;
    put_and_get(&client);
    get_in_two_steps(&client);
    fail_in_the_middle(&client);
    refuse(&client);
    copy_into_a_pool(&client);
    facing_bytes_free(&client);
    facing_bytes_free(&map);
    printf("%lu wrong\n", wrong);
    return wrong != 0;
}
