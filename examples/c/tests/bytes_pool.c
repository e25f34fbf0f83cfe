/* Each call of a pool of byte strings once, with what it must answer. */
#include "facing_pool.h"
#include <stdio.h>
#include <string.h>

static facing_bytes_pool pool;
static unsigned wrong;

static void want(int is_so, const char *what) {
    if (is_so) return;
    wrong++;
    printf("%s\n", what);
}

/* The call is made, and its answer is this. */
#define ANSWERS(call, is_found, its_len)                                                                                    \
    do {                                                                                                                    \
        facing_bytes_answer answer = {9, 9};                                                                                \
        want((call) == FACING_DONE && answer.found == (is_found) && answer.len == (its_len), #call);                        \
    } while (0)

static void calls(void) {
    char room[8] = "-------";
    ANSWERS(facing_bytes_pool_contains(&pool, "key", 3, &answer), 0, 0);
    ANSWERS(facing_bytes_pool_replace(&pool, "key", 3, "one", 3, room, 8, &answer), 0, 0);
    ANSWERS(facing_bytes_pool_put_if_absent(&pool, "key", 3, "one", 3, room, 8, &answer), 0, 0);
    ANSWERS(facing_bytes_pool_put_if_absent(&pool, "key", 3, "three", 5, room, 2, &answer), 1, 3);
    want(memcmp(room, "on-----", 7) == 0, "as much of the value before as there is room for");
    ANSWERS(facing_bytes_pool_put(&pool, "key", 3, "four", 4, room, 8, &answer), 1, 3);
    want(memcmp(room, "one----", 7) == 0, "the value before");
    ANSWERS(facing_bytes_pool_replace(&pool, "key", 3, "", 0, room, 8, &answer), 1, 4);
    ANSWERS(facing_bytes_pool_get(&pool, "key", 3, room, 8, &answer), 1, 0);
    want(memcmp(room, "four---", 7) == 0, "an empty value leaves the room");
    ANSWERS(facing_bytes_pool_contains(&pool, "key", 3, &answer), 1, 0);
    ANSWERS(facing_bytes_pool_replace_if(&pool, "key", 3, "no", 2, "five", 4, &answer), 0, 0);
    ANSWERS(facing_bytes_pool_replace_if(&pool, "key", 3, "", 0, "five", 4, &answer), 1, 0);
    ANSWERS(facing_bytes_pool_remove_if(&pool, "key", 3, "fiv", 3, &answer), 0, 0);
    ANSWERS(facing_bytes_pool_get(&pool, "key", 3, room, 8, &answer), 1, 4);
    want(memcmp(room, "five---", 7) == 0, "the value that was put in another's place");
    ANSWERS(facing_bytes_pool_remove_if(&pool, "key", 3, "five", 4, &answer), 1, 0);
    ANSWERS(facing_bytes_pool_remove(&pool, "key", 3, room, 8, &answer), 0, 0);
}

static void exchange(void) {
    const facing_bytes_view one = {"one", 3}, two = {"twenty", 6};
    facing_bytes_seen seen = {9, 9, 9};
    char room[8] = "-------";
    want(facing_bytes_pool_exchange(&pool, "k", 1, NULL, &one, room, 8, &seen) == FACING_DONE, "an exchange of none");
    want(seen.exchanged == 1 && seen.found == 0 && seen.len == 0 && room[0] == '-', "what it saw");
    want(facing_bytes_pool_exchange(&pool, "k", 1, &two, NULL, room, 8, &seen) == FACING_DONE, "an exchange of another");
    want(seen.exchanged == 0 && seen.found == 1 && seen.len == 3 && memcmp(room, "one----", 7) == 0, "what it saw of another");
    want(facing_bytes_pool_exchange(&pool, "k", 1, &one, &two, NULL, 0, &seen) == FACING_DONE, "an exchange");
    want(seen.exchanged == 1 && seen.found == 1 && seen.len == 3, "what an exchange saw");
}

/* The map has the pair of "k" and "twenty". */
static void walk(void) {
    facing_cursor cursor = {0};
    facing_bytes_sizes copied = {9, 9};
    uint64_t key_lens[2] = {9, 9}, value_lens[2] = {9, 9}, count = 9;
    char room[8] = "-------";
    want(facing_bytes_pool_heads(&pool, &cursor, 2, key_lens, value_lens, 2, room, 8, &copied) == FACING_DONE, "heads");
    want(copied.pairs == 1 && copied.bytes == 3 && key_lens[0] == 1 && value_lens[0] == 6, "how long they are");
    want(memcmp(room, "ktw----", 7) == 0 && cursor.at == UINT64_MAX, "the head of the pair");
    cursor.at = 0;
    want(facing_bytes_pool_pairs(&pool, &cursor, key_lens, value_lens, 2, room, 6, &copied) == FACING_NO_ROOM, "no room");
    want(copied.pairs == 1 && copied.bytes == 7 && cursor.at != UINT64_MAX, "how much is needed");
    want(facing_bytes_pool_pairs(&pool, &cursor, key_lens, value_lens, 2, room, 7, &copied) == FACING_DONE, "pairs");
    want(copied.pairs == 1 && copied.bytes == 7 && memcmp(room, "ktwenty", 7) == 0, "the pair");
    want(facing_bytes_pool_count(&pool, &count) == FACING_DONE && count == 1, "the count");
}

int main(void) {
    facing_bytes_handle held, closed;
    facing_bytes_answer answer = {9, 9};
    char room[8] = "-------";
    if (facing_bytes_pool_open(1, 2, &pool) != FACING_DONE) return 1;
    calls();
    exchange();
    walk();
    want(facing_bytes_pool_hold(&pool, "k", 1, &held, &answer) == FACING_DONE && answer.found == 1 && answer.len == 6, "a hold");
    want(facing_bytes_pool_close(&pool, &closed) == FACING_DONE && pool.map.at == NULL, "a close");
    want(facing_bytes_find(&closed, "k", 1, room, 8, &answer) == FACING_DONE && memcmp(room, "twenty-", 7) == 0, "a find");
    facing_bytes_free(&closed);
    want(facing_bytes_read(&held, 4, room, 1, &answer) == FACING_DONE && room[0] == 't' && room[1] == 'w', "what is held");
    facing_bytes_free(&held);
    want(facing_bytes_pool_close(&pool, &closed) == FACING_BAD_ARGUMENT && closed.at == NULL, "a close of what is closed");
    want(facing_bytes_pool_close(&pool, &pool.map) == FACING_BAD_ARGUMENT, "the pool's own map");
    want(facing_bytes_pool_take(&pool) == NULL, "a client of an empty pool");
    printf("%u wrong\n", wrong);
    return wrong != 0;
}
