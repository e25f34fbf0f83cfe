/* Misuses one by one, each with the status that it must end with: null pointers, one pointer twice, lengths that no array has, numbers
 * past the limits, one client too many, handles that were freed or closed or are of another kind. */
#include "facing_pool.h"
#include <stdio.h>
#include <string.h>

static unsigned rows, wrong;

static void row(const char *what, uint32_t status, uint32_t expected) {
    rows++;
    if (status == expected) return;
    wrong++;
    printf("%s: %u, and not %u\n", what, status, expected);
}

#define ROW(call, expected) row(#call, call, expected)

static facing_handle map, client, closed, null;
static facing_bytes_handle bytes, caller, no_bytes;
static facing_counts_handle counts, counter, no_counts;
static facing_answer answer;
static facing_bytes_answer told;
static facing_bytes_sizes sizes;
static facing_cursor cursor;
static char room[100];
static uint64_t lens[4], values[4];
static size_t copied;

static void open_wrongly(void) {
    facing_handle made;
    facing_bytes_handle made_bytes;
    facing_counts_handle made_counts;
    ROW(facing_open(0, 1, 0, &made), FACING_BAD_CAPACITY);
    ROW(facing_open(((size_t)1 << 26) + 1, 1, 0, &made), FACING_BAD_CAPACITY);
    ROW(facing_open(SIZE_MAX, 1, 0, &made), FACING_BAD_CAPACITY);
    ROW(facing_open(16, 0, 0, &made), FACING_BAD_CLIENTS);
    ROW(facing_open(16, 65537, 0, &made), FACING_BAD_CLIENTS);
    ROW(facing_open(16, 1, 0, NULL), FACING_BAD_ARGUMENT);
    ROW(facing_open_seeded(16, 1, NULL, &made), FACING_BAD_ARGUMENT);
    ROW(facing_open_seeded(16, 1, values, NULL), FACING_BAD_ARGUMENT);
    ROW(facing_open_seeded(16, 0, values, &made), FACING_BAD_CLIENTS);
    ROW(facing_bytes_open(SIZE_MAX, 1, &made_bytes), FACING_BAD_CAPACITY);
    ROW(facing_bytes_open(16, UINT32_MAX, &made_bytes), FACING_BAD_CLIENTS);
    ROW(facing_bytes_open_seeded(16, 1, NULL, &made_bytes), FACING_BAD_ARGUMENT);
    ROW(facing_counts_open(0, 1, &made_counts), FACING_BAD_CAPACITY);
    ROW(facing_counts_open(16, 1, NULL), FACING_BAD_ARGUMENT);
}

static void take_wrongly(void) {
    facing_handle made;
    facing_bytes_handle made_bytes;
    ROW(facing_client(&map, &made), FACING_NO_CLIENT);
    ROW(facing_client(&map, &map), FACING_BAD_ARGUMENT);
    ROW(facing_client(NULL, &made), FACING_BAD_ARGUMENT);
    ROW(facing_client(&map, NULL), FACING_BAD_ARGUMENT);
    ROW(facing_client(&client, &made), FACING_WRONG_HANDLE);
    ROW(facing_client(&closed, &made), FACING_WRONG_HANDLE);
    ROW(facing_client(&null, &made), FACING_WRONG_HANDLE);
    ROW(facing_bytes_client(&bytes, &made_bytes), FACING_NO_CLIENT);
    ROW(facing_bytes_client(&caller, &made_bytes), FACING_WRONG_HANDLE);
    ROW(facing_close(&map), FACING_CLIENT_OUT);
    ROW(facing_close(&client), FACING_WRONG_HANDLE);
    ROW(facing_close(&closed), FACING_WRONG_HANDLE);
    ROW(facing_reopen(&closed, 0, &made), FACING_BAD_CLIENTS);
    ROW(facing_reopen(&closed, 1, &closed), FACING_BAD_ARGUMENT);
    ROW(facing_reopen(&map, 1, &made), FACING_WRONG_HANDLE);
}

static void call_numbers_wrongly(void) {
    uint64_t count;
    ROW(facing_put(NULL, 1, 2, &answer), FACING_BAD_ARGUMENT);
    ROW(facing_put(&null, 1, 2, &answer), FACING_WRONG_HANDLE);
    ROW(facing_put(&map, 1, 2, &answer), FACING_WRONG_HANDLE);
    ROW(facing_put(&closed, 1, 2, &answer), FACING_WRONG_HANDLE);
    ROW(facing_find(&client, 1, &answer), FACING_WRONG_HANDLE);
    ROW(facing_find(&closed, 1, NULL), FACING_BAD_ARGUMENT);
    ROW(facing_count(&null, &count), FACING_WRONG_HANDLE);
    ROW(facing_count(&map, NULL), FACING_BAD_ARGUMENT);
    ROW(facing_pairs(&closed, NULL, lens, values, 4, &copied), FACING_BAD_ARGUMENT);
    ROW(facing_pairs(&closed, &cursor, lens, lens, 4, &copied), FACING_BAD_ARGUMENT);
    ROW(facing_pairs(&closed, &cursor, lens, values, SIZE_MAX, &copied), FACING_BAD_ARGUMENT);
    ROW(facing_pairs(&map, &cursor, lens, values, 4, &copied), FACING_WRONG_HANDLE);
    ROW(facing_pairs(&closed, &cursor, lens, values, (size_t)1 << 60, &copied), FACING_BAD_ARGUMENT);
    ROW(facing_put_all(&client, NULL, values, 4, &copied), FACING_BAD_ARGUMENT);
    ROW(facing_get_all(&client, lens, NULL, 4, &copied), FACING_BAD_ARGUMENT);
    ROW(facing_put_all(&client, lens, values, SIZE_MAX, &copied), FACING_BAD_ARGUMENT);
    ROW(facing_put_all(&client, lens, values, (size_t)1 << 60, &copied), FACING_BAD_ARGUMENT);
    ROW(facing_add_all(&client, lens, values, (size_t)1 << 60, &copied), FACING_BAD_ARGUMENT);
    ROW(facing_get_all(&client, lens, &answer, (size_t)1 << 59, &copied), FACING_BAD_ARGUMENT);
    row("how many calls were made of too many", (uint32_t)copied, 0);
}

/* Room that begins where a key ends, and that ends where a key begins, lies over neither. */
static void lie_beside_each_other(void) {
    ROW(facing_bytes_get(&caller, room, 10, room + 10, 90, &told), FACING_DONE);
    ROW(facing_bytes_get(&caller, room + 90, 10, room, 90, &told), FACING_DONE);
    ROW(facing_bytes_get(&caller, room, 11, room + 10, 90, &told), FACING_BAD_ARGUMENT);
    ROW(facing_bytes_get(&caller, room + 89, 11, room, 90, &told), FACING_BAD_ARGUMENT);
    ROW(facing_bytes_get(&caller, room, 100, room + 10, 10, &told), FACING_BAD_ARGUMENT);
    ROW(facing_bytes_get(&caller, room + 10, 10, room, 100, &told), FACING_BAD_ARGUMENT);
    ROW(facing_bytes_get(&caller, room, 10, room, 0, &told), FACING_DONE);
    ROW(facing_bytes_get(&caller, NULL, 0, NULL, 0, &told), FACING_DONE);
}

/* Lengths on both sides of each limit; what is too long is not read. */
static void pass_lengths(void) {
    const size_t most = (size_t)1 << 60;
    const facing_bytes_view long_one = {"b", (size_t)FACING_LONGEST_VALUE + 1}, one = {"b", 1};
    ROW(facing_bytes_get(&caller, "a", (size_t)FACING_LONGEST + 1, NULL, 0, &told), FACING_TOO_LONG);
    ROW(facing_bytes_get(&caller, "a", most - 1, NULL, 0, &told), FACING_TOO_LONG);
    ROW(facing_bytes_get(&caller, "a", most, NULL, 0, &told), FACING_BAD_ARGUMENT);
    ROW(facing_bytes_put(&caller, "a", 1, "b", most - 1, NULL, 0, &told), FACING_TOO_LONG);
    ROW(facing_bytes_put(&caller, "a", 1, "b", most, NULL, 0, &told), FACING_BAD_ARGUMENT);
    ROW(facing_bytes_replace_if(&caller, "a", 1, "b", 1, "b", most - 1, &told), FACING_TOO_LONG);
    ROW(facing_bytes_exchange(&caller, "a", 1, NULL, &long_one, NULL, 0, NULL), FACING_TOO_LONG);
    ROW(facing_bytes_exchange(&caller, "a", (size_t)FACING_LONGEST + 1, NULL, &one, NULL, 0, NULL), FACING_TOO_LONG);
    ROW(facing_counts_get(&counter, "a", most - 1, &answer), FACING_TOO_LONG);
    ROW(facing_counts_get(&counter, "a", most, &answer), FACING_BAD_ARGUMENT);
    ROW(facing_counts_exchange(&counter, "a", most - 1, NULL, values, NULL), FACING_TOO_LONG);
    ROW(facing_counts_get_all(&counter, lens, (size_t)1 << 59, NULL, 0, &answer, &copied), FACING_BAD_ARGUMENT);
    ROW(facing_bytes_pairs(&caller, &cursor, lens, values, (size_t)1 << 57, room, 100, &sizes), FACING_BAD_ARGUMENT);
    ROW(facing_bytes_pairs(&caller, &cursor, lens, values, 4, room, most, &sizes), FACING_BAD_ARGUMENT);
    ROW(facing_counts_pairs(&counter, &cursor, lens, values, (size_t)1 << 57, room, 100, &sizes), FACING_BAD_ARGUMENT);
}

static void call_bytes_wrongly(void) {
    static char large[FACING_LONGEST + 1];
    ROW(facing_bytes_put(&caller, NULL, 1, "b", 1, room, 100, &told), FACING_BAD_ARGUMENT);
    ROW(facing_bytes_put(&caller, "a", SIZE_MAX, "b", 1, room, 100, &told), FACING_BAD_ARGUMENT);
    ROW(facing_bytes_put(&caller, "a", 1, "b", SIZE_MAX, room, 100, &told), FACING_BAD_ARGUMENT);
    ROW(facing_bytes_put(&caller, "a", 1, "b", 1, room, SIZE_MAX, &told), FACING_BAD_ARGUMENT);
    ROW(facing_bytes_put(&caller, room + 10, 5, "b", 1, room, 100, &told), FACING_BAD_ARGUMENT);
    ROW(facing_bytes_put(&caller, "a", 1, room + 99, 1, room, 100, &told), FACING_BAD_ARGUMENT);
    ROW(facing_bytes_put(&caller, large, sizeof large, "b", 1, room, 100, &told), FACING_TOO_LONG);
    ROW(facing_bytes_put(&caller, "a", 1, large, (size_t)FACING_LONGEST_VALUE + 1, NULL, 0, &told), FACING_TOO_LONG);
    ROW(facing_bytes_put(&caller, "a", 1, large, sizeof large, room, 100, &told), FACING_DONE);
    ROW(facing_bytes_put(&caller, "a", 1, large, FACING_LONGEST, room, 100, &told), FACING_DONE);
    ROW(facing_bytes_get(&caller, "a", 1, large, FACING_LONGEST - 1, &told), FACING_NO_ROOM);
    row("the length of what finds no room", (uint32_t)told.len, FACING_LONGEST);
    ROW(facing_bytes_get(&bytes, "a", 1, room, 100, &told), FACING_WRONG_HANDLE);
    ROW(facing_bytes_get(&no_bytes, "a", 1, room, 100, &told), FACING_WRONG_HANDLE);
    ROW(facing_bytes_hold(&caller, "a", 1, &caller, &told), FACING_BAD_ARGUMENT);
    ROW(facing_bytes_hold(&caller, "a", 1, NULL, &told), FACING_BAD_ARGUMENT);
    ROW(facing_bytes_read(&caller, 0, room, 100, &told), FACING_WRONG_HANDLE);
    ROW(facing_bytes_read(NULL, 0, room, 100, &told), FACING_BAD_ARGUMENT);
    ROW(facing_bytes_pairs(&caller, &cursor, lens, lens, 4, room, 100, &sizes), FACING_BAD_ARGUMENT);
    ROW(facing_bytes_pairs(&caller, &cursor, lens, values, 4, lens, 32, &sizes), FACING_BAD_ARGUMENT);
    ROW(facing_bytes_heads(&caller, &cursor, 0, lens, lens, 4, room, 100, &sizes), FACING_BAD_ARGUMENT);
    ROW(facing_bytes_pairs(&caller, &cursor, lens, values, SIZE_MAX / 8, room, 100, &sizes), FACING_BAD_ARGUMENT);
    ROW(facing_bytes_sizes_of(&bytes, &sizes), FACING_WRONG_HANDLE);
    ROW(facing_bytes_sizes_of(&bytes, NULL), FACING_BAD_ARGUMENT);
    ROW(facing_counts_add(&counter, large, sizeof large, 1, &answer), FACING_TOO_LONG);
    ROW(facing_counts_add(&counter, NULL, 1, 1, &answer), FACING_BAD_ARGUMENT);
    ROW(facing_counts_add(&counter, "a", SIZE_MAX, 1, &answer), FACING_BAD_ARGUMENT);
    ROW(facing_counts_add(&counts, "a", 1, 1, &answer), FACING_WRONG_HANDLE);
    ROW(facing_counts_add(&no_counts, "a", 1, 1, &answer), FACING_WRONG_HANDLE);
}

/* Lengths of keys that are more than the bytes of all, or run past 2^64. */
static void call_many_wrongly(void) {
    static const uint64_t too_long[2] = {4, 2}, past[2] = {UINT64_MAX, 2}, right[2] = {3, 2};
    static const uint64_t adds[2] = {5, 6};
    ROW(facing_counts_add_all(&counter, too_long, 2, "abcde", 5, adds, &copied), FACING_BAD_ARGUMENT);
    ROW(facing_counts_add_all(&counter, past, 2, "abcde", 5, adds, &copied), FACING_BAD_ARGUMENT);
    ROW(facing_counts_add_all(&counter, right, 2, NULL, 5, adds, &copied), FACING_BAD_ARGUMENT);
    ROW(facing_counts_add_all(&counter, NULL, 2, "abcde", 5, adds, &copied), FACING_BAD_ARGUMENT);
    ROW(facing_counts_add_all(&counter, right, 2, "abcde", 5, NULL, &copied), FACING_BAD_ARGUMENT);
    ROW(facing_counts_add_all(&counter, right, 2, "abcde", 5, adds, &copied), FACING_DONE);
    row("how many calls were made", (uint32_t)copied, 2);
    ROW(facing_counts_get(&counter, "de", 2, &answer), FACING_DONE);
    row("the second count", (uint32_t)answer.value, 6);
}

static void call_pools_wrongly(void) {
    facing_handle made;
    facing_pool pool;
    facing_bytes_pool bytes_pool;
    ROW(facing_pool_open(16, 0, 0, &pool), FACING_BAD_CLIENTS);
    ROW(facing_pool_put(&pool, 1, 2, &answer), FACING_BAD_ARGUMENT);
    ROW(facing_pool_put(NULL, 1, 2, &answer), FACING_BAD_ARGUMENT);
    ROW(facing_bytes_pool_open(0, 1, &bytes_pool), FACING_BAD_CAPACITY);
    ROW(facing_bytes_pool_get(&bytes_pool, "a", 1, room, 100, &told), FACING_BAD_ARGUMENT);
    ROW(facing_bytes_pool_open(16, 1, NULL), FACING_BAD_ARGUMENT);
    ROW(facing_pool_close(&pool, &made), FACING_BAD_ARGUMENT);
    ROW(facing_pool_close(&pool, &pool.map), FACING_BAD_ARGUMENT);
    facing_pool_free(&pool);
    facing_pool_free(NULL);
    facing_pool_give(NULL);
    facing_bytes_pool_free(&bytes_pool);
}

/* What is no closed map gives out none. */
static void again_wrongly(void) {
    facing_handle made;
    facing_bytes_handle made_bytes;
    facing_counts_handle made_counts;
    ROW(facing_again(&closed, &closed), FACING_BAD_ARGUMENT);
    ROW(facing_again(&client, &made), FACING_WRONG_HANDLE);
    ROW(facing_bytes_again(&bytes, &bytes), FACING_BAD_ARGUMENT);
    ROW(facing_bytes_again(&caller, &made_bytes), FACING_WRONG_HANDLE);
    ROW(facing_bytes_again(&caller, NULL), FACING_BAD_ARGUMENT);
    ROW(facing_counts_again(&counts, &counts), FACING_BAD_ARGUMENT);
    ROW(facing_counts_again(&counts, &made_counts), FACING_WRONG_HANDLE);
    ROW(facing_counts_again(&counts, NULL), FACING_BAD_ARGUMENT);
}

int main(void) {
    ROW(facing_open(16, 1, 0, &closed), FACING_DONE);
    ROW(facing_close(&closed), FACING_DONE);
    ROW(facing_open(16, 1, 0, &map), FACING_DONE);
    ROW(facing_client(&map, &client), FACING_DONE);
    ROW(facing_bytes_open(16, 1, &bytes), FACING_DONE);
    ROW(facing_bytes_client(&bytes, &caller), FACING_DONE);
    ROW(facing_counts_open(16, 1, &counts), FACING_DONE);
    ROW(facing_counts_client(&counts, &counter), FACING_DONE);
    open_wrongly();
    take_wrongly();
    call_numbers_wrongly();
    lie_beside_each_other();
    pass_lengths();
    call_bytes_wrongly();
    call_many_wrongly();
    call_pools_wrongly();
    again_wrongly();
    facing_free(&client);
    ROW(facing_put(&client, 1, 2, &answer), FACING_WRONG_HANDLE);
    facing_free(&client);
    facing_free(NULL);
    facing_free(&map);
    facing_free(&closed);
    facing_bytes_free(&caller);
    facing_bytes_free(&bytes);
    facing_counts_free(&counter);
    facing_counts_free(&counts);
    printf("%u misuses, %u wrong\n", rows, wrong);
    return wrong != 0;
}
