/* Handles of each kind are handed to the functions of the two other headers: each call fails, tells why, and changes nothing. Where
 * the system gives no random bytes no map opens. The program is linked so that its getrandom is the one below. */
#include "facing_counts.h"
#include <stdio.h>
#include <string.h>

static uint64_t wrong;

static void want(int is_so, const char *what) {
    if (is_so) return;
    wrong++;
    printf("%s\n", what);
}

/* What getrandom does: it is interrupted so often, and then gives bytes or fails. All of a seed is drawn at once. */
static int interruptions, is_failing, draws;

ssize_t __real_getrandom(void *room, size_t len, unsigned flags);

ssize_t __wrap_getrandom(void *room, size_t len, unsigned flags) {
    draws++;
    want(len == 16 && flags == 0, "what is drawn");
    if (interruptions > 0) {
        interruptions--;
        errno = EINTR;
        return -1;
    }
    if (is_failing) errno = ENOSYS;
    return is_failing ? -1 : __real_getrandom(room, len, flags);
}

static void draw_seeds(void) {
    facing_handle numbers = {&wrong};
    facing_bytes_handle bytes = {&wrong};
    facing_counts_handle counts = {&wrong};
    is_failing = 1;
    want(facing_open(16, 1, 0, &numbers) == FACING_NO_SEED && numbers.at == NULL, "numbers without a seed");
    want(facing_bytes_open(16, 1, &bytes) == FACING_NO_SEED && bytes.at == NULL, "bytes without a seed");
    want(facing_counts_open(16, 1, &counts) == FACING_NO_SEED && counts.at == NULL, "counts without a seed");
    is_failing = 0;
    interruptions = 3;
    draws = 0;
    want(facing_bytes_open(16, 1, &bytes) == FACING_DONE && draws == 4, "a seed after interruptions");
    want(facing_open(16, 1, 0, &numbers) == FACING_DONE && draws == 5, "a seed of numbers");
    want(facing_counts_open(16, 1, &counts) == FACING_DONE && draws == 6, "a seed of counts");
    facing_bytes_free(&bytes);
    facing_free(&numbers);
    facing_counts_free(&counts);
}

/* Calls of facing_bytes.h and facing_counts.h with a handle of facing.h, and so on: a client, a closed map. */
static void call_by_numbers(facing_handle client, facing_handle closed) {
    facing_bytes_handle bytes = {client.at}, closed_bytes = {closed.at};
    facing_counts_handle counts = {client.at}, closed_counts = {closed.at};
    facing_bytes_answer told = {7, 7};
    facing_bytes_sizes sizes = {7, 7};
    facing_answer answer = {7, 7};
    char room[8] = "room";
    want(facing_bytes_put(&bytes, "a", 1, "b", 1, room, 8, &told) == FACING_WRONG_HANDLE && told.found == 0, "bytes, put");
    want(facing_bytes_get(&bytes, "a", 1, room, 8, &told) == FACING_WRONG_HANDLE && told.len == 0, "bytes, get");
    want(facing_bytes_find(&closed_bytes, "a", 1, room, 8, &told) == FACING_WRONG_HANDLE, "bytes, find");
    want(facing_bytes_sizes_of(&closed_bytes, &sizes) == FACING_WRONG_HANDLE && sizes.pairs == 0, "bytes, sizes");
    want(facing_bytes_read(&bytes, 0, room, 8, &told) == FACING_WRONG_HANDLE, "bytes, read");
    want(facing_counts_add(&counts, "a", 1, 1, &answer) == FACING_WRONG_HANDLE && answer.found == 0, "counts, add");
    want(facing_counts_find(&closed_counts, "a", 1, &answer) == FACING_WRONG_HANDLE, "counts, find");
    want(strcmp(room, "room") == 0, "the room");
    want(bytes.at == client.at && counts.at == client.at && closed_bytes.at == closed.at && closed_counts.at == closed.at, "handles");
}

static void call_by_bytes(facing_bytes_handle client, facing_bytes_handle held) {
    facing_handle numbers = {client.at}, held_numbers = {held.at};
    facing_counts_handle counts = {client.at}, held_counts = {held.at};
    facing_bytes_handle more;
    facing_answer answer = {7, 7};
    uint64_t count = 7;
    want(facing_put(&numbers, 1, 2, &answer) == FACING_WRONG_HANDLE && answer.found == 0, "numbers, put");
    want(facing_counts_set(&counts, "a", 1, 1, &answer) == FACING_WRONG_HANDLE, "counts, set");
    want(facing_find(&held_numbers, 1, &answer) == FACING_WRONG_HANDLE, "numbers, find in a value");
    want(facing_close(&held_numbers) == FACING_WRONG_HANDLE, "numbers, close of a value");
    want(facing_counts_count(&held_counts, &count) == FACING_WRONG_HANDLE && count == 0, "counts, count of a value");
    want(facing_bytes_client(&held, &more) == FACING_WRONG_HANDLE && more.at == NULL, "a client of a value");
    want(facing_bytes_reopen(&held, 1, &more) == FACING_WRONG_HANDLE && more.at == NULL, "a value that is reopened");
}

int main(void) {
    facing_handle map, closed, client;
    facing_bytes_handle bytes, caller, held;
    facing_answer answer;
    facing_bytes_answer told;
    char room[8];
    draw_seeds();
    if (facing_open(16, 1, 0, &map) != FACING_DONE || facing_client(&map, &client) != FACING_DONE) return 1;
    if (facing_open(16, 1, 0, &closed) != FACING_DONE || facing_close(&closed) != FACING_DONE) return 1;
    if (facing_bytes_open(16, 1, &bytes) != FACING_DONE || facing_bytes_client(&bytes, &caller) != FACING_DONE) return 1;
    want(facing_put(&client, 1, 2, NULL) == FACING_DONE, "a put");
    want(facing_bytes_put(&caller, "a", 1, "value", 5, NULL, 0, NULL) == FACING_DONE, "a put of bytes");
    want(facing_bytes_hold(&caller, "a", 1, &held, &told) == FACING_DONE && told.len == 5, "a hold");
    call_by_numbers(client, closed);
    call_by_bytes(caller, held);
    want(facing_get(&client, 1, &answer) == FACING_DONE && answer.value == 2, "what numbers keep");
    want(facing_bytes_remove(&caller, "a", 1, room, 8, &told) == FACING_DONE && told.len == 5, "what bytes keep");
    want(facing_bytes_read(&held, 2, room, 8, &told) == FACING_DONE && told.len == 5 && memcmp(room, "lue", 3) == 0, "a value");
    facing_bytes_free(&held);
    facing_bytes_free(&caller);
    facing_bytes_free(&bytes);
    facing_free(&client);
    facing_free(&closed);
    facing_free(&map);
    printf("%llu wrong\n", (unsigned long long)wrong);
    return wrong != 0;
}
