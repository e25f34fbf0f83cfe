/* Changes of a value by what it is, of each kind of map: one by one with what they must answer, and by four threads. */
#include "facing_change.h"
#include <pthread.h>
#include <stdio.h>
#include <stdlib.h>
#include <string.h>

enum { THREADS = 4, ROUNDS = 20000, BOUND = 30000 };

static int wrong;

static void want(int is_right, const char *what) {
    if (is_right) return;
    wrong++;
    fprintf(stderr, "wrong: %s\n", what);
}

static int saw(facing_seen seen, uint32_t exchanged, uint32_t found, uint64_t value) {
    return seen.exchanged == exchanged && seen.found == found && seen.value == value;
}

static int bytes_saw(facing_bytes_seen seen, uint32_t exchanged, uint32_t found, uint64_t len) {
    return seen.exchanged == exchanged && seen.found == found && seen.len == len;
}

static int answered(facing_answer answer, uint32_t found, uint64_t value) {
    return answer.found == found && answer.value == value;
}

/* The calls of numbers by one name: a key is its text, or the number of its letters. */
struct numbers {
    facing_handle by_number;
    facing_counts_handle by_text;
    int is_text;
};

static uint32_t exchange(struct numbers *it, const char *key, const uint64_t *expected, const uint64_t *value,
                         facing_seen *seen) {
    return it->is_text ? facing_counts_exchange(&it->by_text, key, strlen(key), expected, value, seen)
                       : facing_exchange(&it->by_number, strlen(key), expected, value, seen);
}

static uint32_t add_up_to(struct numbers *it, const char *key, uint64_t amount, uint64_t most, facing_answer *answer) {
    return it->is_text ? facing_counts_add_up_to(&it->by_text, key, strlen(key), amount, most, answer)
                       : facing_add_up_to(&it->by_number, strlen(key), amount, most, answer);
}

/* Exchanges where there is none, another, and the one that is expected. */
static void exchange_numbers(struct numbers *it) {
    const uint64_t zero = 0, five = 5, six = 6, most = UINT64_MAX;
    facing_seen seen = {9, 9, 9};
    want(exchange(it, "a", &five, &six, &seen) == FACING_DONE && saw(seen, 0, 0, 0), "five is expected and there is none");
    want(exchange(it, "a", &zero, &six, &seen) == FACING_DONE && saw(seen, 0, 0, 0), "none is not 0");
    want(exchange(it, "a", NULL, NULL, &seen) == FACING_DONE && saw(seen, 1, 0, 0), "none for none");
    want(exchange(it, "a", NULL, &five, &seen) == FACING_DONE && saw(seen, 1, 0, 0), "five for none");
    want(exchange(it, "a", NULL, &six, &seen) == FACING_DONE && saw(seen, 0, 1, 5), "none is expected and there is five");
    want(exchange(it, "a", &six, &most, &seen) == FACING_DONE && saw(seen, 0, 1, 5), "six is expected and there is five");
    want(exchange(it, "a", &five, &most, &seen) == FACING_DONE && saw(seen, 1, 1, 5), "the greatest for five");
    want(exchange(it, "a", &most, &zero, &seen) == FACING_DONE && saw(seen, 1, 1, most), "0 for the greatest");
    want(exchange(it, "a", &six, NULL, &seen) == FACING_DONE && saw(seen, 0, 1, 0), "another is not removed");
    want(exchange(it, "a", &zero, NULL, &seen) == FACING_DONE && saw(seen, 1, 1, 0), "0 is removed");
    want(exchange(it, "a", NULL, &six, NULL) == FACING_DONE, "nobody asks what was there");
    want(exchange(it, "a", &six, NULL, &seen) == FACING_DONE && saw(seen, 1, 1, 6), "it was stored all the same");
}

/* Adds up to a bound, past it, and where the sum passes the range. */
static void add_numbers(struct numbers *it) {
    const uint64_t most = UINT64_MAX;
    facing_answer answer = {9, 9};
    want(add_up_to(it, "bb", 4, 3, &answer) == FACING_DONE && answered(answer, 0, 0), "4 is past 3");
    want(add_up_to(it, "bb", 3, 3, &answer) == FACING_DONE && answered(answer, 1, 3), "3 is not");
    want(add_up_to(it, "bb", 1, 3, &answer) == FACING_DONE && answered(answer, 0, 3), "3 and 1 are past 3");
    want(add_up_to(it, "bb", 0, 3, &answer) == FACING_DONE && answered(answer, 1, 3), "3 and 0 are not");
    want(add_up_to(it, "bb", 0, 2, &answer) == FACING_DONE && answered(answer, 0, 3), "3 is past 2");
    want(add_up_to(it, "bb", most, most, &answer) == FACING_DONE && answered(answer, 0, 3), "the sum passes the range");
    want(add_up_to(it, "bb", most - 3, most, &answer) == FACING_DONE && answered(answer, 1, most), "the end of the range");
    want(add_up_to(it, "cccc", 0, 0, &answer) == FACING_DONE && answered(answer, 1, 0), "0 is stored where there is none");
    want(add_up_to(it, "cccc", 7, 9, NULL) == FACING_DONE, "nobody asks");
    want(add_up_to(it, "cccc", 0, 9, &answer) == FACING_DONE && answered(answer, 1, 7), "it was added all the same");
}

static facing_bytes_view view(const char *text) {
    facing_bytes_view it;
    it.at = text;
    it.len = strlen(text);
    return it;
}

/* Exchanges short and long values, and looks at the room. */
static void exchange_bytes(facing_bytes_handle *client) {
    char large[100], room[200];
    facing_bytes_view empty = {NULL, 0}, cat = view("cat"), mouse = view("a mouse"), long_one = {large, sizeof large};
    facing_bytes_seen seen = {9, 9, 9};
    memset(large, 'x', sizeof large);
    memset(room, '-', sizeof room);
#define EXCHANGE(expected, value, room_len) facing_bytes_exchange(client, "key", 3, expected, value, room, room_len, &seen)
    want(EXCHANGE(&empty, &cat, 9) == FACING_DONE && bytes_saw(seen, 0, 0, 0), "none is not empty");
    want(EXCHANGE(NULL, &empty, 9) == FACING_DONE && bytes_saw(seen, 1, 0, 0), "empty for none");
    want(room[0] == '-', "there was nothing to copy");
    want(EXCHANGE(NULL, &cat, 9) == FACING_DONE && bytes_saw(seen, 0, 1, 0), "none is expected and there is empty");
    want(EXCHANGE(&empty, &cat, 9) == FACING_DONE && bytes_saw(seen, 1, 1, 0), "a cat for empty");
    want(EXCHANGE(&mouse, NULL, 9) == FACING_DONE && bytes_saw(seen, 0, 1, 3), "a mouse is expected and there is a cat");
    want(memcmp(room, "cat-", 4) == 0, "the cat is shown");
    want(EXCHANGE(&cat, &long_one, 2) == FACING_DONE && bytes_saw(seen, 1, 1, 3), "100 bytes for a cat");
    want(EXCHANGE(&cat, &mouse, 150) == FACING_DONE && bytes_saw(seen, 0, 1, 100), "a cat is expected and there are 100 bytes");
    want(memcmp(room, large, 100) == 0 && room[100] == '-', "they are shown");
    large[99] = 'y';
    want(EXCHANGE(&long_one, &mouse, 0) == FACING_DONE && bytes_saw(seen, 0, 1, 100), "they differ in the last one");
    large[99] = 'x';
    long_one.len = 99;
    want(EXCHANGE(&long_one, &mouse, 0) == FACING_DONE && bytes_saw(seen, 0, 1, 100), "99 of them are another value");
    long_one.len = 100;
    want(EXCHANGE(&long_one, &mouse, 0) == FACING_DONE && bytes_saw(seen, 1, 1, 100), "a mouse for 100 bytes");
    want(EXCHANGE(&mouse, NULL, 4) == FACING_DONE && bytes_saw(seen, 1, 1, 7), "the mouse is removed");
    want(memcmp(room, "a moxxx", 7) == 0, "four bytes of it are shown");
    want(EXCHANGE(NULL, NULL, 4) == FACING_DONE && bytes_saw(seen, 1, 0, 0), "there is none");
    want(facing_bytes_exchange(client, "key", 3, NULL, &cat, NULL, 0, NULL) == FACING_DONE, "nobody asks what was there");
    want(EXCHANGE(&cat, NULL, 4) == FACING_DONE && bytes_saw(seen, 1, 1, 3), "it was stored all the same");
#undef EXCHANGE
}

/* What is refused, and that the answers are zero then. */
static void misuse(facing_handle *number, facing_counts_handle *count, facing_bytes_handle *client) {
    static char too_long[FACING_LONGEST + 1];
    const uint64_t five = 5;
    char room[8];
    facing_seen seen = {9, 9, 9};
    facing_answer answer = {9, 9};
    facing_bytes_seen bytes = {9, 9, 9};
    facing_bytes_view nowhere = {NULL, 1}, over = {room, 4}, cat = view("cat");
    facing_handle none = {NULL};
    want(facing_exchange(NULL, 1, NULL, &five, &seen) == FACING_BAD_ARGUMENT && saw(seen, 0, 0, 0), "no client");
    want(facing_add_up_to(NULL, 1, 1, 1, &answer) == FACING_BAD_ARGUMENT && answered(answer, 0, 0), "no client to add");
    seen.found = 9;
    want(facing_exchange(&none, 1, NULL, &five, &seen) == FACING_WRONG_HANDLE && saw(seen, 0, 0, 0), "a null handle");
    seen.found = 9;
    want(facing_counts_exchange(count, NULL, 1, NULL, &five, &seen) == FACING_BAD_ARGUMENT && saw(seen, 0, 0, 0), "no key");
    answer.found = 9;
    want(facing_counts_add_up_to(count, too_long, sizeof too_long, 1, 1, &answer) == FACING_TOO_LONG && answered(answer, 0, 0),
         "too long a key");
    want(facing_bytes_exchange(client, "k", 1, &nowhere, NULL, room, 8, &bytes) == FACING_BAD_ARGUMENT
             && bytes_saw(bytes, 0, 0, 0),
         "bytes that lie nowhere");
    want(facing_bytes_exchange(client, "k", 1, NULL, &over, room, 8, &bytes) == FACING_BAD_ARGUMENT, "room over the value");
    want(facing_bytes_exchange(client, "k", 1, &over, &cat, room, 8, &bytes) == FACING_BAD_ARGUMENT, "room over the expected");
    want(facing_bytes_exchange(client, room, 1, NULL, &cat, room, 8, &bytes) == FACING_BAD_ARGUMENT, "room over the key");
    want(facing_bytes_exchange(client, too_long, sizeof too_long, NULL, &cat, room, 8, &bytes) == FACING_TOO_LONG,
         "too long a key of bytes");
    want(facing_exchange(number, 1, &five, &five, NULL) == FACING_DONE, "a right one after them");
}

static facing_handle number_map;
static facing_counts_handle count_map;
static facing_bytes_handle bytes_map;

/* The clients of a thread, and how many of its bounded sums fitted. */
struct worker {
    struct numbers by_number, by_text;
    facing_bytes_handle bytes;
    uint64_t fitted;
};

static int take_clients(struct worker *it) {
    it->by_number.is_text = 0;
    it->by_text.is_text = 1;
    it->fitted = 0;
    return facing_client(&number_map, &it->by_number.by_number) == FACING_DONE
           && facing_counts_client(&count_map, &it->by_text.by_text) == FACING_DONE
           && facing_bytes_client(&bytes_map, &it->bytes) == FACING_DONE;
}

static void free_clients(struct worker *it) {
    facing_free(&it->by_number.by_number);
    facing_counts_free(&it->by_text.by_text);
    facing_bytes_free(&it->bytes);
}

/* Adds by exchanges, and up to a bound. */
static void *work(void *of) {
    struct worker *own = (struct worker *)of;
    for (int i = 0; i < ROUNDS; i++) {
        struct numbers *it = i % 2 == 0 ? &own->by_number : &own->by_text;
        uint64_t sum, old, count = 0, next;
        facing_seen seen = {0, 0, 0};
        facing_bytes_seen bytes = {0, 0, 0};
        facing_bytes_view old_view = {&old, sizeof old}, next_view = {&next, sizeof next};
        facing_answer answer;
        do {
            old = seen.value;
            sum = old + 1;
            if (exchange(it, "sum", seen.found ? &old : NULL, &sum, &seen) != FACING_DONE) return NULL;
        } while (!seen.exchanged);
        do {
            old = count;
            next = old + 1;
            if (facing_bytes_exchange(&own->bytes, "sum", 3, bytes.found ? &old_view : NULL, &next_view, &count, sizeof count, &bytes)
                != FACING_DONE)
                return NULL;
        } while (!bytes.exchanged);
        if (add_up_to(it, "bounded", 1, BOUND, &answer) != FACING_DONE) return NULL;
        own->fitted += answer.found;
    }
    free_clients(own);
    return of;
}

/* Four threads: no exchange is lost, and no sum passes its bound. */
static void together(void) {
    pthread_t threads[THREADS];
    static struct worker workers[THREADS];
    uint64_t fitted = 0, sum = 0;
    facing_answer by_number, by_text;
    facing_bytes_answer bytes;
    for (int i = 0; i < THREADS; i++)
        if (!take_clients(&workers[i]) || pthread_create(&threads[i], NULL, work, &workers[i])) exit(1);
    for (int i = 0; i < THREADS; i++) {
        void *done = NULL;
        pthread_join(threads[i], &done);
        want(done != NULL, "a thread came to its end");
        fitted += workers[i].fitted;
    }
    want(facing_close(&number_map) == FACING_DONE && facing_counts_close(&count_map) == FACING_DONE, "they close");
    want(facing_bytes_close(&bytes_map) == FACING_DONE, "it closes");
    want(facing_find(&number_map, 3, &by_number) == FACING_DONE && by_number.value == THREADS * ROUNDS / 2, "each was added");
    want(facing_counts_find(&count_map, "sum", 3, &by_text) == FACING_DONE && by_text.value == THREADS * ROUNDS / 2,
         "each was added by its text");
    want(facing_bytes_find(&bytes_map, "sum", 3, &sum, sizeof sum, &bytes) == FACING_DONE && sum == THREADS * ROUNDS,
         "each was added to the bytes");
    want(facing_find(&number_map, 7, &by_number) == FACING_DONE && by_number.value == BOUND, "it came to its bound");
    want(facing_counts_find(&count_map, "bounded", 7, &by_text) == FACING_DONE && by_text.value == BOUND,
         "it came to its bound by its text");
    want(fitted == 2 * BOUND, "as many fitted as were added");
}

int main(void) {
    struct worker own;
    if (facing_open(16, THREADS, 0, &number_map) != FACING_DONE) return 1;
    if (facing_counts_open(16, THREADS, &count_map) != FACING_DONE) return 1;
    if (facing_bytes_open(16, THREADS, &bytes_map) != FACING_DONE || !take_clients(&own)) return 1;
    exchange_numbers(&own.by_number);
    exchange_numbers(&own.by_text);
    add_numbers(&own.by_number);
    add_numbers(&own.by_text);
    exchange_bytes(&own.bytes);
    misuse(&own.by_number.by_number, &own.by_text.by_text, &own.bytes);
    free_clients(&own);
    together();
    facing_free(&number_map);
    facing_counts_free(&count_map);
    facing_bytes_free(&bytes_map);
    printf("%d wrong\n", wrong);
    return wrong != 0;
}
