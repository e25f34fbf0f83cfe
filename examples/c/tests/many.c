/* Calls on many keys at once, answers that are left out, sentences of statuses, and values that are pointers: what a thread wrote
 * before it stored the pointer is seen by the thread that gets it. */
#include "facing_counts.h"
#include <pthread.h>
#include <stdio.h>
#include <stdlib.h>
#include <string.h>

enum { LEN = 1000, LETTERS = 100000 };

static uint64_t wrong;

static void want(int is_so) {
    wrong += !is_so;
}

static void many(facing_handle *client) {
    static uint64_t keys[LEN], values[LEN];
    static facing_answer answers[LEN];
    size_t done = 9, i;
    for (i = 0; i < LEN; i++) keys[i] = i, values[i] = 2 * i;
    want(facing_put_all(client, keys, values, LEN, &done) == FACING_DONE && done == LEN);
    want(facing_add_all(client, keys, values, LEN, NULL) == FACING_DONE);
    keys[LEN - 1] = LEN;
    want(facing_get_all(client, keys, answers, LEN, &done) == FACING_DONE && done == LEN);
    for (i = 0; i < LEN - 1; i++) want(answers[i].found == 1 && answers[i].value == 4 * i);
    want(answers[LEN - 1].found == 0);
    done = 9;
    want(facing_put_all(client, NULL, NULL, 0, &done) == FACING_DONE && done == 0);
    want(facing_add_all(client, keys, values, 2, &done) == FACING_DONE && done == 2);
    want(facing_get_all(client, keys, answers, 2, NULL) == FACING_DONE && answers[0].value == 0 && answers[1].value == 6);
    want(facing_put_all(client, NULL, values, 1, &done) == FACING_BAD_ARGUMENT && done == 0);
    want(facing_get_all(client, keys, NULL, 1, NULL) == FACING_BAD_ARGUMENT);
    want(facing_add_all(NULL, keys, values, 1, &done) == FACING_BAD_ARGUMENT && done == 0);
}

/* The keys "a", "bb", "" and "ccc", one behind another. */
static void many_counts(facing_counts_handle *client) {
    static const uint64_t lens[4] = {1, 2, 0, 3}, values[4] = {10, 20, 30, 40}, more[4] = {1, 2, 3, UINT64_MAX};
    static const uint64_t other[3] = {2, 1, 3};
    facing_answer answers[4] = {{9, 9}, {9, 9}, {9, 9}, {9, 9}};
    facing_bytes_sizes sizes = {9, 9};
    size_t done = 9;
    want(facing_counts_put_all(client, lens, 4, "abbccc", 6, values, &done) == FACING_DONE && done == 4);
    want(facing_counts_add_all(client, lens, 4, "abbccc", 6, more, &done) == FACING_DONE && done == 4);
    want(facing_counts_get_all(client, lens, 4, "abbccc", 6, answers, &done) == FACING_DONE && done == 4);
    want(answers[0].value == 11 && answers[1].value == 22 && answers[2].value == 33 && answers[3].value == UINT64_MAX);
    want(facing_counts_sizes_of(client, &sizes) == FACING_DONE && sizes.pairs == 4 && sizes.bytes == 6);
    want(facing_counts_get_all(client, other, 3, "bbaccc", 6, answers, NULL) == FACING_DONE);
    want(answers[0].value == 22 && answers[1].value == 11 && answers[2].value == UINT64_MAX);
    want(facing_counts_put_all(client, lens, 0, NULL, 0, values, &done) == FACING_DONE && done == 0);
    want(facing_counts_get_all(client, &lens[2], 1, NULL, 0, answers, &done) == FACING_DONE && done == 1 && answers[0].value == 33);
}

/* The second key is too long. The first call was made, and those behind it were not. */
static void fail_in_the_middle(facing_counts_handle *client) {
    static const uint64_t lens[3] = {1, FACING_LONGEST + 1, 1}, values[3] = {50, 60, 70};
    static char keys[FACING_LONGEST + 3];
    facing_answer answers[3] = {{9, 9}, {9, 9}, {9, 9}}, answer;
    size_t done = 9;
    keys[0] = 'x';
    keys[sizeof keys - 1] = 'y';
    want(facing_counts_put_all(client, lens, 3, keys, sizeof keys, values, &done) == FACING_TOO_LONG && done == 1);
    want(facing_counts_add_all(client, lens, 3, keys, sizeof keys, values, &done) == FACING_TOO_LONG && done == 1);
    want(facing_counts_get_all(client, lens, 3, keys, sizeof keys, answers, &done) == FACING_TOO_LONG && done == 1);
    want(answers[0].found == 1 && answers[0].value == 100);
    want(answers[1].found == 0 && answers[1].value == 0 && answers[2].found == 0 && answers[2].value == 0);
    want(facing_counts_get(client, "y", 1, &answer) == FACING_DONE && answer.found == 0);
}

/* By a map of texts of its own. */
static void by_texts(void) {
    facing_counts_handle map, client;
    facing_bytes_sizes sizes = {9, 9};
    want(facing_counts_open(16, 1, &map) == FACING_DONE && facing_counts_client(&map, &client) == FACING_DONE);
    many_counts(&client);
    fail_in_the_middle(&client);
    facing_counts_free(&client);
    want(facing_counts_close(&map) == FACING_DONE);
    want(facing_counts_sizes_of(&map, &sizes) == FACING_DONE && sizes.pairs == 5 && sizes.bytes == 7);
    facing_counts_free(&map);
}

static void left_out(facing_handle *client) {
    facing_answer answer;
    want(facing_set(client, 5000, 7, NULL) == FACING_DONE);
    want(facing_replace_if(client, 5000, 7, 8, NULL) == FACING_DONE);
    want(facing_get(client, 5000, &answer) == FACING_DONE && answer.value == 8);
    want(facing_remove(client, 5000, NULL) == FACING_DONE);
    want(facing_contains(client, 5000, &answer) == FACING_DONE && answer.found == 0);
}

static void sentences(void) {
    uint32_t i, j;
    want(strcmp(facing_strerror(FACING_NO_MEMORY), "out of memory") == 0);
    want(strcmp(facing_strerror(FACING_AFTER_FORK + 1), "no status of this library") == 0);
    for (i = FACING_DONE; i <= FACING_AFTER_FORK; i++) {
        want(strcmp(facing_strerror(i), facing_strerror(FACING_AFTER_FORK + 1)) != 0);
        for (j = FACING_DONE; j < i; j++) want(strcmp(facing_strerror(i), facing_strerror(j)) != 0);
    }
}

/* Something that a pointer leads to, whose two fields agree. */
struct letter {
    uint64_t number, square;
};

static void *send(void *of) {
    facing_handle *client = (facing_handle *)of;
    uint64_t i;
    for (i = 1; i <= LETTERS; i++) {
        struct letter *letter = (struct letter *)malloc(sizeof *letter);
        facing_answer before;
        letter->number = i;
        letter->square = i * i;
        if (facing_put(client, 7000, (uint64_t)(uintptr_t)letter, &before) != FACING_DONE) break;
        free((void *)(uintptr_t)before.value);
    }
    facing_free(client);
    return NULL;
}

/* Takes what the other thread sends; the remove makes the letter this thread's alone. */
static void receive(facing_handle *client, pthread_t sender) {
    uint64_t last = 0;
    facing_answer answer;
    while (last < LETTERS) {
        struct letter *letter;
        want(facing_remove(client, 7000, &answer) == FACING_DONE);
        if (!answer.found) continue;
        letter = (struct letter *)(uintptr_t)answer.value;
        want(letter->square == letter->number * letter->number && letter->number > last);
        last = letter->number;
        free(letter);
    }
    pthread_join(sender, NULL);
}

int main(void) {
    facing_handle map, first, second, third = {NULL};
    pthread_t sender;
    if (facing_open(16, 2, 0, &map) != FACING_DONE) return 1;
    if (facing_client(&map, &first) != FACING_DONE || facing_client(&map, &second) != FACING_DONE) return 1;
    want(facing_client(&map, &third) == FACING_NO_CLIENT && third.at == NULL);
    want(facing_close(&map) == FACING_CLIENT_OUT);
    many(&first);
    left_out(&first);
    sentences();
    by_texts();
    if (pthread_create(&sender, NULL, send, &second)) return 1;
    receive(&first, sender);
    facing_free(&first);
    want(facing_close(&map) == FACING_DONE);
    facing_free(&map);
    printf("%llu wrong\n", (unsigned long long)wrong);
    return wrong != 0;
}
