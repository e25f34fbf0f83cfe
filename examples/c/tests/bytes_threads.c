/* Threads put, replace, hold, read and walk over values that say who put them: each value that is seen is whole, and one that is
 * held stays. Pointers are values too, in facing_counts.h: what a thread wrote before it stored one is seen by who gets it.
 *
 * usage: bytes_threads [CALLS]; CALLS of each thread. */
#include "facing_pool.h"
#include <stdio.h>
#include <string.h>

enum { THREADS = 4, KEYS = 20, MOST = 3000 };

static facing_bytes_pool pool;
static facing_counts_pool letters;
static uint64_t calls = 20000;

/* Fills a value: its length and all its bytes follow from the first byte. */
static size_t value_of(uint8_t first, uint8_t *room) {
    size_t len = 1 + (size_t)first * 11;
    memset(room, first, len);
    return len;
}

static int is_whole(const uint8_t *at, size_t len) {
    size_t i;
    if (len == 0 || len != 1 + (size_t)at[0] * 11) return 0;
    for (i = 1; i < len; i++)
        if (at[i] != at[0]) return 0;
    return 1;
}

static uint64_t get_wrongly(const char *key, uint8_t *room) {
    facing_bytes_answer answer = {0, 0};
    uint32_t status = facing_bytes_pool_get(&pool, key, 2, room, MOST / 2, &answer);
    if (status == FACING_NO_ROOM) return answer.found != 1 || answer.len <= MOST / 2;
    return status != FACING_DONE || (answer.found == 1 && !is_whole(room, answer.len));
}

/* Holds a value while others are put in its place. */
static uint64_t hold_wrongly(const char *key, uint8_t *room) {
    facing_bytes_handle held;
    facing_bytes_answer answer = {0, 0};
    uint64_t wrong = facing_bytes_pool_hold(&pool, key, 2, &held, &answer) != FACING_DONE || answer.found != (held.at != NULL);
    uint64_t len = answer.len;
    uint8_t first;
    if (held.at == NULL) return wrong;
    wrong += facing_bytes_read(&held, 0, &first, 1, &answer) != FACING_DONE || answer.len != len;
    wrong += facing_bytes_pool_put(&pool, key, 2, room, value_of(1, room), NULL, 0, NULL) != FACING_DONE;
    wrong += facing_bytes_read(&held, 0, room, MOST, &answer) != FACING_DONE || answer.len != len;
    wrong += room[0] != first || !is_whole(room, len);
    facing_bytes_free(&held);
    return wrong;
}

/* Walks over some buckets. */
static uint64_t walk_wrongly(facing_cursor *cursor) {
    uint64_t keys[KEYS], values[KEYS], wrong;
    static __thread uint8_t pairs[KEYS * (MOST + 2)];
    const uint8_t *at = pairs;
    facing_bytes_sizes copied = {0, 0};
    wrong = facing_bytes_pool_pairs(&pool, cursor, keys, values, KEYS, pairs, sizeof pairs, &copied) != FACING_DONE;
    for (size_t i = 0; i < copied.pairs; at += keys[i] + values[i], i++) wrong += keys[i] != 2 || !is_whole(at + 2, values[i]);
    if (cursor->at == UINT64_MAX) cursor->at = 0;
    return wrong;
}

/* Puts a pointer to something that was written just before; who takes it out, reads it. */
static uint64_t send_wrongly(const char *key, uint64_t number) {
    uint64_t *letter = (uint64_t *)malloc(2 * sizeof *letter), wrong = 0;
    facing_answer before = {0, 0};
    if (letter == NULL) return 1;
    letter[0] = number;
    letter[1] = number * number;
    wrong += facing_counts_pool_put(&letters, key, 2, (uint64_t)(uintptr_t)letter, &before) != FACING_DONE;
    if (before.found != 1) return wrong;
    letter = (uint64_t *)(uintptr_t)before.value;
    wrong += letter[1] != letter[0] * letter[0];
    free(letter);
    return wrong;
}

static void *work(void *number) {
    uint64_t thread = (uint64_t)(uintptr_t)number, wrong = 0, i;
    facing_cursor cursor = {0};
    static __thread uint8_t room[MOST];
    for (i = 0; i < calls; i++) {
        uint64_t draw = (i * 0x9e3779b97f4a7c15u + thread * 7919) >> 20;
        char key[2] = {'k', (char)('a' + draw % KEYS)};
        switch (draw / KEYS % 8) {
        case 0: wrong += hold_wrongly(key, room); break;
        case 1: wrong += facing_bytes_pool_remove(&pool, key, 2, NULL, 0, NULL) != FACING_DONE; break;
        case 2: case 3: wrong += get_wrongly(key, room); break;
        case 4: wrong += walk_wrongly(&cursor); break;
        case 5: wrong += send_wrongly(key, i); break;
        default:
            wrong += facing_bytes_pool_put(&pool, key, 2, room, value_of((uint8_t)(draw / 256), room), NULL, 0, NULL) != FACING_DONE;
        }
    }
    return (void *)(uintptr_t)wrong;
}

int main(int argc, char **argv) {
    pthread_t threads[THREADS];
    facing_counts_handle closed;
    facing_cursor cursor = {0};
    uint64_t wrong = 0, key_lens[KEYS], left[KEYS];
    facing_bytes_sizes copied = {0, 0};
    char room[KEYS * 2];
    if (argc > 1) calls = strtoull(argv[1], NULL, 10);
    if (facing_bytes_pool_open(16, THREADS, &pool) != FACING_DONE || facing_counts_pool_open(16, 2, &letters) != FACING_DONE) return 1;
    for (size_t i = 0; i < THREADS; i++)
        if (pthread_create(&threads[i], NULL, work, (void *)(uintptr_t)i)) return 1;
    for (size_t i = 0; i < THREADS; i++) {
        void *its;
        pthread_join(threads[i], &its);
        wrong += (uint64_t)(uintptr_t)its;
    }
    facing_bytes_pool_free(&pool);
    wrong += facing_counts_pool_close(&letters, &closed) != FACING_DONE;
    wrong += facing_counts_pairs(&closed, &cursor, key_lens, left, KEYS, room, sizeof room, &copied) != FACING_DONE;
    for (size_t i = 0; i < copied.pairs; i++) free((void *)(uintptr_t)left[i]);
    facing_counts_free(&closed);
    printf("%llu calls, %llu wrong\n", (unsigned long long)(THREADS * calls), (unsigned long long)wrong);
    return wrong != 0;
}
