/* Maps that any thread may call: pools of clients over facing.h, facing_bytes.h and facing_counts.h. Needs GCC's or clang's
 * atomics, and POSIX threads.
 *
 * A call takes a client that no other thread uses, makes the call, and gives the client back; where all are in use it backs
 * off as facing_wait does. So open the pool with at least as many clients as threads call at the same time. Which client
 * makes a call is not said: two calls of one thread may be made by two clients. Both are made one after the other all the
 * same, and the second sees the first.
 *
 * Where a thread is cancelled its call is made first, and gives its client back. What facing_pool_take took the thread gives
 * back itself: by pthread_cleanup_push, where it may be cancelled meanwhile.
 *
 * A pool is used by its address: do not copy it. Each call returns FACING_BAD_ARGUMENT where the pool is NULL or empty,
 * FACING_AFTER_FORK in the child of a fork where all clients were in use during it, and else what the client's call of that
 * name returns. */
#ifndef FACING_POOL_H
#define FACING_POOL_H
#include "facing.h"
#include "facing_bytes.h"
#include "facing_change.h"
#include "facing_counts.h"
#include <pthread.h>
#include <stdlib.h>

#ifdef __cplusplus
extern "C" {
#endif

/* A client, and whether a thread uses it; on cache lines of its own. */
typedef struct facing_pool_slot {
    uint32_t in_use;
    union {
        facing_handle numbers;
        facing_bytes_handle bytes;
        facing_counts_handle counts;
    } client;
    char line[112];
} facing_pool_slot;

typedef struct facing_pool {
    facing_handle map;
    facing_pool_slot *slots;
    uint32_t clients, forks;
} facing_pool;

typedef struct facing_bytes_pool {
    facing_bytes_handle map;
    facing_pool_slot *slots;
    uint32_t clients, forks;
} facing_bytes_pool;

typedef struct facing_counts_pool {
    facing_counts_handle map;
    facing_pool_slot *slots;
    uint32_t clients, forks;
} facing_counts_pool;

/* Returns one of so many slots that no other thread uses, once there is one. Give it back with facing_pool_give. Returns
 * null where there are none, and in the child of a fork where none will be free. */
FACING_INNER facing_pool_slot *facing_slot(facing_pool_slot *slots, uint32_t clients, uint32_t forks) {
    uint32_t round = 0;
    uint64_t thread = pthread_self(), start = (thread >> 12) * 11400714819323198485u >> 32;
    if (clients == 0) return FACING_NULL;
    do {
        uint32_t i;
        for (i = 0; i < clients; i++) {
            facing_pool_slot *slot = &slots[(start + i) % clients];
            if (__atomic_load_n(&slot->in_use, __ATOMIC_SEQ_CST) == 0
                && __atomic_exchange_n(&slot->in_use, 1, __ATOMIC_SEQ_CST) == 0)
                return slot;
        }
        round = facing_back_off(round, forks);
    } while (round != FACING_NEVER);
    return FACING_NULL;
}

/* Gives a slot back to the pool of any header. NULL is left alone. */
FACING_API void facing_pool_give(facing_pool_slot *slot) {
    if (slot != FACING_NULL) __atomic_store_n(&slot->in_use, 0, __ATOMIC_SEQ_CST);
}

/* Without a slot the call is handed null, and stores that there is no answer. */
#define FACING_POOL_CALL(handle, member, call)                                                                              \
    facing_pool_slot *slot = pool != FACING_NULL ? facing_slot(pool->slots, pool->clients, pool->forks) : FACING_NULL;      \
    handle *client = FACING_NULL;                                                                                           \
    uint32_t status;                                                                                                        \
    if (slot == FACING_NULL) {                                                                                              \
        status = call;                                                                                                      \
        if (pool != FACING_NULL && pool->clients != 0) status = FACING_AFTER_FORK;                                          \
        return status;                                                                                                      \
    }                                                                                                                       \
    client = &slot->client.member;                                                                                          \
    status = call;                                                                                                          \
    facing_pool_give(slot);                                                                                                 \
    return status
#define FACING_BY_NUMBERS(call) FACING_POOL_CALL(facing_handle, numbers, call)
#define FACING_BY_BYTES(call) FACING_POOL_CALL(facing_bytes_handle, bytes, call)
#define FACING_BY_COUNTS(call) FACING_POOL_CALL(facing_counts_handle, counts, call)

/* == A pool for facing.h == */

/* Frees the pool's clients and its map. No call may run any more. */
FACING_API void facing_pool_free(facing_pool *pool) {
    uint32_t i;
    if (pool == FACING_NULL) return;
    for (i = 0; pool->slots != FACING_NULL && i < pool->clients; i++)
        facing_free(&pool->slots[i].client.numbers);
    free(pool->slots);
    pool->slots = FACING_NULL;
    pool->clients = 0;
    facing_free(&pool->map);
}

/* Opens an empty map with a pool of clients. Fails as facing_open and facing_client do, and then the pool is empty. */
FACING_CHECKED FACING_API uint32_t facing_pool_open(size_t capacity, uint32_t clients, uint32_t salt, facing_pool *pool) {
    uint32_t i, status;
    if (pool == FACING_NULL) return FACING_BAD_ARGUMENT;
    pool->slots = FACING_NULL;
    pool->clients = 0;
    pool->forks = facing_forks_seen();
    status = facing_open(capacity, clients, salt, &pool->map);
    if (status != FACING_DONE) return status;
    pool->slots = FACING_TO(facing_pool_slot *, calloc(clients, sizeof *pool->slots));
    if (pool->slots == FACING_NULL) status = FACING_NO_MEMORY;
    pool->clients = clients;
    for (i = 0; status == FACING_DONE && i < clients; i++)
        status = facing_client(&pool->map, &pool->slots[i].client.numbers);
    if (status != FACING_DONE) facing_pool_free(pool);
    return status;
}

/* Returns a slot with a client, `client.numbers`, that no other thread uses, once there is one: for several calls by one
 * client. Give it back with facing_pool_give, and call the pool before that by no thread that has a slot: where each client
 * is in a slot it would wait for itself. Returns NULL where the pool is empty, and in the child of a fork where the clients
 * were in use during it. */
FACING_API facing_pool_slot *facing_pool_take(facing_pool *pool) {
    return pool != FACING_NULL ? facing_slot(pool->slots, pool->clients, pool->forks) : FACING_NULL;
}

FACING_CHECKED FACING_API uint32_t facing_pool_get(facing_pool *pool, uint64_t key, facing_answer *answer) {
    FACING_BY_NUMBERS(facing_get(client, key, answer));
}

FACING_CHECKED FACING_API uint32_t facing_pool_contains(facing_pool *pool, uint64_t key, facing_answer *answer) {
    FACING_BY_NUMBERS(facing_contains(client, key, answer));
}

FACING_CHECKED FACING_API uint32_t facing_pool_put(facing_pool *pool, uint64_t key, uint64_t value, facing_answer *answer) {
    FACING_BY_NUMBERS(facing_put(client, key, value, answer));
}

FACING_CHECKED FACING_API uint32_t facing_pool_put_if_absent(facing_pool *pool, uint64_t key, uint64_t value,
                                                             facing_answer *answer) {
    FACING_BY_NUMBERS(facing_put_if_absent(client, key, value, answer));
}

FACING_CHECKED FACING_API uint32_t facing_pool_remove(facing_pool *pool, uint64_t key, facing_answer *answer) {
    FACING_BY_NUMBERS(facing_remove(client, key, answer));
}

FACING_CHECKED FACING_API uint32_t facing_pool_remove_if(facing_pool *pool, uint64_t key, uint64_t value,
                                                         facing_answer *answer) {
    FACING_BY_NUMBERS(facing_remove_if(client, key, value, answer));
}

FACING_CHECKED FACING_API uint32_t facing_pool_replace(facing_pool *pool, uint64_t key, uint64_t value,
                                                       facing_answer *answer) {
    FACING_BY_NUMBERS(facing_replace(client, key, value, answer));
}

FACING_CHECKED FACING_API uint32_t facing_pool_replace_if(facing_pool *pool, uint64_t key, uint64_t old_value,
                                                          uint64_t new_value, facing_answer *answer) {
    FACING_BY_NUMBERS(facing_replace_if(client, key, old_value, new_value, answer));
}

FACING_CHECKED FACING_API uint32_t facing_pool_add(facing_pool *pool, uint64_t key, uint64_t value, facing_answer *answer) {
    FACING_BY_NUMBERS(facing_add(client, key, value, answer));
}

FACING_CHECKED FACING_API uint32_t facing_pool_greatest(facing_pool *pool, uint64_t key, uint64_t value,
                                                        facing_answer *answer) {
    FACING_BY_NUMBERS(facing_greatest(client, key, value, answer));
}

FACING_CHECKED FACING_API uint32_t facing_pool_set(facing_pool *pool, uint64_t key, uint64_t value, facing_answer *answer) {
    FACING_BY_NUMBERS(facing_set(client, key, value, answer));
}

FACING_CHECKED FACING_API uint32_t facing_pool_exchange(facing_pool *pool, uint64_t key, const uint64_t *expected,
                                                        const uint64_t *value, facing_seen *seen) {
    FACING_BY_NUMBERS(facing_exchange(client, key, expected, value, seen));
}

FACING_CHECKED FACING_API uint32_t facing_pool_add_up_to(facing_pool *pool, uint64_t key, uint64_t amount, uint64_t most,
                                                         facing_answer *answer) {
    FACING_BY_NUMBERS(facing_add_up_to(client, key, amount, most, answer));
}

FACING_CHECKED FACING_API uint32_t facing_pool_pairs(facing_pool *pool, facing_cursor *cursor, uint64_t *keys,
                                                     uint64_t *values, size_t room, size_t *copied) {
    FACING_BY_NUMBERS(facing_pairs(client, cursor, keys, values, room, copied));
}

FACING_CHECKED FACING_API uint32_t facing_pool_count(facing_pool *pool, uint64_t *count) {
    FACING_BY_NUMBERS(facing_count(client, count));
}

FACING_CHECKED FACING_API uint32_t facing_pool_put_all(facing_pool *pool, const uint64_t *keys, const uint64_t *values,
                                                       size_t len, size_t *done) {
    FACING_BY_NUMBERS(facing_put_all(client, keys, values, len, done));
}

FACING_CHECKED FACING_API uint32_t facing_pool_get_all(facing_pool *pool, const uint64_t *keys, facing_answer *answers,
                                                       size_t len, size_t *done) {
    FACING_BY_NUMBERS(facing_get_all(client, keys, answers, len, done));
}

FACING_CHECKED FACING_API uint32_t facing_pool_add_all(facing_pool *pool, const uint64_t *keys, const uint64_t *values,
                                                       size_t len, size_t *done) {
    FACING_BY_NUMBERS(facing_add_all(client, keys, values, len, done));
}

/* Frees the clients and closes the map: `closed` is then the closed map, and the pool is empty. No call may run any more.
 * Where the close fails the map is in `closed` all the same, and facing_close can be tried again, but after
 * FACING_BIN_MISSING, when it has ended. */
FACING_CHECKED FACING_API uint32_t facing_pool_close(facing_pool *pool, facing_handle *closed) {
    if (closed == FACING_NULL || (pool != FACING_NULL && closed == &pool->map)) return FACING_BAD_ARGUMENT;
    closed->at = FACING_NULL;
    if (pool == FACING_NULL || pool->map.at == FACING_NULL) return FACING_BAD_ARGUMENT;
    *closed = pool->map;
    pool->map.at = FACING_NULL;
    facing_pool_free(pool);
    return facing_close(closed);
}

/* == A pool for facing_bytes.h == */

/* Frees the pool's clients and its map. No call may run any more. */
FACING_API void facing_bytes_pool_free(facing_bytes_pool *pool) {
    uint32_t i;
    if (pool == FACING_NULL) return;
    for (i = 0; pool->slots != FACING_NULL && i < pool->clients; i++)
        facing_bytes_free(&pool->slots[i].client.bytes);
    free(pool->slots);
    pool->slots = FACING_NULL;
    pool->clients = 0;
    facing_bytes_free(&pool->map);
}

/* Opens an empty map with a pool of clients. Fails as facing_bytes_open and facing_bytes_client do, and then the pool is
 * empty. */
FACING_CHECKED FACING_API uint32_t facing_bytes_pool_open(size_t capacity, uint32_t clients, facing_bytes_pool *pool) {
    uint32_t i, status;
    if (pool == FACING_NULL) return FACING_BAD_ARGUMENT;
    pool->slots = FACING_NULL;
    pool->clients = 0;
    pool->forks = facing_forks_seen();
    status = facing_bytes_open(capacity, clients, &pool->map);
    if (status != FACING_DONE) return status;
    pool->slots = FACING_TO(facing_pool_slot *, calloc(clients, sizeof *pool->slots));
    if (pool->slots == FACING_NULL) status = FACING_NO_MEMORY;
    pool->clients = clients;
    for (i = 0; status == FACING_DONE && i < clients; i++)
        status = facing_bytes_client(&pool->map, &pool->slots[i].client.bytes);
    if (status != FACING_DONE) facing_bytes_pool_free(pool);
    return status;
}

/* Returns a slot with a client, `client.bytes`, that no other thread uses, once there is one: for several calls by one
 * client. Give it back with facing_pool_give, and call the pool before that by no thread that has a slot: where each client
 * is in a slot it would wait for itself. Returns NULL where the pool is empty, and in the child of a fork where the clients
 * were in use during it. */
FACING_API facing_pool_slot *facing_bytes_pool_take(facing_bytes_pool *pool) {
    return pool != FACING_NULL ? facing_slot(pool->slots, pool->clients, pool->forks) : FACING_NULL;
}

FACING_CHECKED FACING_API uint32_t facing_bytes_pool_get(facing_bytes_pool *pool, const void *key, size_t key_len,
                                                         void *room, size_t room_len, facing_bytes_answer *answer) {
    FACING_BY_BYTES(facing_bytes_get(client, key, key_len, room, room_len, answer));
}

FACING_CHECKED FACING_API uint32_t facing_bytes_pool_hold(facing_bytes_pool *pool, const void *key, size_t key_len,
                                                          facing_bytes_handle *held, facing_bytes_answer *answer) {
    FACING_BY_BYTES(facing_bytes_hold(client, key, key_len, held, answer));
}

FACING_CHECKED FACING_API uint32_t facing_bytes_pool_contains(facing_bytes_pool *pool, const void *key, size_t key_len,
                                                              facing_bytes_answer *answer) {
    FACING_BY_BYTES(facing_bytes_contains(client, key, key_len, answer));
}

FACING_CHECKED FACING_API uint32_t facing_bytes_pool_put(facing_bytes_pool *pool, const void *key, size_t key_len,
                                                         const void *value, size_t value_len, void *room, size_t room_len,
                                                         facing_bytes_answer *answer) {
    FACING_BY_BYTES(facing_bytes_put(client, key, key_len, value, value_len, room, room_len, answer));
}

FACING_CHECKED FACING_API uint32_t facing_bytes_pool_put_if_absent(facing_bytes_pool *pool, const void *key, size_t key_len,
                                                                   const void *value, size_t value_len, void *room,
                                                                   size_t room_len, facing_bytes_answer *answer) {
    FACING_BY_BYTES(facing_bytes_put_if_absent(client, key, key_len, value, value_len, room, room_len, answer));
}

FACING_CHECKED FACING_API uint32_t facing_bytes_pool_remove(facing_bytes_pool *pool, const void *key, size_t key_len,
                                                            void *room, size_t room_len, facing_bytes_answer *answer) {
    FACING_BY_BYTES(facing_bytes_remove(client, key, key_len, room, room_len, answer));
}

FACING_CHECKED FACING_API uint32_t facing_bytes_pool_remove_if(facing_bytes_pool *pool, const void *key, size_t key_len,
                                                               const void *value, size_t value_len,
                                                               facing_bytes_answer *answer) {
    FACING_BY_BYTES(facing_bytes_remove_if(client, key, key_len, value, value_len, answer));
}

FACING_CHECKED FACING_API uint32_t facing_bytes_pool_replace(facing_bytes_pool *pool, const void *key, size_t key_len,
                                                             const void *value, size_t value_len, void *room,
                                                             size_t room_len, facing_bytes_answer *answer) {
    FACING_BY_BYTES(facing_bytes_replace(client, key, key_len, value, value_len, room, room_len, answer));
}

FACING_CHECKED FACING_API uint32_t facing_bytes_pool_replace_if(facing_bytes_pool *pool, const void *key, size_t key_len,
                                                                const void *old_value, size_t old_len, const void *new_value,
                                                                size_t new_len, facing_bytes_answer *answer) {
    FACING_BY_BYTES(facing_bytes_replace_if(client, key, key_len, old_value, old_len, new_value, new_len, answer));
}

FACING_CHECKED FACING_API uint32_t facing_bytes_pool_exchange(facing_bytes_pool *pool, const void *key, size_t key_len,
                                                              const facing_bytes_view *expected,
                                                              const facing_bytes_view *value, void *room, size_t room_len,
                                                              facing_bytes_seen *seen) {
    FACING_BY_BYTES(facing_bytes_exchange(client, key, key_len, expected, value, room, room_len, seen));
}

FACING_CHECKED FACING_API uint32_t facing_bytes_pool_pairs(facing_bytes_pool *pool, facing_cursor *cursor,
                                                           uint64_t *key_lens, uint64_t *value_lens, size_t len, void *room,
                                                           size_t room_len, facing_bytes_sizes *copied) {
    FACING_BY_BYTES(facing_bytes_pairs(client, cursor, key_lens, value_lens, len, room, room_len, copied));
}

FACING_CHECKED FACING_API uint32_t facing_bytes_pool_heads(facing_bytes_pool *pool, facing_cursor *cursor, size_t most,
                                                           uint64_t *key_lens, uint64_t *value_lens, size_t len, void *room,
                                                           size_t room_len, facing_bytes_sizes *copied) {
    FACING_BY_BYTES(facing_bytes_heads(client, cursor, most, key_lens, value_lens, len, room, room_len, copied));
}

FACING_CHECKED FACING_API uint32_t facing_bytes_pool_count(facing_bytes_pool *pool, uint64_t *count) {
    FACING_BY_BYTES(facing_bytes_count(client, count));
}

FACING_CHECKED FACING_API uint32_t facing_bytes_pool_put_all(facing_bytes_pool *pool, const uint64_t *key_lens,
                                                             const uint64_t *value_lens, size_t len, const void *pairs,
                                                             size_t pairs_len, size_t *done) {
    FACING_BY_BYTES(facing_bytes_put_all(client, key_lens, value_lens, len, pairs, pairs_len, done));
}

FACING_CHECKED FACING_API uint32_t facing_bytes_pool_get_all(facing_bytes_pool *pool, const uint64_t *key_lens, size_t len,
                                                             const void *keys, size_t keys_len, void *room, size_t room_len,
                                                             facing_bytes_answer *answers, size_t *done) {
    FACING_BY_BYTES(facing_bytes_get_all(client, key_lens, len, keys, keys_len, room, room_len, answers, done));
}

/* Frees the clients and closes the map: `closed` is then the closed map, and the pool is empty. No call may run any more.
 * Where the close fails the map is in `closed` all the same, and facing_bytes_close can be tried again, but after
 * FACING_BIN_MISSING, when it has ended. */
FACING_CHECKED FACING_API uint32_t facing_bytes_pool_close(facing_bytes_pool *pool, facing_bytes_handle *closed) {
    if (closed == FACING_NULL || (pool != FACING_NULL && closed == &pool->map)) return FACING_BAD_ARGUMENT;
    closed->at = FACING_NULL;
    if (pool == FACING_NULL || pool->map.at == FACING_NULL) return FACING_BAD_ARGUMENT;
    *closed = pool->map;
    pool->map.at = FACING_NULL;
    facing_bytes_pool_free(pool);
    return facing_bytes_close(closed);
}

/* == A pool for facing_counts.h == */

/* Frees the pool's clients and its map. No call may run any more. */
FACING_API void facing_counts_pool_free(facing_counts_pool *pool) {
    uint32_t i;
    if (pool == FACING_NULL) return;
    for (i = 0; pool->slots != FACING_NULL && i < pool->clients; i++)
        facing_counts_free(&pool->slots[i].client.counts);
    free(pool->slots);
    pool->slots = FACING_NULL;
    pool->clients = 0;
    facing_counts_free(&pool->map);
}

/* Opens an empty map with a pool of clients. Fails as facing_counts_open and facing_counts_client do, and then the pool is
 * empty. */
FACING_CHECKED FACING_API uint32_t facing_counts_pool_open(size_t capacity, uint32_t clients, facing_counts_pool *pool) {
    uint32_t i, status;
    if (pool == FACING_NULL) return FACING_BAD_ARGUMENT;
    pool->slots = FACING_NULL;
    pool->clients = 0;
    pool->forks = facing_forks_seen();
    status = facing_counts_open(capacity, clients, &pool->map);
    if (status != FACING_DONE) return status;
    pool->slots = FACING_TO(facing_pool_slot *, calloc(clients, sizeof *pool->slots));
    if (pool->slots == FACING_NULL) status = FACING_NO_MEMORY;
    pool->clients = clients;
    for (i = 0; status == FACING_DONE && i < clients; i++)
        status = facing_counts_client(&pool->map, &pool->slots[i].client.counts);
    if (status != FACING_DONE) facing_counts_pool_free(pool);
    return status;
}

/* Returns a slot with a client, `client.counts`, that no other thread uses, once there is one: for several calls by one
 * client. Give it back with facing_pool_give, and call the pool before that by no thread that has a slot: where each client
 * is in a slot it would wait for itself. Returns NULL where the pool is empty, and in the child of a fork where the clients
 * were in use during it. */
FACING_API facing_pool_slot *facing_counts_pool_take(facing_counts_pool *pool) {
    return pool != FACING_NULL ? facing_slot(pool->slots, pool->clients, pool->forks) : FACING_NULL;
}

FACING_CHECKED FACING_API uint32_t facing_counts_pool_get(facing_counts_pool *pool, const void *key, size_t key_len,
                                                          facing_answer *answer) {
    FACING_BY_COUNTS(facing_counts_get(client, key, key_len, answer));
}

FACING_CHECKED FACING_API uint32_t facing_counts_pool_contains(facing_counts_pool *pool, const void *key, size_t key_len,
                                                               facing_answer *answer) {
    FACING_BY_COUNTS(facing_counts_contains(client, key, key_len, answer));
}

FACING_CHECKED FACING_API uint32_t facing_counts_pool_put(facing_counts_pool *pool, const void *key, size_t key_len,
                                                          uint64_t value, facing_answer *answer) {
    FACING_BY_COUNTS(facing_counts_put(client, key, key_len, value, answer));
}

FACING_CHECKED FACING_API uint32_t facing_counts_pool_put_if_absent(facing_counts_pool *pool, const void *key,
                                                                    size_t key_len, uint64_t value, facing_answer *answer) {
    FACING_BY_COUNTS(facing_counts_put_if_absent(client, key, key_len, value, answer));
}

FACING_CHECKED FACING_API uint32_t facing_counts_pool_remove(facing_counts_pool *pool, const void *key, size_t key_len,
                                                             facing_answer *answer) {
    FACING_BY_COUNTS(facing_counts_remove(client, key, key_len, answer));
}

FACING_CHECKED FACING_API uint32_t facing_counts_pool_remove_if(facing_counts_pool *pool, const void *key, size_t key_len,
                                                                uint64_t value, facing_answer *answer) {
    FACING_BY_COUNTS(facing_counts_remove_if(client, key, key_len, value, answer));
}

FACING_CHECKED FACING_API uint32_t facing_counts_pool_replace(facing_counts_pool *pool, const void *key, size_t key_len,
                                                              uint64_t value, facing_answer *answer) {
    FACING_BY_COUNTS(facing_counts_replace(client, key, key_len, value, answer));
}

FACING_CHECKED FACING_API uint32_t facing_counts_pool_replace_if(facing_counts_pool *pool, const void *key, size_t key_len,
                                                                 uint64_t old_value, uint64_t new_value,
                                                                 facing_answer *answer) {
    FACING_BY_COUNTS(facing_counts_replace_if(client, key, key_len, old_value, new_value, answer));
}

FACING_CHECKED FACING_API uint32_t facing_counts_pool_add(facing_counts_pool *pool, const void *key, size_t key_len,
                                                          uint64_t value, facing_answer *answer) {
    FACING_BY_COUNTS(facing_counts_add(client, key, key_len, value, answer));
}

FACING_CHECKED FACING_API uint32_t facing_counts_pool_greatest(facing_counts_pool *pool, const void *key, size_t key_len,
                                                               uint64_t value, facing_answer *answer) {
    FACING_BY_COUNTS(facing_counts_greatest(client, key, key_len, value, answer));
}

FACING_CHECKED FACING_API uint32_t facing_counts_pool_set(facing_counts_pool *pool, const void *key, size_t key_len,
                                                          uint64_t value, facing_answer *answer) {
    FACING_BY_COUNTS(facing_counts_set(client, key, key_len, value, answer));
}

FACING_CHECKED FACING_API uint32_t facing_counts_pool_exchange(facing_counts_pool *pool, const void *key, size_t key_len,
                                                               const uint64_t *expected, const uint64_t *value,
                                                               facing_seen *seen) {
    FACING_BY_COUNTS(facing_counts_exchange(client, key, key_len, expected, value, seen));
}

FACING_CHECKED FACING_API uint32_t facing_counts_pool_add_up_to(facing_counts_pool *pool, const void *key, size_t key_len,
                                                                uint64_t amount, uint64_t most, facing_answer *answer) {
    FACING_BY_COUNTS(facing_counts_add_up_to(client, key, key_len, amount, most, answer));
}

FACING_CHECKED FACING_API uint32_t facing_counts_pool_pairs(facing_counts_pool *pool, facing_cursor *cursor,
                                                            uint64_t *key_lens, uint64_t *values, size_t len, void *room,
                                                            size_t room_len, facing_bytes_sizes *copied) {
    FACING_BY_COUNTS(facing_counts_pairs(client, cursor, key_lens, values, len, room, room_len, copied));
}

FACING_CHECKED FACING_API uint32_t facing_counts_pool_count(facing_counts_pool *pool, uint64_t *count) {
    FACING_BY_COUNTS(facing_counts_count(client, count));
}

FACING_CHECKED FACING_API uint32_t facing_counts_pool_put_all(facing_counts_pool *pool, const uint64_t *key_lens, size_t len,
                                                              const void *keys, size_t keys_len, const uint64_t *values,
                                                              size_t *done) {
    FACING_BY_COUNTS(facing_counts_put_all(client, key_lens, len, keys, keys_len, values, done));
}

FACING_CHECKED FACING_API uint32_t facing_counts_pool_get_all(facing_counts_pool *pool, const uint64_t *key_lens, size_t len,
                                                              const void *keys, size_t keys_len, facing_answer *answers,
                                                              size_t *done) {
    FACING_BY_COUNTS(facing_counts_get_all(client, key_lens, len, keys, keys_len, answers, done));
}

FACING_CHECKED FACING_API uint32_t facing_counts_pool_add_all(facing_counts_pool *pool, const uint64_t *key_lens, size_t len,
                                                              const void *keys, size_t keys_len, const uint64_t *values,
                                                              size_t *done) {
    FACING_BY_COUNTS(facing_counts_add_all(client, key_lens, len, keys, keys_len, values, done));
}

/* Frees the clients and closes the map: `closed` is then the closed map, and the pool is empty. No call may run any more.
 * Where the close fails the map is in `closed` all the same, and facing_counts_close can be tried again, but after
 * FACING_BIN_MISSING, when it has ended. */
FACING_CHECKED FACING_API uint32_t facing_counts_pool_close(facing_counts_pool *pool, facing_counts_handle *closed) {
    if (closed == FACING_NULL || (pool != FACING_NULL && closed == &pool->map)) return FACING_BAD_ARGUMENT;
    closed->at = FACING_NULL;
    if (pool == FACING_NULL || pool->map.at == FACING_NULL) return FACING_BAD_ARGUMENT;
    *closed = pool->map;
    pool->map.at = FACING_NULL;
    facing_counts_pool_free(pool);
    return facing_counts_close(closed);
}

#undef FACING_BY_NUMBERS
#undef FACING_BY_BYTES
#undef FACING_BY_COUNTS
#undef FACING_POOL_CALL

#ifdef __cplusplus
}
#endif
#endif
