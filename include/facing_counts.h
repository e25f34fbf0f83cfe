/* A concurrent hash map from byte strings to 64-bit numbers: counts, ids or pointers. C99 or later, C++98 or later; Linux.
 *
 * Keys are as in facing_bytes.h, values and answers as in facing.h, and the rules at its head hold. A call on a key that is
 * there allocates nothing for it. The map draws a secret seed from the system when it is opened, as those of facing_bytes.h
 * do. */
#ifndef FACING_COUNTS_H
#define FACING_COUNTS_H
#include "facing_bytes.h"

#ifdef __cplusplus
extern "C" {
#endif

/* A handle of an open map, of one of its clients, or of a closed map. It begins as {0}, or where a call fills it. */
typedef struct facing_counts_handle {
    void *at;
} facing_counts_handle;

/* The exports, as facing_base.h says. */
uint32_t facing_c_counts_open(size_t capacity, uint32_t clients, uint64_t seed0, uint64_t seed1, facing_handle *out);
uint32_t facing_c_counts_try_get(facing_handle client, facing_handle *out, const uint8_t *key, size_t key_len,
                                 facing_answer *answer);
uint32_t facing_c_counts_try_contains(facing_handle client, facing_handle *out, const uint8_t *key, size_t key_len,
                                      facing_answer *answer);
uint32_t facing_c_counts_try_put(facing_handle client, facing_handle *out, const uint8_t *key, size_t key_len,
                                 uint64_t value, facing_answer *answer);
uint32_t facing_c_counts_try_put_if_absent(facing_handle client, facing_handle *out, const uint8_t *key, size_t key_len,
                                           uint64_t value, facing_answer *answer);
uint32_t facing_c_counts_try_remove(facing_handle client, facing_handle *out, const uint8_t *key, size_t key_len,
                                    facing_answer *answer);
uint32_t facing_c_counts_try_remove_if(facing_handle client, facing_handle *out, const uint8_t *key, size_t key_len,
                                       uint64_t value, facing_answer *answer);
uint32_t facing_c_counts_try_replace(facing_handle client, facing_handle *out, const uint8_t *key, size_t key_len,
                                     uint64_t value, facing_answer *answer);
uint32_t facing_c_counts_try_replace_if(facing_handle client, facing_handle *out, const uint8_t *key, size_t key_len,
                                        uint64_t old_value, uint64_t new_value, facing_answer *answer);
uint32_t facing_c_counts_try_add(facing_handle client, facing_handle *out, const uint8_t *key, size_t key_len,
                                 uint64_t value, facing_answer *answer);
uint32_t facing_c_counts_try_greatest(facing_handle client, facing_handle *out, const uint8_t *key, size_t key_len,
                                      uint64_t value, facing_answer *answer);
uint32_t facing_c_counts_try_set(facing_handle client, facing_handle *out, const uint8_t *key, size_t key_len,
                                 uint64_t value, facing_answer *answer);
uint32_t facing_c_counts_find(facing_handle closed, facing_handle *out, const uint8_t *key, size_t key_len,
                              facing_answer *answer);
uint32_t facing_c_counts_try_pairs(facing_handle any, facing_handle *out, uint64_t at, uint64_t *next, uint64_t *key_lens,
                                   size_t key_lens_len, uint64_t *values, size_t values_len, uint8_t *room, size_t room_len,
                                   facing_bytes_sizes *copied);

/* Opens a map as facing_counts_open does, with a seed that is given: for tests, whose hashes are then the same in each run.
 * Who knows the seed can choose keys that collide. */
FACING_CHECKED FACING_API uint32_t facing_counts_open_seeded(size_t capacity, uint32_t clients, const uint64_t seed[2],
                                                             facing_counts_handle *map) {
    facing_handle made = {FACING_NULL};
    uint32_t status;
    if (map == FACING_NULL) return FACING_BAD_ARGUMENT;
    map->at = FACING_NULL;
    if (seed == FACING_NULL) return FACING_BAD_ARGUMENT;
    status = facing_forks_watch();
    if (status != FACING_DONE) return status;
    FACING_ENTER(0);
    status = facing_c_counts_open(capacity, clients, seed[0], seed[1], &made);
    FACING_LEAVE(0);
    return facing_fill(&map->at, made, FACING_COUNTS, status);
}

/* Opens an empty map for 1 to 65,536 clients, with a table of `capacity` buckets to begin with: 1 to 2^26, rounded up
 * to a power of two. A bucket takes 56 bytes, so 2^26 of them take 3.5 GB, and twice that while the map opens. The
 * table grows by itself, so begin small. The map's seed is drawn with getrandom. Returns FACING_NO_SEED where the
 * system gives none, FACING_BAD_CAPACITY, FACING_BAD_CLIENTS or FACING_NO_MEMORY, and the handle is null then. */
FACING_CHECKED FACING_API uint32_t facing_counts_open(size_t capacity, uint32_t clients, facing_counts_handle *map) {
    uint64_t seed[2] = {0, 0};
    uint32_t status;
    if (map == FACING_NULL) return FACING_BAD_ARGUMENT;
    map->at = FACING_NULL;
    status = facing_seed(seed);
    return status == FACING_DONE ? facing_counts_open_seeded(capacity, clients, seed, map) : status;
}

/* Fills `client` with a client of the map that is not in use. Free it to give it back, in any thread. It keeps room for
 * the longest key that it was called with.
 * Returns FACING_NO_CLIENT where all are in use, FACING_NO_MEMORY, or FACING_WRONG_HANDLE; the handle is null then. */
FACING_CHECKED FACING_API uint32_t facing_counts_client(facing_counts_handle *map, facing_counts_handle *client) {
    if (client == FACING_NULL || map == client) return FACING_BAD_ARGUMENT;
    client->at = FACING_NULL;
    if (map == FACING_NULL) return FACING_BAD_ARGUMENT;
    return facing_any_client(&map->at, &client->at, FACING_COUNTS);
}

/* Makes a call once. */
#define FACING_TRY(export_and_arguments)                                                                                    \
    lent = facing_lend(client->at, FACING_COUNTS);                                                                          \
    back.at = FACING_NULL;                                                                                                  \
    FACING_ENTER(FACING_BYTES_PLACE(key, key_len));                                                                         \
    status = export_and_arguments;                                                                                          \
    FACING_LEAVE(FACING_BYTES_PLACE(key, key_len));                                                                         \
    client->at = facing_back(client->at, lent.at, back.at)

/* == Calls of a client ==
 *
 * Each call locks the bucket of its key, and no other lock; while another thread has that lock it spins, then yields, then
 * sleeps for a millisecond at a time. It returns FACING_TOO_LONG, FACING_NO_MEMORY, FACING_CLIENT_FULL, FACING_AFTER_FORK or
 * FACING_WRONG_HANDLE, and then the call was not made. A call that adds a key allocates it, and a node if its bucket has one;
 * one with a longer key than the client had before, room for it; others allocate nothing for key and value. Any call may
 * allocate parts of a table that grows, and goes on where there is no memory for them. */
#define FACING_COUNTS_CALL(export_and_arguments)                                                                            \
    uint32_t status;                                                                                                        \
    unsigned round = 0;                                                                                                     \
    facing_handle lent, back;                                                                                               \
    facing_answer dropped;                                                                                                  \
    if (answer == FACING_NULL) answer = &dropped;                                                                           \
    answer->found = 0;                                                                                                      \
    answer->value = 0;                                                                                                      \
    if (client == FACING_NULL || facing_bytes_are_none(key, key_len)) return FACING_BAD_ARGUMENT;                           \
    FACING_TRY(export_and_arguments);                                                                                       \
    while (status == FACING_BUSY) {                                                                                         \
        round = facing_back_off(round, 0);                                                                                  \
        if (round == FACING_NEVER) return FACING_AFTER_FORK;                                                                \
        FACING_TRY(export_and_arguments);                                                                                   \
    }                                                                                                                       \
    return status

/* The answer is the value at the key. */
FACING_CHECKED FACING_API uint32_t facing_counts_get(facing_counts_handle *client, const void *key, size_t key_len,
                                                     facing_answer *answer) {
    FACING_COUNTS_CALL(facing_c_counts_try_get(lent, &back, facing_bytes_at(key), key_len, answer));
}

/* The answer is whether the key has a value, in `found` alone. */
FACING_CHECKED FACING_API uint32_t facing_counts_contains(facing_counts_handle *client, const void *key, size_t key_len,
                                                          facing_answer *answer) {
    FACING_COUNTS_CALL(facing_c_counts_try_contains(lent, &back, facing_bytes_at(key), key_len, answer));
}

/* Stores the value at the key. The answer is the value before. */
FACING_CHECKED FACING_API uint32_t facing_counts_put(facing_counts_handle *client, const void *key, size_t key_len,
                                                     uint64_t value, facing_answer *answer) {
    FACING_COUNTS_CALL(facing_c_counts_try_put(lent, &back, facing_bytes_at(key), key_len, value, answer));
}

/* Stores the value where the key has none. The answer is the value before. */
FACING_CHECKED FACING_API uint32_t facing_counts_put_if_absent(facing_counts_handle *client, const void *key, size_t key_len,
                                                               uint64_t value, facing_answer *answer) {
    FACING_COUNTS_CALL(facing_c_counts_try_put_if_absent(lent, &back, facing_bytes_at(key), key_len, value, answer));
}

/* Removes the key. The answer is the value before. */
FACING_CHECKED FACING_API uint32_t facing_counts_remove(facing_counts_handle *client, const void *key, size_t key_len,
                                                        facing_answer *answer) {
    FACING_COUNTS_CALL(facing_c_counts_try_remove(lent, &back, facing_bytes_at(key), key_len, answer));
}

/* Removes the key where it has this value. The answer is whether it had, in `found` alone. */
FACING_CHECKED FACING_API uint32_t facing_counts_remove_if(facing_counts_handle *client, const void *key, size_t key_len,
                                                           uint64_t value, facing_answer *answer) {
    FACING_COUNTS_CALL(facing_c_counts_try_remove_if(lent, &back, facing_bytes_at(key), key_len, value, answer));
}

/* Stores the value where the key has one. The answer is the value before. */
FACING_CHECKED FACING_API uint32_t facing_counts_replace(facing_counts_handle *client, const void *key, size_t key_len,
                                                         uint64_t value, facing_answer *answer) {
    FACING_COUNTS_CALL(facing_c_counts_try_replace(lent, &back, facing_bytes_at(key), key_len, value, answer));
}

/* Stores the new value where the key has the old one. The answer is whether it had, in `found` alone. */
FACING_CHECKED FACING_API uint32_t facing_counts_replace_if(facing_counts_handle *client, const void *key, size_t key_len,
                                                            uint64_t old_value, uint64_t new_value, facing_answer *answer) {
    FACING_COUNTS_CALL(
        facing_c_counts_try_replace_if(lent, &back, facing_bytes_at(key), key_len, old_value, new_value, answer));
}

/* Adds to the value at the key, up to 2^64 - 1, or stores the value where there is none. The answer is the value after. */
FACING_CHECKED FACING_API uint32_t facing_counts_add(facing_counts_handle *client, const void *key, size_t key_len,
                                                     uint64_t value, facing_answer *answer) {
    FACING_COUNTS_CALL(facing_c_counts_try_add(lent, &back, facing_bytes_at(key), key_len, value, answer));
}

/* Stores the greater of the key's value and this one. The answer is the value after. */
FACING_CHECKED FACING_API uint32_t facing_counts_greatest(facing_counts_handle *client, const void *key, size_t key_len,
                                                          uint64_t value, facing_answer *answer) {
    FACING_COUNTS_CALL(facing_c_counts_try_greatest(lent, &back, facing_bytes_at(key), key_len, value, answer));
}

/* Stores the value at the key. The answer is the value after, which is this one. */
FACING_CHECKED FACING_API uint32_t facing_counts_set(facing_counts_handle *client, const void *key, size_t key_len,
                                                     uint64_t value, facing_answer *answer) {
    FACING_COUNTS_CALL(facing_c_counts_try_set(lent, &back, facing_bytes_at(key), key_len, value, answer));
}

#undef FACING_COUNTS_CALL
#undef FACING_TRY

/* == Many calls at once ==
 *
 * Each makes one call a key, in order, and is no transaction. The keys lie one after another in `keys`, which has `keys_len`
 * bytes, and `key_lens` are their lengths; where these add up to more bytes the status is FACING_BAD_ARGUMENT and no call is
 * made. It stores in `done`, unless that is NULL, how many calls were made; where the status is not FACING_DONE the call on
 * the key behind those failed, and those after it were not made. */

/* Stores each value at its key. */
FACING_CHECKED FACING_API uint32_t facing_counts_put_all(facing_counts_handle *client, const uint64_t *key_lens, size_t len,
                                                         const void *keys, size_t keys_len, const uint64_t *values,
                                                         size_t *done) {
    const uint8_t *key = facing_bytes_at(keys);
    size_t i = 0;
    uint32_t status = FACING_DONE;
    if (client == FACING_NULL || facing_bytes_keys_are_wrong(key_lens, len, keys, keys_len, values))
        status = FACING_BAD_ARGUMENT;
    while (status == FACING_DONE && i < len) {
        status = facing_counts_put(client, key, key_lens[i], values[i], FACING_NULL);
        key += key_lens[i];
        i += status == FACING_DONE;
    }
    if (done != FACING_NULL) *done = i;
    return status;
}

/* Stores in each answer the value at its key. */
FACING_CHECKED FACING_API uint32_t facing_counts_get_all(facing_counts_handle *client, const uint64_t *key_lens, size_t len,
                                                         const void *keys, size_t keys_len, facing_answer *answers,
                                                         size_t *done) {
    const uint8_t *key = facing_bytes_at(keys);
    size_t i = 0;
    uint32_t status = FACING_DONE;
    if (client == FACING_NULL || facing_bytes_keys_are_wrong(key_lens, len, keys, keys_len, answers))
        status = FACING_BAD_ARGUMENT;
    while (status == FACING_DONE && i < len) {
        status = facing_counts_get(client, key, key_lens[i], &answers[i]);
        key += key_lens[i];
        i += status == FACING_DONE;
    }
    if (done != FACING_NULL) *done = i;
    facing_answer_none(answers, i, len);
    return status;
}

/* Adds each value to the one at its key. */
FACING_CHECKED FACING_API uint32_t facing_counts_add_all(facing_counts_handle *client, const uint64_t *key_lens, size_t len,
                                                         const void *keys, size_t keys_len, const uint64_t *values,
                                                         size_t *done) {
    const uint8_t *key = facing_bytes_at(keys);
    size_t i = 0;
    uint32_t status = FACING_DONE;
    if (client == FACING_NULL || facing_bytes_keys_are_wrong(key_lens, len, keys, keys_len, values))
        status = FACING_BAD_ARGUMENT;
    while (status == FACING_DONE && i < len) {
        status = facing_counts_add(client, key, key_lens[i], values[i], FACING_NULL);
        key += key_lens[i];
        i += status == FACING_DONE;
    }
    if (done != FACING_NULL) *done = i;
    return status;
}

/* == Without a client == */

/* Counts the keys, by the handle of a map, a client or a closed map. Of an open map the count is an estimate: it adds the
 * clients' counters one by one. Of a closed map it is exact. */
FACING_CHECKED FACING_API uint32_t facing_counts_count(facing_counts_handle *any, uint64_t *count) {
    if (count == FACING_NULL) return FACING_BAD_ARGUMENT;
    *count = 0;
    if (any == FACING_NULL) return FACING_BAD_ARGUMENT;
    return facing_any_count(&any->at, count, FACING_COUNTS);
}

/* Closes the map, whose clients must all be freed. Its handle is then that of the closed map, which can be read and
 * reopened. Returns FACING_CLIENT_OUT where a client is not freed, and the map goes on; FACING_NO_MEMORY, and then the map
 * gives out no more clients, and can be closed again; FACING_BIN_MISSING, and then the map has ended. */
FACING_CHECKED FACING_API uint32_t facing_counts_close(facing_counts_handle *map) {
    if (map == FACING_NULL) return FACING_BAD_ARGUMENT;
    return facing_any_close(&map->at, FACING_COUNTS);
}

/* The answer is the value at a key of a closed map. Takes no lock and no memory. */
FACING_CHECKED FACING_API uint32_t facing_counts_find(facing_counts_handle *closed, const void *key, size_t key_len,
                                                      facing_answer *answer) {
    facing_handle lent, back = {FACING_NULL};
    uint32_t status;
    if (answer == FACING_NULL) return FACING_BAD_ARGUMENT;
    answer->found = 0;
    answer->value = 0;
    if (closed == FACING_NULL || facing_bytes_are_none(key, key_len)) return FACING_BAD_ARGUMENT;
    lent = facing_lend(closed->at, FACING_COUNTS);
    FACING_ENTER(0);
    status = facing_c_counts_find(lent, &back, facing_bytes_at(key), key_len, answer);
    FACING_LEAVE(0);
    closed->at = facing_back(closed->at, lent.at, back.at);
    return status;
}

/* Stores in `sizes` how many pairs a map has, and of how many bytes keys are, by the handle of a closed map or, as
 * facing_pairs reads them, by a client. Goes over all buckets, and allocates a copy of each. */
FACING_CHECKED FACING_API uint32_t facing_counts_sizes_of(facing_counts_handle *any, facing_bytes_sizes *sizes) {
    facing_handle lent, back;
    facing_bytes_sizes step = {0, 0};
    uint64_t at = 0, next, no_lens[1], no_others[1];
    uint32_t status;
    unsigned round = 0;
    if (sizes == FACING_NULL) return FACING_BAD_ARGUMENT;
    *sizes = step;
    if (any == FACING_NULL) return FACING_BAD_ARGUMENT;
    do {
        next = at;
        lent = facing_lend(any->at, FACING_COUNTS);
        back.at = FACING_NULL;
        FACING_ENTER(0);
        status = facing_c_counts_try_pairs(lent, &back, at, &next, no_lens, 0, no_others, 0, facing_bytes_at(FACING_NULL), 0,
                                           &step);
        FACING_LEAVE(0);
        any->at = facing_back(any->at, lent.at, back.at);
        if (status == FACING_NO_ROOM || status == FACING_DONE) {
            sizes->pairs += step.pairs;
            sizes->bytes += step.bytes;
            at = next;
            round = 0;
            status = FACING_DONE;
        } else if (status == FACING_BUSY) {
            round = facing_back_off(round, 0);
            if (round == FACING_NEVER) status = FACING_AFTER_FORK;
        }
    } while (status == FACING_BUSY || (status == FACING_DONE && at != UINT64_MAX));
    FACING_SEE_ALL();
    if (status != FACING_DONE) sizes->pairs = sizes->bytes = 0;
    return status;
}

/* Copies the pairs of the next buckets, at most 1,024, as facing_pairs does, of a closed map or, by a client, of an open
 * one. Keys are copied into `room`, one after another, and their lengths and values into `key_lens` and `values`, which have
 * room for `len` of them. Stores in `copied` how many pairs, and bytes of keys, were copied. Where the next bucket alone is
 * too large the status is FACING_NO_ROOM, `copied` is what it needs, and the cursor is at it. */
FACING_CHECKED FACING_API uint32_t facing_counts_pairs(facing_counts_handle *any, facing_cursor *cursor, uint64_t *key_lens,
                                                       uint64_t *values, size_t len, void *room, size_t room_len,
                                                       facing_bytes_sizes *copied) {
    facing_handle lent, back;
    facing_bytes_sizes step = {0, 0};
    uint64_t next;
    uint32_t status;
    unsigned round = 0, buckets = 0;
    if (copied == FACING_NULL) return FACING_BAD_ARGUMENT;
    *copied = step;
    if (any == FACING_NULL || cursor == FACING_NULL || key_lens == FACING_NULL || values == FACING_NULL || len >> 57 != 0
        || facing_bytes_meet(key_lens, len * sizeof *key_lens, values, len * sizeof *values)
        || facing_bytes_are_wrong(key_lens, len * sizeof *key_lens, room, room_len)
        || facing_bytes_meet(values, len * sizeof *values, room, room_len))
        return FACING_BAD_ARGUMENT;
    do {
        next = cursor->at;
        lent = facing_lend(any->at, FACING_COUNTS);
        back.at = FACING_NULL;
        FACING_ENTER(0);
        status = facing_c_counts_try_pairs(lent, &back, cursor->at, &next, key_lens + copied->pairs, len - copied->pairs,
                                           values + copied->pairs, len - copied->pairs,
                                           facing_bytes_at(room) + copied->bytes, room_len - copied->bytes, &step);
        FACING_LEAVE(0);
        any->at = facing_back(any->at, lent.at, back.at);
        if (status == FACING_DONE) {
            copied->pairs += step.pairs;
            copied->bytes += step.bytes;
            cursor->at = next;
            buckets++;
            round = 0;
        } else if (status == FACING_BUSY) {
            round = facing_back_off(round, 0);
            if (round == FACING_NEVER) status = FACING_AFTER_FORK;
        }
    } while (status == FACING_BUSY
             || (status == FACING_DONE && cursor->at != UINT64_MAX && buckets < FACING_MOST_BUCKETS));
    FACING_SEE_ALL();
    if (copied->pairs != 0) return FACING_DONE;
    if (status == FACING_NO_ROOM) *copied = step;
    return status;
}

/* Opens a map with copies of the pairs of a closed one, which stays as it is, and with its seed. Fails as facing_counts_open
 * does, but never with FACING_NO_SEED. */
FACING_CHECKED FACING_API uint32_t facing_counts_reopen(facing_counts_handle *closed, uint32_t clients,
                                                        facing_counts_handle *map) {
    if (map == FACING_NULL || closed == map) return FACING_BAD_ARGUMENT;
    map->at = FACING_NULL;
    if (closed == FACING_NULL) return FACING_BAD_ARGUMENT;
    return facing_any_reopen(&closed->at, clients, &map->at, FACING_COUNTS);
}

/* Frees what a handle stands for, and sets the handle to null: a client goes back to its map; a
 * map ends with its last handle. A null handle is left alone. */
FACING_API void facing_counts_free(facing_counts_handle *any) {
    if (any != FACING_NULL) facing_any_free(&any->at, FACING_COUNTS);
}

/* Fills `more` with one more handle of a closed map, as facing_again does. */
FACING_CHECKED FACING_API uint32_t facing_counts_again(facing_counts_handle *closed, facing_counts_handle *more) {
    if (more == FACING_NULL || closed == more) return FACING_BAD_ARGUMENT;
    more->at = FACING_NULL;
    if (closed == FACING_NULL) return FACING_BAD_ARGUMENT;
    return facing_any_again(&closed->at, &more->at, FACING_COUNTS);
}

#ifdef __cplusplus
}
#endif
#endif
