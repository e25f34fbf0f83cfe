/* A concurrent hash map from 64-bit numbers to 64-bit numbers. C99 or later, C++98 or later.
 *
 * The functions below call the exports of the library facing, and try again while another thread holds the lock of the
 * key's bucket. A program must keep these rules; nothing checks them:
 *  1. Use a handle from one thread at a time. It is move-only: after copying the struct, use one copy.
 *  2. Hand a handle to another thread over a lock, the start or join of a thread, or a sequentially consistent atomic.
 *  3. An `answer` and an output handle are memory that nobody else uses during the call, and no two arguments overlap.
 *  4. malloc, realloc and free belong to one allocator and align to 16 bytes. Make no call in a signal handler.
 *  5. Output handles are overwritten, not freed.
 *  6. In the child of a fork use no handle that another thread was using during the fork. What a child may do stands below.
 *  7. Cancel no thread asynchronously. No call is a cancellation point: where its thread is cancelled it is made first.
 * The functions check the rest: they reject null pointers and lengths that no array has, and set a handle to null once it
 * is freed. With FACING_DEBUG defined, in all files of a program or in none, they also tell on stderr of a handle of another
 * header and of a copy of one of the last 1,024 handles that were freed.
 *
 * Every function but facing_free returns a status. Where it is not FACING_DONE nothing was changed, but where facing_close
 * or a call of many keys says so, and a cursor may have passed empty buckets; an answer is {0, 0}, but where FACING_NO_ROOM
 * tells a length; an output handle is null.
 * The `answer` of a client's call may be NULL.
 *
 * The map draws a secret seed from the system when it is opened. It mixes each key with it, by a multiplication with a secret
 * number, and not by SipHash as the maps of byte strings do: keys that were chosen without the seed collide no more than
 * others. It is no cipher: nothing is promised against who learns the seed, or sees in which order facing_pairs copies the
 * keys, or measures how long calls take, and chooses keys by that.
 *
 * The child of a fork has a copy of each map, which the parent and other children do not see. It may open maps of its own,
 * read closed maps, and make calls by clients that no thread was using during the fork. If another thread had locked a
 * bucket during the fork, a call on that bucket fails with FACING_AFTER_FORK: nobody will unlock it in the child. While the
 * child has one thread the call fails at once, and else once it has waited for ten seconds. */
#ifndef FACING_H
#define FACING_H
#include "facing_base.h"

#ifdef __cplusplus
extern "C" {
#endif

/* The exports, as facing_base.h says. */
uint32_t facing_c_open(size_t capacity, uint32_t clients, uint32_t salt, facing_handle *out);
uint32_t facing_c_open_seeded(size_t capacity, uint32_t clients, uint32_t salt, uint64_t seed0, uint64_t seed1,
                              facing_handle *out);
uint32_t facing_c_try_get(facing_handle client, facing_handle *out, uint64_t key, facing_answer *answer);
uint32_t facing_c_try_contains(facing_handle client, facing_handle *out, uint64_t key, facing_answer *answer);
uint32_t facing_c_try_put(facing_handle client, facing_handle *out, uint64_t key, uint64_t value, facing_answer *answer);
uint32_t facing_c_try_put_if_absent(facing_handle client, facing_handle *out, uint64_t key, uint64_t value,
                                    facing_answer *answer);
uint32_t facing_c_try_remove(facing_handle client, facing_handle *out, uint64_t key, facing_answer *answer);
uint32_t facing_c_try_remove_if(facing_handle client, facing_handle *out, uint64_t key, uint64_t value,
                                facing_answer *answer);
uint32_t facing_c_try_replace(facing_handle client, facing_handle *out, uint64_t key, uint64_t value, facing_answer *answer);
uint32_t facing_c_try_replace_if(facing_handle client, facing_handle *out, uint64_t key, uint64_t old_value,
                                 uint64_t new_value, facing_answer *answer);
uint32_t facing_c_try_add(facing_handle client, facing_handle *out, uint64_t key, uint64_t value, facing_answer *answer);
uint32_t facing_c_try_greatest(facing_handle client, facing_handle *out, uint64_t key, uint64_t value,
                               facing_answer *answer);
uint32_t facing_c_try_set(facing_handle client, facing_handle *out, uint64_t key, uint64_t value, facing_answer *answer);
uint32_t facing_c_find(facing_handle closed, facing_handle *out, uint64_t key, facing_answer *answer);
uint32_t facing_c_try_pairs(facing_handle any, facing_handle *out, uint64_t at, uint64_t *next, uint64_t *keys,
                            size_t keys_len, uint64_t *values, size_t values_len, facing_answer *answer);

FACING_INNER uint32_t facing_open_with(size_t capacity, uint32_t clients, uint32_t salt, const uint64_t seed[2],
                                       facing_handle *map) {
    facing_handle made = {FACING_NULL};
    uint32_t status = facing_forks_watch();
    if (status != FACING_DONE) return status;
    FACING_ENTER(0);
    status = facing_c_open_seeded(capacity, clients, salt, seed[0], seed[1], &made);
    FACING_LEAVE(0);
    return facing_fill(&map->at, made, FACING_NUMBERS, status);
}

/* Opens a map as facing_open does, with a seed that is given: for tests, in which keys then lie in the same buckets in each
 * run. Who knows the seed can choose keys that collide. */
FACING_CHECKED FACING_API uint32_t facing_open_seeded(size_t capacity, uint32_t clients, const uint64_t seed[2],
                                                      facing_handle *map) {
    if (map == FACING_NULL) return FACING_BAD_ARGUMENT;
    map->at = FACING_NULL;
    if (seed == FACING_NULL) return FACING_BAD_ARGUMENT;
    return facing_open_with(capacity, clients, 0, seed, map);
}

/* Opens an empty map for 1 to 65,536 clients, with a table of `capacity` buckets to begin with: 1 to 2^26, rounded up
 * to a power of two. A bucket takes 40 bytes, so 2^26 of them take 2.5 GB, and twice that while the map opens. The
 * table grows by itself, so begin small. The map's seed is drawn with getrandom; the salt is mixed in too, and is no
 * secret: pass 0. Returns FACING_NO_SEED where the system gives none, FACING_BAD_CAPACITY, FACING_BAD_CLIENTS or
 * FACING_NO_MEMORY, and the handle is null then. */
FACING_CHECKED FACING_API uint32_t facing_open(size_t capacity, uint32_t clients, uint32_t salt, facing_handle *map) {
    uint64_t seed[2] = {0, 0};
    uint32_t status;
    if (map == FACING_NULL) return FACING_BAD_ARGUMENT;
    map->at = FACING_NULL;
    status = facing_seed(seed);
    return status == FACING_DONE ? facing_open_with(capacity, clients, salt, seed, map) : status;
}

/* Fills `client` with a client of the map that is not in use. Free it to give it back, in any thread.
 * Returns FACING_NO_CLIENT where all are in use, FACING_NO_MEMORY, or FACING_WRONG_HANDLE; the handle is null then. */
FACING_CHECKED FACING_API uint32_t facing_client(facing_handle *map, facing_handle *client) {
    if (client == FACING_NULL || map == client) return FACING_BAD_ARGUMENT;
    client->at = FACING_NULL;
    if (map == FACING_NULL) return FACING_BAD_ARGUMENT;
    return facing_any_client(&map->at, &client->at, FACING_NUMBERS);
}

/* Makes a call once. */
#define FACING_TRY(export_and_arguments)                                                                                    \
    lent = facing_lend(client->at, FACING_NUMBERS);                                                                         \
    back.at = FACING_NULL;                                                                                                  \
    FACING_ENTER(key);                                                                                                      \
    status = export_and_arguments;                                                                                          \
    FACING_LEAVE(key);                                                                                                      \
    client->at = facing_back(client->at, lent.at, back.at)

/* == Calls of a client ==
 *
 * Each call locks the bucket of its key, and no other lock; while another thread has that lock it spins, then yields, then
 * sleeps for a millisecond at a time. It returns FACING_NO_MEMORY, FACING_CLIENT_FULL, FACING_AFTER_FORK or
 * FACING_WRONG_HANDLE, and then the call was not made. A call that adds a key to a bucket that has one allocates one node.
 * A call may also allocate parts of a table that grows, and goes on where there is no memory for them. */
#define FACING_CALL(export_and_arguments)                                                                                   \
    uint32_t status;                                                                                                        \
    unsigned round = 0;                                                                                                     \
    facing_handle lent, back;                                                                                               \
    facing_answer dropped;                                                                                                  \
    if (answer == FACING_NULL) answer = &dropped;                                                                           \
    answer->found = 0;                                                                                                      \
    answer->value = 0;                                                                                                      \
    if (client == FACING_NULL) return FACING_BAD_ARGUMENT;                                                                  \
    FACING_TRY(export_and_arguments);                                                                                       \
    while (status == FACING_BUSY) {                                                                                         \
        round = facing_back_off(round, 0);                                                                                  \
        if (round == FACING_NEVER) return FACING_AFTER_FORK;                                                                \
        FACING_TRY(export_and_arguments);                                                                                   \
    }                                                                                                                       \
    return status

/* The answer is the value at the key. */
FACING_CHECKED FACING_API uint32_t facing_get(facing_handle *client, uint64_t key, facing_answer *answer) {
    FACING_CALL(facing_c_try_get(lent, &back, key, answer));
}

/* The answer is whether the key has a value, in `found` alone. */
FACING_CHECKED FACING_API uint32_t facing_contains(facing_handle *client, uint64_t key, facing_answer *answer) {
    FACING_CALL(facing_c_try_contains(lent, &back, key, answer));
}

/* Stores the value at the key. The answer is the value before. */
FACING_CHECKED FACING_API uint32_t facing_put(facing_handle *client, uint64_t key, uint64_t value, facing_answer *answer) {
    FACING_CALL(facing_c_try_put(lent, &back, key, value, answer));
}

/* Stores the value where the key has none. The answer is the value before. */
FACING_CHECKED FACING_API uint32_t facing_put_if_absent(facing_handle *client, uint64_t key, uint64_t value,
                                                        facing_answer *answer) {
    FACING_CALL(facing_c_try_put_if_absent(lent, &back, key, value, answer));
}

/* Removes the key. The answer is the value before. */
FACING_CHECKED FACING_API uint32_t facing_remove(facing_handle *client, uint64_t key, facing_answer *answer) {
    FACING_CALL(facing_c_try_remove(lent, &back, key, answer));
}

/* Removes the key where it has this value. The answer is whether it had, in `found` alone. */
FACING_CHECKED FACING_API uint32_t facing_remove_if(facing_handle *client, uint64_t key, uint64_t value,
                                                    facing_answer *answer) {
    FACING_CALL(facing_c_try_remove_if(lent, &back, key, value, answer));
}

/* Stores the value where the key has one. The answer is the value before. */
FACING_CHECKED FACING_API uint32_t facing_replace(facing_handle *client, uint64_t key, uint64_t value,
                                                  facing_answer *answer) {
    FACING_CALL(facing_c_try_replace(lent, &back, key, value, answer));
}

/* Stores the new value where the key has the old one. The answer is whether it had, in `found` alone. */
FACING_CHECKED FACING_API uint32_t facing_replace_if(facing_handle *client, uint64_t key, uint64_t old_value,
                                                     uint64_t new_value, facing_answer *answer) {
    FACING_CALL(facing_c_try_replace_if(lent, &back, key, old_value, new_value, answer));
}

/* Adds to the value at the key, up to 2^64 - 1, or stores the value where there is none. The answer is the value after. */
FACING_CHECKED FACING_API uint32_t facing_add(facing_handle *client, uint64_t key, uint64_t value, facing_answer *answer) {
    FACING_CALL(facing_c_try_add(lent, &back, key, value, answer));
}

/* Stores the greater of the key's value and this one. The answer is the value after. */
FACING_CHECKED FACING_API uint32_t facing_greatest(facing_handle *client, uint64_t key, uint64_t value,
                                                   facing_answer *answer) {
    FACING_CALL(facing_c_try_greatest(lent, &back, key, value, answer));
}

/* Stores the value at the key. The answer is the value after, which is this one. */
FACING_CHECKED FACING_API uint32_t facing_set(facing_handle *client, uint64_t key, uint64_t value, facing_answer *answer) {
    FACING_CALL(facing_c_try_set(lent, &back, key, value, answer));
}

/* == Many calls at once ==
 *
 * Each makes one call a key, in order, and is no transaction. It stores in `done`, unless that is NULL, how many calls were
 * made; where the status is not FACING_DONE the call on keys[*done] failed, and those after it were not made. */

/* Stores each value at its key. */
FACING_CHECKED FACING_API uint32_t facing_put_all(facing_handle *client, const uint64_t *keys, const uint64_t *values,
                                                  size_t len, size_t *done) {
    size_t i = 0;
    uint32_t status = FACING_DONE;
    if (client == FACING_NULL || len >> 60 != 0 || (len != 0 && (keys == FACING_NULL || values == FACING_NULL)))
        status = FACING_BAD_ARGUMENT;
    while (status == FACING_DONE && i < len) {
        status = facing_put(client, keys[i], values[i], FACING_NULL);
        i += status == FACING_DONE;
    }
    if (done != FACING_NULL) *done = i;
    return status;
}

/* Stores in each answer the value at its key. */
FACING_CHECKED FACING_API uint32_t facing_get_all(facing_handle *client, const uint64_t *keys, facing_answer *answers,
                                                  size_t len, size_t *done) {
    size_t i = 0;
    uint32_t status = FACING_DONE;
    if (client == FACING_NULL || len >> 59 != 0 || (len != 0 && (keys == FACING_NULL || answers == FACING_NULL)))
        status = FACING_BAD_ARGUMENT;
    while (status == FACING_DONE && i < len) {
        status = facing_get(client, keys[i], &answers[i]);
        i += status == FACING_DONE;
    }
    if (done != FACING_NULL) *done = i;
    facing_answer_none(answers, i, len);
    return status;
}

/* Adds each value to the one at its key. */
FACING_CHECKED FACING_API uint32_t facing_add_all(facing_handle *client, const uint64_t *keys, const uint64_t *values,
                                                  size_t len, size_t *done) {
    size_t i = 0;
    uint32_t status = FACING_DONE;
    if (client == FACING_NULL || len >> 60 != 0 || (len != 0 && (keys == FACING_NULL || values == FACING_NULL)))
        status = FACING_BAD_ARGUMENT;
    while (status == FACING_DONE && i < len) {
        status = facing_add(client, keys[i], values[i], FACING_NULL);
        i += status == FACING_DONE;
    }
    if (done != FACING_NULL) *done = i;
    return status;
}

#undef FACING_CALL
#undef FACING_TRY

/* Counts the keys, by the handle of a map, a client or a closed map. Of an open map the count is an estimate: it adds the
 * clients' counters one by one. Of a closed map it is exact. */
FACING_CHECKED FACING_API uint32_t facing_count(facing_handle *any, uint64_t *count) {
    if (count == FACING_NULL) return FACING_BAD_ARGUMENT;
    *count = 0;
    if (any == FACING_NULL) return FACING_BAD_ARGUMENT;
    return facing_any_count(&any->at, count, FACING_NUMBERS);
}

/* Closes the map, whose clients must all be freed. Its handle is then that of the closed map, which can be read and
 * reopened. Returns FACING_CLIENT_OUT where a client is not freed, and the map goes on; FACING_NO_MEMORY, and then the map
 * gives out no more clients, and can be closed again; FACING_BIN_MISSING, and then the map has ended. */
FACING_CHECKED FACING_API uint32_t facing_close(facing_handle *map) {
    if (map == FACING_NULL) return FACING_BAD_ARGUMENT;
    return facing_any_close(&map->at, FACING_NUMBERS);
}

/* The answer is the value at a key of a closed map. Takes no lock and no memory. */
FACING_CHECKED FACING_API uint32_t facing_find(facing_handle *closed, uint64_t key, facing_answer *answer) {
    facing_handle lent, back = {FACING_NULL};
    uint32_t status;
    if (answer == FACING_NULL) return FACING_BAD_ARGUMENT;
    answer->found = 0;
    answer->value = 0;
    if (closed == FACING_NULL) return FACING_BAD_ARGUMENT;
    lent = facing_lend(closed->at, FACING_NUMBERS);
    FACING_ENTER(0);
    status = facing_c_find(lent, &back, key, answer);
    FACING_LEAVE(0);
    closed->at = facing_back(closed->at, lent.at, back.at);
    return status;
}

/* Copies the pairs of the next buckets of a closed map or, by a client, of an open one: whole buckets, as many as `room`
 * pairs have room for, and at most 1,024 buckets. Stores in `copied` how many pairs were copied, and moves the cursor. Call
 * it until cursor->at is UINT64_MAX; it may copy no pair before, where all those buckets are empty. Of an open map each
 * bucket is as all calls before had left it, but two buckets are copied at two times: a key that stays in the map all the
 * while is copied once, and one that comes or goes meanwhile may be copied or not. Locks one bucket at a time, and allocates
 * a copy of it. Returns FACING_NO_ROOM where the next bucket alone has more than `room` pairs: `copied` is how many it has,
 * and the cursor is at it. Returns FACING_NO_MEMORY, FACING_AFTER_FORK or FACING_WRONG_HANDLE. Where a bucket fails behind
 * pairs that were copied the status is FACING_DONE, and the next call begins with that bucket. */
FACING_CHECKED FACING_API uint32_t facing_pairs(facing_handle *any, facing_cursor *cursor, uint64_t *keys, uint64_t *values,
                                                size_t room, size_t *copied) {
    facing_handle lent, back;
    facing_answer answer = {0, 0};
    uint64_t next;
    uint32_t status;
    unsigned round = 0, buckets = 0;
    if (copied == FACING_NULL) return FACING_BAD_ARGUMENT;
    *copied = 0;
    if (any == FACING_NULL || cursor == FACING_NULL || keys == FACING_NULL || values == FACING_NULL || keys == values
        || room >> 60 != 0)
        return FACING_BAD_ARGUMENT;
    do {
        next = cursor->at;
        lent = facing_lend(any->at, FACING_NUMBERS);
        back.at = FACING_NULL;
        FACING_ENTER(0);
        status = facing_c_try_pairs(lent, &back, cursor->at, &next, keys + *copied, room - *copied, values + *copied,
                                    room - *copied, &answer);
        FACING_LEAVE(0);
        any->at = facing_back(any->at, lent.at, back.at);
        if (status == FACING_DONE) {
            *copied += answer.value;
            cursor->at = next;
            buckets++;
            round = 0;
        } else if (status == FACING_BUSY) {
            round = facing_back_off(round, 0);
            if (round == FACING_NEVER) status = FACING_AFTER_FORK;
        }
    } while (status == FACING_BUSY
             || (status == FACING_DONE && cursor->at != UINT64_MAX && buckets < FACING_MOST_BUCKETS));
    FACING_SEE_ALL();
    if (*copied != 0) return FACING_DONE;
    if (status == FACING_NO_ROOM) *copied = answer.value;
    return status;
}

/* Opens a map with copies of the pairs of a closed one, which stays as it is. Fails as facing_open does. */
FACING_CHECKED FACING_API uint32_t facing_reopen(facing_handle *closed, uint32_t clients, facing_handle *map) {
    if (map == FACING_NULL || closed == map) return FACING_BAD_ARGUMENT;
    map->at = FACING_NULL;
    if (closed == FACING_NULL) return FACING_BAD_ARGUMENT;
    return facing_any_reopen(&closed->at, clients, &map->at, FACING_NUMBERS);
}

/* Frees what a handle stands for, and sets the handle to null: a client goes back to its map; a map ends with its last
 * handle. A null handle is left alone. */
FACING_API void facing_free(facing_handle *any) {
    if (any != FACING_NULL) facing_any_free(&any->at, FACING_NUMBERS);
}

/* Fills `more` with one more handle of a closed map, for another thread: each thread reads by a handle of its own, and the
 * map ends with the last one. Returns FACING_WRONG_HANDLE where the handle is of another kind, or FACING_NO_MEMORY; the
 * handle is null then. */
FACING_CHECKED FACING_API uint32_t facing_again(facing_handle *closed, facing_handle *more) {
    if (more == FACING_NULL || closed == more) return FACING_BAD_ARGUMENT;
    more->at = FACING_NULL;
    if (closed == FACING_NULL) return FACING_BAD_ARGUMENT;
    return facing_any_again(&closed->at, &more->at, FACING_NUMBERS);
}

#ifdef __cplusplus
}
#endif
#endif
