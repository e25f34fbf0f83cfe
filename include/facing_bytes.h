/* A concurrent hash map from byte strings to byte strings. C99 or later, C++98 or later; Linux.
 *
 * A key has 0 to 65,536 bytes, and a value 0 to 2^29 (512 MB); a longer one fails with FACING_TOO_LONG. The rules at the
 * head of facing.h hold here too. A key, a value and the room for a value are a pointer and a number of bytes; the pointer
 * may be NULL where the number is 0. The functions copy keys and values; they reject room that overlaps a key or a value.
 *
 * The map draws a secret seed from the system when it is opened, and hashes keys with SipHash-1-3: who does not know the
 * seed cannot choose keys that collide. */
#ifndef FACING_BYTES_H
#define FACING_BYTES_H
#include "facing.h"

#ifdef __cplusplus
#define FACING_ADDRESS(at) reinterpret_cast<uintptr_t>(at)
#define FACING_AS_BYTES(at) static_cast<uint8_t *>(const_cast<void *>(at))
extern "C" {
#else
#define FACING_ADDRESS(at) ((uintptr_t)(at))
#define FACING_AS_BYTES(at) ((uint8_t *)(uintptr_t)(at))
#endif

/* The most bytes of a key, and of a value. */
enum { FACING_LONGEST = 65536, FACING_LONGEST_VALUE = 536870912 };

/* A handle of an open map, of one of its clients, of a closed map, or of a value. It begins as {0}, or where a call fills
 * it. */
typedef struct facing_bytes_handle {
    void *at;
} facing_bytes_handle;

/* `found` is 1 where there is a value, or where the question's answer is yes, and else 0; `len` is the number of bytes of
 * the value, or 0. */
typedef struct facing_bytes_answer {
    uint32_t found;
    uint64_t len;
} facing_bytes_answer;

/* A number of pairs, and of the bytes of their keys and values. */
typedef struct facing_bytes_sizes {
    uint64_t pairs, bytes;
} facing_bytes_sizes;

/* The exports, as facing_base.h says. */
uint32_t facing_c_bytes_open(size_t capacity, uint32_t clients, uint64_t seed0, uint64_t seed1, facing_handle *out);
uint32_t facing_c_bytes_try_get(facing_handle client, facing_handle *out, const uint8_t *key, size_t key_len, uint8_t *room,
                                size_t room_len, facing_answer *answer);
uint32_t facing_c_bytes_try_hold(facing_handle client, facing_handle *out, const uint8_t *key, size_t key_len,
                                 facing_handle *held, facing_answer *answer);
uint32_t facing_c_bytes_read(facing_handle held, facing_handle *out, size_t from, uint8_t *room, size_t room_len,
                             facing_answer *answer);
uint32_t facing_c_bytes_try_contains(facing_handle client, facing_handle *out, const uint8_t *key, size_t key_len,
                                     facing_answer *answer);
uint32_t facing_c_bytes_try_put(facing_handle client, facing_handle *out, const uint8_t *key, size_t key_len,
                                const uint8_t *value, size_t value_len, uint8_t *room, size_t room_len,
                                facing_answer *answer);
uint32_t facing_c_bytes_try_put_if_absent(facing_handle client, facing_handle *out, const uint8_t *key, size_t key_len,
                                          const uint8_t *value, size_t value_len, uint8_t *room, size_t room_len,
                                          facing_answer *answer);
uint32_t facing_c_bytes_try_remove(facing_handle client, facing_handle *out, const uint8_t *key, size_t key_len,
                                   uint8_t *room, size_t room_len, facing_answer *answer);
uint32_t facing_c_bytes_try_remove_if(facing_handle client, facing_handle *out, const uint8_t *key, size_t key_len,
                                      const uint8_t *value, size_t value_len, facing_answer *answer);
uint32_t facing_c_bytes_try_replace(facing_handle client, facing_handle *out, const uint8_t *key, size_t key_len,
                                    const uint8_t *value, size_t value_len, uint8_t *room, size_t room_len,
                                    facing_answer *answer);
uint32_t facing_c_bytes_try_replace_if(facing_handle client, facing_handle *out, const uint8_t *key, size_t key_len,
                                       const uint8_t *old_value, size_t old_len, const uint8_t *new_value, size_t new_len,
                                       facing_answer *answer);
uint32_t facing_c_bytes_find(facing_handle closed, facing_handle *out, const uint8_t *key, size_t key_len, uint8_t *room,
                             size_t room_len, facing_answer *answer);
uint32_t facing_c_bytes_try_pairs(facing_handle any, facing_handle *out, uint64_t at, uint64_t *next, uint64_t *key_lens,
                                  size_t key_lens_len, uint64_t *value_lens, size_t value_lens_len, uint8_t *room,
                                  size_t room_len, facing_bytes_sizes *copied);
uint32_t facing_c_bytes_try_heads(facing_handle any, facing_handle *out, uint64_t at, size_t most, uint64_t *next,
                                  uint64_t *key_lens, size_t key_lens_len, uint64_t *value_lens, size_t value_lens_len,
                                  uint8_t *room, size_t room_len, facing_bytes_sizes *copied);

#ifdef FACING_WATCHED
/* A number of a key, for ThreadSanitizer: calls on one key are ordered. Bytes that are too many for a key are not read. */
FACING_INNER uint64_t facing_bytes_place(const void *key, size_t len) {
    const uint8_t *bytes = FACING_TO(const uint8_t *, key);
    uint64_t place = 14695981039346656037u;
    size_t i;
    for (i = 0; len <= FACING_LONGEST && i < len; i++)
        place = (place ^ bytes[i]) * 1099511628211u;
    return place;
}
#define FACING_BYTES_PLACE(key, len) facing_bytes_place(key, len)
#endif

/* Whether bytes cannot be an argument: there are too many for an array, or they lie nowhere. */
FACING_SEEN int facing_bytes_are_none(const void *at, size_t len) {
    return (at == FACING_NULL && len != 0) || len >> 60 != 0;
}

/* Whether bytes lie over each other. */
FACING_SEEN int facing_bytes_meet(const void *a, size_t a_len, const void *b, size_t b_len) {
    uintptr_t x = FACING_ADDRESS(a), y = FACING_ADDRESS(b);
    return a_len != 0 && b_len != 0 && x < y + b_len && y < x + a_len;
}

/* Whether there are bytes that cannot be an argument, or that lie over the room. */
FACING_SEEN int facing_bytes_are_wrong(const void *at, size_t len, const void *room, size_t room_len) {
    return facing_bytes_are_none(at, len) || facing_bytes_are_none(room, room_len)
           || facing_bytes_meet(at, len, room, room_len);
}

/* Bytes that an export may be handed: where there are none they lie somewhere all the same. */
FACING_SEEN uint8_t *facing_bytes_at(const void *at) {
    static uint8_t somewhere;
    return at != FACING_NULL ? FACING_AS_BYTES(at) : &somewhere;
}

/* Opens a map as facing_bytes_open does, with a seed that is given: for tests, whose hashes are then the same in each run.
 * Who knows the seed can choose keys that collide. */
FACING_CHECKED FACING_API uint32_t facing_bytes_open_seeded(size_t capacity, uint32_t clients, const uint64_t seed[2],
                                                            facing_bytes_handle *map) {
    facing_handle made = {FACING_NULL};
    uint32_t status;
    if (map == FACING_NULL) return FACING_BAD_ARGUMENT;
    map->at = FACING_NULL;
    if (seed == FACING_NULL) return FACING_BAD_ARGUMENT;
    status = facing_forks_watch();
    if (status != FACING_DONE) return status;
    FACING_ENTER(0);
    status = facing_c_bytes_open(capacity, clients, seed[0], seed[1], &made);
    FACING_LEAVE(0);
    return facing_fill(&map->at, made, FACING_BYTES, status);
}

/* Opens an empty map for 1 to 65,536 clients, with a table of `capacity` buckets to begin with: 1 to 2^26, rounded up
 * to a power of two. A bucket takes 72 bytes, so 2^26 of them take 4.5 GB, and twice that while the map opens. The
 * table grows by itself, so begin small. The map's seed is drawn with getrandom. Returns FACING_NO_SEED where the
 * system gives none, FACING_BAD_CAPACITY, FACING_BAD_CLIENTS or FACING_NO_MEMORY, and the handle is null then. */
FACING_CHECKED FACING_API uint32_t facing_bytes_open(size_t capacity, uint32_t clients, facing_bytes_handle *map) {
    uint64_t seed[2] = {0, 0};
    uint32_t status;
    if (map == FACING_NULL) return FACING_BAD_ARGUMENT;
    map->at = FACING_NULL;
    status = facing_seed(seed);
    return status == FACING_DONE ? facing_bytes_open_seeded(capacity, clients, seed, map) : status;
}

/* Fills `client` with a client of the map that is not in use. Free it to give it back, in any thread. It keeps room for
 * the longest key that it was called with.
 * Returns FACING_NO_CLIENT where all are in use, FACING_NO_MEMORY, or FACING_WRONG_HANDLE; the handle is null then. */
FACING_CHECKED FACING_API uint32_t facing_bytes_client(facing_bytes_handle *map, facing_bytes_handle *client) {
    if (client == FACING_NULL || map == client) return FACING_BAD_ARGUMENT;
    client->at = FACING_NULL;
    if (map == FACING_NULL) return FACING_BAD_ARGUMENT;
    return facing_any_client(&map->at, &client->at, FACING_BYTES);
}

/* Stores what an export answered, unless nobody wants it. */
FACING_INNER void facing_bytes_tell(facing_bytes_answer *answer, facing_answer told) {
    if (answer == FACING_NULL) return;
    answer->found = told.found;
    answer->len = told.value;
}

/* Makes a call once. */
#define FACING_TRY(export_and_arguments)                                                                                    \
    lent = facing_lend(client->at, FACING_BYTES);                                                                           \
    back.at = FACING_NULL;                                                                                                  \
    FACING_ENTER(FACING_BYTES_PLACE(key, key_len));                                                                         \
    status = export_and_arguments;                                                                                          \
    FACING_LEAVE(FACING_BYTES_PLACE(key, key_len));                                                                         \
    client->at = facing_back(client->at, lent.at, back.at)

/* == Calls of a client ==
 *
 * Each call locks the bucket of its key, and no other lock; while another thread has that lock it spins, then yields, then
 * sleeps for a millisecond at a time. It returns FACING_TOO_LONG, FACING_NO_MEMORY, FACING_CLIENT_FULL, FACING_AFTER_FORK or
 * FACING_WRONG_HANDLE, and then the call was not made. Each value that a call is given is copied, in one allocation, or in two
 * where it has more than 320 bytes, and in none where it has at most 22; a call that adds a key allocates a key of more than 18
 * bytes too, in two allocations where it has more than 64, and a node if its bucket has one; a key of more than 18 bytes that
 * is longer than those that the client had before takes room of the client's. facing_bytes_get and facing_bytes_contains allocate nothing for
 * key and value. Any call may allocate parts of a table that grows, and goes on where there is no memory for them. */
#define FACING_BYTES_CALL(is_wrong, export_and_arguments)                                                                   \
    uint32_t status;                                                                                                        \
    unsigned round = 0;                                                                                                     \
    facing_handle lent, back;                                                                                               \
    facing_answer told = {0, 0};                                                                                            \
    facing_bytes_tell(answer, told);                                                                                        \
    if (client == FACING_NULL || (is_wrong)) return FACING_BAD_ARGUMENT;                                                    \
    FACING_TRY(export_and_arguments);                                                                                       \
    while (status == FACING_BUSY) {                                                                                         \
        round = facing_back_off(round, 0);                                                                                  \
        if (round == FACING_NEVER) return FACING_AFTER_FORK;                                                                \
        FACING_TRY(export_and_arguments);                                                                                   \
    }                                                                                                                       \
    facing_bytes_tell(answer, told);                                                                                        \
    return status

/* Copies the value at the key into `room`, once the bucket is unlocked. Where the value is longer than the room nothing is
 * copied, the status is FACING_NO_ROOM, and the answer is {1, its length}; the rest of the room is as it was. */
FACING_CHECKED FACING_API uint32_t facing_bytes_get(facing_bytes_handle *client, const void *key, size_t key_len, void *room,
                                                    size_t room_len, facing_bytes_answer *answer) {
    FACING_BYTES_CALL(
        facing_bytes_are_wrong(key, key_len, room, room_len),
        facing_c_bytes_try_get(lent, &back, facing_bytes_at(key), key_len, facing_bytes_at(room), room_len, &told));
}

/* Fills `held` with a handle of the value at the key, which facing_bytes_read reads and facing_bytes_free frees; it is null
 * where there is no value. The bucket is locked only while the value gets one more owner, or, where it has at most 22
 * bytes, while it is copied. The value stays as it is when another one is put in its place. */
FACING_CHECKED FACING_API uint32_t facing_bytes_hold(facing_bytes_handle *client, const void *key, size_t key_len,
                                                     facing_bytes_handle *held, facing_bytes_answer *answer) {
    facing_handle lent, back, made = {FACING_NULL};
    facing_answer told = {0, 0}, none = {0, 0};
    uint32_t status;
    unsigned round = 0;
    facing_bytes_tell(answer, none);
    if (held == FACING_NULL || held == client) return FACING_BAD_ARGUMENT;
    held->at = FACING_NULL;
    if (client == FACING_NULL || facing_bytes_are_none(key, key_len)) return FACING_BAD_ARGUMENT;
    do {
        lent = facing_lend(client->at, FACING_BYTES);
        back.at = FACING_NULL;
        FACING_ENTER(FACING_BYTES_PLACE(key, key_len));
        status = facing_c_bytes_try_hold(lent, &back, facing_bytes_at(key), key_len, &made, &told);
        FACING_LEAVE(FACING_BYTES_PLACE(key, key_len));
        client->at = facing_back(client->at, lent.at, back.at);
        if (status == FACING_BUSY) round = facing_back_off(round, 0);
    } while (status == FACING_BUSY && round != FACING_NEVER);
    if (status == FACING_BUSY) status = FACING_AFTER_FORK;
    status = facing_fill(&held->at, made, FACING_BYTES, status);
    facing_bytes_tell(answer, status == FACING_DONE ? told : none);
    return status;
}

/* Copies the bytes of a held value from number `from` on into `room`, as many as it has room for. The answer is
 * {1, the value's length}. Takes no lock and no memory. */
FACING_CHECKED FACING_API uint32_t facing_bytes_read(facing_bytes_handle *held, size_t from, void *room, size_t room_len,
                                                     facing_bytes_answer *answer) {
    facing_handle lent, back = {FACING_NULL};
    facing_answer told = {0, 0};
    uint32_t status;
    facing_bytes_tell(answer, told);
    if (held == FACING_NULL || facing_bytes_are_none(room, room_len)) return FACING_BAD_ARGUMENT;
    lent = facing_lend(held->at, FACING_BYTES);
    FACING_ENTER(0);
    status = facing_c_bytes_read(lent, &back, from, facing_bytes_at(room), room_len, &told);
    FACING_LEAVE(0);
    held->at = facing_back(held->at, lent.at, back.at);
    facing_bytes_tell(answer, told);
    return status;
}

/* The answer is whether the key has a value, in `found` alone. */
FACING_CHECKED FACING_API uint32_t facing_bytes_contains(facing_bytes_handle *client, const void *key, size_t key_len,
                                                         facing_bytes_answer *answer) {
    FACING_BYTES_CALL(facing_bytes_are_none(key, key_len),
                      facing_c_bytes_try_contains(lent, &back, facing_bytes_at(key), key_len, &told));
}

/* Stores the value at the key. The answer is the value before: its first bytes are copied into `room`, as many as it has
 * room for, and `len` is its whole length. So it is for facing_bytes_put_if_absent, _remove and _replace. */
FACING_CHECKED FACING_API uint32_t facing_bytes_put(facing_bytes_handle *client, const void *key, size_t key_len,
                                                    const void *value, size_t value_len, void *room, size_t room_len,
                                                    facing_bytes_answer *answer) {
    FACING_BYTES_CALL(facing_bytes_are_wrong(key, key_len, room, room_len)
                          || facing_bytes_are_wrong(value, value_len, room, room_len),
                      facing_c_bytes_try_put(lent, &back, facing_bytes_at(key), key_len, facing_bytes_at(value), value_len,
                                             facing_bytes_at(room), room_len, &told));
}

/* Stores the value where the key has none. The answer is the value before. */
FACING_CHECKED FACING_API uint32_t facing_bytes_put_if_absent(facing_bytes_handle *client, const void *key, size_t key_len,
                                                              const void *value, size_t value_len, void *room,
                                                              size_t room_len, facing_bytes_answer *answer) {
    FACING_BYTES_CALL(facing_bytes_are_wrong(key, key_len, room, room_len)
                          || facing_bytes_are_wrong(value, value_len, room, room_len),
                      facing_c_bytes_try_put_if_absent(lent, &back, facing_bytes_at(key), key_len, facing_bytes_at(value),
                                                       value_len, facing_bytes_at(room), room_len, &told));
}

/* Removes the key. The answer is the value before. */
FACING_CHECKED FACING_API uint32_t facing_bytes_remove(facing_bytes_handle *client, const void *key, size_t key_len,
                                                       void *room, size_t room_len, facing_bytes_answer *answer) {
    FACING_BYTES_CALL(
        facing_bytes_are_wrong(key, key_len, room, room_len),
        facing_c_bytes_try_remove(lent, &back, facing_bytes_at(key), key_len, facing_bytes_at(room), room_len, &told));
}

/* Removes the key where it has this value. The answer is whether it had, in `found` alone. */
FACING_CHECKED FACING_API uint32_t facing_bytes_remove_if(facing_bytes_handle *client, const void *key, size_t key_len,
                                                          const void *value, size_t value_len, facing_bytes_answer *answer) {
    FACING_BYTES_CALL(
        facing_bytes_are_none(key, key_len) || facing_bytes_are_none(value, value_len),
        facing_c_bytes_try_remove_if(lent, &back, facing_bytes_at(key), key_len, facing_bytes_at(value), value_len, &told));
}

/* Stores the value where the key has one. The answer is the value before. */
FACING_CHECKED FACING_API uint32_t facing_bytes_replace(facing_bytes_handle *client, const void *key, size_t key_len,
                                                        const void *value, size_t value_len, void *room, size_t room_len,
                                                        facing_bytes_answer *answer) {
    FACING_BYTES_CALL(facing_bytes_are_wrong(key, key_len, room, room_len)
                          || facing_bytes_are_wrong(value, value_len, room, room_len),
                      facing_c_bytes_try_replace(lent, &back, facing_bytes_at(key), key_len, facing_bytes_at(value),
                                                 value_len, facing_bytes_at(room), room_len, &told));
}

/* Stores the new value where the key has the old one. The answer is whether it had, in `found` alone. */
FACING_CHECKED FACING_API uint32_t facing_bytes_replace_if(facing_bytes_handle *client, const void *key, size_t key_len,
                                                           const void *old_value, size_t old_len, const void *new_value,
                                                           size_t new_len, facing_bytes_answer *answer) {
    FACING_BYTES_CALL(facing_bytes_are_none(key, key_len) || facing_bytes_are_none(old_value, old_len)
                          || facing_bytes_are_none(new_value, new_len),
                      facing_c_bytes_try_replace_if(lent, &back, facing_bytes_at(key), key_len, facing_bytes_at(old_value),
                                                    old_len, facing_bytes_at(new_value), new_len, &told));
}

#undef FACING_BYTES_CALL
#undef FACING_TRY

/* == Many calls at once ==
 *
 * Each makes one call a key, in order, and is no transaction. Keys lie one after another, and `key_lens` are their lengths;
 * where these add up to more bytes than there are the status is FACING_BAD_ARGUMENT and no call is made. It stores in `done`,
 * unless that is NULL, how many calls were made; where the status is not FACING_DONE the call on the key behind those
 * failed, and those after it were not made. */

/* Whether these are no keys: there is nothing where something must be, or the keys have more bytes than there are. */
FACING_SEEN int facing_bytes_keys_are_wrong(const uint64_t *key_lens, size_t len, const void *keys, size_t keys_len,
                                            const void *others) {
    size_t i;
    if (len >> 59 != 0 || (len != 0 && (key_lens == FACING_NULL || others == FACING_NULL))) return 1;
    if (facing_bytes_are_none(keys, keys_len)) return 1;
    for (i = 0; i < len && key_lens[i] <= keys_len; i++)
        keys_len -= key_lens[i];
    return i < len;
}

/* The same of pairs, each a key and a value. */
FACING_SEEN int facing_bytes_pairs_are_wrong(const uint64_t *key_lens, const uint64_t *value_lens, size_t len,
                                             const void *pairs, size_t pairs_len) {
    size_t i;
    if (len >> 59 != 0 || (len != 0 && (key_lens == FACING_NULL || value_lens == FACING_NULL))) return 1;
    if (facing_bytes_are_none(pairs, pairs_len)) return 1;
    for (i = 0; i < len; i++) {
        if (key_lens[i] > pairs_len || value_lens[i] > pairs_len - key_lens[i]) return 1;
        pairs_len -= key_lens[i] + value_lens[i];
    }
    return 0;
}

/* Stores each value at its key. `pairs` has the first key and its value, the second key and its value, and so on, as
 * facing_bytes_pairs copies them. */
FACING_CHECKED FACING_API uint32_t facing_bytes_put_all(facing_bytes_handle *client, const uint64_t *key_lens,
                                                        const uint64_t *value_lens, size_t len, const void *pairs,
                                                        size_t pairs_len, size_t *done) {
    const uint8_t *key = facing_bytes_at(pairs);
    size_t i = 0;
    uint32_t status = FACING_DONE;
    if (client == FACING_NULL || facing_bytes_pairs_are_wrong(key_lens, value_lens, len, pairs, pairs_len))
        status = FACING_BAD_ARGUMENT;
    while (status == FACING_DONE && i < len) {
        const uint8_t *value = key + key_lens[i];
        status = facing_bytes_put(client, key, key_lens[i], value, value_lens[i], FACING_NULL, 0, FACING_NULL);
        key = value + value_lens[i];
        i += status == FACING_DONE;
    }
    if (done != FACING_NULL) *done = i;
    return status;
}

/* Copies the value at each key into `room`, one after another; each answer is whether there is one, and its length. Where
 * the next value is longer than what is left of the room the status is FACING_NO_ROOM, and its answer is {1, its length}:
 * call again from that key on. */
FACING_CHECKED FACING_API uint32_t facing_bytes_get_all(facing_bytes_handle *client, const uint64_t *key_lens, size_t len,
                                                        const void *keys, size_t keys_len, void *room, size_t room_len,
                                                        facing_bytes_answer *answers, size_t *done) {
    const uint8_t *key = facing_bytes_at(keys);
    uint8_t *value = facing_bytes_at(room);
    facing_answer none = {0, 0};
    size_t i = 0, rest;
    uint32_t status = FACING_DONE;
    if (client == FACING_NULL || facing_bytes_keys_are_wrong(key_lens, len, keys, keys_len, answers)
        || facing_bytes_are_wrong(keys, keys_len, room, room_len)
        || facing_bytes_meet(key_lens, len * sizeof *key_lens, room, room_len)
        || facing_bytes_meet(answers, len * sizeof *answers, room, room_len))
        status = FACING_BAD_ARGUMENT;
    while (status == FACING_DONE && i < len) {
        status = facing_bytes_get(client, key, key_lens[i], value, room_len, &answers[i]);
        if (status != FACING_DONE) break;
        key += key_lens[i];
        value += answers[i].len;
        room_len -= answers[i].len;
        i++;
    }
    if (done != FACING_NULL) *done = i;
    for (rest = i + (status == FACING_NO_ROOM); answers != FACING_NULL && len >> 59 == 0 && rest < len; rest++)
        facing_bytes_tell(&answers[rest], none);
    return status;
}

/* == Without a client == */

/* Counts the keys, by the handle of a map, a client or a closed map. Of an open map the count is an estimate: it adds the
 * clients' counters one by one. Of a closed map it is exact. */
FACING_CHECKED FACING_API uint32_t facing_bytes_count(facing_bytes_handle *any, uint64_t *count) {
    if (count == FACING_NULL) return FACING_BAD_ARGUMENT;
    *count = 0;
    if (any == FACING_NULL) return FACING_BAD_ARGUMENT;
    return facing_any_count(&any->at, count, FACING_BYTES);
}

/* Closes the map, whose clients must all be freed. Its handle is then that of the closed map, which can be read and
 * reopened. Returns FACING_CLIENT_OUT where a client is not freed, and the map goes on; FACING_NO_MEMORY, and then the map
 * gives out no more clients, and can be closed again; FACING_BIN_MISSING, and then the map has ended. */
FACING_CHECKED FACING_API uint32_t facing_bytes_close(facing_bytes_handle *map) {
    if (map == FACING_NULL) return FACING_BAD_ARGUMENT;
    return facing_any_close(&map->at, FACING_BYTES);
}

/* Copies the value at a key of a closed map into `room`, as facing_bytes_get does. Takes no lock and no memory. */
FACING_CHECKED FACING_API uint32_t facing_bytes_find(facing_bytes_handle *closed, const void *key, size_t key_len,
                                                     void *room, size_t room_len, facing_bytes_answer *answer) {
    facing_handle lent, back = {FACING_NULL};
    facing_answer told = {0, 0};
    uint32_t status;
    facing_bytes_tell(answer, told);
    if (closed == FACING_NULL || answer == FACING_NULL || facing_bytes_are_wrong(key, key_len, room, room_len))
        return FACING_BAD_ARGUMENT;
    lent = facing_lend(closed->at, FACING_BYTES);
    FACING_ENTER(0);
    status = facing_c_bytes_find(lent, &back, facing_bytes_at(key), key_len, facing_bytes_at(room), room_len, &told);
    FACING_LEAVE(0);
    closed->at = facing_back(closed->at, lent.at, back.at);
    facing_bytes_tell(answer, told);
    return status;
}

/* Stores in `sizes` how many pairs a map has, and of how many bytes keys and values are, by the handle of a closed map or,
 * as facing_pairs reads them, by a client. Goes over all buckets, and allocates a copy of each. */
FACING_CHECKED FACING_API uint32_t facing_bytes_sizes_of(facing_bytes_handle *any, facing_bytes_sizes *sizes) {
    facing_handle lent, back;
    facing_bytes_sizes step = {0, 0};
    uint64_t at = 0, next, no_lens[1], no_others[1];
    uint32_t status;
    unsigned round = 0;
    if (sizes == FACING_NULL) return FACING_BAD_ARGUMENT;
    *sizes = step;
    if (any == FACING_NULL) return FACING_BAD_ARGUMENT;
    do {
        next = at;
        lent = facing_lend(any->at, FACING_BYTES);
        back.at = FACING_NULL;
        FACING_ENTER(0);
        status = facing_c_bytes_try_pairs(lent, &back, at, &next, no_lens, 0, no_others, 0, facing_bytes_at(FACING_NULL), 0,
                                          &step);
        FACING_LEAVE(0);
        any->at = facing_back(any->at, lent.at, back.at);
        if (status == FACING_NO_ROOM || status == FACING_DONE) {
            sizes->pairs += step.pairs;
            sizes->bytes += step.bytes;
            at = next;
            round = 0;
            status = FACING_DONE;
        } else if (status == FACING_BUSY) {
            round = facing_back_off(round, 0);
            if (round == FACING_NEVER) status = FACING_AFTER_FORK;
        }
    } while (status == FACING_BUSY || (status == FACING_DONE && at != UINT64_MAX));
    FACING_SEE_ALL();
    if (status != FACING_DONE) sizes->pairs = sizes->bytes = 0;
    return status;
}

/* Tries to copy the pairs of one bucket behind those that were copied, of values at most so many bytes. */
FACING_INNER uint32_t facing_bytes_try_copy(facing_bytes_handle *any, uint64_t at, uint64_t *next, size_t most,
                                            uint64_t *key_lens, uint64_t *value_lens, size_t len, uint8_t *room,
                                            size_t room_len, facing_bytes_sizes *step) {
    facing_handle lent = facing_lend(any->at, FACING_BYTES), back = {FACING_NULL};
    uint32_t status;
    FACING_ENTER(0);
    if (most == SIZE_MAX)
        status = facing_c_bytes_try_pairs(lent, &back, at, next, key_lens, len, value_lens, len, room, room_len, step);
    else
        status = facing_c_bytes_try_heads(lent, &back, at, most, next, key_lens, len, value_lens, len, room, room_len, step);
    FACING_LEAVE(0);
    any->at = facing_back(any->at, lent.at, back.at);
    return status;
}

FACING_INNER uint32_t facing_bytes_copy(facing_bytes_handle *any, facing_cursor *cursor, size_t most, uint64_t *key_lens,
                                        uint64_t *value_lens, size_t len, void *room, size_t room_len,
                                        facing_bytes_sizes *copied) {
    facing_bytes_sizes step = {0, 0};
    uint64_t next;
    uint32_t status;
    unsigned round = 0, buckets = 0;
    if (copied == FACING_NULL) return FACING_BAD_ARGUMENT;
    *copied = step;
    if (any == FACING_NULL || cursor == FACING_NULL || key_lens == FACING_NULL || value_lens == FACING_NULL || len >> 57 != 0
        || facing_bytes_meet(key_lens, len * sizeof *key_lens, value_lens, len * sizeof *value_lens)
        || facing_bytes_are_wrong(key_lens, len * sizeof *key_lens, room, room_len)
        || facing_bytes_meet(value_lens, len * sizeof *value_lens, room, room_len))
        return FACING_BAD_ARGUMENT;
    do {
        next = cursor->at;
        status = facing_bytes_try_copy(any, cursor->at, &next, most, key_lens + copied->pairs, value_lens + copied->pairs,
                                       len - copied->pairs, facing_bytes_at(room) + copied->bytes, room_len - copied->bytes,
                                       &step);
        if (status == FACING_DONE) {
            copied->pairs += step.pairs;
            copied->bytes += step.bytes;
            cursor->at = next;
            buckets++;
            round = 0;
        } else if (status == FACING_BUSY) {
            round = facing_back_off(round, 0);
            if (round == FACING_NEVER) status = FACING_AFTER_FORK;
        }
    } while (status == FACING_BUSY
             || (status == FACING_DONE && cursor->at != UINT64_MAX && buckets < FACING_MOST_BUCKETS));
    FACING_SEE_ALL();
    if (copied->pairs != 0) return FACING_DONE;
    if (status == FACING_NO_ROOM) *copied = step;
    return status;
}

/* Copies the pairs of the next buckets, at most 1,024, as facing_pairs does, of a closed map or, by a client, of an open
 * one. Keys and values are copied into `room`, each key before its value, and their lengths into `key_lens` and
 * `value_lens`, which have room for `len` of them. Stores in `copied` how many pairs and bytes were copied. Where the next
 * bucket alone is too large the status is FACING_NO_ROOM, `copied` is what it needs, and the cursor is at it. */
FACING_CHECKED FACING_API uint32_t facing_bytes_pairs(facing_bytes_handle *any, facing_cursor *cursor, uint64_t *key_lens,
                                                      uint64_t *value_lens, size_t len, void *room, size_t room_len,
                                                      facing_bytes_sizes *copied) {
    return facing_bytes_copy(any, cursor, SIZE_MAX, key_lens, value_lens, len, room, room_len, copied);
}

/* Copies keys as facing_bytes_pairs copies pairs, and of each value only its first bytes, at most `most`; with 0 the keys
 * alone. A value's length in `value_lens` is that of the whole value. */
FACING_CHECKED FACING_API uint32_t facing_bytes_heads(facing_bytes_handle *any, facing_cursor *cursor, size_t most,
                                                      uint64_t *key_lens, uint64_t *value_lens, size_t len, void *room,
                                                      size_t room_len, facing_bytes_sizes *copied) {
    return facing_bytes_copy(any, cursor, most, key_lens, value_lens, len, room, room_len, copied);
}

/* Opens a map with copies of the pairs of a closed one, which stays as it is, and with its seed. Fails as facing_bytes_open
 * does, but never with FACING_NO_SEED. */
FACING_CHECKED FACING_API uint32_t facing_bytes_reopen(facing_bytes_handle *closed, uint32_t clients,
                                                       facing_bytes_handle *map) {
    if (map == FACING_NULL || closed == map) return FACING_BAD_ARGUMENT;
    map->at = FACING_NULL;
    if (closed == FACING_NULL) return FACING_BAD_ARGUMENT;
    return facing_any_reopen(&closed->at, clients, &map->at, FACING_BYTES);
}

/* Frees what a handle stands for, and sets the handle to null: a client goes back to its map, a value has one owner less; a
 * map ends with its last handle. A null handle is left alone. */
FACING_API void facing_bytes_free(facing_bytes_handle *any) {
    if (any != FACING_NULL) facing_any_free(&any->at, FACING_BYTES);
}

/* Fills `more` with one more handle of a closed map, as facing_again does. */
FACING_CHECKED FACING_API uint32_t facing_bytes_again(facing_bytes_handle *closed, facing_bytes_handle *more) {
    if (more == FACING_NULL || closed == more) return FACING_BAD_ARGUMENT;
    more->at = FACING_NULL;
    if (closed == FACING_NULL) return FACING_BAD_ARGUMENT;
    return facing_any_again(&closed->at, &more->at, FACING_BYTES);
}

#ifdef __cplusplus
}
#endif
#endif
