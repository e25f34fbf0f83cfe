/* Changes of a value by what it is, each in one call: compare and exchange, and a sum up to a bound, for the maps of
 * facing.h, facing_counts.h and facing_bytes.h. C99 or later, C++98 or later; Linux.
 *
 * Each call is one call of the map: the value is seen and changed under one lock of its bucket, and no other call comes
 * between. The rules at the head of facing.h hold; statuses and memory are as those of a put.
 *
 * A loop over an exchange makes any change of a value: get the value, compute the new one, exchange it for the one that was
 * got, and begin again with what was seen where another thread came first:
 *
 *     status = facing_get(client, key, &got);
 *     while (status == FACING_DONE) {
 *         uint64_t next = change_of(got.value);
 *         status = facing_exchange(client, key, got.found ? &got.value : NULL, &next, &seen);
 *         if (seen.exchanged) break;
 *         got.found = seen.found;
 *         got.value = seen.value;
 *     } */
#ifndef FACING_CHANGE_H
#define FACING_CHANGE_H
#include "facing_counts.h"

#ifdef __cplusplus
extern "C" {
#endif

/* What an exchange saw: `exchanged` is 1 where the value was the expected one, and was changed; `found` is 1 where there
 * was a value; `value` is that value, or 0. */
typedef struct facing_seen {
    uint32_t exchanged, found;
    uint64_t value;
} facing_seen;

/* The same of byte strings: `len` is how many bytes the value had, or 0. */
typedef struct facing_bytes_seen {
    uint32_t exchanged, found;
    uint64_t len;
} facing_bytes_seen;

/* Bytes that are an argument. `at` may be NULL where `len` is 0. */
typedef struct facing_bytes_view {
    const void *at;
    size_t len;
} facing_bytes_view;

/* The exports, as facing_base.h says. Where `has_expected` or `has_value` is 0, the argument after it is not read. */
uint32_t facing_c_try_exchange(facing_handle client, facing_handle *out, uint64_t key, uint32_t has_expected,
                               uint64_t expected, uint32_t has_value, uint64_t value, facing_seen *seen);
uint32_t facing_c_try_add_up_to(facing_handle client, facing_handle *out, uint64_t key, uint64_t amount, uint64_t most,
                                facing_answer *answer);
uint32_t facing_c_counts_try_exchange(facing_handle client, facing_handle *out, const uint8_t *key, size_t key_len,
                                      uint32_t has_expected, uint64_t expected, uint32_t has_value, uint64_t value,
                                      facing_seen *seen);
uint32_t facing_c_counts_try_add_up_to(facing_handle client, facing_handle *out, const uint8_t *key, size_t key_len,
                                       uint64_t amount, uint64_t most, facing_answer *answer);
uint32_t facing_c_bytes_try_exchange(facing_handle client, facing_handle *out, const uint8_t *key, size_t key_len,
                                     uint32_t has_expected, const uint8_t *expected, size_t expected_len, uint32_t has_value,
                                     const uint8_t *value, size_t value_len, uint8_t *room, size_t room_len,
                                     facing_seen *seen);

/* Makes a call of a client again while the key's bucket is locked. */
#define FACING_CHANGE(library, place, export_and_arguments)                                                                 \
    do {                                                                                                                    \
        lent = facing_lend(client->at, library);                                                                            \
        back.at = FACING_NULL;                                                                                              \
        FACING_ENTER(place);                                                                                                \
        status = export_and_arguments;                                                                                      \
        FACING_LEAVE(place);                                                                                                \
        client->at = facing_back(client->at, lent.at, back.at);                                                             \
        if (status == FACING_BUSY) round = facing_back_off(round, 0);                                                       \
    } while (status == FACING_BUSY && round != FACING_NEVER);                                                               \
    if (status == FACING_BUSY) status = FACING_AFTER_FORK

/* Stores *value at the key, or removes the key where `value` is NULL, if the key's value is *expected, or if it has none
 * and `expected` is NULL. Else nothing changes. `seen` is whether it was so, and the value that was there; it may be
 * NULL. */
FACING_CHECKED FACING_API uint32_t facing_exchange(facing_handle *client, uint64_t key, const uint64_t *expected,
                                                   const uint64_t *value, facing_seen *seen) {
    facing_seen told = {0, 0, 0};
    facing_handle lent, back;
    uint32_t status;
    unsigned round = 0;
    uint64_t from = expected != FACING_NULL ? *expected : 0, to = value != FACING_NULL ? *value : 0;
    if (seen != FACING_NULL) *seen = told;
    if (client == FACING_NULL) return FACING_BAD_ARGUMENT;
    FACING_CHANGE(FACING_NUMBERS, key,
                  facing_c_try_exchange(lent, &back, key, expected != FACING_NULL, from, value != FACING_NULL, to, &told));
    if (seen != FACING_NULL) *seen = told;
    return status;
}

/* Adds to the value at the key where the sum is at most `most`; a key without a value counts as 0. Else nothing changes.
 * The answer's `found` is 1 where it was added, and `value` is the value after the call, or 0 where the key has none. It
 * may be NULL. So a counter with a bound is one call, as for a limit of requests: facing_add_up_to(client, who, 1, 100,
 * &answer). */
FACING_CHECKED FACING_API uint32_t facing_add_up_to(facing_handle *client, uint64_t key, uint64_t amount, uint64_t most,
                                                    facing_answer *answer) {
    facing_answer told = {0, 0};
    facing_handle lent, back;
    uint32_t status;
    unsigned round = 0;
    if (answer != FACING_NULL) *answer = told;
    if (client == FACING_NULL) return FACING_BAD_ARGUMENT;
    FACING_CHANGE(FACING_NUMBERS, key, facing_c_try_add_up_to(lent, &back, key, amount, most, &told));
    if (answer != FACING_NULL) *answer = told;
    return status;
}

/* Exchanges as facing_exchange does. */
FACING_CHECKED FACING_API uint32_t facing_counts_exchange(facing_counts_handle *client, const void *key, size_t key_len,
                                                          const uint64_t *expected, const uint64_t *value,
                                                          facing_seen *seen) {
    facing_seen told = {0, 0, 0};
    facing_handle lent, back;
    uint32_t status;
    unsigned round = 0;
    uint64_t from = expected != FACING_NULL ? *expected : 0, to = value != FACING_NULL ? *value : 0;
    if (seen != FACING_NULL) *seen = told;
    if (client == FACING_NULL || facing_bytes_are_none(key, key_len)) return FACING_BAD_ARGUMENT;
    FACING_CHANGE(FACING_COUNTS, FACING_BYTES_PLACE(key, key_len),
                  facing_c_counts_try_exchange(lent, &back, facing_bytes_at(key), key_len, expected != FACING_NULL, from,
                                               value != FACING_NULL, to, &told));
    if (seen != FACING_NULL) *seen = told;
    return status;
}

/* Adds as facing_add_up_to does. */
FACING_CHECKED FACING_API uint32_t facing_counts_add_up_to(facing_counts_handle *client, const void *key, size_t key_len,
                                                           uint64_t amount, uint64_t most, facing_answer *answer) {
    facing_answer told = {0, 0};
    facing_handle lent, back;
    uint32_t status;
    unsigned round = 0;
    if (answer != FACING_NULL) *answer = told;
    if (client == FACING_NULL || facing_bytes_are_none(key, key_len)) return FACING_BAD_ARGUMENT;
    FACING_CHANGE(FACING_COUNTS, FACING_BYTES_PLACE(key, key_len),
                  facing_c_counts_try_add_up_to(lent, &back, facing_bytes_at(key), key_len, amount, most, &told));
    if (answer != FACING_NULL) *answer = told;
    return status;
}

/* Whether bytes that an exchange is given cannot be an argument, or lie over the room. */
FACING_SEEN int facing_bytes_view_is_wrong(const facing_bytes_view *view, const void *room, size_t room_len) {
    return view != FACING_NULL && facing_bytes_are_wrong(view->at, view->len, room, room_len);
}

/* Stores the bytes of `value` at the key, or removes the key where `value` is NULL, if the key's value is that of
 * `expected`, or if it has none and `expected` is NULL. Else nothing changes. `seen` is whether it was so, and how many
 * bytes the value had that was there; its first bytes are copied into `room`, as many as it has room for. `seen` may be
 * NULL. The new value is copied before the bucket is locked, also where it is not stored then. */
FACING_CHECKED FACING_API uint32_t facing_bytes_exchange(facing_bytes_handle *client, const void *key, size_t key_len,
                                                         const facing_bytes_view *expected, const facing_bytes_view *value,
                                                         void *room, size_t room_len, facing_bytes_seen *seen) {
    static const facing_bytes_view no_bytes = {FACING_NULL, 0};
    facing_bytes_seen none = {0, 0, 0};
    facing_seen told = {0, 0, 0};
    facing_handle lent, back;
    uint32_t status;
    unsigned round = 0;
    const facing_bytes_view *from = expected != FACING_NULL ? expected : &no_bytes;
    const facing_bytes_view *to = value != FACING_NULL ? value : &no_bytes;
    if (seen != FACING_NULL) *seen = none;
    if (client == FACING_NULL || facing_bytes_are_wrong(key, key_len, room, room_len)
        || facing_bytes_view_is_wrong(from, room, room_len) || facing_bytes_view_is_wrong(to, room, room_len))
        return FACING_BAD_ARGUMENT;
    FACING_CHANGE(FACING_BYTES, FACING_BYTES_PLACE(key, key_len),
                  facing_c_bytes_try_exchange(lent, &back, facing_bytes_at(key), key_len, expected != FACING_NULL,
                                              facing_bytes_at(from->at), from->len, value != FACING_NULL,
                                              facing_bytes_at(to->at), to->len, facing_bytes_at(room), room_len, &told));
    if (seen != FACING_NULL) {
        seen->exchanged = told.exchanged;
        seen->found = told.found;
        seen->len = told.value;
    }
    return status;
}

#undef FACING_CHANGE

#ifdef __cplusplus
}
#endif
#endif
