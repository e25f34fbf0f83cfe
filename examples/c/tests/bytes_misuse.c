/* Makes calls at random on handles of maps of byte strings, right ones and wrong ones: null, freed, of a closed map, of another
 * kind, with null pointers, with room that lies over a key, and with keys, values and numbers past the limits. Each wrong one must
 * end with its code and change nothing.
 *
 * usage: bytes_misuse [MISUSES [SEED]] */
#include "facing_bytes.h"
#include <stdio.h>
#include <stdlib.h>
#include <string.h>

enum { KEYS = 16, VALUES = 5, SMALL = 40 };

/* What is in a map, the number of each key's value or 0, and how many clients it has and gave out; alive by so many handles. */
struct content {
    unsigned values[KEYS];
    uint32_t clients, out, handles;
};

typedef facing_bytes_handle any_handle;

#include "misusing.h"

/* Some bytes. */
struct text {
    const uint8_t *at;
    size_t len;
};

static uint8_t pattern[FACING_LONGEST + 300], room[FACING_LONGEST + 300];

/* More bytes than a value may have, which nobody reads. */
static uint8_t *unread;

/* The bytes of a key, the last of which are the most that a key may have; key 0 has none. */
static struct text key_of(unsigned key) {
    struct text text = {pattern + key, key + 1 == KEYS ? (size_t)FACING_LONGEST : (size_t)key * 3};
    return text;
}

/* The bytes of a value, the last of which are as many as a key may have. */
static struct text value_of(unsigned value) {
    struct text text = {pattern + 100 + value, value + 1 == VALUES ? (size_t)FACING_LONGEST : (size_t)value * 9};
    return text;
}

static void free_slot(struct slot *it) {
    facing_bytes_free(seldom() ? NULL : &it->handle);
    facing_bytes_free(&it->handle);
    empty(it);
    want_kept(it);
}

static void open_map(struct slot *it) {
    uint32_t expected = seldom() ? FACING_BAD_CAPACITY : seldom() ? FACING_BAD_CLIENTS : FACING_DONE;
    uint32_t clients = expected == FACING_BAD_CLIENTS ? (below(2) ? 0 : 65537) : (uint32_t)below(4) + 1;
    const uint64_t seed[2] = {draw(), draw()};
    size_t capacity = expected == FACING_BAD_CAPACITY ? (below(2) ? 0 : ((size_t)1 << 26) + 1) : (size_t)below(64) + 1;
    if (seldom()) want_status(facing_bytes_open(capacity, clients, NULL), FACING_BAD_ARGUMENT, "open");
    if (seldom()) want_status(facing_bytes_open_seeded(capacity, clients, below(2) ? seed : NULL, NULL), FACING_BAD_ARGUMENT, "open");
    free_slot(it);
    if (seldom()) want_status(facing_bytes_open_seeded(capacity, clients, NULL, &it->handle), FACING_BAD_ARGUMENT, "open");
    want_status(facing_bytes_open_seeded(capacity, clients, seed, &it->handle), expected, "open");
    if (expected == FACING_DONE) fill(it, MAP, content_like(NULL, clients));
    want_kept(it);
}

static void take_client(struct slot *it, struct slot *to) {
    if (it == to || seldom()) {
        facing_bytes_handle *from = below(2) ? &it->handle : NULL, *into = it == to ? &it->handle : NULL;
        if (from == NULL && into != NULL) free_slot(it);
        want_status(facing_bytes_client(from, into), FACING_BAD_ARGUMENT, "client");
    } else {
        uint32_t expected;
        free_slot(to);
        expected = it->kind != MAP ? FACING_WRONG_HANDLE : it->of->out == it->of->clients ? FACING_NO_CLIENT : FACING_DONE;
        want_status(facing_bytes_client(&it->handle, &to->handle), expected, "client");
        if (expected == FACING_DONE) fill(to, CLIENT, it->of), it->of->out++;
    }
    want_kept(it);
    want_kept(to);
}

/* The call of a number, by a client or by what is none. */
static uint32_t call(unsigned kind, facing_bytes_handle *client, struct text k, struct text v, struct text w, size_t len,
                     facing_bytes_answer *answer) {
    switch (kind) {
    case 0: return facing_bytes_get(client, k.at, k.len, room, len, answer);
    case 1: return facing_bytes_contains(client, k.at, k.len, answer);
    case 2: return facing_bytes_put(client, k.at, k.len, v.at, v.len, room, len, answer);
    case 3: return facing_bytes_put_if_absent(client, k.at, k.len, v.at, v.len, room, len, answer);
    case 4: return facing_bytes_remove(client, k.at, k.len, room, len, answer);
    case 5: return facing_bytes_remove_if(client, k.at, k.len, v.at, v.len, answer);
    case 6: return facing_bytes_replace(client, k.at, k.len, v.at, v.len, room, len, answer);
    default: return facing_bytes_replace_if(client, k.at, k.len, v.at, v.len, w.at, w.len, answer);
    }
}

static int is_truth(unsigned kind) {
    return kind == 1 || kind == 5 || kind == 7;
}

/* What the call does to a map with this content; it tells whether the answer is that there is something. */
static int note(unsigned kind, struct content *of, unsigned key, unsigned value, unsigned other) {
    unsigned *at = &of->values[key], old = *at;
    switch (kind) {
    case 0: case 1: break;
    case 2: *at = value; break;
    case 3: *at = old == 0 ? value : old; break;
    case 4: *at = 0; break;
    case 5: *at = old == value ? 0 : old; return old == value;
    case 6: *at = old == 0 ? 0 : value; break;
    default: *at = old == value ? other : old; return old == value;
    }
    return old != 0;
}

/* The room has the value as far as it goes, and is as it was beyond it. */
static void want_room(struct text value, size_t len, const char *what) {
    size_t n = value.len < len ? value.len : len;
    want(n == 0 || memcmp(room, value.at, n) == 0, what);
    for (size_t i = n; i < n + SMALL && i < sizeof room; i++) want(room[i] == 7, "what is beyond a value");
}

static size_t some_len(void) {
    return below(3) == 0 ? (size_t)FACING_LONGEST : (size_t)below(SMALL);
}

static void make_call(struct slot *it) {
    unsigned kind = (unsigned)below(8), key = (unsigned)below(KEYS), value = 1 + (unsigned)below(VALUES - 1);
    unsigned other = 1 + (unsigned)below(VALUES - 1), old;
    struct text k = key_of(key), v = value_of(value), w = value_of(other), none = {NULL, 0};
    size_t len = some_len();
    facing_bytes_answer answer = {7, 7};
    uint32_t expected = it->kind == CLIENT ? FACING_DONE : FACING_WRONG_HANDLE;
    memset(room, 7, (size_t)2 * SMALL);
    memset(room + FACING_LONGEST - SMALL, 7, (size_t)2 * SMALL);
    old = it->kind == CLIENT ? it->of->values[key] : 0;
    if (seldom()) {
        k.at = NULL;
        k.len += k.len == 0;
        want_status(call(kind, &it->handle, k, v, w, len, &answer), FACING_BAD_ARGUMENT, "a key that lies nowhere");
        want(answer.found == 0 && answer.len == 0, "the answer to a key that lies nowhere");
    } else if (seldom() && len != 0 && !is_truth(kind)) {
        k.at = room + below(len);
        k.len = 1;
        want_status(call(kind, &it->handle, k, v, w, len, &answer), FACING_BAD_ARGUMENT, "a key in the room");
        want(answer.found == 0 && answer.len == 0, "the answer to a key in the room");
    } else if (seldom()) {
        want_status(call(kind, NULL, k, v, w, len, &answer), FACING_BAD_ARGUMENT, "a call of nothing");
        want(answer.found == 0 && answer.len == 0, "the answer to a call of nothing");
    } else if (seldom()) {
        int is_key = kind < 2 || kind == 4 || below(2);
        if (expected == FACING_DONE) expected = FACING_TOO_LONG;
        if (is_key) k.at = pattern, k.len = (size_t)FACING_LONGEST + 1 + below(100);
        else v.at = unread, v.len = (size_t)FACING_LONGEST_VALUE + 1 + below(100);
        want_status(call(kind, &it->handle, k, v, w, len, &answer), expected, "a long key or value");
        want(answer.found == 0 && answer.len == 0, "the answer to a long key or value");
        want_room(none, 0, "what a long key leaves");
    } else {
        int is_there = 0;
        if (kind == 0 && old != 0 && value_of(old).len > len) expected = FACING_NO_ROOM;
        want_status(call(kind, &it->handle, key == 0 && below(2) ? none : k, v, w, len, &answer), expected, "a call");
        if (it->kind == CLIENT) is_there = note(kind, it->of, key, value, other);
        want(answer.found == (uint32_t)is_there, "what a call finds");
        want(answer.len == (is_there && !is_truth(kind) ? value_of(old).len : 0), "the length of a value");
        want_room(is_there && !is_truth(kind) && expected != FACING_NO_ROOM ? value_of(old) : none, len, "the value before");
    }
    want_kept(it);
}

/* A call that is not made leaves the answer as it was: one of what is no client, or with a key that is too long. */
static void call_in_vain(struct slot *it) {
    facing_handle given = {it->handle.at}, out = {NULL};
    facing_answer answer = {7, 7};
    size_t len = (size_t)FACING_LONGEST + (it->kind == CLIENT ? 1 : below(2));
    want_status(facing_c_bytes_try_contains(given, &out, pattern, len, &answer),
                it->kind == CLIENT ? FACING_TOO_LONG : FACING_WRONG_HANDLE, "a call in vain");
    it->handle.at = out.at;
    want(answer.found == 7 && answer.value == 7, "what a call in vain leaves");
    want_kept(it);
}

static uint64_t live(const struct content *of) {
    uint64_t count = 0;
    for (int i = 0; i < KEYS; i++) count += of->values[i] != 0;
    return count;
}

static int is_map(const struct slot *it) {
    return it->kind != NOTHING && it->kind != HELD;
}

static uint64_t bytes_of(const struct content *of) {
    uint64_t bytes = 0;
    for (unsigned i = 0; i < KEYS; i++) bytes += of->values[i] != 0 ? key_of(i).len + value_of(of->values[i]).len : 0;
    return bytes;
}

static void count_keys(struct slot *it) {
    uint64_t count = 7;
    int is_null = seldom();
    want_status(facing_bytes_count(is_null ? NULL : &it->handle, &count),
                is_null ? FACING_BAD_ARGUMENT : is_map(it) ? FACING_DONE : FACING_WRONG_HANDLE, "count");
    want(count == (is_null || !is_map(it) ? 0 : live(it->of)), "a count");
    want_kept(it);
}

static void close_map(struct slot *it) {
    uint32_t expected = it->kind != MAP ? FACING_WRONG_HANDLE : it->of->out != 0 ? FACING_CLIENT_OUT : FACING_DONE;
    if (seldom()) want_status(facing_bytes_close(NULL), FACING_BAD_ARGUMENT, "close");
    want_status(facing_bytes_close(&it->handle), expected, "close");
    if (expected == FACING_DONE) it->kind = CLOSED;
    want_kept(it);
}

static void find_key(struct slot *it) {
    unsigned key = (unsigned)below(KEYS), value = it->kind == CLOSED ? it->of->values[key] : 0;
    struct text k = key_of(key), none = {NULL, 0};
    int is_long = seldom(), fits;
    size_t len = some_len();
    facing_bytes_answer answer = {7, 7};
    if (is_long) k.at = pattern, k.len = FACING_LONGEST + 1, value = 0;
    memset(room, 7, (size_t)2 * SMALL);
    memset(room + FACING_LONGEST - SMALL, 7, (size_t)2 * SMALL);
    fits = value == 0 || value_of(value).len <= len;
    want_status(facing_bytes_find(&it->handle, k.at, k.len, room, len, &answer),
                it->kind != CLOSED ? FACING_WRONG_HANDLE : is_long ? FACING_TOO_LONG : fits ? FACING_DONE : FACING_NO_ROOM, "find");
    want(answer.found == (value != 0) && answer.len == (value != 0 ? value_of(value).len : 0), "what is found");
    want_room(value != 0 && fits ? value_of(value) : none, len, "the value that is found");
    want_kept(it);
}

/* How many of so many bytes are copied where at most `front` are. */
static size_t head_of(uint64_t len, size_t front) {
    return len < front ? (size_t)len : front;
}

/* Whether the next bytes of the room are a pair of the map, whose value has that length; at most `front` bytes of it lie there. */
static int is_pair(const struct content *of, const uint8_t *at, uint64_t key_len, uint64_t value_len, size_t front) {
    for (unsigned key = 0; key < KEYS; key++) {
        struct text k = key_of(key), v = value_of(of->values[key]);
        if (of->values[key] != 0 && k.len == key_len && memcmp(k.at, at, k.len) == 0)
            return v.len == value_len && memcmp(v.at, at + key_len, head_of(v.len, front)) == 0;
    }
    return 0;
}

/* Walks over a map, some pairs at a time, in room for few or for many. What finds no room tells how much it needs. */
static void walk(struct slot *it) {
    uint64_t key_lens[KEYS], value_lens[KEYS], all = 0;
    static uint8_t pairs[KEYS * 2 * FACING_LONGEST];
    int can = it->kind == CLOSED || it->kind == CLIENT;
    size_t len = (size_t)below(KEYS + 1), most = below(2) ? sizeof pairs : (size_t)below(4 * FACING_LONGEST);
    size_t front = below(2) ? SIZE_MAX : (size_t)below(40);
    facing_cursor cursor = {0};
    facing_bytes_sizes copied = {7, 7}, sizes = {0, 0};
    if (seldom())
        want_status(facing_bytes_pairs(&it->handle, &cursor, key_lens, key_lens, KEYS, pairs, most, &copied), FACING_BAD_ARGUMENT,
                    "pairs with one room for both lengths");
    do {
        size_t at = 0;
        uint32_t status =
            front == SIZE_MAX ? facing_bytes_pairs(&it->handle, &cursor, key_lens, value_lens, len, pairs, most, &copied)
                              : facing_bytes_heads(&it->handle, &cursor, front, key_lens, value_lens, len, pairs, most, &copied);
        if (can && status == FACING_NO_ROOM && (len < KEYS || most < sizeof pairs)) {
            want(copied.pairs > len || copied.bytes > most, "what finds no room");
            len = KEYS;
            most = sizeof pairs;
            continue;
        }
        want_status(status, can ? FACING_DONE : FACING_WRONG_HANDLE, "pairs");
        for (size_t i = 0; i < copied.pairs; i++) {
            want(is_pair(it->of, pairs + at, key_lens[i], value_lens[i], front), "a pair");
            at += key_lens[i] + head_of(value_lens[i], front);
        }
        want(at == copied.bytes, "the bytes of pairs");
        all += copied.pairs;
    } while (can && cursor.at != UINT64_MAX && wrong == 0);
    want(all == (can ? live(it->of) : 0), "how many pairs");
    want_status(facing_bytes_sizes_of(&it->handle, &sizes), can ? FACING_DONE : FACING_WRONG_HANDLE, "sizes");
    want(sizes.pairs == all && sizes.bytes == (can ? bytes_of(it->of) : 0), "sizes");
    want_kept(it);
}

/* Holds a value, which stays when the map changes. */
static void hold_value(struct slot *it, struct slot *to) {
    unsigned key = (unsigned)below(KEYS), value = it->kind == CLIENT ? it->of->values[key] : 0;
    struct text k = key_of(key);
    facing_bytes_answer answer = {7, 7};
    if (it == to || seldom()) {
        want_status(facing_bytes_hold(&it->handle, k.at, k.len, it == to ? &it->handle : NULL, &answer), FACING_BAD_ARGUMENT, "hold");
        want(answer.found == 0 && answer.len == 0, "the answer of a hold that is wrong");
        return;
    }
    free_slot(to);
    value = it->kind == CLIENT ? it->of->values[key] : 0;
    want_status(facing_bytes_hold(&it->handle, k.at, k.len, &to->handle, &answer),
                it->kind == CLIENT ? FACING_DONE : FACING_WRONG_HANDLE, "hold");
    want(answer.found == (value != 0) && answer.len == (value != 0 ? value_of(value).len : 0), "what is held");
    if (value != 0) fill(to, HELD, it->of), to->value = value;
    want_kept(it);
    want_kept(to);
}

static void read_value(struct slot *it) {
    struct text rest = {NULL, 0};
    size_t from = below(3) == 0 ? (size_t)draw() : (size_t)below(SMALL), len = some_len();
    facing_bytes_answer answer = {7, 7};
    memset(room, 7, (size_t)2 * SMALL);
    memset(room + FACING_LONGEST - SMALL, 7, (size_t)2 * SMALL);
    want_status(facing_bytes_read(&it->handle, from, room, len, &answer), it->kind == HELD ? FACING_DONE : FACING_WRONG_HANDLE, "read");
    if (it->kind == HELD && from < value_of(it->value).len) {
        rest.at = value_of(it->value).at + from;
        rest.len = value_of(it->value).len - from;
    }
    want(answer.found == (it->kind == HELD) && answer.len == (it->kind == HELD ? value_of(it->value).len : 0), "what is read of");
    want_room(rest, len, "what is read");
    want_kept(it);
}

static void open_again(struct slot *it, struct slot *to) {
    uint32_t clients = (uint32_t)below(4) + 1;
    if (it == to || seldom()) {
        facing_bytes_handle *from = below(2) ? &it->handle : NULL, *into = it == to ? &it->handle : NULL;
        if (from == NULL && into != NULL) free_slot(it);
        want_status(facing_bytes_reopen(from, clients, into), FACING_BAD_ARGUMENT, "reopen");
    } else {
        uint32_t expected = it->kind == CLOSED ? FACING_DONE : FACING_WRONG_HANDLE;
        free_slot(to);
        if (expected == FACING_DONE && seldom()) clients = 0, expected = FACING_BAD_CLIENTS;
        want_status(facing_bytes_reopen(&it->handle, clients, &to->handle), expected, "reopen");
        if (expected == FACING_DONE) fill(to, MAP, content_like(it->of, clients));
    }
    want_kept(it);
    want_kept(to);
}

/* An export that is handed null refuses it, and leaves everything as it was. */
static void call_with_null(void) {
    facing_handle null = {NULL}, out = {NULL}, more = {NULL};
    facing_answer answer = {7, 7};
    uint8_t key[1] = {7}, to[1] = {7};
    uint64_t lens[1] = {7}, others[1] = {7}, next = 7;
    facing_bytes_sizes sizes = {7, 7};
    uint32_t status;
    switch (below(9)) {
    case 0: status = facing_c_bytes_try_hold(null, &out, key, 1, &more, &answer); break;
    case 1: status = facing_c_bytes_try_get(null, &out, key, 1, to, 1, &answer); break;
    case 2: status = facing_c_bytes_try_put(null, &out, key, 1, key, 1, to, 1, &answer); break;
    case 3: status = facing_c_bytes_try_replace_if(null, &out, key, 1, key, 1, key, 1, &answer); break;
    case 4: status = facing_c_count(null, &out, &answer); break;
    case 5: status = facing_c_bytes_read(null, &out, 0, to, 1, &answer); break;
    case 6: status = facing_c_bytes_find(null, &out, key, 1, to, 1, &answer); break;
    case 7: status = facing_c_bytes_try_pairs(null, &out, 0, &next, lens, 1, others, 1, to, 1, &sizes); break;
    default: status = facing_c_bytes_try_contains(null, &out, key, 1, &answer);
    }
    want_status(status, FACING_WRONG_HANDLE, "a call of null");
    want(out.at == NULL && more.at == NULL, "null's room");
    want(answer.found == 7 && answer.value == 7 && to[0] == 7 && lens[0] == 7 && others[0] == 7 && sizes.pairs == 7, "what null's call leaves");
    facing_c_free(null);
}

int main(int argc, char **argv) {
    uint64_t most = argc > 1 ? strtoull(argv[1], NULL, 10) : 10000;
    state = argc > 2 ? strtoull(argv[2], NULL, 10) : 1;
    unread = (uint8_t *)malloc((size_t)FACING_LONGEST_VALUE + 101);
    if (unread == NULL) return 1;
    for (size_t i = 0; i < sizeof pattern; i++) pattern[i] = (uint8_t)(i * i / 3 + i);
    while (misuses < most && wrong == 0) {
        switch (below(40)) {
        case 0: open_map(some_slot(NOTHING)); break;
        case 1: case 2: case 3: take_client(some_slot(MAP), some_slot(NOTHING)); break;
        case 4: close_map(some_slot(MAP)); break;
        case 5: open_again(some_slot(CLOSED), some_slot(NOTHING)); break;
        case 6: free_slot(some_slot(below(2) ? CLIENT : below(2) ? CLOSED : HELD)); break;
        case 7: count_keys(some_slot((enum kind)below(5))); break;
        case 8: case 9: find_key(some_slot(CLOSED)); break;
        case 10: walk(some_slot(below(2) ? CLOSED : CLIENT)); break;
        case 13: hold_value(some_slot(CLIENT), some_slot(NOTHING)); break;
        case 14: read_value(some_slot(HELD)); break;
        case 11: call_with_null(); break;
        case 12: call_in_vain(some_slot((enum kind)below(5))); break;
        default: make_call(some_slot(CLIENT));
        }
    }
    for (int i = 0; i < SLOTS; i++) free_slot(&slots[i]);
    free(unread);
    printf("%llu calls, %llu misuses, %llu wrong\n", (unsigned long long)calls, (unsigned long long)misuses, (unsigned long long)wrong);
    return wrong != 0;
}
