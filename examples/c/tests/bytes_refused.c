/* Goes through the life of a map of byte strings again and again, and refuses another request for memory each time: the first,
 * the second and so on, alone or with all that follow it until a call tells of it. Each refusal is a code, and leaves the map as
 * it was. A look takes memory for neither key nor value: it takes none, but where the map is to grow and was refused memory for that.
 *
 * It is linked so that the library's malloc and realloc are those below (--wrap). */
#include "facing_change.h"
#include "refusing.h"
#include <string.h>

enum { CLIENTS = 2, KEYS = 40, ROOM = KEYS + 10, MOST = 300 };

/* Some bytes. */
struct text {
    size_t len;
    uint8_t at[MOST];
};

/* What the map must hold: the number of the value of each key, or 0 where it has none. */
static unsigned model[ROOM];

/* A key's bytes; key 0 has none. */
static struct text key_of(unsigned key) {
    struct text text;
    text.len = (size_t)(key * 5 % 250);
    for (size_t i = 0; i < text.len; i++) text.at[i] = (uint8_t)(key + i);
    return text;
}

/* A value's bytes. */
static struct text value_of(unsigned value) {
    struct text text;
    text.len = (size_t)(value * 13 % MOST);
    for (size_t i = 0; i < text.len; i++) text.at[i] = (uint8_t)(value * 7 + i);
    return text;
}

static int is_value(unsigned value, const uint8_t *at, uint64_t len) {
    struct text text = value_of(value);
    return len == text.len && memcmp(at, text.at, text.len) == 0;
}

/* The open map has just what the model has; where it is not about to grow, looks take no memory. */
static void look(facing_bytes_handle *any, facing_bytes_handle *client, int may_grow) {
    long before = requests;
    uint64_t count, live = 0;
    for (unsigned key = 0; key < ROOM; key++) {
        struct text text = key_of(key);
        uint8_t room[MOST];
        facing_bytes_answer answer = {0, 0};
        want(facing_bytes_get(client, text.at, text.len, room, MOST, &answer) == FACING_DONE, "a get");
        want(answer.found == (model[key] != 0), "a key's presence");
        want(!answer.found || is_value(model[key], room, answer.len), "a value");
        want(facing_bytes_contains(client, text.at, text.len, &answer) == FACING_DONE && answer.found == (model[key] != 0),
             "whether a key is there");
        live += answer.found;
    }
    want(facing_bytes_count(any, &count) == FACING_DONE && count == live, "the count of an open map");
    want(may_grow || requests == before, "a look that takes memory");
}

/* The closed map has just what the model has. */
static void look_closed(facing_bytes_handle *closed) {
    static uint64_t key_lens[ROOM], value_lens[ROOM];
    static uint8_t room[ROOM * 2 * MOST];
    uint64_t count, live = 0;
    size_t at = 0;
    facing_cursor cursor = {0};
    facing_bytes_sizes step, all = {0, 0}, sizes;
    for (unsigned key = 0; key < ROOM; key++) live += model[key] != 0;
    while (cursor.at != UINT64_MAX) {
        if (was_refused(facing_bytes_pairs(closed, &cursor, key_lens + all.pairs, value_lens + all.pairs, ROOM - all.pairs,
                                           room + all.bytes, sizeof room - all.bytes, &step),
                        "pairs"))
            continue;
        all.pairs += step.pairs;
        all.bytes += step.bytes;
    }
    while (was_refused(facing_bytes_sizes_of(closed, &sizes), "sizes")) want(sizes.pairs == 0 && sizes.bytes == 0, "no sizes");
    want(sizes.pairs == all.pairs && sizes.bytes == all.bytes, "sizes");
    want(all.pairs == live, "how many pairs");
    for (size_t i = 0; i < all.pairs; i++) {
        unsigned key = 0;
        for (struct text text = key_of(0); key < ROOM; text = key_of(++key))
            if (model[key] != 0 && text.len == key_lens[i] && memcmp(text.at, room + at, text.len) == 0) break;
        want(key < ROOM && is_value(model[key], room + at + key_lens[i], value_lens[i]), "a pair");
        at += key_lens[i] + value_lens[i];
    }
    want(facing_bytes_count(closed, &count) == FACING_DONE && count == live, "the count of a closed map");
}

/* Exchanges what the key has for another value, in its place or as its first. */
static uint32_t exchange(facing_bytes_handle *client, unsigned key, struct text value, facing_bytes_answer *answer) {
    struct text k = key_of(key), old = value_of(model[key]);
    facing_bytes_view expected, wanted;
    facing_bytes_seen seen = {7, 7, 7};
    uint8_t room[MOST];
    uint32_t status;
    expected.at = old.at;
    expected.len = old.len;
    wanted.at = value.at;
    wanted.len = value.len;
    status = facing_bytes_exchange(client, k.at, k.len, model[key] != 0 ? &expected : NULL, &wanted, room, MOST, &seen);
    want(seen.exchanged == (status == FACING_DONE), "an exchange");
    want(!seen.found || is_value(model[key], room, seen.len), "what an exchange saw");
    answer->found = seen.found;
    answer->len = seen.len;
    return status;
}

/* Each kind of call: 1 puts, 2 removes, and else gives a key that has none a value, puts another in its place, or puts another in
 * the place of the one that it has. */
static uint32_t call(facing_bytes_handle *client, int kind, unsigned key, unsigned value, facing_bytes_answer *answer) {
    struct text k = key_of(key), v = value_of(value), old = value_of(model[key]);
    uint8_t room[MOST];
    switch (kind) {
    case 1: return facing_bytes_put(client, k.at, k.len, v.at, v.len, room, MOST, answer);
    case 2: return facing_bytes_remove(client, k.at, k.len, room, MOST, answer);
    case 3: return facing_bytes_put_if_absent(client, k.at, k.len, v.at, v.len, room, MOST, answer);
    case 4: return facing_bytes_replace(client, k.at, k.len, v.at, v.len, room, MOST, answer);
    case 5: return facing_bytes_remove_if(client, k.at, k.len, old.at, old.len, answer);
    case 7: return exchange(client, key, v, answer);
    default: return facing_bytes_replace_if(client, k.at, k.len, old.at, old.len, v.at, v.len, answer);
    }
}

static void note(int kind, unsigned key, unsigned value) {
    switch (kind) {
    case 1: case 7: model[key] = value; break;
    case 2: case 5: model[key] = 0; break;
    case 3: if (model[key] == 0) model[key] = value; break;
    default: if (model[key] != 0) model[key] = value;
    }
}

static void make(facing_bytes_handle *map, facing_bytes_handle *client, int kind, unsigned key, unsigned value) {
    facing_bytes_answer answer = {0, 0};
    while (was_refused(call(client, kind, key, value, &answer), "a call")) {
        want(answer.found == 0 && answer.len == 0, "an empty answer");
        look(map, client, 1);
        look(map, client, 0);
    }
    note(kind, key, value);
}

/* Holds a value; where it is refused, there is no handle of it. */
static void hold(facing_bytes_handle *client, unsigned key) {
    struct text text = key_of(key);
    facing_bytes_handle held;
    facing_bytes_answer answer = {0, 0};
    uint8_t room[MOST];
    while (was_refused(facing_bytes_hold(client, text.at, text.len, &held, &answer), "a hold"))
        want(held.at == NULL && answer.found == 0, "no value");
    want(answer.found == (model[key] != 0), "whether a value is held");
    if (!answer.found) return;
    want(facing_bytes_read(&held, 0, room, MOST, &answer) == FACING_DONE && is_value(model[key], room, answer.len), "what is held");
    facing_bytes_free(&held);
}

/* A key of at most 18 bytes and values of at most 22 lie in the map's node: a put at such a key, where it is there, takes no
 * memory. */
static void put_short(facing_bytes_handle *map, facing_bytes_handle *client) {
    long before;
    make(map, client, 1, 3, 1);
    look(map, client, 1);
    before = requests;
    make(map, client, 1, 3, 24);
    want(requests == before, "a put of few bytes that takes memory");
}

static void work(facing_bytes_handle *map) {
    facing_bytes_handle clients[CLIENTS];
    for (int i = 0; i < CLIENTS; i++)
        while (was_refused(facing_bytes_client(map, &clients[i]), "a client"))
            want(map->at != NULL && clients[i].at == NULL, "no client");
    for (unsigned key = 0; key < KEYS; key++) make(map, &clients[key % CLIENTS], 1, key, 1 + key);
    for (unsigned key = 0; key < ROOM; key++) make(map, &clients[key % CLIENTS], 2 + (int)(key % 6), key, 100 + key);
    look(map, &clients[0], 0);
    put_short(map, &clients[1]);
    for (unsigned key = 0; key < ROOM; key += 10) hold(&clients[key % CLIENTS], key);
    for (int i = 0; i < CLIENTS; i++) facing_bytes_free(&clients[i]);
}

static void close_and_look(facing_bytes_handle *map) {
    uint64_t count, again;
    want(facing_bytes_count(map, &count) == FACING_DONE, "a count before the close");
    while (was_refused(facing_bytes_close(map), "a close"))
        want(map->at != NULL && facing_bytes_count(map, &again) == FACING_DONE && again == count,
             "the count where the close was refused");
    look_closed(map);
}

static void live(void) {
    facing_bytes_handle map, second, more;
    for (int key = 0; key < ROOM; key++) model[key] = 0;
    while (was_refused(facing_bytes_open(16, CLIENTS, &map), "an open")) want(map.at == NULL, "no map");
    work(&map);
    close_and_look(&map);
    while (was_refused(facing_bytes_reopen(&map, CLIENTS, &second), "a reopen")) {
        want(second.at == NULL, "no second map");
        look_closed(&map);
    }
    while (was_refused(facing_bytes_again(&map, &more), "one more handle")) {
        want(more.at == NULL, "no more handle");
        look_closed(&map);
    }
    facing_bytes_free(&map);
    look_closed(&more);
    facing_bytes_free(&more);
    work(&second);
    close_and_look(&second);
    facing_bytes_free(&second);
    want(blocks == 0, "blocks that are left");
}

/* A value of 23 to 320 bytes takes one block, and a longer one two. Nothing is refused. */
static void put_longer(void) {
    static const uint8_t bytes[1000];
    static const size_t lens[] = {23, 32, 33, 40, 41, 320, 321, 1000};
    facing_bytes_handle map, client = {NULL};
    want(facing_bytes_open(16, 1, &map) == FACING_DONE && facing_bytes_client(&map, &client) == FACING_DONE, "a map");
    want(facing_bytes_put(&client, "key", 3, "", 0, NULL, 0, NULL) == FACING_DONE, "a put of no bytes");
    for (size_t i = 0; i < sizeof lens / sizeof *lens; i++) {
        long before = requests;
        want(facing_bytes_put(&client, "key", 3, bytes, lens[i], NULL, 0, NULL) == FACING_DONE, "a put of many bytes");
        want(requests == before + (lens[i] <= 320 ? 1 : 2), "how many blocks a value takes");
    }
    facing_bytes_free(&client);
    facing_bytes_free(&map);
}

int main(int argc, char **argv) {
    put_longer();
    return refuse_each(argc > 1 ? strtol(argv[1], NULL, 10) : 1, live);
}
