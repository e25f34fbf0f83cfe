/* Goes through the life of a map again and again, and refuses another request for memory each time: the first, the second and so
 * on, alone or with all that follow it until a call tells of it. Each refusal is a code, and leaves the map as it was.
 *
 * It is linked so that malloc and its like are those of refusing.h (--wrap). */
#include "values.h"

#include "refusing.h"

enum { CLIENTS = 2, KEYS = 300, ROOM = KEYS + 10 };

/* What the map must hold. */
static struct {
    int has;
    uint64_t value;
} model[ROOM];

/* The open map has just what the model has. */
static void look(any_handle *any, any_handle *client) {
    long from = refused_from, to = refused_to;
    uint64_t count, live = 0;
    refused_to = 0;
    for (uint64_t key = 0; key < ROOM; key++) {
        facing_answer answer;
        want(DO(get)(client, KEY(key), &answer) == FACING_DONE && answer.found == (uint32_t)model[key].has, "a key's presence");
        want(!answer.found || answer.value == model[key].value, "a value");
        live += answer.found;
    }
    want(DO(count)(any, &count) == FACING_DONE && count == live, "the count of an open map");
    refused_from = from;
    refused_to = to;
}

/* The closed map has just what the model has. */
static void look_closed(any_handle *closed) {
    static struct read_pair pairs[ROOM];
    uint64_t count, live = 0;
    facing_cursor cursor = {0};
    size_t copied, all = 0;
    for (uint64_t key = 0; key < ROOM; key++) live += (uint64_t)model[key].has;
    while (cursor.at != UINT64_MAX) {
        if (was_refused(read_pairs(closed, &cursor, pairs + all, ROOM - all, &copied), "pairs")) continue;
        all += copied;
    }
    want(all == live, "how many pairs");
    for (size_t i = 0; i < all; i++)
        want(pairs[i].key < ROOM && model[pairs[i].key].has && model[pairs[i].key].value == pairs[i].value, "a pair");
    want(DO(count)(closed, &count) == FACING_DONE && count == live, "the count of a closed map");
}

/* Exchanges what the key has for another value, in its place or as its first. */
static uint32_t exchange(any_handle *client, uint64_t key, facing_answer *answer) {
    const uint64_t old = model[key].value, new_value = key + 3;
    facing_seen seen = {7, 7, 7};
    uint32_t status = DO(exchange)(client, KEY(key), model[key].has ? &old : NULL, &new_value, &seen);
    want(seen.exchanged == (status == FACING_DONE), "an exchange");
    answer->found = seen.found;
    answer->value = seen.value;
    return status;
}

/* Each kind of call: 1 puts, 2 adds, 3 removes, and else gives a key that has none a value, and puts another in its place. */
static uint32_t call(any_handle *client, int kind, uint64_t key, facing_answer *answer) {
    switch (kind) {
    case 1: return DO(put)(client, KEY(key), key * 7, answer);
    case 2: return DO(add)(client, KEY(key), 5, answer);
    case 3: return DO(remove)(client, KEY(key), answer);
    case 4: return DO(put_if_absent)(client, KEY(key), key, answer);
    case 5: return DO(replace)(client, KEY(key), key + 1, answer);
    case 6: return exchange(client, key, answer);
    case 7: return DO(add_up_to)(client, KEY(key), 5, UINT64_MAX, answer);
    default: return DO(greatest)(client, KEY(key), key + 2, answer);
    }
}

static void note(int kind, uint64_t key) {
    uint64_t old = model[key].has ? model[key].value : 0;
    switch (kind) {
    case 1: model[key].value = key * 7; break;
    case 2: case 7: model[key].value = old + 5; break;
    case 3: model[key].has = 0; return;
    case 4: if (!model[key].has) model[key].value = key; break;
    case 5: if (!model[key].has) return; model[key].value = key + 1; break;
    case 6: model[key].value = key + 3; break;
    default: model[key].value = old > key + 2 ? old : key + 2;
    }
    model[key].has = 1;
}

static void make(any_handle *map, any_handle *client, int kind, uint64_t key) {
    facing_answer answer;
    while (was_refused(call(client, kind, key, &answer), "a call")) {
        want(answer.found == 0 && answer.value == 0, "an empty answer");
        look(map, client);
    }
    note(kind, key);
}

/* Calls on keys that are there take no memory. The keys were looked at just before, so the table is not about to grow. */
static void call_without_memory(any_handle *client) {
    long before = requests;
    for (uint64_t key = 0; key < ROOM; key++) {
        facing_answer answer;
        if (!model[key].has) continue;
        want(DO(add)(client, KEY(key), 1, &answer) == FACING_DONE && answer.value == model[key].value + 1, "an add");
        want(DO(put)(client, KEY(key), model[key].value, NULL) == FACING_DONE, "a put");
        want(DO(replace_if)(client, KEY(key), model[key].value, 1, NULL) == FACING_DONE, "a replace_if");
        want(DO(greatest)(client, KEY(key), 0, &answer) == FACING_DONE && answer.value == 1, "a greatest");
        want(DO(add_up_to)(client, KEY(key), 1, 1, &answer) == FACING_DONE && answer.found == 0, "a sum past its bound");
        want(DO(add_up_to)(client, KEY(key), 1, 2, &answer) == FACING_DONE && answer.value == 2, "a sum up to a bound");
        want(DO(set)(client, KEY(key), model[key].value, NULL) == FACING_DONE, "a set");
    }
    want(requests == before, "a call on a key that is there takes memory");
}

#ifdef COUNTS
static void store_many(any_handle *client) {
    (void)client;
}
#else
/* Many new keys at once, by puts or by adds: where one is refused, those before it are there, as many as were told, and no others. */
static void store_by(uint32_t (*all)(facing_handle *, const uint64_t *, const uint64_t *, size_t, size_t *), any_handle *client) {
    enum { LEN = 6 };
    uint64_t keys[LEN], values[LEN];
    facing_answer answers[LEN];
    size_t done = 9, first = 0;
    for (size_t i = 0; i < LEN; i++) keys[i] = 1000 + i, values[i] = 7 * i;
    while (was_refused(all(client, keys + first, values + first, LEN - first, &done), "many keys")) {
        first += done;
        want(first < LEN, "how many were stored");
        want(facing_get_all(client, keys, answers, LEN, NULL) == FACING_DONE, "a get of many");
        for (size_t i = 0; i < LEN; i++) want(answers[i].found == (i < first), "a key of many");
    }
    want(done == LEN - first, "that all were stored");
    for (size_t i = 0; i < LEN; i++) {
        while (was_refused(facing_remove(client, keys[i], &answers[i]), "a remove")) want(answers[i].found == 0, "no answer");
        want(answers[i].found == 1 && answers[i].value == 7 * i, "what was stored");
    }
}

static void store_many(any_handle *client) {
    store_by(facing_put_all, client);
    store_by(facing_add_all, client);
}
#endif

static void work(any_handle *map) {
    any_handle clients[CLIENTS];
    for (int i = 0; i < CLIENTS; i++)
        while (was_refused(DO(client)(map, &clients[i]), "a client")) want(map->at != NULL && clients[i].at == NULL, "no client");
    for (uint64_t key = 0; key < KEYS; key++) make(map, &clients[key % CLIENTS], 1, key);
    for (uint64_t key = 0; key < ROOM; key++) make(map, &clients[key % CLIENTS], 2 + (int)(key % 7), key);
    store_many(&clients[1]);
    look(map, &clients[0]);
    call_without_memory(&clients[1]);
    for (int i = 0; i < CLIENTS; i++) DO(free)(&clients[i]);
}

static void close_and_look(any_handle *map) {
    uint64_t count, again;
    want(DO(count)(map, &count) == FACING_DONE, "a count before the close");
    while (was_refused(DO(close)(map), "a close"))
        want(map->at != NULL && DO(count)(map, &again) == FACING_DONE && again == count, "the count where the close was refused");
    look_closed(map);
}

/* A pool that is not opened is empty, and one that is not closed has given its map out. */
static void live_as_pool(void) {
    any_pool pool;
    any_handle closed;
    facing_answer answer;
    while (was_refused(POOL(open)(OPEN_WITH(16, CLIENTS), &pool), "a pool"))
        want(pool.map.at == NULL && pool.slots == NULL && pool.clients == 0, "an empty pool");
    while (was_refused(POOL(put)(&pool, KEY(1), 5, NULL), "a put of a pool")) want(pool.clients == CLIENTS, "the pool");
    if (was_refused(POOL(close)(&pool, &closed), "a close of a pool"))
        while (was_refused(DO(close)(&closed), "another close")) want(closed.at != NULL, "the map of a pool");
    want(pool.map.at == NULL && pool.slots == NULL && pool.clients == 0, "a pool that was closed");
    want(DO(find)(&closed, KEY(1), &answer) == FACING_DONE && answer.value == 5, "the value of a pool");
    DO(free)(&closed);
}

static void live(void) {
    any_handle map, second, more;
    for (int key = 0; key < ROOM; key++) model[key].has = 0;
    while (was_refused(DO(open)(OPEN_WITH(16, CLIENTS), &map), "an open")) want(map.at == NULL, "no map");
    work(&map);
    close_and_look(&map);
    while (was_refused(DO(reopen)(&map, CLIENTS, &second), "a reopen")) {
        want(second.at == NULL, "no second map");
        look_closed(&map);
    }
    while (was_refused(DO(again)(&map, &more), "one more handle")) {
        want(more.at == NULL, "no more handle");
        look_closed(&map);
    }
    DO(free)(&map);
    look_closed(&more);
    DO(free)(&more);
    work(&second);
    close_and_look(&second);
    DO(free)(&second);
    live_as_pool();
    want(blocks == 0, "blocks that are left");
}

int main(int argc, char **argv) {
    return refuse_each(argc > 1 ? strtol(argv[1], NULL, 10) : 1, live);
}
