/* Makes calls at random on handles of all kinds, right ones and wrong ones: null, freed, of a closed map, of another kind, with
 * null pointers, one pointer twice, and numbers past the limits. Each wrong one must end with its code and change nothing.
 *
 * usage: misuse [MISUSES [SEED]] */
#include "values.h"

enum { KEYS = 24 };

/* What is in a map, and how many clients it has and gave out; alive by so many handles. */
struct content {
    int has[KEYS];
    uint64_t values[KEYS];
    uint32_t clients, out, handles;
};

#include "misusing.h"

static void free_slot(struct slot *it) {
    DO(free)(seldom() ? NULL : &it->handle);
    DO(free)(&it->handle);
    empty(it);
    want_kept(it);
}

/* Numbers that are right mostly. */
static uint32_t some_clients(uint32_t *expected) {
    if (!seldom()) return (uint32_t)below(4) + 1;
    *expected = FACING_BAD_CLIENTS;
    return below(2) ? 0 : 65537 + (uint32_t)below((1u << 31));
}

static size_t some_capacity(uint32_t *expected) {
    if (!seldom()) return (size_t)below(64) + 1;
    *expected = FACING_BAD_CAPACITY;
    return below(2) ? 0 : ((size_t)1 << 26) + 1 + below((uint64_t)1 << below(38));
}

static void open_map(struct slot *it) {
    uint32_t expected = FACING_DONE, clients = some_clients(&expected);
    size_t capacity = expected == FACING_DONE ? some_capacity(&expected) : 16;
    if (seldom()) {
        want_status(DO(open)(OPEN_WITH(capacity, clients), NULL), FACING_BAD_ARGUMENT, "open");
        return;
    }
    free_slot(it);
    want_status(DO(open)(OPEN_WITH(capacity, clients), &it->handle), expected, "open");
    if (expected == FACING_DONE) fill(it, MAP, content_like(NULL, clients));
    want_kept(it);
}

static void take_client(struct slot *it, struct slot *to) {
    uint32_t expected = it->kind != MAP ? FACING_WRONG_HANDLE : it->of->out == it->of->clients ? FACING_NO_CLIENT : FACING_DONE;
    if (it == to || seldom()) {
        any_handle *one = it == to || below(2) ? &it->handle : NULL;
        if (one == NULL) free_slot(to);
        want_status(DO(client)(one, one == NULL ? &to->handle : below(2) ? one : NULL), FACING_BAD_ARGUMENT, "client");
    } else {
        free_slot(to);
        if (it->kind == MAP && it->of->out < it->of->clients) expected = FACING_DONE;
        want_status(DO(client)(&it->handle, &to->handle), expected, "client");
        if (expected == FACING_DONE) fill(to, CLIENT, it->of), it->of->out++;
    }
    want_kept(it);
    want_kept(to);
}

/* The call of a number, by a client or by what is none. */
static uint32_t call(unsigned kind, any_handle *client, uint64_t key, uint64_t value, facing_answer *answer) {
    switch (kind) {
    case 0: return DO(get)(client, KEY(key), answer);
    case 1: return DO(contains)(client, KEY(key), answer);
    case 2: return DO(put)(client, KEY(key), value, answer);
    case 3: return DO(put_if_absent)(client, KEY(key), value, answer);
    case 4: return DO(remove)(client, KEY(key), answer);
    case 5: return DO(remove_if)(client, KEY(key), value, answer);
    case 6: return DO(replace)(client, KEY(key), value, answer);
    case 7: return DO(replace_if)(client, KEY(key), value, value + 1, answer);
    case 8: return DO(add)(client, KEY(key), value, answer);
    case 9: return DO(greatest)(client, KEY(key), value, answer);
    default: return DO(set)(client, KEY(key), value, answer);
    }
}

/* What the call answers of a map with this content, and does to it. */
static facing_answer answer_of(unsigned kind, struct content *of, uint64_t key, uint64_t value) {
    int had = of->has[key];
    uint64_t old = had ? of->values[key] : 0, sum = old + value < old ? UINT64_MAX : old + value;
    facing_answer before = {(uint32_t)had, old}, truth = {(uint32_t)(had && old == value), 0}, after = {1, 0};
    int has = had;
    uint64_t now = old;
    switch (kind) {
    case 0: break;
    case 1: truth.found = (uint32_t)had; break;
    case 2: has = 1, now = value; break;
    case 3: has = 1, now = had ? old : value; break;
    case 4: has = 0; break;
    case 5: has = had && !truth.found; break;
    case 6: now = value; break;
    case 7: now = truth.found ? value + 1 : old; break;
    case 8: has = 1, now = sum; break;
    case 9: has = 1, now = had && old > value ? old : value; break;
    default: has = 1, now = value;
    }
    of->has[key] = has;
    of->values[key] = now;
    after.value = now;
    return kind >= 8 ? after : kind == 1 || kind == 5 || kind == 7 ? truth : before;
}

/* An export that is handed null refuses it, and leaves everything as it was. */
static void call_with_null(void) {
    facing_handle null = {NULL}, out = {NULL}, more = {NULL};
    facing_answer answer = {7, 7};
    uint32_t status;
    switch (below(8)) {
    case 0: status = facing_c_client(null, &out, &more); break;
    case 1: status = EXPORT(try_get)(null, &out, EXPORT_KEY(1), &answer); break;
    case 2: status = EXPORT(try_put)(null, &out, EXPORT_KEY(1), 2, &answer); break;
    case 3: status = EXPORT(try_replace_if)(null, &out, EXPORT_KEY(1), 2, 3, &answer); break;
    case 4: status = facing_c_count(null, &out, &answer); break;
    case 5: status = facing_c_close(null, &out); break;
    case 6: status = EXPORT(find)(null, &out, EXPORT_KEY(1), &answer); break;
    default: status = facing_c_reopen(null, &out, 1, &more);
    }
    want_status(status, FACING_WRONG_HANDLE, "a call of null");
    want(out.at == NULL && more.at == NULL, "null's room");
    want(answer.found == 7 && answer.value == 7, "what null's call leaves");
    facing_c_free(null);
}

static void make_call(struct slot *it) {
    unsigned kind = (unsigned)below(11);
    uint64_t key = below(KEYS), value = seldom() ? UINT64_MAX - below(3) : below(4);
    facing_answer answer = {7, 7}, expected = {0, 0};
    if (seldom()) {
        want_status(call(kind, NULL, key, value, NULL), FACING_BAD_ARGUMENT, "a call");
        want_status(call(kind, NULL, key, value, &answer), FACING_BAD_ARGUMENT, "a call");
        want(answer.found == 0 && answer.value == 0, "the answer of a call without a client");
        want_kept(it);
        return;
    }
    want_status(call(kind, &it->handle, key, value, &answer), it->kind == CLIENT ? FACING_DONE : FACING_WRONG_HANDLE, "a call");
    if (it->kind == CLIENT) expected = answer_of(kind, it->of, key, value);
    want(answer.found == expected.found && answer.value == expected.value, "the answer of a call");
    want_kept(it);
}

/* A call of what is no client leaves the answer as it was. */
static void call_another_kind(struct slot *it) {
    facing_handle given = {it->handle.at}, out = {NULL};
    uint64_t key = below(KEYS);
    facing_answer answer = {7, 7};
    if (it->kind == CLIENT) return;
    want_status(EXPORT(try_get)(given, &out, EXPORT_KEY(key), &answer), FACING_WRONG_HANDLE, "get of another kind");
    it->handle.at = out.at;
    want(answer.found == 7 && answer.value == 7, "what a get of another kind leaves");
    want_kept(it);
}

static uint64_t live(const struct content *of) {
    uint64_t count = 0;
    for (int i = 0; i < KEYS; i++) count += (uint64_t)of->has[i];
    return count;
}

static void count_keys(struct slot *it) {
    uint64_t count = 7;
    int is_null = seldom();
    want_status(DO(count)(is_null ? NULL : &it->handle, &count),
                is_null ? FACING_BAD_ARGUMENT : it->kind == NOTHING ? FACING_WRONG_HANDLE : FACING_DONE, "count");
    want(count == (is_null || it->kind == NOTHING ? 0 : live(it->of)), "a count");
    if (seldom()) want_status(DO(count)(&it->handle, NULL), FACING_BAD_ARGUMENT, "count");
    want_kept(it);
}

static void close_map(struct slot *it) {
    uint32_t expected = it->kind != MAP ? FACING_WRONG_HANDLE : it->of->out != 0 ? FACING_CLIENT_OUT : FACING_DONE;
    if (seldom()) want_status(DO(close)(NULL), FACING_BAD_ARGUMENT, "close");
    want_status(DO(close)(&it->handle), expected, "close");
    if (expected == FACING_DONE) it->kind = CLOSED;
    want_kept(it);
}

static void find_key(struct slot *it) {
    uint64_t key = below(KEYS);
    int is_null = seldom(), is_closed = it->kind == CLOSED && !is_null;
    facing_answer answer = {7, 7};
    if (is_null) want_status(DO(find)(NULL, KEY(key), NULL), FACING_BAD_ARGUMENT, "find");
    want_status(DO(find)(is_null ? NULL : &it->handle, KEY(key), &answer),
                is_null ? FACING_BAD_ARGUMENT : is_closed ? FACING_DONE : FACING_WRONG_HANDLE, "find");
    want(answer.found == (uint32_t)(is_closed && it->of->has[key]), "whether it is found");
    want(answer.value == (is_closed && it->of->has[key] ? it->of->values[key] : 0), "what is found");
    want_kept(it);
}

/* Reads pairs with one argument that is wrong. */
static uint32_t read_wrongly(any_handle *any, unsigned how) {
    facing_cursor cursor = {0};
    uint64_t keys[KEYS], values[KEYS];
#ifdef COUNTS
    char room[KEYS * 64];
    facing_bytes_sizes copied;
    return facing_counts_pairs(how == 0 ? NULL : any, how == 1 ? NULL : &cursor, how == 2 ? NULL : keys,
                               how == 3 ? NULL : how == 4 ? keys : values, how == 6 ? SIZE_MAX >> below(4) : (size_t)KEYS,
                               how == 7 ? NULL : how == 8 ? (void *)keys : room, sizeof room, how == 5 ? NULL : &copied);
#else
    size_t copied;
    return facing_pairs(how == 0 ? NULL : any, how == 1 ? NULL : &cursor, how == 2 ? NULL : keys,
                        how == 3 ? NULL : how >= 7 || how == 4 ? keys : values, how == 6 ? SIZE_MAX >> below(4) : (size_t)KEYS,
                        how == 5 ? NULL : &copied);
#endif
}

/* Reads from a place that nobody gave: pairs of the map, or none. */
static void read_from_anywhere(struct slot *it) {
    facing_cursor cursor = {below(2) ? draw() : below(100)};
    struct read_pair pairs[KEYS];
    size_t copied;
    uint32_t status = read_pairs(&it->handle, &cursor, pairs, KEYS, &copied);
    want_status(status, it->kind == CLOSED || it->kind == CLIENT ? FACING_DONE : FACING_WRONG_HANDLE, "a read from anywhere");
    for (size_t i = 0; status == FACING_DONE && i < copied; i++)
        want(pairs[i].key < KEYS && it->of->has[pairs[i].key] && it->of->values[pairs[i].key] == pairs[i].value, "a pair");
}

/* Reads all pairs, some at a time. A bucket that finds no room is read with room for all. */
static void copy_pairs(struct slot *it) {
    int can = it->kind == CLOSED || it->kind == CLIENT;
    size_t len = below(KEYS + 1), copied = 7, all = 0;
    facing_cursor cursor = {0};
    do {
        struct read_pair pairs[KEYS];
        uint32_t status = read_pairs(&it->handle, &cursor, pairs, len, &copied);
        if (can && status == FACING_NO_ROOM && len < KEYS) {
            want(len < copied && copied <= live(it->of), "what finds no room");
            len = KEYS;
            continue;
        }
        want_status(status, can ? FACING_DONE : FACING_WRONG_HANDLE, "pairs");
        want(can ? copied <= len : copied == 0, "how many were copied");
        for (size_t i = 0; i < copied && can; i++)
            want(pairs[i].key < KEYS && it->of->has[pairs[i].key] && it->of->values[pairs[i].key] == pairs[i].value, "a pair");
        all += copied;
    } while (can && cursor.at != UINT64_MAX && wrong == 0);
    want(!can || all == live(it->of), "how many pairs there are");
    if (seldom()) want_status(read_wrongly(&it->handle, (unsigned)below(9)), FACING_BAD_ARGUMENT, "wrong pairs");
    if (seldom()) read_from_anywhere(it);
    want_kept(it);
}

static void open_again(struct slot *it, struct slot *to) {
    uint32_t expected = FACING_DONE, clients = some_clients(&expected);
    if (it == to || seldom()) {
        any_handle *one = it == to || below(2) ? &it->handle : NULL;
        if (one == NULL) free_slot(to);
        want_status(DO(reopen)(one, clients, one == NULL ? &to->handle : below(2) ? one : NULL), FACING_BAD_ARGUMENT, "reopen");
    } else {
        free_slot(to);
        if (it->kind != CLOSED) expected = FACING_WRONG_HANDLE;
        want_status(DO(reopen)(&it->handle, clients, &to->handle), expected, "reopen");
        if (expected == FACING_DONE) fill(to, MAP, content_like(it->of, clients));
    }
    want_kept(it);
    want_kept(to);
}

int main(int argc, char **argv) {
    uint64_t most = argc > 1 ? strtoull(argv[1], NULL, 10) : 10000;
    state = argc > 2 ? strtoull(argv[2], NULL, 10) : 1;
    while (misuses < most && wrong == 0) {
        switch (below(40)) {
        case 0: open_map(some_slot(NOTHING)); break;
        case 1: case 2: case 3: take_client(some_slot(MAP), some_slot(NOTHING)); break;
        case 4: close_map(some_slot(MAP)); break;
        case 5: open_again(some_slot(CLOSED), some_slot(NOTHING)); break;
        case 6: free_slot(some_slot(below(2) ? CLIENT : CLOSED)); break;
        case 7: count_keys(some_slot((enum kind)below(4))); break;
        case 8: case 9: find_key(some_slot(CLOSED)); break;
        case 10: copy_pairs(some_slot(below(2) ? CLOSED : CLIENT)); break;
        case 11: copy_pairs(some_slot((enum kind)below(4))); break;
        case 12: call_with_null(); break;
        case 13: call_another_kind(some_slot((enum kind)below(4))); break;
        default: make_call(some_slot(CLIENT));
        }
    }
    for (int i = 0; i < SLOTS; i++) free_slot(&slots[i]);
    printf("%llu calls, %llu misuses, %llu wrong\n", (unsigned long long)calls, (unsigned long long)misuses, (unsigned long long)wrong);
    return wrong != 0;
}
