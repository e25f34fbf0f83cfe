/* The commands on keys, whatever their values. */
#include "cache.h"
#include <string.h>

/* DEL and UNLINK with the number 1, EXISTS and TOUCH: one call a key. */
const char *run_each_key(struct connection *c) {
    struct store *store = &c->worker->store;
    int64_t count = 0;
    uint32_t status = FACING_DONE;
    for (size_t i = 1; i < c->count && status == FACING_DONE; i++) {
        struct found found;
        bool is_removal = c->command->number == 1;
        status = (is_removal ? store_remove : store_look)(store, arg(c, i), &found);
        count += found.is_live;
        if (!is_removal) store_count_look(store, arg(c, i), status, &found);
    }
    return done_or_error(c, status, count);
}

const char *run_type(struct connection *c) {
    struct found found;
    uint32_t status = store_look(&c->worker->store, arg(c, 1), &found);
    if (status == FACING_DONE) reply_simple(c, found.is_live ? "string" : "none");
    return error_of(status);
}

/* An estimate while clients make calls. It counts expired keys until they are removed. */
const char *run_dbsize(struct connection *c) {
    uint32_t status;
    uint64_t count = store_count(&c->worker->store, &status);
    return done_or_error(c, status, (int64_t)count);
}

/* FLUSHDB; with the number 1 FLUSHALL. All keys are gone at one moment. The main thread gives their memory back, also where
 * SYNC is asked for. */
const char *run_flush(struct connection *c) {
    struct store *store = &c->worker->store;
    uint32_t status = FACING_DONE;
    if (c->count > 2 || (c->count == 2 && !is_word(arg(c, 1), "SYNC") && !is_word(arg(c, 1), "ASYNC"))) return NO_SYNTAX;
    for (unsigned db = 0; db < DATABASES && status == FACING_DONE; db++) {
        bool is_meant = c->command->number == 1 ? atomic_load(&store->cache->databases[db].is_open) : db == c->db;
        if (is_meant) status = store_select(store, db);
        if (is_meant && status == FACING_DONE) status = store_clear(store);
    }
    (void)store_select(store, c->db);
    if (status == FACING_DONE) reply_simple(c, "OK");
    return error_of(status);
}

/* == Two keys: these run alone == */

/* Stores what was found at another key, with its deadline. */
static uint32_t put_found(struct store *store, struct bytes key, const struct found *found) {
    struct found before;
    store_next(store, found->deadline, found->value, NOTHING);
    return store_put(store, key, &before);
}

static bool is_same(struct bytes one, struct bytes other) {
    return one.len == other.len && (one.len == 0 || memcmp(one.at, other.at, one.len) == 0);
}

/* RENAME, and with the number 1 RENAMENX, which leaves a key that is there. */
const char *run_rename(struct connection *c) {
    struct store *store = &c->worker->store;
    struct bytes from = arg(c, 1), to = arg(c, 2);
    struct found found, other;
    bool if_absent = c->command->number == 1, is_done = !is_same(from, to);
    uint32_t status = FACING_DONE;
    if (if_absent && is_done) status = store_look(store, to, &other);
    if (if_absent && is_done) is_done = !other.is_live;
    if (status == FACING_DONE) status = store_get(store, from, &found);
    if (status == FACING_DONE && !found.is_live) return "ERR no such key";
    if (status == FACING_DONE && is_done) status = put_found(store, to, &found);
    if (status == FACING_DONE && is_done) status = store_remove(store, from, &other);
    if (if_absent) return done_or_error(c, status, is_done);
    if (status == FACING_DONE) reply_simple(c, "OK");
    return error_of(status);
}

/* COPY: 0 where there is no such key, or one to copy to and no REPLACE. */
const char *run_copy(struct connection *c) {
    bool replaces = false, is_done;
    unsigned db = c->db;
    uint32_t status;
    for (size_t i = 3; i < c->count; i++) {
        const char *error = NULL;
        if (is_word(arg(c, i), "REPLACE"))
            replaces = true;
        else if (is_word(arg(c, i), "DB") && i + 1 < c->count)
            error = read_database(arg(c, ++i), &db);
        else
            error = NO_SYNTAX;
        if (error != NULL) return error;
    }
    if (db == c->db && is_same(arg(c, 1), arg(c, 2))) return "ERR source and destination objects are the same";
    status = copy_key(c, db, arg(c, 1), arg(c, 2), replaces, &is_done);
    return done_or_error(c, status, is_done);
}
