/* Databases: each has a map of its own. SELECT, MOVE and SWAPDB. */
#include "cache.h"
#include <limits.h>

/* The buckets of a map that a SELECT opens. */
enum { BUCKETS = 256 };

/* Opens a database, if it is not open. */
uint32_t database_open(struct cache *cache, unsigned db, uint64_t buckets) {
    struct database *of = &cache->databases[db];
    uint32_t status = FACING_DONE;
    if (atomic_load_explicit(&of->is_open, memory_order_acquire)) return FACING_DONE;
    pthread_mutex_lock(&cache->open_lock);
    if (!atomic_load(&of->is_open)) status = facing_bytes_open(buckets, cache->stores, &of->map);
    if (status == FACING_DONE) atomic_store(&of->is_open, true);
    pthread_mutex_unlock(&cache->open_lock);
    return status;
}

void databases_close(struct cache *cache) {
    for (unsigned db = 0; db < DATABASES; db++)
        facing_bytes_free(&cache->databases[db].map);
}

/* Makes a database that of the request. */
uint32_t store_select(struct store *store, unsigned db) {
    uint32_t status;
    if (db == store->db) return FACING_DONE;
    status = database_open(store->cache, db, BUCKETS);
    if (status == FACING_DONE && store->clients[db].at == NULL)
        status = facing_bytes_client(&store->cache->databases[db].map, &store->clients[db]);
    if (status != FACING_DONE) return status;
    store_tell(store);
    store->db = db;
    store->database = &store->cache->databases[db];
    store->client = &store->clients[db];
    return FACING_DONE;
}

int64_t timed_of_all(const struct cache *cache) {
    int64_t sum = 0;
    for (unsigned db = 0; db < DATABASES; db++)
        sum += atomic_load_explicit(&cache->databases[db].timed, memory_order_relaxed);
    return sum;
}

int64_t dead_of_all(const struct cache *cache) {
    int64_t sum = 0;
    for (unsigned db = 0; db < DATABASES; db++)
        sum += atomic_load_explicit(&cache->databases[db].dead, memory_order_relaxed);
    return sum;
}

/* Reads the number of a database. Returns an error, or NULL. */
const char *read_database(struct bytes text, unsigned *db) {
    int64_t number;
    if (!number_of(text, &number)) return NOT_A_NUMBER;
    if (number < INT_MIN || number > INT_MAX)
        return "ERR value is out of range, value must between -2147483648 and 2147483647";
    if (number < 0 || number >= DATABASES) return "ERR DB index is out of range";
    if (number != 0 && is_in_cluster()) return "ERR SELECT is not allowed in cluster mode";
    *db = (unsigned)number;
    return NULL;
}

const char *run_select(struct connection *c) {
    unsigned db;
    const char *error = read_database(arg(c, 1), &db);
    if (error == NULL) error = error_of(store_select(&c->worker->store, db));
    if (error != NULL) return error;
    c->db = db;
    reply_simple(c, "OK");
    return NULL;
}

/* Copies a key with its deadline to a key of a database. 0 where there is no such key, or one to copy to that is not to be
 * replaced. It runs alone. */
uint32_t copy_key(struct connection *c, unsigned db, struct bytes from, struct bytes to, bool replaces, bool *is_done) {
    struct store *store = &c->worker->store;
    struct found found = {0}, other = {0}, before;
    uint32_t status = store_select(store, db);
    *is_done = false;
    if (status == FACING_DONE && !replaces) status = store_look(store, to, &other);
    if (status == FACING_DONE) status = store_select(store, c->db);
    if (status == FACING_DONE) status = store_get(store, from, &found);
    if (status == FACING_DONE && found.is_live && !other.is_live) {
        store_next(store, found.deadline, found.value, NOTHING);
        status = store_select(store, db);
        if (status == FACING_DONE) status = store_put(store, to, &before);
        *is_done = status == FACING_DONE;
    }
    (void)store_select(store, c->db);
    return status;
}

/* MOVE. It runs alone. */
const char *run_move(struct connection *c) {
    struct found before;
    unsigned db;
    bool is_done;
    uint32_t status;
    const char *error = is_in_cluster() ? "ERR MOVE is not allowed in cluster mode" : read_database(arg(c, 2), &db);
    if (error != NULL) return error;
    if (db == c->db) return "ERR source and destination objects are the same";
    status = copy_key(c, db, arg(c, 1), arg(c, 1), false, &is_done);
    if (status == FACING_DONE && is_done) status = store_remove(&c->worker->store, arg(c, 1), &before);
    return done_or_error(c, status, is_done);
}
