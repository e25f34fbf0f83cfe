/* MULTI, EXEC, DISCARD, WATCH, UNWATCH. The requests of a transaction are copied; EXEC runs them alone. */
#include "cache.h"
#include <string.h>

/* A request of a transaction. Behind it lie its arguments, and their bytes. */
struct queued {
    const struct command *command;
    size_t count, size; /* with all that lies behind it */
};

static size_t aligned(size_t size) {
    return (size + _Alignof(struct queued) - 1) / _Alignof(struct queued) * _Alignof(struct queued);
}

/* Makes room for a request of a transaction, within the limits. Returns an error, or NULL. */
static const char *reserve(struct connection *c, size_t more) {
    struct buffer *requests = &c->transaction.requests;
    bool is_much = requests->len + more > KEPT && requests->room - requests->len < more;
    if (more > c->worker->cache->limits.request - requests->len) return "ERR transaction exceeds the limit of a request";
    if (is_much && !may_hold(c, more)) break_connection(c, BY_BUFFERS);
    if (is_much && !make_room(&c->worker->store, more)) return error_of(STORE_FULL);
    return buffer_reserve(requests, more) ? NULL : error_of(FACING_NO_MEMORY);
}

/* Copies the request that was read, to be run by EXEC. Returns an error where it has no room. */
const char *queue_request(struct connection *c) {
    struct transaction *t = &c->transaction;
    struct queued queued = {c->command, c->count, 0};
    size_t bytes = 0, head = sizeof queued + c->count * sizeof(struct span);
    const char *error;
    struct span *spans;
    for (size_t i = 0; i < c->count; i++)
        bytes += c->args[i].len;
    queued.size = aligned(head + bytes);
    error = reserve(c, queued.size);
    t->is_wrong = t->is_wrong || error != NULL;
    if (error != NULL) return error;
    spans = (struct span *)(void *)(t->requests.at + t->requests.len + sizeof queued);
    memcpy(t->requests.at + t->requests.len, &queued, sizeof queued);
    bytes = head;
    for (size_t i = 0; i < c->count; i++) {
        spans[i] = (struct span){(uint32_t)bytes, c->args[i].len};
        memcpy(t->requests.at + t->requests.len + bytes, arg(c, i).at, c->args[i].len);
        bytes += c->args[i].len;
    }
    t->requests.len += queued.size;
    t->count++;
    reply_simple(c, "QUEUED");
    return NULL;
}

static void unwatch_all(struct connection *c) {
    struct transaction *t = &c->transaction;
    for (size_t i = 0; i < t->watches_len; i++)
        unwatch_key(c->worker->cache, &t->watches[i]);
    heap_free(t->watches);
    t->watches = NULL;
    t->watches_len = t->watches_room = t->watched = 0;
}

/* Forgets the requests that wait, and what is watched. */
void forget_transaction(struct connection *c) {
    struct transaction *t = &c->transaction;
    unwatch_all(c);
    buffer_free(&t->requests);
    *t = (struct transaction){0};
}

const char *run_multi(struct connection *c) {
    struct transaction *t = &c->transaction;
    if (t->is_open) return "ERR MULTI calls can not be nested";
    t->is_open = true;
    t->is_wrong = false;
    reply_simple(c, "OK");
    return NULL;
}

const char *run_discard(struct connection *c) {
    if (!c->transaction.is_open) return "ERR DISCARD without MULTI";
    forget_transaction(c);
    reply_simple(c, "OK");
    return NULL;
}

/* Whether a key is not as it was when the connection began to watch it. */
static bool is_another(struct connection *c, const struct watch *watch) {
    struct store *store = &c->worker->store;
    struct found found = {0};
    if (is_changed(store->cache, watch)) return true;
    if (!watch->is_live) return false;
    if (watch->generation != atomic_load_explicit(&store->cache->databases[watch->db].generation, memory_order_relaxed))
        return true;
    if (store_select(store, watch->db) == FACING_DONE)
        (void)store_look(store, (struct bytes){watch->key, watch->key_len}, &found);
    return store_select(store, c->db) != FACING_DONE || !found.is_live;
}

/* Runs the requests of a transaction, each of which replies. */
static void run_queued(struct connection *c, const struct transaction *t) {
    struct span *args = c->args;
    size_t count = c->count, at = 0;
    for (size_t i = 0; i < t->count; i++) {
        struct queued queued;
        const char *error;
        memcpy(&queued, t->requests.at + at, sizeof queued);
        c->base = t->requests.at + at;
        c->args = (struct span *)(void *)(t->requests.at + at + sizeof queued);
        c->count = queued.count;
        error = run_command_of(c, queued.command);
        if (error != NULL) reply_error(c, error);
        at += queued.size;
    }
    c->args = args;
    c->count = count;
}

/* The request runs alone. */
const char *run_exec(struct connection *c) {
    struct transaction t = c->transaction;
    bool is_void = false;
    if (!t.is_open) return "ERR EXEC without MULTI";
    for (size_t i = 0; i < t.watches_len && !is_void && !t.is_wrong; i++)
        is_void = is_another(c, &t.watches[i]);
    unwatch_all(c);
    c->transaction = (struct transaction){0};
    if (t.is_wrong) {
        reply_error(c, "EXECABORT Transaction discarded because of previous errors.");
    } else if (is_void) {
        reply_no_list(c);
    } else {
        reply_list(c, t.count);
        run_queued(c, &t);
    }
    buffer_free(&t.requests);
    return NULL;
}

/* Watches a key, and then looks at it: what changes it after the look raises its number. */
static const char *watch_one(struct connection *c, struct bytes key) {
    struct store *store = &c->worker->store;
    struct transaction *t = &c->transaction;
    struct found found;
    uint32_t status;
    if (t->watches_len == t->watches_room) {
        size_t room = t->watches_room ? 2 * t->watches_room : 4;
        struct watch *watches = heap_resize(t->watches, room * sizeof *watches);
        if (watches == NULL) return error_of(FACING_NO_MEMORY);
        t->watches = watches;
        t->watches_room = room;
    }
    if (!watch_key(store, key, &t->watches[t->watches_len])) return error_of(FACING_NO_MEMORY);
    t->watches_len++;
    t->watched += key.len;
    if (t->watched > KEPT && !may_hold(c, 0)) break_connection(c, BY_BUFFERS);
    status = store_look(store, key, &found);
    t->watches[t->watches_len - 1].is_live = found.is_live;
    t->watches[t->watches_len - 1].generation = atomic_load_explicit(&store->database->generation, memory_order_relaxed);
    return error_of(status);
}

const char *run_watch(struct connection *c) {
    const char *error = c->transaction.is_open ? "ERR WATCH inside MULTI is not allowed" : NULL;
    for (size_t i = 1; i < c->count && error == NULL; i++)
        error = watch_one(c, arg(c, i));
    if (error == NULL) reply_simple(c, "OK");
    return error;
}

const char *run_unwatch(struct connection *c) {
    unwatch_all(c);
    reply_simple(c, "OK");
    return NULL;
}
