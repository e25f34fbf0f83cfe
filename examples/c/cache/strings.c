/* The commands that read the value of a key, or change a part of it. */
#include "cache.h"
#include <string.h>

/* Replies with what was found, where it is live. */
const char *reply_found(struct connection *c, uint32_t status, const struct found *found) {
    if (status != FACING_DONE) return error_of(status);
    found->is_live ? reply_bulk(c, found->value) : reply_none(c);
    return NULL;
}

/* Replies with the value at a key. A long one is copied once, into the replies. */
static const char *show(struct connection *c, struct bytes key) {
    struct store *store = &c->worker->store;
    facing_bytes_handle held;
    struct found found;
    uint32_t status = store_view(store, key, &found, &held);
    const char *error = NULL;
    store_count_look(store, key, status, &found);
    if (status == FACING_DONE && found.is_live && held.at != NULL)
        reply_held(c, &held, found.head_len, found.value.len);
    else
        error = reply_found(c, status, &found);
    facing_bytes_free(&held);
    return error;
}

const char *run_get(struct connection *c) {
    return show(c, arg(c, 1));
}

/* One call a key, so no moment is that of all replies. */
const char *run_mget(struct connection *c) {
    reply_list(c, c->count - 1);
    for (size_t i = 1; i < c->count && !c->is_broken; i++) {
        const char *error = show(c, arg(c, i));
        if (error != NULL) reply_error(c, error);
    }
    return NULL;
}

static enum change decide_getdel(struct store *store, const struct found *found, void *of) {
    (void)store;
    *(struct found *)of = *found;
    return found->is_live ? REMOVE : LEAVE;
}

const char *run_getdel(struct connection *c) {
    struct store *store = &c->worker->store;
    struct found found = {0};
    uint32_t status = store_change(store, arg(c, 1), decide_getdel, &found);
    store_count_look(store, arg(c, 1), status, &found);
    return reply_found(c, status, &found);
}

const char *run_strlen(struct connection *c) {
    struct store *store = &c->worker->store;
    struct found found;
    uint32_t status = store_look(store, arg(c, 1), &found);
    store_count_look(store, arg(c, 1), status, &found);
    return done_or_error(c, status, found.is_live ? (int64_t)found.value.len : 0);
}

/* The place of a byte that is counted from the end where its number is below 0; at least 0. */
static size_t place_in(int64_t number, size_t len) {
    if (number < 0) number += (int64_t)len;
    return number > 0 ? (size_t)number : 0;
}

/* GETRANGE, SUBSTR: the bytes from a place to a place, both of which are shown. */
const char *run_getrange(struct connection *c) {
    int64_t from, to;
    size_t first, last;
    bool is_none;
    facing_bytes_handle held;
    struct found found;
    uint32_t status;
    if (!number_of(arg(c, 2), &from) || !number_of(arg(c, 3), &to)) return NOT_A_NUMBER;
    status = store_view(&c->worker->store, arg(c, 1), &found, &held);
    store_count_look(&c->worker->store, arg(c, 1), status, &found);
    if (!found.is_live) found.value = NOTHING;
    first = place_in(from, found.value.len);
    last = place_in(to, found.value.len);
    if (last >= found.value.len) last = found.value.len - 1;
    is_none = found.value.len == 0 || first > last || (from < 0 && to < 0 && from > to);
    if (status == FACING_DONE && !is_none && held.at != NULL)
        reply_held(c, &held, found.head_len + first, last - first + 1);
    else if (status == FACING_DONE)
        reply_bulk(c, is_none ? NOTHING : (struct bytes){found.value.at + first, last - first + 1});
    facing_bytes_free(&held);
    return error_of(status);
}

/* What SETRANGE and APPEND are asked to write where, and how long the value is then. */
struct writing {
    struct bytes more;
    size_t at, len;
};

static enum change decide_append(struct store *store, const struct found *found, void *of) {
    struct writing *it = of;
    struct bytes front = found->is_live ? found->value : NOTHING;
    it->len = front.len + it->more.len;
    store_next(store, found->is_live ? found->deadline : 0, front, it->more);
    return STORE;
}

const char *run_append(struct connection *c) {
    struct writing it = {.more = arg(c, 2)};
    uint32_t status = store_change(&c->worker->store, arg(c, 1), decide_append, &it);
    return done_or_error(c, status, (int64_t)it.len);
}

/* Where nothing is to be written the value stays. */
static enum change decide_setrange(struct store *store, const struct found *found, void *of) {
    struct writing *it = of;
    struct bytes before = found->is_live ? found->value : NOTHING;
    it->len = before.len;
    if (it->more.len == 0) return LEAVE;
    if (it->at + it->more.len > it->len) it->len = it->at + it->more.len;
    store_next(store, found->is_live ? found->deadline : 0, before, NOTHING);
    store_over(store, it->at, it->more);
    return STORE;
}

const char *run_setrange(struct connection *c) {
    struct writing it = {.more = arg(c, 3)};
    int64_t at;
    uint32_t status;
    if (!number_of(arg(c, 2), &at)) return NOT_A_NUMBER;
    if (at < 0) return "ERR offset is out of range";
    it.at = (size_t)at;
    status = store_change(&c->worker->store, arg(c, 1), decide_setrange, &it);
    return done_or_error(c, status, (int64_t)it.len);
}
