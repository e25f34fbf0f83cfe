/* SCAN, whose cursor is the map's own, a number that any client may send back; KEYS, which goes over all keys, and
 * RANDOMKEY. */
#include "cache.h"
#include <ctype.h>
#include <errno.h>
#include <inttypes.h>
#include <stdio.h>
#include <stdlib.h>
#include <string.h>
#include <sys/random.h>

/* The most keys that one SCAN copies, and of how many RANDOMKEY draws one; and a walk may begin at any hash below this. */
enum { MOST_SCANNED = 1024, MOST_DRAWN = 32, HASHES = 1 << 26 };

/* Which keys are asked for, and those that were found: each behind its length. */
struct finding {
    struct bytes pattern;
    bool has_pattern, is_of_strings;
    size_t count;
    struct buffer keys;
};

/* Takes a key where it is asked for. Returns false where there is no memory for it. */
static bool take_key(struct store *store, struct bytes key, struct stored stored, void *of) {
    struct finding *it = of;
    struct found found;
    store_find(store, stored, &found);
    if (!found.is_live) return true;
    if (!it->is_of_strings || (it->has_pattern && !is_like(key, it->pattern))) return true;
    if (!buffer_reserve(&it->keys, sizeof key.len + key.len)) return false;
    memcpy(it->keys.at + it->keys.len, &key.len, sizeof key.len);
    it->keys.len += sizeof key.len;
    if (key.len > 0) memcpy(it->keys.at + it->keys.len, key.at, key.len);
    it->keys.len += key.len;
    it->count++;
    return true;
}

/* Takes the keys of the next buckets: at most so many, or one bucket's. */
static uint32_t take_keys(struct connection *c, struct finding *it, size_t most) {
    struct walk *walk = &c->worker->walk;
    uint32_t status = walk_next(walk, &c->worker->store, most);
    return status != FACING_DONE || walk_each(walk, &c->worker->store, take_key, it) ? status : FACING_NO_MEMORY;
}

/* The key that lies at a place of those that were found, which is behind it then. */
static struct bytes key_at(const struct finding *it, size_t *at) {
    struct bytes key;
    memcpy(&key.len, it->keys.at + *at, sizeof key.len);
    key.at = it->keys.at + *at + sizeof key.len;
    *at += sizeof key.len + key.len;
    return key;
}

static void reply_keys(struct connection *c, const struct finding *it) {
    reply_list(c, it->count);
    for (size_t at = 0; at < it->keys.len && !c->is_broken;)
        reply_bulk(c, key_at(it, &at));
}

/* Reads a cursor: an unsigned number of 64 bits. */
static bool cursor_of(struct bytes text, uint64_t *cursor) {
    char digits[24] = {0}, *end;
    if (text.len >= sizeof digits || (text.len > 0 && isspace(text.at[0]))) return false;
    if (text.len > 0) memcpy(digits, text.at, text.len);
    errno = 0;
    *cursor = strtoull(digits, &end, 10);
    return *end == 0 && (size_t)(end - digits) == text.len && errno == 0;
}

/* Reads the options of SCAN. Returns an error, or NULL. */
static const char *options_of_scan(struct connection *c, struct finding *it, int64_t *count) {
    for (size_t i = 2; i < c->count; i += 2) {
        if (i + 1 == c->count) return NO_SYNTAX;
        if (is_word(arg(c, i), "MATCH")) {
            it->pattern = arg(c, i + 1);
            it->has_pattern = true;
        } else if (is_word(arg(c, i), "TYPE")) {
            it->is_of_strings = is_word(arg(c, i + 1), "string");
        } else if (!is_word(arg(c, i), "COUNT")) {
            return NO_SYNTAX;
        } else if (!number_of(arg(c, i + 1), count)) {
            return NOT_A_NUMBER;
        } else if (*count < 1) {
            return NO_SYNTAX;
        }
    }
    return NULL;
}

/* Copies at most COUNT keys, or a bucket, and shows those that match; none where many buckets are empty. Its cursor is the
 * map's, where 0 is the end too. */
const char *run_scan(struct connection *c) {
    static const char no_cursor[] = "ERR invalid cursor";
    struct walk *walk = &c->worker->walk;
    struct finding it = {.is_of_strings = true};
    int64_t count = 10;
    const char *error;
    char text[24];
    uint32_t status;
    if (!cursor_of(arg(c, 1), &walk->at)) return no_cursor;
    error = options_of_scan(c, &it, &count);
    if (error != NULL) return error;
    status = take_keys(c, &it, count < MOST_SCANNED ? (size_t)count : MOST_SCANNED);
    if (status == FACING_DONE) {
        snprintf(text, sizeof text, "%" PRIu64, walk->at == UINT64_MAX ? 0 : walk->at);
        reply_list(c, 2);
        reply_bulk(c, bytes_of(text));
        reply_keys(c, &it);
    }
    buffer_free(&it.keys);
    return status == FACING_BAD_ARGUMENT ? no_cursor : error_of(status);
}

/* Goes over all keys. No moment is that of all: a key that comes or goes meanwhile may be shown or not, also by a request
 * that runs alone between two steps. */
const char *run_keys(struct connection *c) {
    struct walk *walk = &c->worker->walk;
    struct finding it = {.is_of_strings = true};
    uint32_t status;
    it.pattern = arg(c, 1);
    it.has_pattern = true;
    walk->at = 0;
    do {
        status = take_keys(c, &it, MOST_SCANNED);
        if (!c->worker->store.is_alone) turn_pass(&c->worker->store);
    } while (status == FACING_DONE && walk->at != UINT64_MAX);
    if (status == FACING_DONE) reply_keys(c, &it);
    buffer_free(&it.keys);
    return error_of(status);
}

/* Begins at a bucket at random, and shows one of the first keys from there on. A key that lies behind many empty buckets is
 * shown more often than others. */
const char *run_randomkey(struct connection *c) {
    struct walk *walk = &c->worker->walk;
    struct finding it = {.is_of_strings = true};
    struct bytes key = NOTHING;
    bool is_second = false, is_over = false;
    uint32_t random[2] = {0}, status = FACING_DONE;
    (void)!getrandom(random, sizeof random, 0);
    walk->at = random[0] % HASHES;
    while (status == FACING_DONE && it.count == 0 && !is_over) {
        status = take_keys(c, &it, MOST_DRAWN);
        if (!c->worker->store.is_alone) turn_pass(&c->worker->store);
        is_over = is_second && walk->at == UINT64_MAX;
        if (walk->at != UINT64_MAX) continue;
        is_second = true;
        walk->at = 0;
    }
    for (size_t i = 0, at = 0; i < it.count && i <= random[1] % it.count; i++)
        key = key_at(&it, &at);
    if (status == FACING_DONE) (it.count == 0) ? reply_none(c) : reply_bulk(c, key);
    buffer_free(&it.keys);
    return error_of(status);
}
