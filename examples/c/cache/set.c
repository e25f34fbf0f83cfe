/* The commands that store values, with their conditions and deadlines. */
#include "cache.h"

/* An option with a time: its unit in milliseconds, and whether it is a time of day. A unit of 0 takes no number. */
struct time_option {
    const char *word;
    int64_t unit;
    bool is_moment;
};

/* SET takes all but the last one, GETEX all but the first. */
enum { EX = 1, PX, TIMES = 5 };

static const struct time_option times[] = {
    {"KEEPTTL", 0, false}, {"EX", 1000, false}, {"PX", 1, false},
    {"EXAT", 1000, true},  {"PXAT", 1, true},   {"PERSIST", 0, false},
};

/* What a command is asked to store, and what was there before. */
struct setting {
    struct bytes value, count;
    const struct time_option *time; /* NULL where there is none */
    uint64_t deadline;
    bool if_absent, if_present, shows_before, is_set;
    const char *error;
    struct found before;
};

/* Reads an option with a time, of five. Returns false where it is none of them, lacks its number, or stands beside
 * another. */
static bool read_time(const struct connection *c, size_t *at, const struct time_option *first, struct setting *it) {
    for (const struct time_option *time = first; time < first + TIMES; time++) {
        if (!is_word(arg(c, *at), time->word)) continue;
        if (it->time != NULL && it->time != time) return false;
        it->time = time;
        if (time->unit == 0) return true;
        if (*at + 1 == c->count) return false;
        it->count = arg(c, ++*at);
        return true;
    }
    return false;
}

/* Sets the deadline to what the time says. Returns an error, or NULL. */
static const char *read_deadline(struct connection *c, struct setting *it) {
    const struct time_option *time = it->time;
    int64_t count;
    if (time == NULL || time->unit == 0) return NULL;
    if (!number_of(it->count, &count)) return NOT_A_NUMBER;
    if (count <= 0) return no_deadline(c);
    return deadline_from(count, time->unit, time->is_moment, store_now(&c->worker->store), &it->deadline) ? NULL
                                                                                                          : no_deadline(c);
}

/* What it replaced stays in store->seen. */
static enum change decide_set(struct store *store, const struct found *found, void *of) {
    struct setting *it = of;
    uint64_t deadline = it->time == &times[0] && found->is_live ? found->deadline : it->deadline;
    it->before = *found;
    it->is_set = found->is_live ? !it->if_absent : !it->if_present;
    if (!it->is_set) return LEAVE;
    if (has_passed(store, deadline)) return REMOVE;
    store_next(store, deadline, it->value, NOTHING);
    return STORE;
}

static uint32_t store_setting(struct store *store, struct bytes key, struct setting *it) {
    bool is_moment = it->time != NULL && (it->time->is_moment || it->time->unit == 0);
    if (it->if_absent || it->if_present || it->shows_before || is_moment) return store_change(store, key, decide_set, it);
    store_next(store, it->deadline, it->value, NOTHING);
    it->is_set = true;
    return store_put(store, key, &it->before);
}

static const char *set_as(struct connection *c, struct setting *it) {
    const char *error = read_deadline(c, it);
    uint32_t status;
    if (error != NULL) return error;
    status = store_setting(&c->worker->store, arg(c, 1), it);
    if (it->shows_before) store_count_look(&c->worker->store, arg(c, 1), status, &it->before);
    if (it->shows_before) return reply_found(c, status, &it->before);
    if (status != FACING_DONE) return error_of(status);
    if (it->is_set)
        reply_simple(c, "OK");
    else
        reply_none(c);
    return NULL;
}

const char *run_set(struct connection *c) {
    struct setting it = {.value = arg(c, 2)};
    for (size_t at = 3; at < c->count; at++) {
        if (is_word(arg(c, at), "NX") && !it.if_present)
            it.if_absent = true;
        else if (is_word(arg(c, at), "XX") && !it.if_absent)
            it.if_present = true;
        else if (is_word(arg(c, at), "GET"))
            it.shows_before = true;
        else if (!read_time(c, &at, &times[0], &it))
            return NO_SYNTAX;
    }
    return set_as(c, &it);
}

/* SETEX and PSETEX: the command's number is the unit in milliseconds. */
const char *run_setex(struct connection *c) {
    struct setting it = {.value = arg(c, 3), .count = arg(c, 2), .time = &times[c->command->number == 1 ? PX : EX]};
    return set_as(c, &it);
}

const char *run_getset(struct connection *c) {
    struct setting it = {.value = arg(c, 2), .shows_before = true};
    return set_as(c, &it);
}

const char *run_setnx(struct connection *c) {
    struct setting it = {.value = arg(c, 2), .if_absent = true};
    uint32_t status = store_setting(&c->worker->store, arg(c, 1), &it);
    return done_or_error(c, status, it.is_set);
}

static enum change decide_getex(struct store *store, const struct found *found, void *of) {
    struct setting *it = of;
    it->before = *found;
    if (!found->is_live || it->time == NULL || it->error != NULL || it->deadline == found->deadline) return LEAVE;
    if (has_passed(store, it->deadline)) return REMOVE;
    store_next(store, it->deadline, found->value, NOTHING);
    return STORE;
}

/* A time that is wrong is an error where there is a key. */
const char *run_getex(struct connection *c) {
    struct setting it = {.shows_before = true};
    uint32_t status;
    for (size_t at = 2; at < c->count; at++)
        if (!read_time(c, &at, &times[1], &it)) return NO_SYNTAX;
    it.error = read_deadline(c, &it);
    status = store_change(&c->worker->store, arg(c, 1), decide_getex, &it);
    store_count_look(&c->worker->store, arg(c, 1), status, &it.before);
    return it.error != NULL && it.before.is_live ? it.error : reply_found(c, status, &it.before);
}

/* Whether there may be values for the keys of a request, all new: FACING_DONE, or why not. */
static uint32_t may_store_all(struct connection *c) {
    uint64_t more = 0;
    for (size_t i = 1; i < c->count; i += 2) {
        more += memory_of(arg(c, i).len, arg(c, i + 1).len);
        if (arg(c, i).len > FACING_LONGEST || arg(c, i + 1).len > LONGEST_VALUE) return FACING_TOO_LONG;
    }
    return make_room(&c->worker->store, more) ? FACING_DONE : STORE_FULL;
}

static uint32_t store_all(struct connection *c) {
    uint32_t status = may_store_all(c);
    for (size_t i = 1; i < c->count && status == FACING_DONE; i += 2) {
        struct setting it = {.value = arg(c, i + 1)};
        status = store_setting(&c->worker->store, arg(c, i), &it);
    }
    return status;
}

/* One call a key: another client may see some of the values and not yet the others. Where there is no room for all of them
 * none is stored; where the system has no memory, those before are. */
const char *run_mset(struct connection *c) {
    uint32_t status;
    if (c->count % 2 == 0) return wrong_count(c);
    status = store_all(c);
    if (status == FACING_DONE) reply_simple(c, "OK");
    return error_of(status);
}

/* It runs alone. */
const char *run_msetnx(struct connection *c) {
    uint32_t status = FACING_DONE;
    bool is_there = false;
    if (c->count % 2 == 0) return wrong_count(c);
    for (size_t i = 1; i < c->count && status == FACING_DONE && !is_there; i += 2) {
        struct found found;
        status = store_look(&c->worker->store, arg(c, i), &found);
        is_there = found.is_live;
    }
    if (status == FACING_DONE && !is_there) status = store_all(c);
    return done_or_error(c, status, !is_there);
}
