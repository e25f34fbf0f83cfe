/* The commands on the deadlines of keys. */
#include "cache.h"

/* What EXPIRE and PERSIST are asked to do: a deadline, 0 for none, or one in the past; and on which condition. */
struct expiring {
    uint64_t deadline;
    bool if_none, if_some, if_later, if_sooner, is_done;
};

/* Whether the key's deadline, 0 for none, is such as the conditions ask for. */
static bool is_met(const struct expiring *it, uint64_t before) {
    if (it->if_none && before != 0) return false;
    if (it->if_some && before == 0) return false;
    if (it->if_later && (before == 0 || it->deadline <= before)) return false;
    return !it->if_sooner || before == 0 || it->deadline < before;
}

static enum change decide_expire(struct store *store, const struct found *found, void *of) {
    struct expiring *it = of;
    it->is_done = found->is_live && (it->deadline != 0 || found->deadline != 0) && is_met(it, found->deadline);
    if (!it->is_done) return LEAVE;
    if (has_passed(store, it->deadline)) return REMOVE;
    store_next(store, it->deadline, found->value, NOTHING);
    return STORE;
}

static const char *change_deadline(struct connection *c, struct expiring *it) {
    uint32_t status = store_change(&c->worker->store, arg(c, 1), decide_expire, it);
    return done_or_error(c, status, it->is_done);
}

/* Reads NX, XX, GT and LT. Returns an error, or NULL. */
static const char *read_conditions(struct connection *c, struct expiring *it) {
    for (size_t i = 3; i < c->count; i++) {
        if (is_word(arg(c, i), "NX"))
            it->if_none = true;
        else if (is_word(arg(c, i), "XX"))
            it->if_some = true;
        else if (is_word(arg(c, i), "GT"))
            it->if_later = true;
        else if (is_word(arg(c, i), "LT"))
            it->if_sooner = true;
        else
            return error_of_option(c, arg(c, i));
    }
    if (it->if_none && (it->if_some || it->if_later || it->if_sooner))
        return "ERR NX and XX, GT or LT options at the same time are not compatible";
    return it->if_later && it->if_sooner ? "ERR GT and LT options at the same time are not compatible" : NULL;
}

/* EXPIRE, PEXPIRE: the command's number is the unit in milliseconds. EXPIREAT, PEXPIREAT: it is below 0. */
const char *run_expire(struct connection *c) {
    struct expiring it = {0};
    const char *error = read_conditions(c, &it);
    int64_t count, unit = c->command->number;
    uint64_t now = store_now(&c->worker->store);
    if (error != NULL) return error;
    if (!number_of(arg(c, 2), &count)) return NOT_A_NUMBER;
    if (!deadline_from(count, unit < 0 ? -unit : unit, unit < 0, now, &it.deadline)) return no_deadline(c);
    return change_deadline(c, &it);
}

const char *run_persist(struct connection *c) {
    struct expiring it = {0};
    return change_deadline(c, &it);
}

/* TTL, PTTL: -2 where there is no key, -1 where it has no deadline, and else the time that is left, rounded to units of the
 * command's number of milliseconds. EXPIRETIME, PEXPIRETIME: the number is below 0, and the time of day is told. */
const char *run_ttl(struct connection *c) {
    struct found found;
    uint32_t status = store_look(&c->worker->store, arg(c, 1), &found);
    int64_t unit = c->command->number, now = (int64_t)store_now(&c->worker->store);
    int64_t ms = unit < 0 ? day_of(found.deadline) : (int64_t)found.deadline > now ? (int64_t)found.deadline - now : 0;
    if (unit < 0) unit = -unit;
    ms = ms / unit + (2 * (ms % unit) >= unit);
    return done_or_error(c, status, !found.is_live ? -2 : found.deadline == 0 ? -1 : ms);
}
