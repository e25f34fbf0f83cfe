/* The commands that add to a number. */
#include "cache.h"
#include <ctype.h>
#include <errno.h>
#include <inttypes.h>
#include <math.h>
#include <stdio.h>
#include <stdlib.h>
#include <string.h>

/* The longest text of a number with a fraction: a long double has up to 4,933 digits before the point. */
enum { LONGEST_FLOAT = 5120 };

/* What INCR is asked to do, and what came of it. */
struct adding {
    int64_t by, sum;
    const char *error;
};

static enum change decide_add(struct store *store, const struct found *found, void *of) {
    struct adding *it = of;
    char text[24];
    it->sum = 0;
    it->error = NULL;
    if (found->is_live && !number_of(found->value, &it->sum))
        it->error = NOT_A_NUMBER;
    else if (__builtin_add_overflow(it->sum, it->by, &it->sum))
        it->error = "ERR increment or decrement would overflow";
    if (it->error != NULL) return LEAVE;
    snprintf(text, sizeof text, "%" PRId64, it->sum);
    store_next(store, found->is_live ? found->deadline : 0, bytes_of(text), NOTHING);
    return STORE;
}

/* INCR, DECR, INCRBY, DECRBY: the command's number is 1 or -1. */
const char *run_add(struct connection *c) {
    struct adding it = {.by = 1};
    uint32_t status;
    if (c->count == 3 && !number_of(arg(c, 2), &it.by)) return NOT_A_NUMBER;
    if (__builtin_mul_overflow(it.by, c->command->number, &it.by)) return "ERR decrement would overflow";
    status = store_change(&c->worker->store, arg(c, 1), decide_add, &it);
    return status == FACING_DONE && it.error != NULL ? it.error : done_or_error(c, status, it.sum);
}

/* Reads a number with a fraction as Redis takes them: what strtold takes, but no blank, no overflow and no NaN. */
static bool float_of(struct bytes text, long double *number) {
    char digits[LONGEST_FLOAT], *end;
    if (text.len == 0 || text.len >= sizeof digits || isspace(text.at[0])) return false;
    memcpy(digits, text.at, text.len);
    digits[text.len] = 0;
    errno = 0;
    *number = strtold(digits, &end);
    if (end != digits + text.len || isnan(*number)) return false;
    return errno != ERANGE || (isfinite(*number) && *number != 0);
}

/* What INCRBYFLOAT is asked to do, and the text of the sum. */
struct float_adding {
    long double by;
    const char *error;
    char text[LONGEST_FLOAT];
};

/* Writes a number with at most 17 digits behind the point, and no zeros at its end. */
static void write_float(char text[LONGEST_FLOAT], long double number) {
    size_t len = (size_t)snprintf(text, LONGEST_FLOAT, "%.17Lf", number);
    while (text[len - 1] == '0')
        len--;
    if (text[len - 1] == '.') len--;
    text[len] = 0;
    if (strcmp(text, "-0") == 0) strcpy(text, "0");
}

static enum change decide_add_float(struct store *store, const struct found *found, void *of) {
    struct float_adding *it = of;
    long double sum = 0;
    it->error = NULL;
    if (found->is_live && !float_of(found->value, &sum))
        it->error = NOT_A_FLOAT;
    else if (!isfinite(sum + it->by))
        it->error = "ERR increment would produce NaN or Infinity";
    if (it->error != NULL) return LEAVE;
    write_float(it->text, sum + it->by);
    store_next(store, found->is_live ? found->deadline : 0, bytes_of(it->text), NOTHING);
    return STORE;
}

const char *run_add_float(struct connection *c) {
    struct float_adding it;
    uint32_t status;
    if (!float_of(arg(c, 2), &it.by)) return NOT_A_FLOAT;
    status = store_change(&c->worker->store, arg(c, 1), decide_add_float, &it);
    if (status != FACING_DONE) return error_of(status);
    if (it.error != NULL) return it.error;
    reply_bulk(c, bytes_of(it.text));
    return NULL;
}
