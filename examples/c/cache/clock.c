/* Deadlines. A deadline is a moment of CLOCK_MONOTONIC in milliseconds, or 0 for none; clients give and get spans and times
 * of day. A change of the system's time moves no deadline. */
#define _GNU_SOURCE
#include "cache.h"
#include <stdlib.h>
#include <time.h>

/* Two clocks that are read one after the other differ by up to so many milliseconds more than they should; and how often
 * they are read again where the thread was stopped between. */
enum { JITTER = 5, TRIES = 10 };

/* How far the time of day is ahead. It stays until the system's time is changed, so that a time of day that a client gives
 * is the one it gets back. */
static _Atomic int64_t ahead;

static int64_t ms_of(clockid_t clock) {
    struct timespec now;
    clock_gettime(clock, &now);
    return (int64_t)now.tv_sec * 1000 + now.tv_nsec / 1000000;
}

/* The time by CLOCK_MONOTONIC, in milliseconds. */
uint64_t now_ms(void) {
    return (uint64_t)ms_of(CLOCK_MONOTONIC);
}

static int64_t day_ahead(void) {
    int64_t was = atomic_load_explicit(&ahead, memory_order_relaxed), before, is;
    int tries = 0;
    do {
        before = ms_of(CLOCK_MONOTONIC);
        is = ms_of(CLOCK_REALTIME) - before;
    } while (ms_of(CLOCK_MONOTONIC) - before > 1 && ++tries < TRIES);
    if (llabs(is - was) <= JITTER) return was;
    atomic_store_explicit(&ahead, is, memory_order_relaxed);
    return is;
}

/* The deadline after so many units of milliseconds, or at such a time of day. One in the past is 1. Returns false where the
 * time of day has no such moment in 63 bits. */
bool deadline_from(int64_t count, int64_t unit, bool is_moment, uint64_t now, uint64_t *deadline) {
    int64_t at, before = day_ahead();
    if (__builtin_mul_overflow(count, unit, &at)) return false;
    if (!is_moment && __builtin_add_overflow(at, before + (int64_t)now, &at)) return false;
    *deadline = at > before ? (uint64_t)(at - before) : 1;
    return true;
}

/* The time of day of a deadline, in milliseconds. */
int64_t day_of(uint64_t deadline) {
    return (int64_t)deadline + day_ahead();
}
