/* Turns: requests of many threads run at once, or one of them runs alone. A thread that runs requests has taken its seat;
 * who is to be alone says so and waits until all seats are free. */
#define _GNU_SOURCE
#include "cache.h"
#include <sched.h>
#include <stdlib.h>
#include <time.h>

enum { SPINS = 1000, YIELDS = 2000 };

/* Makes so many seats. */
bool turns_begin(struct cache *cache, size_t stores) {
    cache->seats = aligned_alloc(_Alignof(struct seat), stores * sizeof *cache->seats);
    for (size_t i = 0; cache->seats != NULL && i < stores; i++)
        atomic_init(&cache->seats[i].is_taken, false);
    cache->seats_len = cache->seats == NULL ? 0 : stores;
    return cache->seats != NULL;
}

/* Begins a turn that other threads share. */
void turn_share(struct store *store) {
    struct cache *cache = store->cache;
    store->now = 0;
    while (true) {
        atomic_store(&store->seat->is_taken, true);
        if (!atomic_load(&cache->is_alone)) return;
        atomic_store_explicit(&store->seat->is_taken, false, memory_order_release);
        pthread_mutex_lock(&cache->alone);
        pthread_mutex_unlock(&cache->alone);
    }
}

/* Ends the turn. What the thread counted is told before. */
void turn_end(struct store *store) {
    store_tell(store);
    atomic_store_explicit(&store->seat->is_taken, false, memory_order_release);
}

/* Lets another request run alone that waits to, and goes on then. */
void turn_pass(struct store *store) {
    if (!atomic_load_explicit(&store->cache->is_alone, memory_order_relaxed)) return;
    turn_end(store);
    turn_share(store);
}

static void wait_for(const struct seat *seat) {
    struct timespec pause = {0, 50000};
    for (unsigned round = 0; atomic_load(&seat->is_taken); round++) {
        if (round > YIELDS)
            nanosleep(&pause, NULL);
        else if (round > SPINS)
            sched_yield();
    }
}

/* Makes the turn of this thread, which has one, that of it alone. */
void turn_take_alone(struct store *store) {
    struct cache *cache = store->cache;
    turn_end(store);
    pthread_mutex_lock(&cache->alone);
    atomic_store(&cache->is_alone, true);
    for (size_t i = 0; i < cache->seats_len; i++)
        wait_for(&cache->seats[i]);
    store->is_alone = true;
}

/* The turn is one again that other threads share. */
void turn_leave_alone(struct store *store) {
    store_tell(store);
    store->is_alone = false;
    atomic_store(&store->cache->is_alone, false);
    pthread_mutex_unlock(&store->cache->alone);
    turn_share(store);
}
