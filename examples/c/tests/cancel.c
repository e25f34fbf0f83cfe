/* Threads that are cancelled while a call of theirs waits. No call is a cancellation point: it is made first, and the thread ends
 * at the next point of its own. So no client of a pool is lost, and no lock stays locked. */
#define _GNU_SOURCE
#include "facing_heap.h"
#include "facing_pool.h"
#include <semaphore.h>
#include <stdio.h>
#include <time.h>
#include <unistd.h>

enum { CLIENTS = 3, KEYS = 40 };

static unsigned wrong;
static facing_pool pool;

static void want(int is_so, const char *what) {
    if (is_so) return;
    wrong++;
    printf("%s\n", what);
}

/* Whether the next request of this thread stops until it is let go. */
static __thread int stops;
static sem_t stopped, let_go;

static facing_room room_at(void *at) {
    static char nowhere;
    facing_room room = {at != NULL, at != NULL ? at : &nowhere};
    return room;
}

facing_room facing_alloc(size_t size, size_t align) {
    if (stops) {
        stops = 0;
        sem_post(&stopped);
        sem_wait(&let_go);
    }
    return room_at(malloc(size != 0 ? size : align));
}

facing_room facing_realloc(void *at, size_t old_size, size_t size, size_t align) {
    (void)old_size;
    return room_at(realloc(at, size != 0 ? size : align));
}

void facing_dealloc(void *at) {
    free(at);
}

static uint64_t key;

/* Puts the key, which is new, and stops at the first request for memory. */
static void *put(void *of) {
    stops = 1;
    want(facing_pool_put(&pool, key, 1, NULL) == FACING_DONE, "a put");
    if (stops) sem_post(&stopped);
    return of;
}

static int is_locked(void) {
    facing_pool_slot *slot = facing_pool_take(&pool);
    facing_handle out = {NULL};
    facing_answer answer = {0, 0};
    uint32_t status = facing_c_try_contains(slot->client.numbers, &out, key, &answer);
    slot->client.numbers = out;
    facing_pool_give(slot);
    return status == FACING_BUSY;
}

static unsigned made;

static void *wait_and_end(void *of) {
    uint32_t status = facing_pool_get(&pool, key, NULL);
    __atomic_fetch_add(&made, status == FACING_DONE, __ATOMIC_SEQ_CST);
    pthread_testcancel();
    return of;
}

/* Cancels a thread while its call waits, as far as a tenth of a second is enough for it to begin. */
static pthread_t cancelled(void) {
    struct timespec a_while = {0, 100000000};
    pthread_t thread;
    want(pthread_create(&thread, NULL, wait_and_end, NULL) == 0, "a thread");
    nanosleep(&a_while, NULL);
    want(pthread_cancel(thread) == 0, "a cancellation");
    return thread;
}

static void join(pthread_t thread) {
    void *ended;
    want(pthread_join(thread, &ended) == 0 && ended == PTHREAD_CANCELED, "the end of a thread");
}

/* Calls that wait for a bucket. */
static unsigned wait_for_buckets(void) {
    unsigned waits = 0;
    pthread_t putting, waiting;
    for (key = 0; key < KEYS; key++) {
        int waited;
        sem_init(&let_go, 0, 0);
        want(pthread_create(&putting, NULL, put, NULL) == 0, "a thread that puts");
        sem_wait(&stopped);
        waited = waits < 5 && is_locked();
        if (waited) waiting = cancelled();
        sem_post(&let_go);
        pthread_join(putting, NULL);
        if (waited) join(waiting);
        waits += waited != 0;
    }
    return waits;
}

/* A call that waits for a client. */
static void wait_for_a_client(void) {
    facing_pool_slot *taken[CLIENTS];
    pthread_t waiting;
    for (int i = 0; i < CLIENTS; i++) taken[i] = facing_pool_take(&pool);
    waiting = cancelled();
    for (int i = 0; i < CLIENTS; i++) facing_pool_give(taken[i]);
    join(waiting);
}

int main(void) {
    facing_handle closed;
    uint64_t count;
    unsigned waits;
    alarm(60);
    sem_init(&stopped, 0, 0);
    if (facing_pool_open(1, CLIENTS, 0, &pool)) return 1;
    waits = wait_for_buckets();
    want(waits != 0, "no put stopped under a lock");
    wait_for_a_client();
    want(made == waits + 1, "a call of a cancelled thread was not made");
    for (int i = 0; i < CLIENTS; i++) want(pool.slots[i].in_use == 0, "a client that was not given back");
    want(facing_pool_close(&pool, &closed) == FACING_DONE, "a close");
    want(facing_count(&closed, &count) == FACING_DONE && count == KEYS, "the keys");
    facing_free(&closed);
    printf("%u wrong\n", wrong);
    return wrong != 0;
}
