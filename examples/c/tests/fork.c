/* Children that are forked while threads hold locks and clients. A thread of each map stops in the middle of a put, where it
 * allocates under the lock of its bucket. In a child a call on that bucket fails with FACING_AFTER_FORK, and never hangs; calls
 * on other buckets, and on maps of the child's own, go on. In the parent the calls wait, and are made.
 *
 * Linked so that the library's malloc and sched_yield are those below (--wrap). */
#define _GNU_SOURCE
#include "facing_pool.h"
#include <semaphore.h>
#include <stdio.h>
#include <string.h>
#include <sys/stat.h>
#include <sys/wait.h>
#include <unistd.h>

enum { KEYS = 100, OTHERS = 1000, ADDS = 20000 };

static unsigned wrong;

static void want(int is_so, const char *what) {
    if (is_so) return;
    wrong++;
    printf("%s\n", what);
}

/* The number of the request, from now on, at which this thread's malloc stops, until it is let go by the semaphore. */
static __thread unsigned stops_at;
static __thread sem_t *waits_for;
static sem_t stopped, let_go;

#ifdef __cplusplus
extern "C"
#endif
    void *__real_malloc(size_t size);
#ifdef __cplusplus
extern "C"
#endif
    void *__wrap_malloc(size_t size);
void *__wrap_malloc(size_t size) {
    if (stops_at != 0 && --stops_at == 0) {
        sem_post(&stopped);
        sem_wait(waits_for);
    }
    return __real_malloc(size);
}

/* Whether this process has one thread. */
static int is_alone(void) {
    struct stat threads;
    return stat("/proc/self/task", &threads) == 0 && threads.st_nlink == 3;
}

/* A thread of the child that is stopped, and ends when a call of another yields for the first time; and what lets it go. */
static pthread_t ending;
static sem_t *ends;
static int is_ending;

#ifdef __cplusplus
extern "C"
#endif
    int __real_sched_yield(void);
#ifdef __cplusplus
extern "C"
#endif
    int __wrap_sched_yield(void);
int __wrap_sched_yield(void) {
    if (is_ending) {
        is_ending = 0;
        sem_post(ends);
        pthread_join(ending, NULL);
        while (!is_alone()) __real_sched_yield();
    }
    return __real_sched_yield();
}

static facing_handle map, client, reader;
static facing_bytes_handle bytes_map, bytes_client, bytes_reader;
static facing_counts_handle counts_map, counts_client, counts_reader;
static facing_pool pool, shared;

/* Puts of a key that is new. */
static uint32_t put(unsigned kind, uint64_t key) {
    if (kind == 0) return facing_put(&client, key, 1, NULL);
    if (kind == 1) return facing_bytes_put(&bytes_client, &key, sizeof key, "a", 1, NULL, 0, NULL);
    return facing_counts_put(&counts_client, &key, sizeof key, 1, NULL);
}

/* Whether the bucket of a key is locked. */
static int is_locked(unsigned kind, uint64_t key) {
    facing_answer answer = {0, 0};
    facing_handle out = {NULL};
    uint8_t bytes[sizeof key];
    uint32_t status;
    memcpy(bytes, &key, sizeof key);
    if (kind == 0) {
        status = facing_c_try_contains(reader, &out, key, &answer);
        reader = out;
    } else if (kind == 1) {
        facing_handle lent = {bytes_reader.at};
        status = facing_c_bytes_try_contains(lent, &out, bytes, sizeof bytes, &answer);
        bytes_reader.at = out.at;
    } else {
        facing_handle lent = {counts_reader.at};
        status = facing_c_counts_try_contains(lent, &out, bytes, sizeof bytes, &answer);
        counts_reader.at = out.at;
    }
    return status == FACING_BUSY;
}

/* A put that stops at one of its requests for memory. */
struct stopping {
    unsigned kind, at;
    uint64_t key;
    pthread_t thread;
    sem_t let_go;
    uint32_t status;
};

static void *stop(void *of) {
    struct stopping *it = (struct stopping *)of;
    stops_at = it->at;
    waits_for = &it->let_go;
    it->status = put(it->kind, it->key);
    if (stops_at != 0) sem_post(&stopped);
    stops_at = 0;
    return NULL;
}

/* Lets a thread stop in a put that holds the lock of its bucket. A bucket's first entry takes no memory, so other keys are there
 * first, and a key is sought whose bucket has one. */
static void stop_under_lock(struct stopping *it, unsigned kind) {
    it->kind = kind;
    for (uint64_t key = 0; key < OTHERS; key++) want(put(kind, 100000 + key) == FACING_DONE, "a put of another key");
    for (unsigned tried = 0; tried < 200; tried++) {
        it->key = 1000 + tried;
        it->at = 1 + tried % 4;
        sem_init(&it->let_go, 0, 0);
        if (pthread_create(&it->thread, NULL, stop, it)) break;
        sem_wait(&stopped);
        if (is_locked(kind, it->key)) return;
        sem_post(&it->let_go);
        pthread_join(it->thread, NULL);
        sem_destroy(&it->let_go);
    }
    want(0, "no put stops under a lock");
}

static struct stopping stops[3];

static void call_numbers(void) {
    facing_answer answer = {7, 7};
    unsigned made = 0;
    want(facing_get(&reader, stops[0].key, &answer) == FACING_AFTER_FORK, "a get of a locked key");
    want(answer.found == 0 && answer.value == 0, "its answer");
    want(facing_add(&reader, stops[0].key, 1, NULL) == FACING_AFTER_FORK, "an add to a locked key");
    want(facing_add_up_to(&reader, stops[0].key, 1, 2, NULL) == FACING_AFTER_FORK, "a bounded sum");
    want(facing_exchange(&reader, stops[0].key, NULL, NULL, NULL) == FACING_AFTER_FORK, "an exchange");
    for (uint64_t key = 0; key < KEYS; key++) {
        uint32_t status = facing_put(&reader, key, key, NULL);
        want(status == FACING_DONE || status == FACING_AFTER_FORK, "a put of another key");
        made += status == FACING_DONE;
    }
    want(made != 0, "no put of another key was made");
}

static void read_pairs(void) {
    uint64_t keys[KEYS], values[KEYS], at;
    facing_cursor cursor = {0};
    size_t copied;
    uint32_t status;
    do
        status = facing_pairs(&reader, &cursor, keys, values, KEYS, &copied);
    while (status == FACING_DONE && cursor.at != UINT64_MAX);
    at = cursor.at;
    want(status == FACING_AFTER_FORK && copied == 0 && at != UINT64_MAX, "pairs to the locked bucket");
    status = facing_pairs(&reader, &cursor, keys, values, KEYS, &copied);
    want(status == FACING_AFTER_FORK && copied == 0 && cursor.at == at, "pairs from the locked bucket");
}

static void call_bytes_and_counts(void) {
    char room[8];
    facing_bytes_handle held;
    facing_bytes_answer answer = {7, 7};
    facing_bytes_sizes sizes = {7, 7};
    const void *key = &stops[1].key, *other = &stops[2].key;
    want(facing_bytes_get(&bytes_reader, key, 8, room, 8, &answer) == FACING_AFTER_FORK, "a get of locked bytes");
    want(answer.found == 0 && answer.len == 0, "the answer of bytes");
    want(facing_bytes_hold(&bytes_reader, key, 8, &held, NULL) == FACING_AFTER_FORK && held.at == NULL, "a hold");
    want(facing_bytes_sizes_of(&bytes_reader, &sizes) == FACING_AFTER_FORK && sizes.pairs == 0 && sizes.bytes == 0, "all sizes");
    want(facing_counts_add(&counts_reader, other, 8, 1, NULL) == FACING_AFTER_FORK, "an add to a locked count");
    want(facing_counts_sizes_of(&counts_reader, &sizes) == FACING_AFTER_FORK, "all sizes of counts");
}

/* The pool's one client was taken before the fork. */
static void call_pool(void) {
    facing_answer answer = {7, 7};
    want(facing_pool_get(&pool, 1, &answer) == FACING_AFTER_FORK && answer.found == 0 && answer.value == 0, "a pool's get");
    want(facing_pool_take(&pool) == NULL, "a client of the pool");
}

static facing_pool own;

static void *add(void *of) {
    (void)of;
    for (unsigned i = 0; i < ADDS; i++) want(facing_pool_add(&own, 1, 1, NULL) == FACING_DONE, "an add of the child's own");
    return NULL;
}

/* Two threads share the one client of a pool that the child opened. */
static void call_own(void) {
    pthread_t threads[2];
    facing_handle closed;
    facing_answer answer;
    want(facing_pool_open(16, 1, 0, &own) == FACING_DONE, "a pool of the child's own");
    for (int i = 0; i < 2; i++) want(pthread_create(&threads[i], NULL, add, NULL) == 0, "a thread of the child");
    for (int i = 0; i < 2; i++) pthread_join(threads[i], NULL);
    want(facing_pool_close(&own, &closed) == FACING_DONE, "a close of the child's own");
    want(facing_find(&closed, 1, &answer) == FACING_DONE && answer.value == 2 * ADDS, "the count of the child's own");
    facing_free(&closed);
}

static void free_all(void) {
    want(facing_close(&map) == FACING_CLIENT_OUT, "a close with a client that is out");
    facing_free(&reader);
    facing_bytes_free(&bytes_reader);
    facing_counts_free(&counts_reader);
    facing_free(&map);
    facing_bytes_free(&bytes_map);
    facing_counts_free(&counts_map);
}

/* Takes the one client of the child's own pool, and gives it back after fifteen seconds. */
static void *hold(void *of) {
    struct timespec a_while = {15, 0};
    facing_pool_slot *slot = facing_pool_take(&own);
    sem_post(&stopped);
    while (nanosleep(&a_while, &a_while) != 0) {
    }
    facing_pool_give(slot);
    return of;
}

static void *add_once(void *of) {
    want(facing_pool_add(&own, 1, 1, NULL) == FACING_DONE, "an add that waited for a client of the child's own");
    return of;
}

/* The child has more threads, so it cannot know at once that nobody will unlock the bucket. A pool that it opened itself was in
 * use by nobody during the fork: there a call waits as long as it must. */
static void call_beside_threads(void) {
    pthread_t holding, adding;
    struct timespec before, after;
    want(facing_pool_open(16, 1, 0, &own) == FACING_DONE && own.forks == 1, "a pool that was opened after one fork");
    want(pthread_create(&holding, NULL, hold, NULL) == 0, "a thread that takes the client");
    sem_wait(&stopped);
    want(pthread_create(&adding, NULL, add_once, NULL) == 0, "a thread that waits for it");
    clock_gettime(CLOCK_MONOTONIC, &before);
    want(facing_get(&reader, stops[0].key, NULL) == FACING_AFTER_FORK, "a get beside threads");
    clock_gettime(CLOCK_MONOTONIC, &after);
    want(after.tv_sec - before.tv_sec >= 10, "it waited for less than ten seconds");
    pthread_join(holding, NULL);
    pthread_join(adding, NULL);
}

/* A thread of the child unlocks the bucket that a call found locked, and ends before the call tries again: the call is made. */
static void call_after_a_thread(void) {
    struct stopping it;
    facing_answer answer;
    want(facing_open(1024, 2, 0, &map) == FACING_DONE, "a map of the child's own");
    want(facing_client(&map, &client) == FACING_DONE && facing_client(&map, &reader) == FACING_DONE, "its clients");
    stop_under_lock(&it, 0);
    ending = it.thread;
    ends = &it.let_go;
    is_ending = 1;
    want(facing_get(&reader, it.key, &answer) == FACING_DONE && answer.found == 1, "a get of what was unlocked");
    want(!is_ending && it.status == FACING_DONE, "the put of the thread that ended");
}

static void *take_and_give(void *of) {
    facing_pool_slot *slot = facing_pool_take(&shared);
    sem_post(&stopped);
    sem_wait(&let_go);
    facing_pool_give(slot);
    return of;
}

/* So too of a pool: a thread of the child gives the client back that a call waits for, and ends. */
static void call_pool_after_a_thread(void) {
    want(pthread_create(&ending, NULL, take_and_give, NULL) == 0, "a thread that takes the client");
    sem_wait(&stopped);
    ends = &let_go;
    is_ending = 1;
    want(facing_pool_add(&shared, 1, 1, NULL) == FACING_DONE && !is_ending, "a call by what was given back");
}

static void fork_for(void (*work)(void), const char *what);

static void call_in_a_grandchild(void) {
    fork_for(call_numbers, "a child of a child");
}

/* Does the work in a child, which is ended after a minute. */
static void fork_for(void (*work)(void), const char *what) {
    int status = 0;
    pid_t child;
    fflush(stdout);
    child = fork();
    if (child == 0) {
        wrong = 0;
        alarm(60);
        work();
        fflush(stdout);
        _exit(wrong != 0);
    }
    want(child > 0 && waitpid(child, &status, 0) == child && status == 0, what);
}

static void *get_in_parent(void *of) {
    facing_answer answer;
    (void)of;
    want(facing_get(&reader, stops[0].key, &answer) == FACING_DONE && answer.found == 1, "the get of the parent");
    return NULL;
}

int main(void) {
    pthread_t waiting;
    facing_pool_slot *taken;
    struct timespec a_while = {0, 100000000};
    sem_init(&stopped, 0, 0);
    sem_init(&let_go, 0, 0);
    if (facing_open(1024, 2, 0, &map) || facing_client(&map, &client) || facing_client(&map, &reader)) return 1;
    if (facing_bytes_open(1024, 2, &bytes_map) || facing_bytes_client(&bytes_map, &bytes_client)) return 1;
    if (facing_bytes_client(&bytes_map, &bytes_reader) || facing_counts_open(1024, 2, &counts_map)) return 1;
    if (facing_counts_client(&counts_map, &counts_client) || facing_counts_client(&counts_map, &counts_reader)) return 1;
    if (facing_pool_open(16, 1, 0, &pool) || facing_pool_open(16, 1, 0, &shared)) return 1;
    taken = facing_pool_take(&pool);
    for (unsigned kind = 0; kind < 3; kind++) stop_under_lock(&stops[kind], kind);
    fork_for(call_numbers, "numbers");
    fork_for(read_pairs, "pairs");
    fork_for(call_bytes_and_counts, "bytes and counts");
    fork_for(call_pool, "a pool");
    fork_for(call_own, "the child's own");
    fork_for(free_all, "what a child frees");
    fork_for(call_beside_threads, "a child of three threads");
    fork_for(call_after_a_thread, "a child whose thread ended");
    fork_for(call_pool_after_a_thread, "a pool of a child whose thread ended");
    fork_for(call_in_a_grandchild, "a grandchild");
    want(pthread_create(&waiting, NULL, get_in_parent, NULL) == 0, "a thread");
    nanosleep(&a_while, NULL);
    for (int i = 0; i < 3; i++) sem_post(&stops[i].let_go);
    for (int i = 0; i < 3; i++) {
        pthread_join(stops[i].thread, NULL);
        want(stops[i].status == FACING_DONE, "a put of the parent");
    }
    pthread_join(waiting, NULL);
    facing_pool_give(taken);
    want(facing_pool_put(&pool, 1, 2, NULL) == FACING_DONE, "the pool of the parent");
    facing_pool_free(&pool);
    facing_pool_free(&shared);
    facing_free(&client);
    facing_bytes_free(&bytes_client);
    facing_counts_free(&counts_client);
    facing_free(&reader);
    facing_bytes_free(&bytes_reader);
    facing_counts_free(&counts_reader);
    facing_free(&map);
    facing_bytes_free(&bytes_map);
    facing_counts_free(&counts_map);
    printf("%u wrong\n", wrong);
    return wrong != 0;
}
