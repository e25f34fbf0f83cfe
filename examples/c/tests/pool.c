/* Threads that have no client of their own call a map over a pool with fewer clients than threads, and each finds all that it
 * stored. Then the pool is closed.
 *
 * usage: pool [CALLS] */
#include "values.h"

enum { THREADS = 8, CLIENTS = 3, SHARED = 1000000 };

static any_pool pool;
static uint64_t calls = 20000;

/* Adds 1 to a shared key at each call, and stores and reads back keys of its own. Returns how many answers were wrong. */
static void *call(void *number) {
    uint64_t own = (uint64_t)(uintptr_t)number << 32, wrong = 0, i;
    for (i = 0; i < calls; i++) {
        facing_answer answer;
        wrong += POOL(add)(&pool, KEY(SHARED), 1, NULL) != FACING_DONE;
        wrong += POOL(put)(&pool, KEY(own + i % 100), i + 1, NULL) != FACING_DONE;
        wrong += POOL(get)(&pool, KEY(own + i % 100), &answer) != FACING_DONE || answer.found != 1 || answer.value != i + 1;
    }
    return (void *)(uintptr_t)wrong;
}

/* Each call of the pool once, by one thread. */
static uint64_t each_call(void) {
    facing_answer answer;
    uint64_t wrong = 0;
    wrong += POOL(put_if_absent)(&pool, KEY(1), 5, &answer) != FACING_DONE || answer.found != 0;
    wrong += POOL(replace)(&pool, KEY(1), 6, &answer) != FACING_DONE || answer.value != 5;
    wrong += POOL(replace_if)(&pool, KEY(1), 6, 7, &answer) != FACING_DONE || answer.found != 1;
    wrong += POOL(greatest)(&pool, KEY(1), 9, &answer) != FACING_DONE || answer.value != 9;
    wrong += POOL(set)(&pool, KEY(1), 4, &answer) != FACING_DONE || answer.value != 4;
    wrong += POOL(contains)(&pool, KEY(1), &answer) != FACING_DONE || answer.found != 1;
    wrong += POOL(remove_if)(&pool, KEY(1), 3, &answer) != FACING_DONE || answer.found != 0;
    wrong += POOL(remove)(&pool, KEY(1), &answer) != FACING_DONE || answer.value != 4;
    return wrong;
}

#ifdef COUNTS
#define MANY(name, others) facing_counts_pool_##name##_all(&many, lens, 2, "abb", 3, others, &done)
#else
#define MANY(name, others) facing_pool_##name##_all(&many, lens, others, 2, &done)
#endif

/* Exchanges, bounded sums, counts and many keys at once, by a pool of its own. The keys are the numbers 1 and 2, or the texts
 * "a" and "bb". */
static uint64_t each_other_call(void) {
    static const uint64_t lens[2] = {1, 2}, values[2] = {7, 9}, five = 5;
    any_pool many;
    facing_seen seen = {9, 9, 9};
    facing_answer answer, answers[2];
    uint64_t wrong = 0, count = 9;
    size_t done = 9;
    wrong += POOL(open)(OPEN_WITH(16, 2), &many) != FACING_DONE;
    wrong += MANY(put, values) != FACING_DONE || done != 2;
    wrong += MANY(add, values) != FACING_DONE || done != 2;
    wrong += MANY(get, answers) != FACING_DONE || done != 2 || answers[0].value != 14 || answers[1].value != 18;
    wrong += POOL(count)(&many, &count) != FACING_DONE || count != 2;
    wrong += POOL(exchange)(&many, KEY(9), NULL, &five, &seen) != FACING_DONE || seen.exchanged != 1 || seen.found != 0;
    wrong += POOL(exchange)(&many, KEY(9), &five, NULL, &seen) != FACING_DONE || seen.exchanged != 1 || seen.value != 5;
    wrong += POOL(add_up_to)(&many, KEY(9), 2, 3, &answer) != FACING_DONE || answer.found != 1 || answer.value != 2;
    wrong += POOL(add_up_to)(&many, KEY(9), 2, 3, &answer) != FACING_DONE || answer.found != 0 || answer.value != 2;
    wrong += POOL(contains)(&many, KEY(10), &answer) != FACING_DONE || answer.found != 0;
    wrong += POOL(count)(&many, &count) != FACING_DONE || count != 3;
    POOL(free)(&many);
    wrong += POOL(count)(&many, &count) != FACING_BAD_ARGUMENT || count != 0;
    return wrong;
}

/* Slots are taken and given by hand: each has a client of its own. */
static uint64_t take_slots(void) {
    any_pool two;
    facing_pool_slot *first, *second;
    facing_answer answer;
    uint64_t wrong = 0;
    wrong += POOL(open)(OPEN_WITH(16, 2), &two) != FACING_DONE || POOL(take)(NULL) != NULL;
    first = POOL(take)(&two);
    second = POOL(take)(&two);
    if (first == NULL || second == NULL || first == second) return wrong + 1;
    wrong += DO(put)(CLIENT_OF(first), KEY(1), 5, NULL) != FACING_DONE;
    wrong += DO(get)(CLIENT_OF(second), KEY(1), &answer) != FACING_DONE || answer.value != 5;
    facing_pool_give(second);
    facing_pool_give(NULL);
    wrong += POOL(get)(&two, KEY(1), &answer) != FACING_DONE || answer.value != 5;
    wrong += POOL(take)(&two) != second;
    facing_pool_give(first);
    POOL(free)(&two);
    wrong += POOL(take)(&two) != NULL;
    return wrong;
}

static uint64_t refused(void) {
    any_pool none;
    facing_answer answer;
    uint64_t wrong = 0;
    wrong += POOL(open)(OPEN_WITH(0, 1), &none) != FACING_BAD_CAPACITY || POOL(open)(OPEN_WITH(16, 0), &none) != FACING_BAD_CLIENTS;
    wrong += POOL(open)(OPEN_WITH(16, 1), NULL) != FACING_BAD_ARGUMENT;
    wrong += POOL(get)(NULL, KEY(1), &answer) != FACING_BAD_ARGUMENT || POOL(get)(&none, KEY(1), &answer) != FACING_BAD_ARGUMENT;
    return wrong;
}

int main(int argc, char **argv) {
    pthread_t threads[THREADS];
    any_handle closed;
    facing_answer answer;
    uint64_t wrong = refused(), i, count;
    void *its;
    if (argc > 1) calls = strtoull(argv[1], NULL, 10);
    if (POOL(open)(OPEN_WITH(16, CLIENTS), &pool) != FACING_DONE) return 1;
    wrong += each_call() + each_other_call() + take_slots();
    for (i = 0; i < THREADS; i++)
        if (pthread_create(&threads[i], NULL, call, (void *)(uintptr_t)(i + 1))) return 1;
    for (i = 0; i < THREADS; i++) {
        pthread_join(threads[i], &its);
        wrong += (uint64_t)(uintptr_t)its;
    }
    wrong += POOL(close)(&pool, &closed) != FACING_DONE;
    wrong += DO(find)(&closed, KEY(SHARED), &answer) != FACING_DONE || answer.value != THREADS * calls;
    wrong += DO(count)(&closed, &count) != FACING_DONE || count != 1 + THREADS * (calls < 100 ? calls : 100);
    wrong += POOL(get)(&pool, KEY(1), &answer) != FACING_BAD_ARGUMENT;
    DO(free)(&closed);
    wrong += POOL(close)(&pool, &closed) != FACING_BAD_ARGUMENT || closed.at != NULL;
    wrong += POOL(close)(&pool, &pool.map) != FACING_BAD_ARGUMENT || POOL(close)(&pool, NULL) != FACING_BAD_ARGUMENT;
    POOL(free)(&pool);
    printf("%llu calls, %llu wrong\n", (unsigned long long)(THREADS * 3 * calls), (unsigned long long)wrong);
    return wrong != 0;
}
