/* Threads count visits by a pool, and what a call answers is added up whether or not it failed. */
#include "facing_pool.h"
#include <stdio.h>

enum { THREADS = 4, VISITS = 1000, PAGES = 5 };

static facing_pool pool;

static void *visit(void *of) {
    uint64_t *sum = (uint64_t *)of;
    for (int i = 0; i < VISITS; i++) {
        facing_answer answer;
        uint32_t status = facing_pool_add(&pool, (uint64_t)i % PAGES, 1, &answer);
        if (status != FACING_DONE) fprintf(stderr, "%s\n", facing_strerror(status));
        *sum += answer.found;
    }
    return NULL;
}

int main(void) {
    pthread_t threads[THREADS];
    uint64_t sums[THREADS] = {0}, made = 0, counted = 0;
    facing_handle closed;
    if (facing_pool_open(16, 2, 0, &pool) != FACING_DONE) return 1;
    for (int i = 0; i < THREADS; i++)
        if (pthread_create(&threads[i], NULL, visit, &sums[i])) return 1;
    for (int i = 0; i < THREADS; i++) {
        pthread_join(threads[i], NULL);
        made += sums[i];
    }
    if (facing_pool_close(&pool, &closed) != FACING_DONE) fprintf(stderr, "the pool was not closed\n");
    for (uint64_t page = 0; page < PAGES; page++) {
        facing_answer answer;
        if (facing_find(&closed, page, &answer) != FACING_DONE) fprintf(stderr, "no page %d\n", (int)page);
        counted += answer.value;
    }
    facing_free(&closed);
    printf("%d visits, %d counted\n", (int)made, (int)counted);
    return made != THREADS * VISITS || counted != THREADS * VISITS;
}
