/* A malloc that refuses some requests, and what comes of it. It is linked so that malloc, calloc and realloc, of the library and
 * of pools, are those below (--wrap). */
#ifndef REFUSING_H
#define REFUSING_H

#include "facing.h"
#include <stdio.h>
#include <stdlib.h>

/* How many requests there were, which is refused, whether those after it are, and how many blocks are out. */
static long requests, refused_from, refused_to, blocks;

static int is_refused(void) {
    requests++;
    return requests >= refused_from && requests < refused_to;
}

void *__real_malloc(size_t size);
void *__real_calloc(size_t count, size_t size);
void *__real_realloc(void *block, size_t size);
void __real_free(void *block);

void *__wrap_malloc(size_t size) {
    void *block = is_refused() ? NULL : __real_malloc(size);
    blocks += block != NULL;
    return block;
}

void *__wrap_calloc(size_t count, size_t size) {
    void *block = is_refused() ? NULL : __real_calloc(count, size);
    blocks += block != NULL;
    return block;
}

void *__wrap_realloc(void *block, size_t size) {
    return is_refused() ? NULL : __real_realloc(block, size);
}

void __wrap_free(void *block) {
    blocks -= block != NULL;
    __real_free(block);
}

/* What was not as it should be, and how many calls were refused. */
static long wrong, refusals;

static void want(int is_so, const char *what) {
    if (is_so) return;
    wrong++;
    printf("request %ld to %ld refused: %s\n", refused_from, refused_to, what);
}

/* Whether a call was refused for want of memory; memory is there again then. */
static int was_refused(uint32_t status, const char *what) {
    if (status == FACING_NO_MEMORY) {
        want(requests >= refused_from && refused_to != 0, what);
        refused_to = 0;
        refusals++;
        return 1;
    }
    want(status == FACING_DONE, what);
    return 0;
}

/* Lives once, and then again for each request, or for each such step, refused alone and with all after it. */
static int refuse_each(long step, void (*live)(void)) {
    long runs = 0, all;
    live();
    all = requests;
    for (int with_rest = 0; with_rest < 2; with_rest++) {
        for (long from = 1; from <= all; from += step, runs++) {
            requests = 0;
            refused_from = from;
            refused_to = with_rest ? all + 1 : from + 1;
            live();
        }
    }
    printf("%ld requests, %ld runs, %ld calls refused, %ld wrong\n", all, runs, refusals, wrong);
    return wrong != 0 || refusals == 0;
}

#endif
