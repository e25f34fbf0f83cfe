/* Measures what the way into the static library and out of it costs: a call that is refused at once, since its handle is a
 * map's, and for comparison a get of a key that is there. Nanoseconds of processor time for each call, the least of ten rounds.
 *
 * cc -O2 -Iinclude bench/crossing.c packaging/heap.c crates/facing/out/libfacing.a -o bench/out/crossing */
#include "facing.h"
#include <stdio.h>
#include <time.h>

enum { CALLS = 2000000, ROUNDS = 10 };

static double now(void) {
    struct timespec it;
    clock_gettime(CLOCK_PROCESS_CPUTIME_ID, &it);
    return (double)it.tv_sec * 1e9 + (double)it.tv_nsec;
}

static double of_calls(facing_handle *handle, uint32_t expected) {
    double least = 1e18;
    for (int round = 0; round < ROUNDS; round++) {
        double start = now(), taken;
        for (int i = 0; i < CALLS; i++) {
            facing_answer answer;
            if (facing_get(handle, 7, &answer) != expected) return -1;
        }
        taken = (now() - start) / CALLS;
        least = taken < least ? taken : least;
    }
    return least;
}

int main(void) {
    facing_handle map, client;
    facing_answer answer;
    if (facing_open(16, 1, 0, &map) != FACING_DONE || facing_client(&map, &client) != FACING_DONE) return 1;
    if (facing_put(&client, 7, 1, &answer) != FACING_DONE) return 1;
    printf("%.1f ns in and out, %.1f ns a get\n", of_calls(&map, FACING_WRONG_HANDLE), of_calls(&client, FACING_DONE));
    facing_free(&client);
    facing_free(&map);
    return 0;
}
