/* Measures whether chosen keys cost more than others: puts keys of 32 bytes into a map of byte strings, keys that share a code without a
 * seed (16 blocks "Aa" or "BB") and then random ones. Seconds of processor time of each.
 *
 * cc -O2 -Iinclude bench/chosen.c packaging/heap.c crates/facing/out/libfacing.a -o bench/out/chosen && bench/out/chosen [KEYS] */
#include "facing_counts.h"
#include <stdio.h>
#include <stdlib.h>
#include <string.h>
#include <time.h>

enum { BLOCKS = 16 };

static double now(void) {
    struct timespec it;
    clock_gettime(CLOCK_PROCESS_CPUTIME_ID, &it);
    return (double)it.tv_sec + (double)it.tv_nsec / 1e9;
}

static void chosen(char *key, unsigned long number) {
    for (int i = 0; i < BLOCKS; i++) memcpy(key + 2 * i, number >> i & 1 ? "BB" : "Aa", 2);
}

static void random_one(char *key, unsigned long number) {
    unsigned long state = number * 0x9e3779b97f4a7c15u;
    for (int i = 0; i < 2 * BLOCKS; i++) {
        state = state * 6364136223846793005u + 1442695040888963407u;
        key[i] = (char)('A' + (state >> 33) % 26);
    }
}

/* Puts so many keys into a new map, and returns how long that took, or a number below 0 where a put failed. */
static double fill(unsigned long keys, void (*make)(char *, unsigned long)) {
    facing_counts_handle map, client;
    char key[2 * BLOCKS];
    uint64_t count = 0;
    double start = now(), taken;
    if (facing_counts_open(16, 1, &map) != FACING_DONE || facing_counts_client(&map, &client) != FACING_DONE) return -1;
    for (unsigned long i = 0; i < keys; i++) {
        make(key, i);
        if (facing_counts_put(&client, key, sizeof key, i, NULL) != FACING_DONE) return -1;
    }
    taken = now() - start;
    if (facing_counts_count(&client, &count) != FACING_DONE || count != keys) return -1;
    facing_counts_free(&client);
    facing_counts_free(&map);
    return taken;
}

int main(int argc, char **argv) {
    unsigned long keys = argc > 1 ? strtoul(argv[1], NULL, 10) : 65536;
    for (int round = 0; round < 5; round++) {
        double bad = fill(keys, chosen), good = fill(keys, random_one);
        if (bad < 0 || good < 0) return 1;
        printf("%lu keys: chosen %.4f s, random %.4f s, %.2f times\n", keys, bad, good, bad / good);
    }
    return 0;
}
