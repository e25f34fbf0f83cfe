/* Measures how many bytes a key takes in a map of byte strings: puts keys of KEY bytes with values of VALUE bytes into a new map, and
 * prints the bytes that are resident for each.
 *
 * cc -O2 bench/key_bytes.c $(pkg-config --cflags facing) $(pkg-config --variable=libdir facing)/libfacing.a -lpthread -o bench/out/key_bytes
 * bench/out/key_bytes KEY VALUE KEYS
 *
 * With examples/c/cache/heap.c and -Iexamples/c/cache beside it, small blocks come from the cache server's slabs, and else from malloc. */
#include "facing_bytes.h"
#include <stdio.h>
#include <stdlib.h>
#include <string.h>
#include <unistd.h>

enum { DIGITS = 12, MOST = 4096 };

static long resident(void) {
    long all = 0, now = 0;
    FILE *it = fopen("/proc/self/statm", "r");
    if (it == NULL || fscanf(it, "%ld %ld", &all, &now) != 2) exit(2);
    fclose(it);
    return now * sysconf(_SC_PAGESIZE);
}

int main(int argc, char **argv) {
    static char key[MOST + 1], value[MOST], number[32];
    facing_bytes_handle map, client = {NULL};
    unsigned long key_len = argc == 4 ? strtoul(argv[1], NULL, 10) : 0, value_len = key_len ? strtoul(argv[2], NULL, 10) : 0;
    unsigned long keys = key_len ? strtoul(argv[3], NULL, 10) : 0;
    long before;
    if (key_len < DIGITS || key_len > MOST || value_len > MOST || keys == 0) {
        fputs("usage: key_bytes KEY VALUE KEYS\n", stderr);
        return 2;
    }
    memset(key, 'k', key_len);
    memset(value, 'v', value_len);
    if (facing_bytes_open(16, 1, &map) != FACING_DONE || facing_bytes_client(&map, &client) != FACING_DONE) return 1;
    before = resident();
    for (unsigned long i = 0; i < keys; i++) {
        snprintf(number, sizeof number, "%0*lu", DIGITS, i);
        memcpy(key + key_len - DIGITS, number, DIGITS);
        if (facing_bytes_put(&client, key, key_len, value, value_len, NULL, 0, NULL) != FACING_DONE) return 1;
    }
    printf("%.1f\n", (double)(resident() - before) / (double)keys);
    return 0;
}
