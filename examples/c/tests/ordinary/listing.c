/* Lists the pairs of an open map, some at a time; a failure ends the list. */
#include "facing.h"
#include <stdio.h>

static uint64_t sum_of(facing_handle *client) {
    facing_cursor cursor = {0};
    uint64_t keys[8], values[8], sum = 0;
    while (cursor.at != UINT64_MAX) {
        size_t copied;
        uint32_t status = facing_pairs(client, &cursor, keys, values, 8, &copied);
        if (status != FACING_DONE) fprintf(stderr, "pairs: %s\n", facing_strerror(status));
        for (size_t i = 0; i < copied && status == FACING_DONE; i++)
            sum += keys[i] * values[i];
        if (status != FACING_DONE) break;
    }
    return sum;
}

int main(void) {
    facing_handle map, client;
    uint64_t sum;
    if (facing_open(64, 1, 0, &map) != FACING_DONE) return 1;
    if (facing_client(&map, &client) != FACING_DONE) return 1;
    for (uint64_t key = 1; key <= 30; key++)
        if (facing_put(&client, key, 2, NULL) != FACING_DONE) return 1;
    sum = sum_of(&client);
    facing_free(&client);
    facing_free(&map);
    printf("%d\n", (int)sum);
    return sum != 30 * 31;
}
