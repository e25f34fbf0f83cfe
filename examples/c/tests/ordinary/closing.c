/* Closes a map, reads it, and opens it again; each step is made where the one before succeeded. */
#include "facing_bytes.h"
#include <stdio.h>
#include <string.h>

int main(void) {
    facing_bytes_handle map, client = {NULL}, again = {NULL};
    facing_bytes_answer answer = {0, 0};
    facing_bytes_sizes sizes = {0, 0};
    uint64_t count = 0;
    char room[8];
    uint32_t status = facing_bytes_open(1, 2, &map);
    if (status == FACING_DONE) status = facing_bytes_client(&map, &client);
    if (status == FACING_DONE) status = facing_bytes_put_if_absent(&client, "key", 3, "value", 5, NULL, 0, &answer);
    if (status == FACING_DONE && answer.found) status = FACING_BAD_ARGUMENT;
    facing_bytes_free(&client);
    if (status == FACING_DONE) status = facing_bytes_close(&map);
    if (status == FACING_DONE) status = facing_bytes_count(&map, &count);
    if (status == FACING_DONE) status = facing_bytes_sizes_of(&map, &sizes);
    if (status == FACING_DONE) status = facing_bytes_find(&map, "key", 3, room, sizeof room, &answer);
    if (status == FACING_DONE) status = facing_bytes_reopen(&map, 1, &again);
    facing_bytes_free(&map);
    facing_bytes_free(&again);
    printf("%s\n", facing_strerror(status));
    if (status != FACING_DONE) return 1;
    return count != 1 || sizes.pairs != 1 || sizes.bytes != 8 || answer.len != 5 || memcmp(room, "value", 5) != 0;
}
