/* A rate limiter: a function over a client that its caller gives, which lets a call pass where the map fails. */
#include "facing.h"
#include <stdbool.h>
#include <stdio.h>

static bool may_pass(facing_handle *client, uint64_t user, uint64_t most) {
    facing_answer answer;
    uint32_t status = facing_add(client, user, 1, &answer);
    if (status == FACING_NO_MEMORY) fprintf(stderr, "out of memory\n");
    return answer.value <= most;
}

int main(void) {
    facing_handle map, client;
    int passed = 0, without_map = 0;
    if (facing_open(16, 1, 0, &map) || facing_client(&map, &client)) return 1;
    for (int i = 0; i < 10; i++)
        passed += may_pass(&client, 7, 4);
    without_map = may_pass(NULL, 7, 4);
    facing_free(&client);
    facing_free(&map);
    printf("%d of 10 passed\n", passed);
    return passed != 4 || without_map != 1;
}
