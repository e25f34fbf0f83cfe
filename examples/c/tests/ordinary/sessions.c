/* Sessions by name. Each failure is told and the program goes on, so the answer is read after a call that failed too. */
#include "facing_bytes.h"
#include <stdio.h>
#include <string.h>

int main(void) {
    facing_bytes_handle map, client;
    facing_bytes_answer answer;
    char room[64];
    uint32_t status;
    if (facing_bytes_open(16, 1, &map) || facing_bytes_client(&map, &client)) return 1;
    status = facing_bytes_put(&client, "ann", 3, "blue", 4, NULL, 0, NULL);
    if (status != FACING_DONE) fprintf(stderr, "put: %s\n", facing_strerror(status));
    status = facing_bytes_get(&client, "ann", 3, room, sizeof room, &answer);
    if (status != FACING_DONE) fprintf(stderr, "get: %s\n", facing_strerror(status));
    if (answer.found) printf("%.*s\n", (int)answer.len, room);
    facing_bytes_free(&client);
    facing_bytes_free(&map);
    return !(answer.found && answer.len == 4 && memcmp(room, "blue", 4) == 0);
}
