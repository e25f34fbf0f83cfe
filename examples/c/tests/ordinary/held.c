/* Holds a large value while another takes its place. */
#include "facing_bytes.h"
#include <stdio.h>
#include <string.h>

static const char *said(uint32_t status) {
    return status == FACING_DONE ? "" : facing_strerror(status);
}

int main(void) {
    facing_bytes_handle map, client, held;
    facing_bytes_answer answer, part, whole;
    static char text[1000];
    char room[4];
    memset(text, 'a', sizeof text);
    if (facing_bytes_open(16, 1, &map) || facing_bytes_client(&map, &client)) return 1;
    fputs(said(facing_bytes_put(&client, "page", 4, text, sizeof text, NULL, 0, NULL)), stderr);
    fputs(said(facing_bytes_hold(&client, "page", 4, &held, &answer)), stderr);
    fputs(said(facing_bytes_replace(&client, "page", 4, "b", 1, room, sizeof room, &whole)), stderr);
    fputs(said(facing_bytes_read(&held, 998, room, sizeof room, &part)), stderr);
    printf("%d bytes, and before %d\n", (int)answer.len, (int)whole.len);
    facing_bytes_free(&held);
    facing_bytes_free(&client);
    facing_bytes_free(&map);
    return !(answer.found && answer.len == 1000 && whole.len == 1000 && part.len == 1000 && room[0] == 'a');
}
