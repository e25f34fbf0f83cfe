/* Values of up to 2^29 bytes, whole and in parts. It takes 600 MB of memory. */
#include "facing_change.h"
#include <stdio.h>
#include <stdlib.h>
#include <string.h>

static int wrong;

static void want(int is_right, const char *what) {
    if (is_right) return;
    wrong++;
    fprintf(stderr, "wrong: %s\n", what);
}

static int answered(facing_bytes_answer answer, uint32_t found, uint64_t len) {
    return answer.found == found && answer.len == len;
}

int main(void) {
    const size_t most = FACING_LONGEST_VALUE, middle = most / 2;
    facing_bytes_handle map, client, held;
    facing_bytes_answer answer;
    char room[8] = "-------";
    /* Zeros take memory only where they are written. */
    char *value = (char *)calloc(most + 1, 1);
    if (value == NULL) return 1;
    if (facing_bytes_open(16, 1, &map) != FACING_DONE || facing_bytes_client(&map, &client) != FACING_DONE) return 1;
    value[0] = 'a';
    value[middle] = 'b';
    value[most - 1] = 'c';
    want(facing_bytes_put(&client, "k", 1, value, most + 1, NULL, 0, &answer) == FACING_TOO_LONG, "one byte more than the most");
    want(facing_bytes_contains(&client, "k", 1, &answer) == FACING_DONE && answered(answer, 0, 0), "it is not there");
    want(facing_bytes_put(&client, "k", 1, value, most, NULL, 0, &answer) == FACING_DONE && answered(answer, 0, 0), "the most");
    want(facing_bytes_get(&client, "k", 1, room, 8, &answer) == FACING_NO_ROOM && answered(answer, 1, most), "its length");
    want(memcmp(room, "-------", 8) == 0, "nothing was copied");
    want(facing_bytes_hold(&client, "k", 1, &held, &answer) == FACING_DONE && answered(answer, 1, most), "it is held");
    want(facing_bytes_read(&held, most - 2, room, 8, &answer) == FACING_DONE && answered(answer, 1, most), "its end is read");
    want(memcmp(room, "\0c-----", 8) == 0, "its last two bytes");
    want(facing_bytes_put(&client, "k", 1, value, 65537, room, 3, &answer) == FACING_DONE && answered(answer, 1, most),
         "a shorter one");
    want(memcmp(room, "a\0\0----", 8) == 0, "the first three bytes of the one before");
    want(facing_bytes_read(&held, middle, room, 8, &answer) == FACING_DONE && memcmp(room, "b\0\0\0\0\0\0", 8) == 0,
         "what is held stays as it is");
    facing_bytes_free(&held);
    value[middle] = 0;
    want(facing_bytes_get(&client, "k", 1, value + middle, 65537, &answer) == FACING_DONE && answered(answer, 1, 65537), "a get");
    want(value[middle] == 'a' && value[middle + 1] == 0, "it has the first byte of the value");
    facing_bytes_free(&client);
    want(facing_bytes_close(&map) == FACING_DONE, "it closes");
    want(facing_bytes_find(&map, "k", 1, room, 8, &answer) == FACING_NO_ROOM && answered(answer, 1, 65537), "it is found");
    facing_bytes_free(&map);
    free(value);
    printf("%d wrong\n", wrong);
    return wrong != 0;
}
