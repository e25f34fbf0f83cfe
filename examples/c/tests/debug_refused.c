/* With FACING_DEBUG each request for memory is refused in turn. Where there is none for what a handle leads to, no handle is filled,
 * and what was made is freed: the client is back, and no block is left. */
#define FACING_DEBUG
#include "facing_bytes.h"
#include "refusing.h"

/* Frees what is kept of freed handles. */
static void forget_freed(void) {
    for (int i = 0; i < 1024; i++) free(facing_freed[i]), facing_freed[i] = NULL;
}

static void live(void) {
    static const char value[1000] = "a long value";
    facing_bytes_handle map, client, held, more, again;
    facing_bytes_answer answer = {0, 0};
    char room[6];
    while (was_refused(facing_bytes_open(16, 1, &map), "an open")) want(map.at == NULL, "no map");
    while (was_refused(facing_bytes_client(&map, &client), "a client")) want(client.at == NULL, "no client");
    while (was_refused(facing_bytes_put(&client, "key", 3, value, sizeof value, NULL, 0, NULL), "a put")) want(client.at != NULL, "the client");
    while (was_refused(facing_bytes_hold(&client, "key", 3, &held, &answer), "a hold"))
        want(held.at == NULL && answer.found == 0 && answer.len == 0, "no value");
    want(answer.found == 1 && answer.len == sizeof value, "what is held");
    facing_bytes_free(&client);
    while (was_refused(facing_bytes_close(&map), "a close")) want(map.at != NULL, "the map");
    while (was_refused(facing_bytes_again(&map, &more), "one more handle")) want(more.at == NULL, "no more handle");
    facing_bytes_free(&map);
    while (was_refused(facing_bytes_reopen(&more, 1, &again), "a reopening")) want(again.at == NULL, "no second map");
    facing_bytes_free(&more);
    facing_bytes_free(&again);
    want(facing_bytes_read(&held, 2, room, sizeof room, &answer) == FACING_DONE && room[0] == 'l' && room[5] == 'v', "the value");
    facing_bytes_free(&held);
    forget_freed();
    want(blocks == 0, "blocks that are left");
}

int main(void) {
    return refuse_each(1, live);
}
