/* Hooks of the heap in a program: the library's blocks are counted, every one is freed, and a refused one is told. */
#include "facing_bytes.h"
#include "facing_heap.h"
#include <stdio.h>
#include <stdlib.h>

enum { KEYS = 1000 };

/* Longer than what lies in the entry itself, so each value has a block. */
static const char value[100];

static long blocks, requests;
static int is_refusing;

static facing_room room_at(void *at) {
    static char nowhere;
    facing_room room = {at != NULL, at != NULL ? at : &nowhere};
    return room;
}

facing_room facing_alloc(size_t size, size_t align) {
    facing_room room = room_at(is_refusing ? NULL : malloc(size != 0 ? size : align));
    requests++;
    blocks += room.found != 0;
    return room;
}

facing_room facing_realloc(void *at, size_t old_size, size_t size, size_t align) {
    (void)old_size;
    requests++;
    return room_at(is_refusing ? NULL : realloc(at, size != 0 ? size : align));
}

void facing_dealloc(void *at) {
    blocks--;
    free(at);
}

static int wrong;

static void expect(const char *what, long got, long expected) {
    if (got == expected) return;
    printf("%s: %ld, expected %ld\n", what, got, expected);
    wrong++;
}

int main(void) {
    facing_bytes_handle map, client;
    uint64_t count = 0;
    char key[32];
    int i;
    is_refusing = 1;
    expect("an opening without memory", facing_bytes_open(16, 1, &map), FACING_NO_MEMORY);
    is_refusing = 0;
    expect("blocks without a map", blocks, 0);
    expect("open", facing_bytes_open(16, 1, &map), FACING_DONE);
    expect("client", facing_bytes_client(&map, &client), FACING_DONE);
    for (i = 0; i < KEYS; i++) {
        size_t len = (size_t)snprintf(key, sizeof key, "a key of some bytes, %d", i);
        expect("put", facing_bytes_put(&client, key, len, value, sizeof value, NULL, 0, NULL), FACING_DONE);
    }
    expect("a block or more for each key", blocks >= KEYS, 1);
    is_refusing = 1;
    expect("a put without memory", facing_bytes_put(&client, "one", 3, value, sizeof value, NULL, 0, NULL),
           FACING_NO_MEMORY);
    is_refusing = 0;
    facing_bytes_free(&client);
    expect("close", facing_bytes_close(&map), FACING_DONE);
    expect("count", facing_bytes_count(&map, &count), FACING_DONE);
    expect("keys", (long)count, KEYS);
    facing_bytes_free(&map);
    expect("blocks that are left", blocks, 0);
    expect("requests were seen", requests > KEYS, 1);
    printf("%d wrong\n", wrong);
    return wrong != 0;
}
