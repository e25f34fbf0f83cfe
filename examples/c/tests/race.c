/* Two threads use one client, one well after the other, with nothing that hands it over: ThreadSanitizer finds it. Not run but
 * under it. */
#include "facing.h"
#include <poll.h>
#include <pthread.h>
#include <stddef.h>

static facing_handle client;

/* Waits for two seconds times the key, so that the calls do not meet. */
static void *call(void *key) {
    poll(NULL, 0, (int)(uintptr_t)key * 2000);
    for (int i = 0; i < 100; i++)
        if (facing_put(&client, (uint64_t)(uintptr_t)key, 1, NULL) != FACING_DONE) break;
    return NULL;
}

int main(void) {
    facing_handle map;
    pthread_t threads[2];
    if (facing_open(16, 1, 0, &map) != FACING_DONE || facing_client(&map, &client) != FACING_DONE) return 1;
    for (size_t i = 0; i < 2; i++)
        if (pthread_create(&threads[i], NULL, call, (void *)(uintptr_t)i)) return 1;
    for (size_t i = 0; i < 2; i++) pthread_join(threads[i], NULL);
    facing_free(&client);
    facing_free(&map);
    return 0;
}
