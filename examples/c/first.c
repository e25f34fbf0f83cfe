/* Two threads add to the value of one key. Then the map is closed, and read. */
#include "facing.h"
#include <pthread.h>
#include <stdio.h>

static void *count(void *of) {
    facing_handle *client = (facing_handle *)of;
    for (int i = 0; i < 1000; i++)
        if (facing_add(client, 7, 1, NULL) != FACING_DONE) break;
    facing_free(client);
    return NULL;
}

int main(void) {
    facing_handle map, clients[2];
    facing_answer answer;
    pthread_t threads[2];
    if (facing_open(16, 2, 0, &map) != FACING_DONE) return 1;
    for (int i = 0; i < 2; i++) {
        if (facing_client(&map, &clients[i]) != FACING_DONE) return 1;
        if (pthread_create(&threads[i], NULL, count, &clients[i])) return 1;
    }
    for (int i = 0; i < 2; i++) pthread_join(threads[i], NULL);
    if (facing_close(&map) != FACING_DONE) return 1;
    if (facing_find(&map, 7, &answer) != FACING_DONE) return 1;
    printf("%d counted, %d wrong\n", (int)answer.value, answer.value != 2000);
    facing_free(&map);
    return answer.value != 2000;
}
