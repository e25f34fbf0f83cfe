/* Each call of a map of numbers, all statuses added up and looked at once. */
#include "facing.h"
#include <stdio.h>

int main(void) {
    facing_handle map, client;
    facing_answer before, absent, added, most, set, had, now, gone;
    uint32_t failures = 0;
    failures |= facing_open(16, 1, 0, &map);
    failures |= facing_client(&map, &client);
    failures |= facing_put(&client, 1, 5, &before);
    failures |= facing_put_if_absent(&client, 1, 6, &absent);
    failures |= facing_add(&client, 1, 2, &added);
    failures |= facing_greatest(&client, 1, 3, &most);
    failures |= facing_set(&client, 1, 9, &set);
    failures |= facing_replace_if(&client, 1, 9, 10, &had);
    failures |= facing_get(&client, 1, &now);
    failures |= facing_remove(&client, 1, &gone);
    facing_free(&client);
    facing_free(&map);
    printf("%d %d %d %d %d %d %d\n", (int)absent.value, (int)added.value, (int)most.value, (int)set.value, (int)had.found,
           (int)now.value, (int)gone.value);
    return failures != FACING_DONE || before.found || absent.value != 5 || added.value != 7 || most.value != 7
           || set.value != 9 || !had.found || now.value != 10 || gone.value != 10;
}
