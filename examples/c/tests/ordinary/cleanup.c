/* Three maps are opened by one function, and freed at one place whatever failed. */
#include "facing_counts.h"
#include <stdio.h>

struct maps {
    facing_handle numbers, client;
    facing_bytes_handle bytes;
    facing_counts_handle counts;
};

static uint32_t open_all(struct maps *maps, size_t capacity) {
    uint32_t status = facing_open(capacity, 1, 0, &maps->numbers), more;
    more = facing_client(&maps->numbers, &maps->client);
    if (status == FACING_DONE) status = more;
    more = facing_bytes_open(capacity, 1, &maps->bytes);
    if (status == FACING_DONE) status = more;
    more = facing_counts_open(capacity, 1, &maps->counts);
    return status == FACING_DONE ? more : status;
}

static void free_all(struct maps *maps) {
    facing_free(&maps->client);
    facing_free(&maps->numbers);
    facing_bytes_free(&maps->bytes);
    facing_counts_free(&maps->counts);
}

int main(void) {
    struct maps right, wrong;
    uint32_t opened = open_all(&right, 16), refused = open_all(&wrong, 0);
    facing_answer answer;
    if (facing_add(&right.client, 1, 2, &answer) != FACING_DONE) fprintf(stderr, "not added\n");
    free_all(&right);
    free_all(&wrong);
    printf("%s; %s\n", facing_strerror(opened), facing_strerror(refused));
    return opened != FACING_DONE || refused != FACING_BAD_CAPACITY || answer.value != 2;
}
