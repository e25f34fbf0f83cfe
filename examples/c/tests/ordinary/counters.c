/* Counts the words of its text by a macro that tells of each failure. */
#include "facing_counts.h"
#include <stdio.h>
#include <string.h>

#define TRY(call)                                                                                                           \
    do {                                                                                                                    \
        uint32_t status_ = (call);                                                                                          \
        if (status_ != FACING_DONE) fprintf(stderr, "%s: %s\n", #call, facing_strerror(status_));                           \
    } while (0)

int main(void) {
    static const char *const words[] = {"to", "be", "or", "not", "to", "be"};
    facing_counts_handle map, client;
    facing_answer once, twice;
    uint64_t count;
    TRY(facing_counts_open(16, 1, &map));
    TRY(facing_counts_client(&map, &client));
    for (unsigned i = 0; i < sizeof words / sizeof *words; i++)
        TRY(facing_counts_add(&client, words[i], strlen(words[i]), 1, NULL));
    TRY(facing_counts_get(&client, "or", 2, &once));
    TRY(facing_counts_get(&client, "be", 2, &twice));
    TRY(facing_counts_count(&client, &count));
    printf("or %d, be %d, %d words\n", (int)once.value, (int)twice.value, (int)count);
    facing_counts_free(&client);
    facing_counts_free(&map);
    return !(once.value == 1 && twice.value == 2 && count == 4);
}
