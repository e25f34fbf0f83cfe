/* Many keys a call. The number of calls that were made, and the answers, are read after a failure too. */
#include "facing_counts.h"
#include <stdio.h>

int main(void) {
    static const uint64_t keys[] = {1, 2, 3}, values[] = {10, 20, 30}, lens[] = {1, 1, 2};
    facing_handle map, client;
    facing_counts_handle counts_map, counts;
    facing_answer answers[3], told[3];
    size_t put, got, added, asked;
    uint64_t sum = 0;
    if (facing_open(16, 1, 0, &map) || facing_client(&map, &client)) return 1;
    if (facing_counts_open(16, 1, &counts_map) || facing_counts_client(&counts_map, &counts)) return 1;
    if (facing_put_all(&client, keys, values, 3, &put)) fprintf(stderr, "%d were put\n", (int)put);
    if (facing_get_all(&client, keys, answers, 3, &got)) fprintf(stderr, "%d were got\n", (int)got);
    if (facing_counts_add_all(&counts, lens, 3, "abcc", 4, values, &added)) fprintf(stderr, "%d were added\n", (int)added);
    if (facing_counts_get_all(&counts, lens, 3, "abcc", 4, told, &asked)) fprintf(stderr, "%d were asked\n", (int)asked);
    for (int i = 0; i < 3; i++)
        sum += answers[i].value + told[i].value;
    facing_free(&client);
    facing_free(&map);
    facing_counts_free(&counts);
    facing_counts_free(&counts_map);
    printf("%d\n", (int)sum);
    return sum != 120 || put + got + added + asked != 12;
}
