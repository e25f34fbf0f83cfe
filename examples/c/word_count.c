/* Counts words in threads, each with a client of one map, and compares the counts with one thread's.
 *
 * usage: word_count [FILE]; a text of its own where there is none. */
#include "facing_counts.h"
#include "words.h"

static void *count_part(void *it) {
    struct part *part = (struct part *)it;
    facing_counts_handle *client = (facing_counts_handle *)part->client;
    struct word word;
    while (part->status == FACING_DONE && (word = next_word(part->text, &part->from, part->to)).len != 0)
        part->status = facing_counts_add(client, word.at, word.len, 1, NULL);
    facing_counts_free(client);
    return NULL;
}

/* Counts in threads, and closes the map. */
static uint32_t count_all(facing_counts_handle *map, const char *text, size_t len) {
    facing_counts_handle clients[THREADS];
    struct part parts[THREADS];
    uint32_t status = facing_counts_open(16, THREADS, map);
    cut(text, len, parts);
    for (int i = 0; i < THREADS && status == FACING_DONE; i++) {
        parts[i].client = &clients[i];
        status = facing_counts_client(map, &clients[i]);
    }
    if (status == FACING_DONE) status = go_over(parts, count_part);
    return status == FACING_DONE ? facing_counts_close(map) : status;
}

/* Compares the closed map with one thread's counts, and returns how many words differ. */
static size_t differences(facing_counts_handle *map, const char *text, size_t len, size_t *words, size_t *different) {
    struct word *all = sorted_words(text, len, words);
    uint64_t count;
    size_t wrong = 0;
    *different = 0;
    for (size_t i = 0, j; i < *words; i = j) {
        facing_answer answer;
        for (j = i; j < *words && by_letters(&all[j], &all[i]) == 0; j++) {}
        wrong += facing_counts_find(map, all[i].at, all[i].len, &answer) != FACING_DONE || answer.value != j - i;
        ++*different;
    }
    wrong += facing_counts_count(map, &count) != FACING_DONE || count != *different;
    free(all);
    return wrong;
}

int main(int argc, char **argv) {
    facing_counts_handle map = {NULL};
    size_t len, words, different, wrong;
    char *text = read_text(argc > 1 ? argv[1] : NULL, &len);
    uint32_t status = count_all(&map, text, len);
    if (status != FACING_DONE) return 1;
    wrong = differences(&map, text, len, &words, &different);
    printf("%zu words, %zu different, %zu wrong\n", words, different, wrong);
    facing_counts_free(&map);
    free(text);
    return wrong != 0;
}
