/* Counts words in threads, each with a client of one map of byte strings, and compares the counts with one thread's. A word's
 * count is eight bytes; a thread that counts it on puts the next count where the one that it saw still stands. facing_counts.h
 * counts in one call, as word_count.c shows; this is how any value is changed by what it was.
 *
 * usage: bytes [FILE]; a text of its own where there is none. */
#include "words.h"
#include "facing_bytes.h"

/* Counts a word on. */
static uint32_t count_word(facing_bytes_handle *client, struct word word) {
    uint64_t count = 0, next = 1;
    facing_bytes_answer answer;
    uint32_t status = facing_bytes_put_if_absent(client, word.at, word.len, &next, sizeof next, &count, sizeof count, &answer);
    while (status == FACING_DONE && answer.found) {
        next = count + 1;
        status = facing_bytes_replace_if(client, word.at, word.len, &count, sizeof count, &next, sizeof next, &answer);
        if (status != FACING_DONE || answer.found) break;
        status = facing_bytes_get(client, word.at, word.len, &count, sizeof count, &answer);
    }
    return status;
}

static void *count_part(void *it) {
    struct part *part = (struct part *)it;
    facing_bytes_handle *client = (facing_bytes_handle *)part->client;
    struct word word;
    while (part->status == FACING_DONE && (word = next_word(part->text, &part->from, part->to)).len != 0)
        part->status = count_word(client, word);
    facing_bytes_free(client);
    return NULL;
}

/* Counts in threads, and closes the map. */
static uint32_t count_all(facing_bytes_handle *map, const char *text, size_t len) {
    facing_bytes_handle clients[THREADS];
    struct part parts[THREADS];
    uint32_t status = facing_bytes_open(16, THREADS, map);
    cut(text, len, parts);
    for (int i = 0; i < THREADS && status == FACING_DONE; i++) {
        parts[i].client = &clients[i];
        status = facing_bytes_client(map, &clients[i]);
    }
    if (status == FACING_DONE) status = go_over(parts, count_part);
    return status == FACING_DONE ? facing_bytes_close(map) : status;
}

/* Compares the closed map with one thread's counts, and returns how many words differ. */
static size_t differences(facing_bytes_handle *map, const char *text, size_t len, size_t *words, size_t *different) {
    struct word *all = sorted_words(text, len, words);
    uint64_t count;
    size_t wrong = 0;
    *different = 0;
    for (size_t i = 0, j; i < *words; i = j) {
        facing_bytes_answer answer;
        for (j = i; j < *words && by_letters(&all[j], &all[i]) == 0; j++) {}
        wrong += facing_bytes_find(map, all[i].at, all[i].len, &count, sizeof count, &answer) != FACING_DONE
            || answer.found != 1 || answer.len != sizeof count || count != j - i;
        ++*different;
    }
    wrong += facing_bytes_count(map, &count) != FACING_DONE || count != *different;
    free(all);
    return wrong;
}

int main(int argc, char **argv) {
    facing_bytes_handle map = {NULL};
    size_t len, words, different, wrong;
    char *text = read_text(argc > 1 ? argv[1] : NULL, &len);
    uint32_t status = count_all(&map, text, len);
    if (status != FACING_DONE) return 1;
    wrong = differences(&map, text, len, &words, &different);
    printf("%zu words, %zu different, %zu wrong\n", words, different, wrong);
    facing_bytes_free(&map);
    free(text);
    return wrong != 0;
}
