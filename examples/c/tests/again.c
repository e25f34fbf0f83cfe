/* A closed map of each kind is read by four threads at once, each by a handle of its own, which outlive the first one. */
#include "facing_counts.h"
#include <pthread.h>
#include <stdio.h>
#include <stdlib.h>
#include <string.h>

enum { THREADS = 4, KEYS = 2000 };

/* The handles of a thread, and how many wrong answers it got. */
struct reader {
    facing_handle numbers;
    facing_counts_handle counts;
    facing_bytes_handle bytes;
    int wrong;
};

static int wrong;

static void want(int is_right, const char *what) {
    if (is_right) return;
    wrong++;
    fprintf(stderr, "wrong: %s\n", what);
}

/* Each key has its number as value, and a text of 40 letters in the map of bytes. */
static void fill(struct reader *maps) {
    facing_handle number;
    facing_counts_handle count;
    facing_bytes_handle text;
    char value[40];
    if (facing_open(16, 1, 0, &maps->numbers) != FACING_DONE || facing_client(&maps->numbers, &number) != FACING_DONE) exit(1);
    if (facing_counts_open(16, 1, &maps->counts) != FACING_DONE) exit(1);
    if (facing_counts_client(&maps->counts, &count) != FACING_DONE) exit(1);
    if (facing_bytes_open(16, 1, &maps->bytes) != FACING_DONE || facing_bytes_client(&maps->bytes, &text) != FACING_DONE) exit(1);
    for (uint64_t key = 0; key < KEYS; key++) {
        memset(value, 'a' + (int)(key % 26), sizeof value);
        if (facing_put(&number, key, key, NULL) != FACING_DONE) exit(1);
        if (facing_counts_put(&count, &key, sizeof key, key, NULL) != FACING_DONE) exit(1);
        if (facing_bytes_put(&text, &key, sizeof key, value, sizeof value, NULL, 0, NULL) != FACING_DONE) exit(1);
    }
    facing_free(&number);
    facing_counts_free(&count);
    facing_bytes_free(&text);
}

static void *read_all(void *of) {
    struct reader *own = (struct reader *)of;
    uint64_t counted = 0;
    for (uint64_t key = 0; key < KEYS + 5; key++) {
        facing_answer number = {7, 7}, count = {7, 7};
        facing_bytes_answer text = {7, 7};
        char room[40];
        uint32_t is_there = key < KEYS;
        uint64_t value = is_there ? key : 0;
        if (facing_find(&own->numbers, key, &number) != FACING_DONE || number.found != is_there || number.value != value)
            own->wrong++;
        if (facing_counts_find(&own->counts, &key, sizeof key, &count) != FACING_DONE || count.found != is_there
            || count.value != value)
            own->wrong++;
        if (facing_bytes_find(&own->bytes, &key, sizeof key, room, sizeof room, &text) != FACING_DONE || text.found != is_there
            || (is_there && (text.len != 40 || room[39] != 'a' + (char)(key % 26))))
            own->wrong++;
    }
    if (facing_count(&own->numbers, &counted) != FACING_DONE || counted != KEYS) own->wrong++;
    return NULL;
}

static void free_reader(struct reader *it) {
    facing_free(&it->numbers);
    facing_counts_free(&it->counts);
    facing_bytes_free(&it->bytes);
}

/* What is no closed map gives out none. */
static void misuse(struct reader *open) {
    facing_handle more = {NULL}, none = {NULL};
    facing_bytes_handle more_bytes = {NULL};
    want(facing_again(NULL, &more) == FACING_BAD_ARGUMENT, "no handle");
    want(facing_again(&open->numbers, NULL) == FACING_BAD_ARGUMENT, "nowhere to put it");
    want(facing_again(&open->numbers, &open->numbers) == FACING_BAD_ARGUMENT, "the same handle twice");
    want(facing_again(&none, &more) == FACING_WRONG_HANDLE && more.at == NULL, "a null handle");
    want(facing_bytes_again(&open->bytes, &more_bytes) == FACING_WRONG_HANDLE && more_bytes.at == NULL, "an open map");
    want(facing_bytes_close(&open->bytes) == FACING_DONE, "it can be closed after that");
}

int main(void) {
    static struct reader maps, other, readers[THREADS];
    pthread_t threads[THREADS];
    facing_handle opened;
    facing_answer answer;
    fill(&maps);
    if (facing_close(&maps.numbers) || facing_counts_close(&maps.counts) || facing_bytes_close(&maps.bytes)) return 1;
    for (int i = 0; i < THREADS; i++) {
        struct reader *from = i == 0 ? &maps : &readers[i - 1];
        want(facing_again(&from->numbers, &readers[i].numbers) == FACING_DONE, "one more of numbers");
        want(facing_counts_again(&from->counts, &readers[i].counts) == FACING_DONE, "one more of counts");
        want(facing_bytes_again(&from->bytes, &readers[i].bytes) == FACING_DONE, "one more of bytes");
    }
    for (int i = 0; i < THREADS; i++)
        if (pthread_create(&threads[i], NULL, read_all, &readers[i])) return 1;
    read_all(&maps);
    want(facing_reopen(&maps.numbers, 1, &opened) == FACING_DONE, "a reopening, while others read");
    free_reader(&maps);
    for (int i = 0; i < THREADS; i++) {
        pthread_join(threads[i], NULL);
        want(readers[i].wrong == 0, "what a thread read");
    }
    want(facing_find(&readers[3].numbers, 1999, &answer) == FACING_DONE && answer.value == 1999, "it outlives the first one");
    for (int i = 0; i < THREADS; i++) free_reader(&readers[i]);
    want(maps.wrong == 0, "what the first one read");
    facing_free(&opened);
    fill(&other);
    facing_free(&other.numbers);
    if (facing_open(16, 1, 0, &other.numbers) != FACING_DONE) return 1;
    misuse(&other);
    free_reader(&other);
    printf("%d wrong\n", wrong);
    return wrong != 0;
}
