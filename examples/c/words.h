/* Texts, their words, and threads that go over their parts. */
#ifndef WORDS_H
#define WORDS_H

#include <ctype.h>
#include <pthread.h>
#include <stdint.h>
#include <stdio.h>
#include <stdlib.h>
#include <string.h>

enum { THREADS = 4, LONGEST_WORD = 65536 };

/* A word of a text. */
struct word {
    const char *at;
    size_t len;
};

/* Finds the next word from a place on; it has no letters where there is none. */
static struct word next_word(const char *text, size_t *from, size_t to) {
    struct word word;
    size_t i = *from;
    while (i < to && !isalpha((unsigned char)text[i])) i++;
    word.at = text + i;
    while (i < to && isalpha((unsigned char)text[i]) && i < (size_t)(word.at - text) + LONGEST_WORD) i++;
    word.len = (size_t)(text + i - word.at);
    *from = i;
    return word;
}

static int by_letters(const void *a, const void *b) {
    const struct word *x = (const struct word *)a, *y = (const struct word *)b;
    int order = memcmp(x->at, y->at, x->len < y->len ? x->len : y->len);
    return order != 0 ? order : (x->len > y->len) - (x->len < y->len);
}

/* All words of a text, in the order of their letters. */
static struct word *sorted_words(const char *text, size_t len, size_t *words) {
    struct word *all = (struct word *)malloc((len / 2 + 1) * sizeof *all), word;
    size_t n = 0, from = 0;
    if (all == NULL) exit(2);
    while ((word = next_word(text, &from, len)).len != 0) all[n++] = word;
    qsort(all, n, sizeof *all, by_letters);
    *words = n;
    return all;
}

/* A part of a text, which a thread goes over with a client, up to the first status that is not 0. */
struct part {
    void *client;
    const char *text;
    size_t from, to;
    uint32_t status;
};

/* Cuts a text into parts of about one length, each behind a word. */
static void cut(const char *text, size_t len, struct part parts[THREADS]) {
    size_t at = 0;
    for (size_t i = 0; i < THREADS; i++) {
        size_t to = i + 1 == THREADS ? len : len / THREADS * (i + 1);
        while (to < len && isalpha((unsigned char)text[to])) to++;
        parts[i].text = text;
        parts[i].from = at;
        parts[i].to = at = to < at ? at : to;
        parts[i].status = 0;
    }
}

/* Goes over the parts in threads, and returns a status that is not 0, if there is one. */
static uint32_t go_over(struct part parts[THREADS], void *(*work)(void *)) {
    pthread_t threads[THREADS];
    uint32_t status = 0;
    for (int i = 0; i < THREADS; i++)
        if (pthread_create(&threads[i], NULL, work, &parts[i])) exit(2);
    for (int i = 0; i < THREADS; i++) {
        pthread_join(threads[i], NULL);
        if (parts[i].status != 0) status = parts[i].status;
    }
    return status;
}

/* The text of a file, at most 2^24 bytes of it, or one of 20,000 lines where there is no name. */
static char *read_text(const char *name, size_t *len) {
    static const char line[] = "the map that many threads share has one order of all calls and the calls of each thread in its order ";
    FILE *file = name != NULL ? fopen(name, "rb") : NULL;
    size_t room = (size_t)1 << 24, n = 0;
    char *text = (char *)malloc(room);
    if (text == NULL || (name != NULL && file == NULL)) exit(2);
    if (file != NULL) {
        n = fread(text, 1, room, file);
        fclose(file);
    } else {
        for (int i = 0; i < 20000; i++) n += (size_t)sprintf(text + n, "%s%c%c ", line, 'a' + i % 26, 'a' + i / 26 % 26);
    }
    *len = n;
    return text;
}

#endif
