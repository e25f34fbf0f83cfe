/* What the load generators share: connections to a server on this machine, and how long requests took. */
#define _GNU_SOURCE
#include <arpa/inet.h>
#include <errno.h>
#include <netinet/tcp.h>
#include <pthread.h>
#include <stdatomic.h>
#include <stdbool.h>
#include <stdint.h>
#include <stdio.h>
#include <stdlib.h>
#include <string.h>
#include <sys/epoll.h>
#include <time.h>
#include <unistd.h>

enum { KEYS = 100000, HEAD = 96, EVENTS = 256, THREADS = 16, STEPS = 100000, STEP = 10000 };

/* How many requests took how many steps of so many nanoseconds. */
static atomic_long took[STEPS];

static void stop(const char *what) {
    fprintf(stderr, "load: %s: %s\n", what, strerror(errno));
    exit(1);
}

static uint64_t now(void) {
    struct timespec it;
    clock_gettime(CLOCK_MONOTONIC, &it);
    return (uint64_t)it.tv_sec * 1000000000 + (uint64_t)it.tv_nsec;
}

static int connected(long port) {
    struct sockaddr_in to = {.sin_family = AF_INET, .sin_port = htons((uint16_t)port), .sin_addr.s_addr = htonl(INADDR_LOOPBACK)};
    int it = socket(AF_INET, SOCK_STREAM, 0), on = 1;
    if (it < 0 || connect(it, (struct sockaddr *)&to, sizeof to) != 0) stop("cannot connect");
    setsockopt(it, IPPROTO_TCP, TCP_NODELAY, &on, sizeof on);
    return it;
}

static void add_time(uint64_t since, long requests) {
    uint64_t step = (now() - since) / STEP;
    atomic_fetch_add_explicit(&took[step < STEPS ? step : STEPS - 1], requests, memory_order_relaxed);
}

/* The time in milliseconds in which so many of 1,000 requests were answered. */
static double percentile(long of_thousand) {
    long all = 0, so_far = 0, step = 0;
    for (long i = 0; i < STEPS; i++)
        all += took[i];
    while (step < STEPS && (so_far += took[step]) < all - all / 1000 * (1000 - of_thousand))
        step++;
    return (double)(step + 1) * STEP / 1e6;
}

static void run_all(void *(*run)(void *), long threads) {
    pthread_t all[THREADS];
    memset((void *)took, 0, sizeof took);
    for (long i = 0; i < threads; i++)
        if (pthread_create(&all[i], NULL, run, (void *)(intptr_t)i) != 0) stop("cannot start a thread");
    for (long i = 0; i < threads; i++)
        pthread_join(all[i], NULL);
}

/* Reads the numbers of the command line. Returns false where one is missing or below 1. */
static bool read_numbers(int count, char **words, long *const *numbers, int wanted) {
    for (int i = 0; i < wanted; i++)
        if (count != wanted + 1 || (*numbers[i] = atol(words[i + 1])) < 1) return false;
    return true;
}

static char *value_of(long size) {
    char *value = malloc((size_t)size + 1);
    memset(value, 'v', (size_t)size);
    value[size] = 0;
    return value;
}
