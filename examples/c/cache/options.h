/* The options of the server. */
#ifndef CACHE_OPTIONS_H
#define CACHE_OPTIONS_H
#include "cache.h"

enum { MOST_THREADS = 256 };

struct options {
    const char *address, *unixsocket, *slots, *nodes;
    bool is_open;
    uint64_t port, threads, buckets;
    struct limits limits;
};

/* main.c */
bool failed(const char *what);

/* listen.c */
int listen_on(struct options *options);
int listen_locally(const struct options *options);
bool is_safe(const struct options *options);

int read_options(int count, char **words, struct options *options);

#endif
