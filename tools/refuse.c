/* Refuses a program memory or a thread. It is loaded before the C library:

       cc -O2 -fPIC -shared -o refuse.so tools/refuse.c
       REFUSE_REQUEST=7 LD_PRELOAD=./refuse.so PROGRAM

   REFUSE_REQUEST=N     the Nth call of malloc answers NULL
   REFUSE_REQUEST=N-    the Nth and all later ones
   REFUSE_START=N, N-   the same of pthread_create, which answers EAGAIN
   REFUSE_TOLD=FILE     at the end FILE has two numbers, how many calls there were of each

   The end is that of main, of exit or of _exit; a program that is killed tells nothing.
   N is from 1. With no such variable nothing is refused. Calls of all threads count together. */
#define _GNU_SOURCE
#include <dlfcn.h>
#include <errno.h>
#include <pthread.h>
#include <stdatomic.h>
#include <stdio.h>
#include <stdlib.h>
#include <sys/syscall.h>
#include <unistd.h>

struct refusal {
    atomic_ulong made;
    unsigned long first, last;
};

typedef int start_type(pthread_t *, const pthread_attr_t *, void *(*)(void *), void *);

static struct refusal requests, starts; /* first is 0 until they are to refuse */
static start_type *start;

extern void *__libc_malloc(size_t);

/* Counts a call, and says whether it is refused. */
static int is_refused(struct refusal *it) {
    unsigned long number = atomic_fetch_add(&it->made, 1) + 1;
    return it->first && it->first <= number && number <= it->last;
}

static void read_numbers(struct refusal *it, const char *text) {
    char *end;
    if (!text || !*text) return;
    it->first = strtoul(text, &end, 10);
    it->last = *end == '-' ? (unsigned long)-1 : it->first;
}

__attribute__((constructor)) static void begin(void) {
    start = (start_type *)dlsym(RTLD_NEXT, "pthread_create");
    read_numbers(&requests, getenv("REFUSE_REQUEST"));
    read_numbers(&starts, getenv("REFUSE_START"));
    atomic_store(&requests.made, 0);
    atomic_store(&starts.made, 0);
}

__attribute__((destructor)) static void tell(void) {
    const char *path = getenv("REFUSE_TOLD");
    unsigned long requested = atomic_load(&requests.made), started = atomic_load(&starts.made);
    FILE *told;
    requests.first = 0;
    if (!path || !(told = fopen(path, "w"))) return;
    fprintf(told, "%lu %lu\n", requested, started);
    fclose(told);
}

void _exit(int status) {
    tell();
    syscall(SYS_exit_group, status);
    __builtin_unreachable();
}

void *malloc(size_t size) {
    if (is_refused(&requests)) {
        errno = ENOMEM;
        return NULL;
    }
    return __libc_malloc(size);
}

int pthread_create(pthread_t *thread, const pthread_attr_t *how, void *(*body)(void *), void *given) {
    return is_refused(&starts) ? EAGAIN : start(thread, how, body, given);
}
