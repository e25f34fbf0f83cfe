/* What facing.h, facing_bytes.h and facing_counts.h share: statuses, handles, answers, cursors, and calls on handles of each
 * kind. Include one of those. */
#ifndef FACING_BASE_H
#define FACING_BASE_H
#include <errno.h>
#include <poll.h>
#include <pthread.h>
#include <sched.h>
#include <stddef.h>
#include <stdint.h>
#include <sys/random.h>
#ifdef FACING_DEBUG
#include <stdio.h>
#include <stdlib.h>
#endif

/* The version of the headers: 10,000 times the first number of facing_version(), 100 times the second, and the third. */
#define FACING_VERSION_NUMBER 100

/* How the functions are declared. A shared library of them defines it as what makes them visible. */
#ifndef FACING_API
#if defined(__cplusplus) && defined(__GNUC__)
#define FACING_API inline __attribute__((visibility("hidden")))
#elif defined(__cplusplus)
#define FACING_API inline
#elif defined(__GNUC__)
#define FACING_API static inline __attribute__((unused))
#else
#define FACING_API static inline
#endif
#endif

/* How what the functions use among themselves is declared. */
#if defined(__cplusplus) && defined(__GNUC__)
#define FACING_INNER inline __attribute__((visibility("hidden")))
#elif defined(__cplusplus)
#define FACING_INNER inline
#elif defined(__GNUC__)
#define FACING_INNER static inline __attribute__((unused))
#else
#define FACING_INNER static inline
#endif

/* The same of what takes addresses of memory that it does not read. A compiler may warn that the memory is not set yet,
 * unless it sees that in each place. */
#ifdef __GNUC__
#define FACING_SEEN FACING_INNER __attribute__((always_inline))
#else
#define FACING_SEEN FACING_INNER
#endif

/* A compiler warns where a status is dropped, unless FACING_CHECKED is defined as nothing. */
#ifndef FACING_CHECKED
#ifdef __GNUC__
#define FACING_CHECKED __attribute__((warn_unused_result))
#else
#define FACING_CHECKED
#endif
#endif

#if defined(__cplusplus) && __cplusplus >= 201103L
#define FACING_NULL nullptr
#else
#define FACING_NULL NULL
#endif

/* A pointer of type `void *` as one of another type. */
#ifdef __cplusplus
#define FACING_TO(type, at) static_cast<type>(at)
#else
#define FACING_TO(type, at) (at)
#endif

#ifdef __cplusplus
extern "C" {
#endif

/* ThreadSanitizer does not see into the library. Where it watches a program these lines tell it what a call orders, by the
 * key, and that what the library does is no access of the program. So it finds races of the program, and two threads that
 * use one client. */
#if defined(__SANITIZE_THREAD__)
#define FACING_WATCHED 1
#elif defined(__has_feature)
#if __has_feature(thread_sanitizer)
#define FACING_WATCHED 1
#endif
#endif
#ifdef FACING_WATCHED
void __tsan_acquire(void *at);
void __tsan_release(void *at);
void AnnotateIgnoreReadsBegin(const char *file, int line);
void AnnotateIgnoreReadsEnd(const char *file, int line);
void AnnotateIgnoreWritesBegin(const char *file, int line);
void AnnotateIgnoreWritesEnd(const char *file, int line);
extern char facing_places[1024];
__attribute__((weak)) char facing_places[1024];
#define FACING_ENTER(key)                                                                                                   \
    (__tsan_release(&facing_places[(key) % 1024]), AnnotateIgnoreReadsBegin(__FILE__, __LINE__),                            \
     AnnotateIgnoreWritesBegin(__FILE__, __LINE__))
#define FACING_LEAVE(key)                                                                                                   \
    (AnnotateIgnoreWritesEnd(__FILE__, __LINE__), AnnotateIgnoreReadsEnd(__FILE__, __LINE__),                               \
     __tsan_acquire(&facing_places[(key) % 1024]))
/* A walk sees all keys. */
#define FACING_SEE_ALL()                                                                                                    \
    do {                                                                                                                    \
        unsigned place = 1024;                                                                                              \
        while (place-- != 0)                                                                                                \
            __tsan_acquire(&facing_places[place]);                                                                          \
    } while (0)
#else
#define FACING_ENTER(key) ((void)0)
#define FACING_LEAVE(key) ((void)0)
#define FACING_SEE_ALL() ((void)0)
#endif

/* What a function returns. */
enum facing_status {
    FACING_DONE,         /* the call was made */
    FACING_BUSY,         /* of an export alone: the call was not made, since the bucket was locked */
    FACING_NO_MEMORY,    /* out of memory; a map that was to be closed can be closed again */
    FACING_CLIENT_FULL,  /* the client made all the calls that it may */
    FACING_BAD_CAPACITY, /* the capacity is not 1 to 2^26, or 2^32 pairs or more were to be opened with */
    FACING_BAD_CLIENTS,  /* the number of clients is out of its range */
    FACING_CLIENT_OUT,   /* of a close: a client is not freed yet */
    FACING_BIN_MISSING,  /* of a close: the map ended, a part of it was not found; no run has met this */
    FACING_WRONG_HANDLE, /* the handle is null, or is of another kind */
    FACING_BAD_ARGUMENT, /* a pointer is null, two are the same, or a length is past 2^60 - 1 */
    FACING_TOO_LONG,     /* of byte strings alone: a key has more than 65,536 bytes, or a value more than 2^29 */
    FACING_NO_CLIENT,    /* of facing_client and its like alone: every client of the map is in use */
    FACING_NO_SEED,      /* of an opening alone: the system gave no random bytes */
    FACING_NO_ROOM,      /* the value, or the next bucket, is larger than the room; the call tells how large */
    FACING_AFTER_FORK    /* of the child of a fork: the bucket, or each client of the pool, was in use during the fork */
};

/* Returns a sentence for a status, without memory and without a line's end. */
FACING_API const char *facing_strerror(uint32_t status) {
    switch (status) {
    case FACING_DONE: return "done";
    case FACING_BUSY: return "busy: the key's bucket is locked";
    case FACING_NO_MEMORY: return "out of memory";
    case FACING_CLIENT_FULL: return "the client made all the calls that it may";
    case FACING_BAD_CAPACITY: return "the capacity is not 1 to 2^26";
    case FACING_BAD_CLIENTS: return "the number of clients is out of its range";
    case FACING_CLIENT_OUT: return "a client of the map is not freed yet";
    case FACING_BIN_MISSING: return "a part of the map is missing";
    case FACING_WRONG_HANDLE: return "the handle is null or of another kind";
    case FACING_BAD_ARGUMENT: return "an argument is null, the same as another, or too long";
    case FACING_TOO_LONG: return "a key has more than 65,536 bytes, or a value more than 512 MB";
    case FACING_NO_CLIENT: return "every client of the map is in use";
    case FACING_NO_SEED: return "the system gave no random bytes";
    case FACING_NO_ROOM: return "the room is too small";
    case FACING_AFTER_FORK: return "a thread that the fork left behind holds the lock";
    default: return "no status of this library";
    }
}

/* A handle of an open map, of one of its clients, or of a closed map. It begins as {0}, or where a call fills it. The
 * exports take handles of all libraries as this type. */
typedef struct facing_handle {
    void *at;
} facing_handle;

/* `found` is 1 where there is a value, or where the question's answer is yes, and else 0; `value` is the value, or 0. */
typedef struct facing_answer {
    uint32_t found;
    uint64_t value;
} facing_answer;

/* Stores that there is no value, in the answers number `from` to `len`. */
FACING_INNER void facing_answer_none(facing_answer *answers, size_t from, size_t len) {
    size_t i;
    if (answers == FACING_NULL || len >> 59 != 0) return;
    for (i = from; i < len; i++) {
        answers[i].found = 0;
        answers[i].value = 0;
    }
}

/* The most buckets that a call which copies pairs looks at. */
enum { FACING_MOST_BUCKETS = 1024 };

/* A place in a walk over the pairs of a map. It begins as {0}, and ends as {UINT64_MAX}. It belongs to no handle: it may be
 * kept, and sent. A place that a client was at is good for all clients of the map, and one of a closed map for that map; any
 * other number is a place too, from which some of the pairs are copied, or none. */
typedef struct facing_cursor {
    uint64_t at;
} facing_cursor;

/* The exports for handles of each kind. An export waits for nobody, takes its handle, and gives it back by `out`, which
 * holds null before. Where the status is not FACING_DONE an answer is as it was, but with FACING_NO_ROOM; where the handle
 * was null, `out` too. */
uint32_t facing_c_client(facing_handle map, facing_handle *out, facing_handle *client);
uint32_t facing_c_count(facing_handle any, facing_handle *out, facing_answer *answer);
uint32_t facing_c_close(facing_handle map, facing_handle *out);
uint32_t facing_c_reopen(facing_handle closed, facing_handle *out, uint32_t clients, facing_handle *map);
uint32_t facing_c_again(facing_handle closed, facing_handle *out, facing_handle *more);
void facing_c_free(facing_handle any);

/* Lets no cancellation of this thread take effect until facing_let_cancel is given what this returns: a call that was
 * cancelled in the middle would never give back what it has. */
FACING_INNER int facing_hold_cancel(void) {
    int before = PTHREAD_CANCEL_ENABLE;
    pthread_setcancelstate(PTHREAD_CANCEL_DISABLE, &before);
    return before;
}

FACING_INNER void facing_let_cancel(int before) {
    pthread_setcancelstate(before, FACING_NULL);
}

/* What a handle leads to, for the functions of the headers. The libraries are numbered.
 *
 * Where FACING_DEBUG is defined, in all files of a program or in none, a handle leads to a box with its library's word. A
 * call on a handle of another library, or on a copy of one of the last 1,024 handles that were freed, then writes a sentence
 * to stderr and fails with FACING_WRONG_HANDLE. A handle takes 16 bytes more, and a call some nanoseconds. */
enum { FACING_NUMBERS = 1, FACING_BYTES = 2, FACING_COUNTS = 3 };
#ifdef FACING_DEBUG
#define FACING_WORD 0xfac1be7100000000u
#define FACING_FREED 0xfac1dead00000000u
typedef struct facing_box {
    uint64_t word;
    void *at;
} facing_box;
extern facing_box *facing_freed[1024];
extern uint32_t facing_freed_count;
__attribute__((weak)) facing_box *facing_freed[1024];
__attribute__((weak)) uint32_t facing_freed_count;

/* Frees a box once 1,024 more are freed. */
FACING_INNER void facing_retire(facing_box *box) {
    uint32_t number = __atomic_fetch_add(&facing_freed_count, 1, __ATOMIC_SEQ_CST);
    box->word = FACING_FREED;
    box->at = FACING_NULL;
    free(__atomic_exchange_n(&facing_freed[number % 1024], box, __ATOMIC_SEQ_CST));
}

/* Returns the box of a handle of this library; null where it is none, and then it says why unless the handle is null. */
FACING_INNER facing_box *facing_box_of(void *at, uint32_t library) {
    facing_box *box = FACING_TO(facing_box *, at);
    int cancels;
    if (box == FACING_NULL || box->word == (FACING_WORD | library)) return box;
    cancels = facing_hold_cancel();
    if (box->word == FACING_FREED) {
        fputs("facing: this handle is a copy of one that was freed\n", stderr);
    } else if ((box->word | 15) == (FACING_WORD | 15)) {
        fputs("facing: this handle is one of another library\n", stderr);
    } else {
        fputs("facing: this is no handle\n", stderr);
    }
    facing_let_cancel(cancels);
    return FACING_NULL;
}
#endif

/* Returns what an export takes. */
FACING_INNER void *facing_lent(void *at, uint32_t library) {
#ifdef FACING_DEBUG
    facing_box *box = facing_box_of(at, library);
    return box != FACING_NULL ? box->at : FACING_NULL;
#else
    (void)library;
    return at;
#endif
}

/* Returns the handle's new pointer, where an export took what was `lent` and gave this back. */
FACING_INNER void *facing_back(void *at, void *lent, void *back) {
#ifdef FACING_DEBUG
    facing_box *box = FACING_TO(facing_box *, at);
    if (lent == FACING_NULL) return at;
    box->at = back;
    if (back == FACING_NULL) facing_retire(box);
    return back != FACING_NULL ? at : FACING_NULL;
#else
    (void)at;
    (void)lent;
    return back;
#endif
}

/* Returns the pointer of a new handle, or null where there is no memory for its box. */
FACING_INNER void *facing_boxed(void *at, uint32_t library) {
#ifdef FACING_DEBUG
    facing_box *box = FACING_TO(facing_box *, malloc(sizeof *box));
    if (box == FACING_NULL) return FACING_NULL;
    box->word = FACING_WORD | library;
    box->at = at;
    return box;
#else
    (void)library;
    return at;
#endif
}

/* Backs off: spins for a short while, later yields, and then sleeps for a millisecond. It is no cancellation point. */
FACING_API void facing_wait(unsigned round) {
    if (round < 7) {
        for (unsigned i = 0; i < 1u << round; i++) {
#if defined(__x86_64__)
            __builtin_ia32_pause();
#endif
        }
    } else if (round < 64) {
        sched_yield();
    } else {
        int cancels = facing_hold_cancel();
        poll(FACING_NULL, 0, 1);
        facing_let_cancel(cancels);
    }
}

/* Lets the library count each fork from now on, in the child. Returns FACING_NO_MEMORY where the system cannot. */
FACING_CHECKED uint32_t facing_forks_watch(void);

/* Returns how often this process, or one that it was forked from, was forked since forks are counted. */
uint32_t facing_forks_seen(void);

enum { FACING_NEVER = 0 };
#ifdef __GNUC__
__attribute__((cold))
#endif
/* Backs off before the next try, and returns the next round; the first is 0. Returns FACING_NEVER where no try will succeed:
 * there was a fork since there had been `forks_before`, so this is the child of one, and what the call waits for was in use
 * by a thread that the fork left behind. In a child of one thread that is sure once a try failed while it had no other; in
 * one of more threads it is taken to be so after ten seconds. */
uint32_t facing_back_off(uint32_t round, uint32_t forks_before);

/* Fills `seed` with 16 random bytes of the system. Returns FACING_NO_SEED where it gives none. */
FACING_CHECKED FACING_INNER uint32_t facing_seed(uint64_t seed[2]) {
    int cancels = facing_hold_cancel();
    ssize_t got;
    do
        got = getrandom(seed, 16, 0);
    while (got < 0 && errno == EINTR);
    facing_let_cancel(cancels);
    return got == 16 ? FACING_DONE : FACING_NO_SEED;
}

/* What an export takes of a handle. */
FACING_INNER facing_handle facing_lend(void *at, uint32_t library) {
    facing_handle lent;
    lent.at = facing_lent(at, library);
    return lent;
}

/* Fills a handle with what a call made, if anything. */
FACING_INNER uint32_t facing_fill(void **at, facing_handle made, uint32_t library, uint32_t status) {
    *at = made.at;
    if (made.at == FACING_NULL) return status;
    *at = facing_boxed(made.at, library);
    if (*at != FACING_NULL) return status;
    facing_c_free(made);
    return FACING_NO_MEMORY;
}

FACING_INNER uint32_t facing_any_client(void **map, void **client, uint32_t library) {
    facing_handle lent, back = {FACING_NULL}, made = {FACING_NULL};
    uint32_t status = facing_forks_watch();
    if (status != FACING_DONE) return status;
    lent = facing_lend(*map, library);
    FACING_ENTER(0);
    status = facing_c_client(lent, &back, &made);
    FACING_LEAVE(0);
    *map = facing_back(*map, lent.at, back.at);
    return facing_fill(client, made, library, status);
}

FACING_INNER uint32_t facing_any_count(void **any, uint64_t *count, uint32_t library) {
    facing_handle lent = facing_lend(*any, library), back = {FACING_NULL};
    facing_answer answer = {0, 0};
    uint32_t status;
    FACING_ENTER(0);
    status = facing_c_count(lent, &back, &answer);
    FACING_LEAVE(0);
    *any = facing_back(*any, lent.at, back.at);
    *count = answer.value;
    return status;
}

FACING_INNER uint32_t facing_any_close(void **map, uint32_t library) {
    facing_handle lent = facing_lend(*map, library), back = {FACING_NULL};
    uint32_t status;
    FACING_ENTER(0);
    status = facing_c_close(lent, &back);
    FACING_LEAVE(0);
    *map = facing_back(*map, lent.at, back.at);
    return status;
}

FACING_INNER uint32_t facing_any_reopen(void **closed, uint32_t clients, void **map, uint32_t library) {
    facing_handle lent, back = {FACING_NULL}, made = {FACING_NULL};
    uint32_t status = facing_forks_watch();
    if (status != FACING_DONE) return status;
    lent = facing_lend(*closed, library);
    FACING_ENTER(0);
    status = facing_c_reopen(lent, &back, clients, &made);
    FACING_LEAVE(0);
    *closed = facing_back(*closed, lent.at, back.at);
    return facing_fill(map, made, library, status);
}

FACING_INNER uint32_t facing_any_again(void **closed, void **more, uint32_t library) {
    facing_handle lent = facing_lend(*closed, library), back = {FACING_NULL}, made = {FACING_NULL};
    uint32_t status;
    FACING_ENTER(0);
    status = facing_c_again(lent, &back, &made);
    FACING_LEAVE(0);
    *closed = facing_back(*closed, lent.at, back.at);
    return facing_fill(more, made, library, status);
}

FACING_INNER void facing_any_free(void **any, uint32_t library) {
    facing_handle lent = facing_lend(*any, library);
    FACING_ENTER(0);
    facing_c_free(lent);
    FACING_LEAVE(0);
    (void)facing_back(*any, lent.at, FACING_NULL);
    *any = FACING_NULL;
}

/* The version of the library, as "0.1.0"; "0.1.0 unproved" of one that was built without its proofs. It is there where the
 * library was installed by tools/install. */
const char *facing_version(void);

#ifdef __cplusplus
}
#endif
#endif
