/* The memory of the server and of the library, which is counted: small blocks of slabs.c, larger ones from malloc. A key and
 * a value that are short lie in the table, or in one small block of 64 bytes. The library calls the three functions of
 * facing_heap.h, which are defined at the end. */
#define _GNU_SOURCE
#include "cache.h"
#include "facing_heap.h"
#include <malloc.h>
#include <stdlib.h>
#include <stdio.h>
#include <string.h>
#include <unistd.h>

enum { HEADER = 8, MOST_UNTOLD = 4096, LEAST_ROOM = 256 };

/* AddressSanitizer looks at malloc's blocks. */
#ifdef __SANITIZE_ADDRESS__
enum { SMALL = 0 };
#else
enum { SMALL = LARGEST_BLOCK };
#endif

/* The bytes of all blocks that are not free, but for those that each thread has yet to tell. */
static _Alignas(64) _Atomic int64_t used;
static _Thread_local int64_t untold;

/* Tells the others what this thread took and gave back. */
void heap_tell(void) {
    if (untold == 0) return;
    atomic_fetch_add_explicit(&used, untold, memory_order_relaxed);
    untold = 0;
}

static void count(int64_t more) {
    untold += more;
    if (untold > MOST_UNTOLD || untold < -MOST_UNTOLD) heap_tell();
}

/* The bytes of all blocks that are not free. It may lack 4 KB for each thread. */
uint64_t heap_used(void) {
    int64_t now = atomic_load_explicit(&used, memory_order_relaxed);
    return now > 0 ? (uint64_t)now : 0;
}

/* The bytes of memory that are resident. */
uint64_t heap_resident(void) {
    unsigned long long pages = 0;
    FILE *file = fopen("/proc/self/statm", "r");
    if (file == NULL) return heap_used();
    if (fscanf(file, "%*s %llu", &pages) != 1) pages = 0;
    fclose(file);
    return pages * (uint64_t)sysconf(_SC_PAGESIZE);
}

static int64_t size_of_malloc(void *at) {
    return at == NULL ? 0 : (int64_t)malloc_usable_size(at) + HEADER;
}

/* As realloc. */
void *heap_resize(void *at, size_t size) {
    int64_t before = size_of_malloc(at);
    void *moved = realloc(at, size);
    if (moved != NULL) count(size_of_malloc(moved) - before);
    return moved;
}

/* A block of zeros, or NULL. */
void *heap_zeros(size_t size) {
    void *at = calloc(1, size);
    count(size_of_malloc(at));
    return at;
}

void heap_free(void *at) {
    count(-size_of_malloc(at));
    free(at);
}

facing_room facing_alloc(size_t size, size_t align) {
    static char nowhere;
    size_t steps = (size + BLOCK_STEP - 1) / BLOCK_STEP + (size == 0);
    void *at;
    if (size > SMALL || align > BLOCK_STEP) {
        at = malloc(size);
        count(size_of_malloc(at));
    } else {
        at = block_take(steps);
        if (at != NULL) count((int64_t)(steps * BLOCK_STEP));
    }
    return (facing_room){at != NULL, at != NULL ? at : &nowhere};
}

void facing_dealloc(void *at) {
    size_t steps = block_steps(at);
    if (steps == 0) {
        heap_free(at);
        return;
    }
    count(-(int64_t)(steps * BLOCK_STEP));
    block_give(at, steps);
}

facing_room facing_realloc(void *at, size_t old_size, size_t size, size_t align) {
    facing_room room;
    if (size > SMALL && block_steps(at) == 0) {
        void *moved = heap_resize(at, size);
        return (facing_room){moved != NULL, moved != NULL ? moved : at};
    }
    room = facing_alloc(size, align);
    if (room.found) {
        memcpy(room.at, at, old_size < size ? old_size : size);
        facing_dealloc(at);
    }
    return room;
}

/* == Buffers == */

/* Makes room for so many more bytes: at least twice what it was, or of large room 5/4. Returns false if memory is out. */
bool buffer_reserve(struct buffer *buffer, size_t more) {
    size_t room = buffer->room < LEAST_ROOM ? LEAST_ROOM : buffer->room;
    uint8_t *at;
    if (buffer->room - buffer->len >= more && buffer->at != NULL) return true;
    room += room < 4 * (size_t)KEPT ? room : room / 4;
    if (room - buffer->len < more) room = buffer->len + more;
    at = heap_resize(buffer->at, room);
    if (at == NULL) return false;
    buffer->at = at;
    buffer->room = room;
    return true;
}

/* Gives back the room that a buffer does not use. */
void buffer_fit(struct buffer *buffer) {
    uint8_t *at = buffer->len > 0 && buffer->len < buffer->room ? heap_resize(buffer->at, buffer->len) : NULL;
    if (at == NULL) return;
    buffer->at = at;
    buffer->room = buffer->len;
}

void buffer_free(struct buffer *buffer) {
    heap_free(buffer->at);
    *buffer = (struct buffer){0};
}

/* Moves an empty buffer's memory to one that has none. Where that has some, or it is much, it is freed. */
void buffer_move(struct buffer *to, struct buffer *from) {
    if (to->at == NULL && from->room <= KEPT)
        *to = *from;
    else
        heap_free(from->at);
    *from = (struct buffer){0};
}
