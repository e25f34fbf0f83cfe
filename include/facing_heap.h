/* The heap of the static library: three functions that a program may define, to serve the library's memory by its own
 * allocator or to count it. C99 or later, C++98 or later.
 *
 * Define all three, or none. libfacing.a has them over malloc, realloc and free, in a member of its own, which is not linked
 * where the program has them. libfacing.so has them in itself, and does not call a program's.
 *
 * Several threads call them at once, also while a bucket is locked. So they are thread-safe, return soon, have no
 * cancellation point, and make no call of a map. Every block is freed by facing_dealloc or moved by facing_realloc, by any
 * thread. */
#ifndef FACING_HEAP_H
#define FACING_HEAP_H
#include <stddef.h>
#include <stdint.h>

#ifdef __cplusplus
extern "C" {
#endif

/* What a request returns: `found` is 1 where there is memory at `at`. Else it is 0, and `at` is an address that is not null
 * and that nobody reads or writes. */
typedef struct facing_room {
    uint64_t found;
    void *at;
} facing_room;

/* Returns a block of `size` bytes at a multiple of `align`, a power of two of at most 16. The size may be 0. Out of memory
 * is no failure of the library: the call of the map that asked returns FACING_NO_MEMORY. */
facing_room facing_alloc(size_t size, size_t align);

/* Makes the block at `at`, of `old_size` bytes, a block of `size` bytes, which may be elsewhere. The bytes that both have
 * stay. Where there is no memory the old block stays as it is. */
facing_room facing_realloc(void *at, size_t old_size, size_t size, size_t align);

/* Frees the block at `at`. */
void facing_dealloc(void *at);

#ifdef __cplusplus
}
#endif
#endif
