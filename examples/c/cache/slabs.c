/* Small blocks, without the header that malloc puts before each.
 *
 * A slab has blocks of one size, behind a head of its own. A thread keeps some free blocks of each size, and takes and gives
 * many at once; the others lie in their slabs, and are taken from slabs that are nearly full before others. A slab whose
 * blocks are all free serves any size, and its memory goes back to the system but for that of some slabs. */
#define _GNU_SOURCE
#include "cache.h"
#include <stdlib.h>
#include <sys/mman.h>

enum {
    SIZES = LARGEST_BLOCK / BLOCK_STEP,
    BATCH = 64,
    SLAB = 1 << 14,
    SLABS = 64,
    LEAF = 1 << 18,
    HEAD_OF_SLAB = 64,
    MOST_KEPT = 64
};

struct block {
    struct block *next;
};

struct slab {
    struct slab *before, *after; /* of its size's slabs with free blocks */
    struct block *first;         /* that was a block before and is free */
    uint8_t *fresh;              /* what was never a block begins here */
    size_t free, all;
};

/* What all threads share, under the lock. */
static pthread_mutex_t lock = PTHREAD_MUTEX_INITIALIZER;
static struct slab *partial[SIZES];
static uint8_t *kept[MOST_KEPT]; /* slabs of no size whose memory is there */
static size_t kept_len;
static uint8_t **returned; /* slabs of no size whose memory the system has; there is room for all slabs */
static size_t returned_len, slabs_len;

struct blocks {
    struct block *first;
    size_t count;
};

static _Thread_local struct blocks own[SIZES];

/* For the address of each slab its blocks' size in steps; elsewhere 0, or no leaf. */
static _Atomic(atomic_uchar *) leaves[1 << 16];

/* The size in steps of the blocks where an address lies; 0 where it is malloc's. */
size_t block_steps(const void *at) {
    uintptr_t address = (uintptr_t)at;
    atomic_uchar *leaf = atomic_load_explicit(&leaves[address >> 32], memory_order_acquire);
    return leaf == NULL ? 0 : atomic_load_explicit(&leaf[address / SLAB % LEAF], memory_order_relaxed);
}

/* The lock is held, here and below. */
static bool set_steps(const uint8_t *slab, size_t steps) {
    uintptr_t address = (uintptr_t)slab;
    atomic_uchar *leaf = atomic_load_explicit(&leaves[address >> 32], memory_order_relaxed);
    if (leaf == NULL) {
        leaf = calloc(LEAF, sizeof *leaf);
        if (leaf == NULL) return false;
        atomic_store_explicit(&leaves[address >> 32], leaf, memory_order_release);
    }
    atomic_store_explicit(&leaf[address / SLAB % LEAF], (unsigned char)steps, memory_order_relaxed);
    return true;
}

/* Gets more slabs from the system, which gives their memory when it is used. */
static bool map_slabs(void) {
    uint8_t **room = realloc(returned, (slabs_len + SLABS) * sizeof *returned), *at;
    if (room == NULL) return false;
    returned = room;
    at = mmap(NULL, (SLABS + 1) * SLAB, PROT_READ | PROT_WRITE, MAP_PRIVATE | MAP_ANONYMOUS, -1, 0);
    if (at == MAP_FAILED) return false;
    at += (SLAB - (uintptr_t)at % SLAB) % SLAB;
    for (size_t i = SLABS; i-- > 0;)
        returned[returned_len++] = at + i * SLAB;
    slabs_len += SLABS;
    return true;
}

static void link_slab(struct slab *slab, struct slab **first) {
    slab->before = NULL;
    slab->after = *first;
    if (*first != NULL) (*first)->before = slab;
    *first = slab;
}

static void unlink_slab(struct slab *slab, struct slab **first) {
    *(slab->before != NULL ? &slab->before->after : first) = slab->after;
    if (slab->after != NULL) slab->after->before = slab->before;
}

/* Takes a slab for blocks of a size. Returns NULL where there is no memory. */
static struct slab *take_slab(size_t steps) {
    struct slab *slab;
    uint8_t *at;
    if (kept_len == 0 && returned_len == 0 && !map_slabs()) return NULL;
    at = kept_len > 0 ? kept[kept_len - 1] : returned[returned_len - 1];
    if (!set_steps(at, steps)) return NULL;
    kept_len > 0 ? kept_len-- : returned_len--;
    slab = (struct slab *)(void *)at;
    *slab = (struct slab){.fresh = at + HEAD_OF_SLAB, .all = (SLAB - HEAD_OF_SLAB) / (steps * BLOCK_STEP)};
    slab->free = slab->all;
    link_slab(slab, &partial[steps - 1]);
    return slab;
}

/* A slab has no block that is used: it has no size any more. */
static void give_slab(struct slab *slab, size_t steps) {
    uint8_t *at = (uint8_t *)slab;
    unlink_slab(slab, &partial[steps - 1]);
    set_steps(at, 0);
    if (kept_len < MOST_KEPT) {
        kept[kept_len++] = at;
        return;
    }
    madvise(at, SLAB, MADV_DONTNEED);
    returned[returned_len++] = at;
}

static void push(struct blocks *to, struct block *block) {
    block->next = to->first;
    to->first = block;
    to->count++;
}

static struct block *pop(struct blocks *from) {
    struct block *block = from->first;
    from->first = block->next;
    from->count--;
    return block;
}

static struct block *take_of(struct slab *slab, size_t steps) {
    struct block *block = slab->first;
    if (block != NULL) {
        slab->first = block->next;
    } else {
        block = (struct block *)(void *)slab->fresh;
        slab->fresh += steps * BLOCK_STEP;
    }
    if (--slab->free == 0) unlink_slab(slab, &partial[steps - 1]);
    return block;
}

static void give_to(struct slab *slab, struct block *block, size_t steps) {
    block->next = slab->first;
    slab->first = block;
    if (slab->free++ == 0) link_slab(slab, &partial[steps - 1]);
    if (slab->free == slab->all) give_slab(slab, steps);
}

/* Gives this thread's blocks of a size to their slabs, until so many are left. */
static void give_blocks(size_t steps, size_t left) {
    struct blocks *mine = &own[steps - 1];
    pthread_mutex_lock(&lock);
    while (mine->count > left) {
        struct block *block = pop(mine);
        give_to((struct slab *)((uintptr_t)block & ~(uintptr_t)(SLAB - 1)), block, steps);
    }
    pthread_mutex_unlock(&lock);
}

/* Takes a block of a size in steps. Returns NULL where there is no memory. */
void *block_take(size_t steps) {
    struct blocks *mine = &own[steps - 1];
    if (mine->count == 0) {
        pthread_mutex_lock(&lock);
        while (mine->count < BATCH) {
            struct slab *slab = partial[steps - 1] != NULL ? partial[steps - 1] : take_slab(steps);
            if (slab == NULL) break;
            push(mine, take_of(slab, steps));
        }
        pthread_mutex_unlock(&lock);
    }
    return mine->count == 0 ? NULL : pop(mine);
}

void block_give(void *at, size_t steps) {
    push(&own[steps - 1], at);
    if (own[steps - 1].count > 2 * BATCH) give_blocks(steps, BATCH);
}

/* Gives all blocks that this thread keeps to their slabs. Returns whether there were some. */
bool blocks_rest(void) {
    bool has_some = false;
    for (size_t steps = 1; steps <= SIZES; steps++) {
        if (own[steps - 1].count == 0) continue;
        give_blocks(steps, 0);
        has_some = true;
    }
    return has_some;
}
