/* Forks of the process, and how long a call waits. All parts of a program that use one library have one count, which stays where
 * a plugin that opened the first map is unloaded. */
#define _GNU_SOURCE
#include "facing_base.h"
#include <sys/stat.h>
#include <sys/syscall.h>
#include <unistd.h>

/* The rounds of waiting. From the first sleep on each takes a millisecond. */
enum { FIRST_YIELD = 7, FIRST_SLEEP = 64, LAST_SLEEP = FIRST_SLEEP + 10000, LAST_TRY = LAST_SLEEP + 1 };

static uint32_t forks;
static int are_watched;

static void count_fork(void) {
    forks++;
}

uint32_t facing_forks_watch(void) {
    if (__atomic_load_n(&are_watched, __ATOMIC_SEQ_CST) != 0 || __atomic_exchange_n(&are_watched, 1, __ATOMIC_SEQ_CST) != 0
        || pthread_atfork(NULL, NULL, count_fork) == 0)
        return FACING_DONE;
    __atomic_store_n(&are_watched, 0, __ATOMIC_SEQ_CST);
    return FACING_NO_MEMORY;
}

uint32_t facing_forks_seen(void) {
    return forks;
}

/* Whether this process has one thread. (The function `stat` of glibc 2.33 and later is in no older one.) */
static int is_alone(void) {
    struct stat threads;
    return syscall(SYS_stat, "/proc/self/task", &threads) == 0 && threads.st_nlink == 3;
}

uint32_t facing_back_off(uint32_t round, uint32_t forks_before) {
    if (round == LAST_TRY) return FACING_NEVER;
    facing_wait(round);
    if (forks == forks_before) return round + (round < FIRST_SLEEP);
    /* (a thread that ended meanwhile may have unlocked what the try before found locked) */
    if (round >= LAST_SLEEP || (round >= FIRST_YIELD && is_alone())) return LAST_TRY;
    return round + 1;
}
