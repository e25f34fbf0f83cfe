/* Four threads make calls of all kinds on one map that begins with 16 buckets, check what each answers as far as one thread can
 * know it, and the closed map is compared with what one thread counts.
 *
 * usage: counts [KEYS [CALLS]]; CALLS of each thread. */
#include "values.h"

enum { THREADS = 4 };

/* Keys of the sums, then of the greatest, then of each thread alone. */
static uint64_t keys = 16, calls = 100000;

/* What a key has, where `has` is 1. */
struct pair {
    int has;
    uint64_t value;
};

struct worker {
    any_handle client;
    uint64_t number, wrong;
    struct pair *own;
    uint64_t *seen;
};

static uint64_t draw(uint64_t *state) {
    uint64_t z = (*state += 0x9e3779b97f4a7c15u);
    z = (z ^ (z >> 30)) * 0xbf58476d1ce4e5b9u;
    z = (z ^ (z >> 27)) * 0x94d049bb133111ebu;
    return z ^ (z >> 31);
}

static uint64_t own_key(uint64_t thread, uint64_t at) {
    return 2 * keys + thread * keys + at;
}

/* What a call of a thread's own key leaves, and the answer that it must give. */
static facing_answer expected(struct pair *it, unsigned kind, uint64_t value) {
    struct pair old = *it;
    facing_answer before = {(uint32_t)old.has, old.has ? old.value : 0}, truth = {(uint32_t)(old.has && old.value % 2 == 0), 0};
    switch (kind) {
    case 0: it->has = 1, it->value = value; return before;
    case 1: return before;
    case 2: if (!old.has) it->has = 1, it->value = value; return before;
    case 3: if (old.has) it->value = value; return before;
    case 4: it->has = 0; return before;
    case 5: if (truth.found) it->has = 0; return truth;
    case 6: if (truth.found) it->value = value; return truth;
    default: truth.found = (uint32_t)old.has; return truth;
    }
}

/* A call of a thread's own key. Kinds 5 and 6 ask for the value that is there where it is even, and else for another. */
static uint32_t call_own(any_handle *client, uint64_t key, unsigned kind, struct pair was, uint64_t value, facing_answer *answer) {
    uint64_t asked = was.has && was.value % 2 == 0 ? was.value : was.value + 1;
    switch (kind) {
    case 0: return DO(put)(client, KEY(key), value, answer);
    case 1: return DO(get)(client, KEY(key), answer);
    case 2: return DO(put_if_absent)(client, KEY(key), value, answer);
    case 3: return DO(replace)(client, KEY(key), value, answer);
    case 4: return DO(remove)(client, KEY(key), answer);
    case 5: return DO(remove_if)(client, KEY(key), asked, answer);
    case 6: return DO(replace_if)(client, KEY(key), asked, value, answer);
    default: return DO(contains)(client, KEY(key), answer);
    }
}

static int own_call_is_wrong(struct worker *it, uint64_t r) {
    uint64_t at = (r >> 16) % keys, value = r >> 40;
    unsigned kind = (unsigned)(r >> 8) % 8;
    struct pair was = it->own[at];
    facing_answer want = expected(&it->own[at], kind, value), answer;
    uint32_t status = call_own(&it->client, own_key(it->number, at), kind, was, value, &answer);
    return status != FACING_DONE || answer.found != want.found || answer.value != want.value;
}

/* A sum that a thread is told grows from call to call, and the greatest is no less than what it gave. */
static int shared_call_is_wrong(struct worker *it, uint64_t r) {
    uint64_t at = (r >> 16) % keys, value = r >> 40, old = it->seen[at];
    facing_answer answer;
    if (r % 16 >= 8) return DO(greatest)(&it->client, KEY(keys + at), value, &answer) != FACING_DONE || !answer.found || answer.value < value;
    if (DO(add)(&it->client, KEY(at), 1, &answer) != FACING_DONE) return 1;
    it->seen[at] = answer.value;
    return !answer.found || answer.value <= old;
}

static void *work(void *of) {
    struct worker *it = (struct worker *)of;
    uint64_t state = it->number + 1;
    for (uint64_t i = 0; i < calls; i++) {
        uint64_t r = draw(&state);
        it->wrong += (uint64_t)(r % 16 < 10 ? shared_call_is_wrong(it, r) : own_call_is_wrong(it, r));
    }
    DO(free)(&it->client);
    return NULL;
}

/* Puts into `all` what each key has after the calls of all threads, made by one. */
static void count_alone(struct pair *all) {
    for (uint64_t t = 0; t < THREADS; t++) {
        uint64_t state = t + 1;
        for (uint64_t i = 0; i < calls; i++) {
            uint64_t r = draw(&state), at = (r >> 16) % keys, value = r >> 40;
            struct pair *it = &all[r % 16 < 8 ? at : r % 16 < 10 ? keys + at : own_key(t, at)];
            if (r % 16 >= 10) {
                expected(it, (unsigned)(r >> 8) % 8, value);
            } else if (r % 16 >= 8) {
                it->value = it->has && it->value > value ? it->value : value, it->has = 1;
            } else {
                it->value = it->has ? it->value + 1 : 1, it->has = 1;
            }
        }
    }
}

/* Compares the pairs of the closed map, and finds of its first keys, with what one thread counted. */
static uint64_t compare(any_handle *map, const struct pair *all, uint64_t *live) {
    uint64_t count, wrong = 0, expected_count = 0, room = (2 + THREADS) * keys;
    struct read_pair *found = (struct read_pair *)calloc(room, sizeof *found);
    size_t copied;
    for (uint64_t i = 0; i < room; i++) expected_count += (uint64_t)all[i].has;
    wrong += DO(count)(map, &count) != FACING_DONE || count != expected_count;
    copied = read_all(map, found, room);
    wrong += copied != count;
    for (size_t i = 0; i < copied && copied <= room; i++)
        wrong += found[i].key >= room || !all[found[i].key].has || all[found[i].key].value != found[i].value;
    for (uint64_t i = 0; i < room; i++) {
        facing_answer answer;
        wrong += DO(find)(map, KEY(i), &answer) != FACING_DONE || answer.found != (uint32_t)all[i].has
                 || (answer.found && answer.value != all[i].value);
    }
    free(found);
    *live = count;
    return wrong;
}

int main(int argc, char **argv) {
    any_handle map;
    struct worker workers[THREADS];
    pthread_t threads[THREADS];
    struct pair *all;
    uint64_t wrong = 0, live;
    if (argc > 1) keys = strtoull(argv[1], NULL, 10);
    if (argc > 2) calls = strtoull(argv[2], NULL, 10);
    if (DO(open)(OPEN_WITH(16, THREADS), &map) != FACING_DONE) return 1;
    for (unsigned i = 0; i < THREADS; i++) {
        struct worker *it = &workers[i];
        it->number = i;
        it->wrong = 0;
        it->own = (struct pair *)calloc(keys, sizeof *it->own);
        it->seen = (uint64_t *)calloc(keys, sizeof *it->seen);
        if (DO(client)(&map, &it->client) != FACING_DONE) return 1;
    }
    for (unsigned i = 0; i < THREADS; i++)
        if (pthread_create(&threads[i], NULL, work, &workers[i])) return 2;
    for (unsigned i = 0; i < THREADS; i++) {
        pthread_join(threads[i], NULL);
        wrong += workers[i].wrong;
        free(workers[i].own);
        free(workers[i].seen);
    }
    if (DO(close)(&map) != FACING_DONE) return 1;
    all = (struct pair *)calloc((2 + THREADS) * keys, sizeof *all);
    count_alone(all);
    wrong += compare(&map, all, &live);
    printf("%llu calls, %llu pairs, %llu wrong\n", (unsigned long long)(THREADS * calls), (unsigned long long)live, (unsigned long long)wrong);
    free(all);
    DO(free)(&map);
    return wrong != 0;
}
