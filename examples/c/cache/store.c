/* Values with deadlines in the map. Each function that changes a value does so by one call of the map, which is atomic:
 * either the call does not depend on what was there, or it is made only if that is still there, and else all is done again.
 *
 * A value whose deadline has passed is gone for every function here. A request looks at the clock once, when it first needs
 * to, so all that it finds is of one moment; no clock of another thread is behind, so a request that begins after another
 * found a key expired finds it expired too. So is a value gone of another generation, since FLUSHALL begins a new one. Both
 * take memory until they are overwritten or removed. */
#include "cache.h"
#include <string.h>

/* The last two bits of a head tell its kind. A near head has the generation's last 16 bits and the deadline. A far one, for
 * deadlines of 2^46 milliseconds or more, has the deadline behind these, in 8 bytes more. A bare one has the generation's
 * bits alone, in 4 bytes. */
enum { NEAR_HEAD = 0, FAR_HEAD = 1, BARE_HEAD = 2, KIND = 3, KIND_BITS = 2 };
enum { NEAR = 46, GENERATION_AT = 48, BARE_GENERATION_AT = 16 };

/* Writes a head, and returns its length. */
static size_t write_head(uint8_t at[LONGEST_HEAD], uint64_t generation, uint64_t deadline) {
    uint64_t word = generation << GENERATION_AT | (deadline >> NEAR == 0 ? deadline << KIND_BITS | NEAR_HEAD : FAR_HEAD);
    if (deadline == 0) word = (generation & UINT16_MAX) << BARE_GENERATION_AT | BARE_HEAD;
    memcpy(at, &word, sizeof word);
    memcpy(at + sizeof word, &deadline, sizeof deadline);
    return deadline == 0 ? SHORT_HEAD : deadline >> NEAR == 0 ? HEAD : LONGEST_HEAD;
}

static size_t length_of(uint8_t first) {
    return (first & KIND) == BARE_HEAD ? SHORT_HEAD : (first & KIND) == FAR_HEAD ? LONGEST_HEAD : HEAD;
}

/* Whether the first word of a head is of another generation. */
static bool is_of_other(uint64_t word, uint64_t generation) {
    uint64_t own = (word & KIND) == BARE_HEAD ? word >> BARE_GENERATION_AT : word >> GENERATION_AT;
    return ((own ^ generation) & UINT16_MAX) != 0;
}

/* The deadline of a head, or 0. */
static uint64_t deadline_of(const uint8_t *head, uint64_t word) {
    uint64_t deadline = 0;
    if ((word & KIND) == NEAR_HEAD) return (word & (((uint64_t)1 << GENERATION_AT) - 1)) >> KIND_BITS;
    if ((word & KIND) == FAR_HEAD) memcpy(&deadline, head + sizeof word, sizeof deadline);
    return deadline;
}

static uint64_t generation_of(const struct store *store) {
    return atomic_load_explicit(&store->database->generation, memory_order_relaxed);
}

/* == The store == */

/* The time of the request that runs. */
uint64_t store_now(struct store *store) {
    if (store->now == 0) store->now = now_ms();
    return store->now;
}

bool has_passed(struct store *store, uint64_t deadline) {
    return deadline != 0 && deadline <= store_now(store);
}

uint32_t store_open(struct store *store, struct cache *cache) {
    store->cache = cache;
    if (!buffer_reserve(&store->seen, KEPT) || !buffer_reserve(&store->next, KEPT)) return FACING_NO_MEMORY;
    store->database = &cache->databases[0];
    store->client = &store->clients[0];
    return facing_bytes_client(&store->database->map, store->client);
}

void store_close(struct store *store) {
    for (unsigned db = 0; db < DATABASES; db++)
        facing_bytes_free(&store->clients[db]);
    buffer_free(&store->seen);
    buffer_free(&store->next);
    walk_free(&store->candidates.walk);
}

/* Adds to all threads' counts what this one counted. */
void store_tell(struct store *store) {
    int64_t *own = (int64_t *)(void *)&store->counts;
    for (size_t i = 0; i < COUNTS; i++)
        if (own[i] != 0) atomic_fetch_add_explicit(&store->cache->counts[i], own[i], memory_order_relaxed);
    store->counts = (struct counts){0};
    if (store->timed != 0) atomic_fetch_add_explicit(&store->database->timed, store->timed, memory_order_relaxed);
    if (store->dead != 0) atomic_fetch_add_explicit(&store->database->dead, store->dead, memory_order_relaxed);
    store->timed = store->dead = 0;
    heap_tell();
}

/* Gives back what a large value took. */
void store_rest(struct store *store) {
    if (store->seen.room > KEPT) buffer_free(&store->seen);
    if (store->next.room > KEPT) buffer_free(&store->next);
}

/* Makes room in a buffer of the store, within the limit of memory where it is much. */
static uint32_t reserve(struct store *store, struct buffer *buffer, size_t more) {
    bool is_much = more > buffer->room - buffer->len && more > KEPT;
    if (is_much && !make_room(store, more - (buffer->room - buffer->len))) return STORE_FULL;
    return buffer_reserve(buffer, more) ? FACING_DONE : FACING_NO_MEMORY;
}

/* Says what is to be stored: a deadline, and the bytes of both parts. They may not lie in store->next. */
void store_next(struct store *store, uint64_t deadline, struct bytes front, struct bytes back) {
    uint8_t head[LONGEST_HEAD];
    size_t head_len = write_head(head, generation_of(store), deadline);
    size_t most = (size_t)FACING_LONGEST_VALUE - (head_len > HEAD ? head_len : HEAD);
    struct buffer *next = &store->next;
    bool is_long = front.len > most || back.len > most - front.len;
    store->next_deadline = deadline;
    next->len = 0;
    store->next_head = head_len;
    store->next_status = is_long ? FACING_TOO_LONG : reserve(store, next, head_len + front.len + back.len);
    if (store->next_status != FACING_DONE) return;
    memcpy(next->at, head, head_len);
    next->len = store->next_head;
    if (front.len > 0) memcpy(next->at + next->len, front.at, front.len);
    next->len += front.len;
    if (back.len > 0) memcpy(next->at + next->len, back.at, back.len);
    next->len += back.len;
}

/* Writes bytes over what is to be stored, from a place on, and zeros between its end and the place. */
void store_over(struct store *store, size_t at, struct bytes bytes) {
    struct buffer *next = &store->next;
    size_t begin = store->next_head + at, end = begin + bytes.len;
    if (store->next_status == FACING_DONE && (at > LONGEST_VALUE || bytes.len > LONGEST_VALUE - at))
        store->next_status = FACING_TOO_LONG;
    if (store->next_status == FACING_DONE && end > next->len) store->next_status = reserve(store, next, end - next->len);
    if (store->next_status != FACING_DONE) return;
    if (begin > next->len) memset(next->at + next->len, 0, begin - next->len);
    if (bytes.len > 0) memcpy(next->at + begin, bytes.at, bytes.len);
    if (end > next->len) next->len = end;
}

/* == What is stored == */

/* What the head of a value that is stored says. */
void store_find(struct store *store, struct stored stored, struct found *found) {
    uint64_t word = 0;
    *found = (struct found){.is_stored = true, .stored_len = stored.len};
    if (stored.len < SHORT_HEAD) return;
    found->head_len = length_of(stored.head[0]);
    if (stored.len < found->head_len) return;
    memcpy(&word, stored.head, found->head_len < sizeof word ? found->head_len : sizeof word);
    found->is_dead = is_of_other(word, generation_of(store));
    if (found->is_dead) return;
    found->deadline = deadline_of(stored.head, word);
    found->is_live = !has_passed(store, found->deadline);
    found->value.len = stored.len - found->head_len;
}

/* What a call said of a key, whose answer has the first bytes there. */
static void find_answer(struct store *store, facing_bytes_answer answer, const uint8_t *first, struct found *found) {
    *found = (struct found){0};
    if (answer.found) store_find(store, (struct stored){first, (size_t)answer.len}, found);
}

/* Gets the value at a key, a copy where it is short. A long one is not copied: `held` is a handle of it, and else null. */
uint32_t store_view(struct store *store, struct bytes key, struct found *found, facing_bytes_handle *held) {
    facing_bytes_answer answer = {0, 0};
    struct buffer *seen = &store->seen;
    uint32_t status;
    *found = (struct found){0};
    held->at = NULL;
    if (seen->at == NULL && !buffer_reserve(seen, KEPT)) return FACING_NO_MEMORY;
    status = facing_bytes_get(store->client, key.at, key.len, seen->at, seen->room, &answer);
    if (status == FACING_NO_ROOM) {
        status = facing_bytes_hold(store->client, key.at, key.len, held, &answer);
        if (status == FACING_DONE && held->at != NULL) status = facing_bytes_read(held, 0, seen->at, LONGEST_HEAD, &answer);
    }
    if (status == FACING_DONE) find_answer(store, answer, seen->at, found);
    if (found->is_live && held->at == NULL) found->value.at = seen->at + found->head_len;
    return status;
}

/* Gets a copy of the value at a key. */
uint32_t store_get(struct store *store, struct bytes key, struct found *found) {
    facing_bytes_handle held;
    uint32_t status = store_view(store, key, found, &held);
    if (status == FACING_DONE && held.at != NULL) {
        status = reserve(store, &store->seen, found->stored_len);
        if (status == FACING_DONE) status = facing_bytes_read(&held, 0, store->seen.at, found->stored_len, NULL);
        if (found->is_live) found->value.at = store->seen.at + found->head_len;
    }
    facing_bytes_free(&held);
    return status;
}

/* Finds what a key has, but for the bytes of the value. */
uint32_t store_look(struct store *store, struct bytes key, struct found *found) {
    facing_bytes_handle held;
    uint32_t status = store_view(store, key, found, &held);
    facing_bytes_free(&held);
    return status;
}

/* Counts that a command looked for a value, and that the key is used. */
void store_count_look(struct store *store, struct bytes key, uint32_t status, const struct found *found) {
    if (status != FACING_DONE) return;
    store->counts.hits += found->is_live;
    store->counts.misses += !found->is_live;
    if (found->is_live) touch(store, key);
}

/* == Changes == */

/* Counts what was there before, and says that the key was changed, if it was live. */
static void count_gone(struct store *store, struct bytes key, const struct found *before) {
    if (before->is_stored) {
        store->counts.dataset -= (int64_t)(before->stored_len + key.len);
        store->counts.stored--;
        store->dead -= before->is_dead;
        store->timed -= before->deadline != 0;
    }
    if (before->is_live) changed(store, key);
}

/* Counts that a key has store->next in the place of what was found. */
static void count_stored(struct store *store, struct bytes key, const struct found *before) {
    count_gone(store, key, before);
    store->counts.dataset += (int64_t)(store->next.len + key.len);
    store->counts.stored++;
    store->timed += store->next_deadline != 0;
    before->is_live ? touch(store, key) : changed(store, key);
}

/* Sees to it that there is room for store->next in the place of what was found. */
static uint32_t make_room_for_next(struct store *store, struct bytes key, const struct found *found) {
    size_t more = memory_of(key.len, store->next.len - store->next_head);
    size_t less = found->is_stored ? memory_of(key.len, found->stored_len - found->head_len) : 0;
    return more <= less || make_room(store, more - less) ? FACING_DONE : STORE_FULL;
}

/* Stores store->next at a key, and finds what was there before, but for the bytes of its value. */
uint32_t store_put(struct store *store, struct bytes key, struct found *before) {
    facing_bytes_answer answer = {0, 0};
    uint32_t status = store->next_status;
    *before = (struct found){0};
    if (status == FACING_DONE && make_room_for_next(store, key, before) != FACING_DONE) {
        status = store_look(store, key, before);
        if (status == FACING_DONE) status = make_room_for_next(store, key, before);
    }
    if (status != FACING_DONE) return status;
    status = facing_bytes_put(store->client, key.at, key.len, store->next.at, store->next.len, store->head, LONGEST_HEAD,
                              &answer);
    if (status != FACING_DONE) return status;
    find_answer(store, answer, store->head, before);
    count_stored(store, key, before);
    return status;
}

/* Removes a key, and finds what was there, but for the bytes of its value. */
uint32_t store_remove(struct store *store, struct bytes key, struct found *before) {
    facing_bytes_answer answer = {0, 0};
    uint32_t status = facing_bytes_remove(store->client, key.at, key.len, store->head, LONGEST_HEAD, &answer);
    find_answer(store, answer, store->head, before);
    if (before->is_stored) count_gone(store, key, before);
    return status;
}

/* Stores store->next if the key still has what was found. */
static uint32_t try_store(struct store *store, struct bytes key, const struct found *found, bool *is_made) {
    facing_bytes_answer answer = {0, 0};
    uint32_t status = store->next_status;
    if (status == FACING_DONE) status = make_room_for_next(store, key, found);
    if (status != FACING_DONE) return status;
    if (found->is_stored)
        status = facing_bytes_replace_if(store->client, key.at, key.len, store->seen.at, found->stored_len, store->next.at,
                                         store->next.len, &answer);
    else
        status =
            facing_bytes_put_if_absent(store->client, key.at, key.len, store->next.at, store->next.len, NULL, 0, &answer);
    *is_made = status == FACING_DONE && (answer.found != 0) == found->is_stored;
    if (*is_made) count_stored(store, key, found);
    return status;
}

/* Removes the key if it still has what was found. */
static uint32_t try_remove(struct store *store, struct bytes key, const struct found *found, bool *is_made) {
    facing_bytes_answer answer = {0, 0};
    uint32_t status = FACING_DONE;
    if (found->is_stored)
        status = facing_bytes_remove_if(store->client, key.at, key.len, store->seen.at, found->stored_len, &answer);
    *is_made = status == FACING_DONE && (answer.found != 0) == found->is_stored;
    if (*is_made && found->is_stored) count_gone(store, key, found);
    return status;
}

/* Does at a key what the function decides on what it has, in one step: where another call came between, it decides again. */
uint32_t store_change(struct store *store, struct bytes key, decide_fn *decide, void *of) {
    uint32_t status = FACING_DONE;
    bool is_made = false;
    while (status == FACING_DONE && !is_made) {
        struct found found;
        status = store_get(store, key, &found);
        if (status != FACING_DONE) break;
        switch (decide(store, &found, of)) {
        case LEAVE: return FACING_DONE;
        case STORE: status = try_store(store, key, &found, &is_made); break;
        case REMOVE: status = try_remove(store, key, &found, &is_made); break;
        }
    }
    return status;
}

static enum change decide_expire(struct store *store, const struct found *found, void *of) {
    (void)store;
    *(struct found *)of = *found;
    return found->is_stored && !found->is_live ? REMOVE : LEAVE;
}

/* Removes a key of which a walk copied this if its value is live no more. A long value is not compared: so no other request
 * runs meanwhile. */
uint32_t store_expire(struct store *store, struct bytes key, struct stored stored) {
    bool is_long = stored.len > KEPT && !store->is_alone;
    struct found found;
    uint32_t status;
    store_find(store, stored, &found);
    if (found.is_live) return FACING_DONE;
    if (is_long) turn_take_alone(store);
    if (store->is_alone) {
        status = store_look(store, key, &found);
        if (status == FACING_DONE && found.is_stored && !found.is_live) status = store_remove(store, key, &found);
    } else {
        status = store_change(store, key, decide_expire, &found);
    }
    store->counts.expired += status == FACING_DONE && found.is_stored && !found.is_live && !found.is_dead;
    if (is_long) turn_leave_alone(store);
    return status;
}

/* == All keys == */

int64_t read_count(struct cache *cache, size_t offset) {
    return atomic_load_explicit(&cache->counts[offset / sizeof(int64_t)], memory_order_relaxed);
}

/* How many keys there are. Expired keys count until they are removed. */
uint64_t store_count(struct store *store, uint32_t *status) {
    uint64_t count = 0;
    int64_t dead = atomic_load_explicit(&store->database->dead, memory_order_relaxed) + store->dead;
    *status = facing_bytes_count(store->client, &count);
    return dead < 0 ? count : count > (uint64_t)dead ? count - (uint64_t)dead : 0;
}

/* Removes what is live no more. The request runs alone. */
static uint32_t remove_dead(struct store *store) {
    struct walk walk = {0};
    uint32_t status;
    do
        status = walk_sweep(&walk, store);
    while (status == FACING_DONE && walk.at != 0);
    walk_free(&walk);
    if (status == FACING_DONE) atomic_store(&store->database->swept, generation_of(store));
    return status;
}

/* Removes all keys of the database at one moment: a new generation begins. The request runs alone. Where values may still be
 * stored whose generation has the same number as the new one, they are removed first. */
uint32_t store_clear(struct store *store) {
    struct database *of = store->database;
    uint64_t count = 0, next = atomic_load(&of->generation) + 1;
    uint64_t most = (uint64_t)1 << (64 - GENERATION_AT);
    uint32_t status = facing_bytes_count(store->client, &count);
    if (status == FACING_DONE && count > 0 && next - atomic_load(&of->swept) >= most) status = remove_dead(store);
    if (status != FACING_DONE || count == 0) return status;
    store_tell(store);
    atomic_store(&of->dead, (int64_t)count);
    atomic_store(&of->timed, 0);
    atomic_store(&of->generation, next);
    return status;
}
