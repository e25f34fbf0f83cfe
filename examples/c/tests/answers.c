/* What calls with a wrong argument store: no answer, no handle, and that nothing was made, whatever was there before. */
#include "facing_pool.h"
#include <stdio.h>
#include <string.h>

static unsigned calls, wrong;
static char room[100];
static facing_pool pool;
static facing_bytes_pool bytes_pool;
static facing_counts_pool counts_pool;

static void want(int is_so, const char *what) {
    calls++;
    if (is_so) return;
    wrong++;
    printf("%s\n", what);
}

/* The call ends with FACING_BAD_ARGUMENT, and what it stores is all zero: `it` was filled with sevens. */
#define CLEARS(it, call)                                                                                                    \
    do {                                                                                                                    \
        memset(&(it), 7, sizeof(it));                                                                                       \
        want((call) == FACING_BAD_ARGUMENT && are_zero(&(it)), #call);                                                      \
    } while (0)

static void numbers(void) {
    facing_answer it;
#define are_zero(it) ((it)->found == 0 && (it)->value == 0)
    CLEARS(it, facing_get(NULL, 1, &it));
    CLEARS(it, facing_contains(NULL, 1, &it));
    CLEARS(it, facing_put(NULL, 1, 2, &it));
    CLEARS(it, facing_put_if_absent(NULL, 1, 2, &it));
    CLEARS(it, facing_remove(NULL, 1, &it));
    CLEARS(it, facing_remove_if(NULL, 1, 2, &it));
    CLEARS(it, facing_replace(NULL, 1, 2, &it));
    CLEARS(it, facing_replace_if(NULL, 1, 2, 3, &it));
    CLEARS(it, facing_add(NULL, 1, 2, &it));
    CLEARS(it, facing_greatest(NULL, 1, 2, &it));
    CLEARS(it, facing_set(NULL, 1, 2, &it));
    CLEARS(it, facing_find(NULL, 1, &it));
    CLEARS(it, facing_pool_get(NULL, 1, &it));
    CLEARS(it, facing_pool_get(&pool, 1, &it));
    CLEARS(it, facing_pool_replace_if(&pool, 1, 2, 3, &it));
    CLEARS(it, facing_pool_add(&pool, 1, 2, &it));
    CLEARS(it, facing_counts_get(NULL, "a", 1, &it));
    CLEARS(it, facing_counts_add(NULL, "a", 1, 2, &it));
    CLEARS(it, facing_counts_replace_if(NULL, "a", 1, 2, 3, &it));
    CLEARS(it, facing_counts_find(NULL, "a", 1, &it));
    CLEARS(it, facing_counts_pool_set(&counts_pool, "a", 1, 2, &it));
    CLEARS(it, facing_add_up_to(NULL, 1, 2, 3, &it));
    CLEARS(it, facing_counts_add_up_to(NULL, "a", 1, 2, 3, &it));
    CLEARS(it, facing_pool_add_up_to(&pool, 1, 2, 3, &it));
    CLEARS(it, facing_counts_pool_add_up_to(&counts_pool, "a", 1, 2, 3, &it));
}

static void counts(facing_counts_handle *client) {
    facing_answer it;
    CLEARS(it, facing_counts_get(client, NULL, 1, &it));
    CLEARS(it, facing_counts_contains(client, NULL, 1, &it));
    CLEARS(it, facing_counts_put(client, NULL, 1, 2, &it));
    CLEARS(it, facing_counts_put_if_absent(client, NULL, 1, 2, &it));
    CLEARS(it, facing_counts_remove(client, NULL, 1, &it));
    CLEARS(it, facing_counts_remove_if(client, NULL, 1, 2, &it));
    CLEARS(it, facing_counts_replace(client, NULL, 1, 2, &it));
    CLEARS(it, facing_counts_replace_if(client, NULL, 1, 2, 3, &it));
    CLEARS(it, facing_counts_add(client, "a", SIZE_MAX, 2, &it));
    CLEARS(it, facing_counts_greatest(client, "a", SIZE_MAX, 2, &it));
    CLEARS(it, facing_counts_set(client, "a", SIZE_MAX, 2, &it));
    CLEARS(it, facing_counts_find(client, "a", SIZE_MAX, &it));
#undef are_zero
}

static void bytes(facing_bytes_handle *client) {
    facing_bytes_answer it;
#define are_zero(it) ((it)->found == 0 && (it)->len == 0)
    CLEARS(it, facing_bytes_get(NULL, "a", 1, room, 100, &it));
    CLEARS(it, facing_bytes_get(client, NULL, 1, room, 100, &it));
    CLEARS(it, facing_bytes_get(client, room, 1, room, 100, &it));
    CLEARS(it, facing_bytes_contains(client, NULL, 1, &it));
    CLEARS(it, facing_bytes_put(client, "a", 1, NULL, 1, room, 100, &it));
    CLEARS(it, facing_bytes_put_if_absent(client, "a", 1, NULL, 1, room, 100, &it));
    CLEARS(it, facing_bytes_remove(client, "a", 1, NULL, 1, &it));
    CLEARS(it, facing_bytes_remove_if(client, "a", 1, NULL, 1, &it));
    CLEARS(it, facing_bytes_replace(client, "a", 1, NULL, 1, room, 100, &it));
    CLEARS(it, facing_bytes_replace_if(client, "a", 1, NULL, 1, "b", 1, &it));
    CLEARS(it, facing_bytes_hold(client, "a", 1, NULL, &it));
    CLEARS(it, facing_bytes_hold(client, "a", 1, client, &it));
    CLEARS(it, facing_bytes_read(NULL, 0, room, 100, &it));
    CLEARS(it, facing_bytes_read(client, 0, NULL, 100, &it));
    CLEARS(it, facing_bytes_find(client, NULL, 1, room, 100, &it));
    CLEARS(it, facing_bytes_pool_get(NULL, "a", 1, room, 100, &it));
    CLEARS(it, facing_bytes_pool_put(&bytes_pool, "a", 1, "b", 1, room, 100, &it));
#undef are_zero
}

/* What an exchange saw. */
static void seen(facing_bytes_handle *client) {
    const uint64_t value = 2;
    const facing_bytes_view nowhere = {NULL, 1}, right = {"b", 1};
    facing_seen it;
    facing_bytes_seen bytes_it;
#define are_zero(it) ((it)->exchanged == 0 && (it)->found == 0 && (it)->value == 0)
    CLEARS(it, facing_exchange(NULL, 1, NULL, &value, &it));
    CLEARS(it, facing_counts_exchange(NULL, "a", 1, NULL, &value, &it));
    CLEARS(it, facing_pool_exchange(&pool, 1, NULL, &value, &it));
    CLEARS(it, facing_counts_pool_exchange(&counts_pool, "a", 1, NULL, &value, &it));
#undef are_zero
#define are_zero(it) ((it)->exchanged == 0 && (it)->found == 0 && (it)->len == 0)
    CLEARS(bytes_it, facing_bytes_exchange(NULL, "a", 1, NULL, &right, room, 100, &bytes_it));
    CLEARS(bytes_it, facing_bytes_exchange(client, NULL, 1, NULL, &right, room, 100, &bytes_it));
    CLEARS(bytes_it, facing_bytes_exchange(client, "a", 1, &nowhere, &right, room, 100, &bytes_it));
    CLEARS(bytes_it, facing_bytes_pool_exchange(&bytes_pool, "a", 1, NULL, &right, room, 100, &bytes_it));
#undef are_zero
}

/* Handles that a call fills, where another argument is wrong. */
static void handles(void) {
    facing_handle it;
    facing_bytes_handle bytes_it;
    facing_counts_handle counts_it;
#define are_zero(it) ((it)->at == NULL)
    CLEARS(it, facing_open_seeded(16, 1, NULL, &it));
    CLEARS(it, facing_client(NULL, &it));
    CLEARS(it, facing_reopen(NULL, 1, &it));
    CLEARS(it, facing_again(NULL, &it));
    CLEARS(it, facing_pool_close(NULL, &it));
    CLEARS(bytes_it, facing_bytes_client(NULL, &bytes_it));
    CLEARS(bytes_it, facing_bytes_reopen(NULL, 1, &bytes_it));
    CLEARS(bytes_it, facing_bytes_again(NULL, &bytes_it));
    CLEARS(bytes_it, facing_bytes_open_seeded(16, 1, NULL, &bytes_it));
    CLEARS(bytes_it, facing_bytes_hold(NULL, "a", 1, &bytes_it, NULL));
    CLEARS(bytes_it, facing_bytes_pool_hold(&bytes_pool, "a", 1, &bytes_it, NULL));
    CLEARS(bytes_it, facing_bytes_pool_close(NULL, &bytes_it));
    CLEARS(counts_it, facing_counts_client(NULL, &counts_it));
    CLEARS(counts_it, facing_counts_reopen(NULL, 1, &counts_it));
    CLEARS(counts_it, facing_counts_again(NULL, &counts_it));
    CLEARS(counts_it, facing_counts_open_seeded(16, 1, NULL, &counts_it));
    CLEARS(counts_it, facing_counts_pool_close(NULL, &counts_it));
#undef are_zero
}

/* Numbers of what was made or copied, and the answers to many keys. */
static void many(void) {
    static const uint64_t keys[2] = {1, 2};
    uint64_t lens[2] = {1, 1}, others[2] = {0, 0}, count;
    facing_cursor cursor = {0};
    facing_answer answers[2];
    facing_bytes_sizes sizes;
    size_t it;
#define are_zero(it) (*(it) == 0)
    CLEARS(it, facing_put_all(NULL, keys, keys, 2, &it));
    CLEARS(it, facing_add_all(NULL, keys, keys, 0, &it));
    CLEARS(it, facing_add_all(NULL, keys, keys, SIZE_MAX, &it));
    CLEARS(it, facing_pool_put_all(&pool, keys, keys, 2, &it));
    CLEARS(it, facing_counts_add_all(NULL, lens, 2, "ab", 2, keys, &it));
    CLEARS(it, facing_pairs(NULL, &cursor, lens, others, 2, &it));
    CLEARS(it, facing_pool_pairs(&pool, &cursor, lens, others, 2, &it));
    CLEARS(count, facing_count(NULL, &count));
    CLEARS(count, facing_bytes_pool_count(&bytes_pool, &count));
#undef are_zero
#define are_zero(it) ((it)->pairs == 0 && (it)->bytes == 0)
    CLEARS(sizes, facing_bytes_sizes_of(NULL, &sizes));
    CLEARS(sizes, facing_bytes_pairs(NULL, &cursor, lens, others, 2, room, 100, &sizes));
    CLEARS(sizes, facing_bytes_heads(NULL, &cursor, 1, lens, others, 2, room, 100, &sizes));
    CLEARS(sizes, facing_bytes_pool_heads(&bytes_pool, NULL, 1, lens, others, 2, room, 100, &sizes));
    CLEARS(sizes, facing_counts_pool_pairs(&counts_pool, &cursor, lens, others, 2, room, 100, &sizes));
#undef are_zero
#define are_zero(it) ((*(it))[0].found == 0 && (*(it))[0].value == 0 && (*(it))[1].found == 0 && (*(it))[1].value == 0)
    CLEARS(answers, facing_get_all(NULL, keys, answers, 2, NULL));
    CLEARS(answers, facing_pool_get_all(&pool, keys, answers, 2, NULL));
    CLEARS(answers, facing_counts_get_all(NULL, lens, 2, "ab", 2, answers, NULL));
#undef are_zero
}

int main(void) {
    facing_bytes_handle bytes_map, bytes_client;
    facing_counts_handle counts_map, counts_client;
    unsigned major, minor, patch;
    if (facing_bytes_open(1, 1, &bytes_map) || facing_bytes_client(&bytes_map, &bytes_client)) return 1;
    if (facing_counts_open(1, 1, &counts_map) || facing_counts_client(&counts_map, &counts_client)) return 1;
    numbers();
    counts(&counts_client);
    bytes(&bytes_client);
    seen(&bytes_client);
    handles();
    many();
    want(sscanf(facing_version(), "%u.%u.%u", &major, &minor, &patch) == 3
             && 10000 * major + 100 * minor + patch == FACING_VERSION_NUMBER,
         "the version's number");
    facing_bytes_free(&bytes_client);
    facing_bytes_free(&bytes_map);
    facing_counts_free(&counts_client);
    facing_counts_free(&counts_map);
    printf("%u calls, %u wrong\n", calls, wrong);
    return wrong != 0;
}
