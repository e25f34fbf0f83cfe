/* Puts numbers into a map until there is no memory, under a limit of the process. Then all that were put are found, the map goes
 * on, and it ends cleanly.
 *
 * usage: limits MEGABYTES */
#include "values.h"
#include <sys/resource.h>

static uint64_t wrong;

static void want(int is_so, const char *what) {
    if (is_so) return;
    wrong++;
    printf("%s\n", what);
}

/* The keys 0 to the one returned, which was refused, are in the map, each with three times itself. */
static uint64_t fill(any_handle *client) {
    uint64_t key = 0;
    uint32_t status;
    facing_answer answer;
    while ((status = DO(put)(client, KEY(key), 3 * key, &answer)) == FACING_DONE) key++;
    want(status == FACING_NO_MEMORY && answer.found == 0 && answer.value == 0, "the put that is refused");
    return key;
}

static void find_all(any_handle *client, uint64_t keys) {
    facing_answer answer;
    uint64_t found = 0, key;
    for (key = 0; key < keys; key++)
        found += DO(get)(client, KEY(key), &answer) == FACING_DONE && answer.found == 1 && answer.value == 3 * key;
    want(found == keys, "the keys that were put");
    want(DO(get)(client, KEY(keys), &answer) == FACING_DONE && answer.found == 0, "the key that was refused");
    want(DO(set)(client, KEY(0), 0, NULL) == FACING_DONE, "a call that takes no memory");
}

int main(int argc, char **argv) {
    rlim_t bytes = (argc > 1 ? strtoull(argv[1], NULL, 10) : 60) << 20;
    struct rlimit limit = {bytes, bytes};
    any_handle map, client;
    uint64_t keys, count;
    uint32_t status;
    if (DO(open)(OPEN_WITH(16, 2), &map) != FACING_DONE || DO(client)(&map, &client) != FACING_DONE) return 1;
    printf("%llu MB: ", (unsigned long long)(bytes >> 20));
    if (setrlimit(RLIMIT_AS, &limit) != 0) return 1;
    keys = fill(&client);
    want(keys > 10000, "how many keys find room");
    find_all(&client, keys);
    want(DO(count)(&client, &count) == FACING_DONE && count == keys, "the count");
    DO(free)(&client);
    status = DO(close)(&map);
    want(status == FACING_DONE || status == FACING_NO_MEMORY, "the close");
    want(DO(count)(&map, &count) == FACING_DONE && count == keys, "the count after the close");
    DO(free)(&map);
    printf("%llu wrong\n", (unsigned long long)wrong);
    return wrong != 0;
}
