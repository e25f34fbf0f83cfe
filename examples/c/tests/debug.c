/* With FACING_DEBUG a handle of another library, and a copy of one of the last 1,024 that were freed, fail and are told of. What
 * is told goes to stderr, which is a file here, and is read again. */
#define _POSIX_C_SOURCE 200809L
#define FACING_DEBUG
#include "facing_bytes.h"
#include <string.h>
#include <unistd.h>

enum { KEPT = 1024 };

static uint64_t wrong;

static void want(int is_so, const char *what) {
    if (is_so) return;
    wrong++;
    printf("%s\n", what);
}

/* How often a sentence was told. */
static int count_told(const char *sentence) {
    static char text[1 << 16];
    int count = 0;
    size_t n;
    fflush(stderr);
    rewind(stderr);
    n = fread(text, 1, sizeof text - 1, stderr);
    text[n] = 0;
    for (char *at = text; (at = strstr(at, sentence)) != NULL; at++) count++;
    fseek(stderr, 0, SEEK_END);
    return count;
}

static void call_copies(facing_handle *map) {
    facing_handle client, copies[KEPT];
    facing_answer answer;
    for (int i = 0; i < KEPT; i++) {
        want(facing_client(map, &client) == FACING_DONE, "a client");
        copies[i] = client;
        facing_free(&client);
        want(client.at == NULL, "a freed handle is null");
    }
    for (int i = 0; i < KEPT; i++)
        want(facing_put(&copies[i], 1, 2, &answer) == FACING_WRONG_HANDLE && answer.found == 0, "a call of a freed copy");
    want(count_told("a copy of one that was freed\n") == KEPT, "each freed copy is told");
    facing_free(&copies[0]);
    want(copies[0].at == NULL && count_told("a copy of one that was freed\n") == KEPT + 1, "a copy that is freed again is told");
}

static void call_another_library(facing_handle *map, facing_handle *client) {
    facing_bytes_handle other = {client->at}, more;
    uint64_t count;
    want(facing_bytes_contains(&other, "a", 1, NULL) == FACING_WRONG_HANDLE, "a call of another library's client");
    want(facing_bytes_count(&other, &count) == FACING_WRONG_HANDLE && count == 0, "a count of another library's client");
    other.at = map->at;
    want(facing_bytes_client(&other, &more) == FACING_WRONG_HANDLE && more.at == NULL, "a client of another library's map");
    want(facing_bytes_close(&other) == FACING_WRONG_HANDLE && other.at == map->at, "a close of another library's map");
    facing_bytes_free(&other);
    want(count_told("one of another library\n") == 5, "each handle of another library is told");
}

int main(void) {
    facing_handle map, client;
    facing_answer answer;
    char name[] = "/tmp/facing_debug_XXXXXX";
    int file = mkstemp(name);
    if (file < 0 || freopen(name, "w+", stderr) == NULL) return 2;
    close(file);
    unlink(name);
    if (facing_open(16, 1, 0, &map) != FACING_DONE) return 1;
    call_copies(&map);
    want(facing_client(&map, &client) == FACING_DONE && facing_put(&client, 1, 2, NULL) == FACING_DONE, "a right call");
    call_another_library(&map, &client);
    want(facing_get(&client, 1, &answer) == FACING_DONE && answer.value == 2, "what stays");
    want(facing_close(&map) == FACING_CLIENT_OUT, "a close with a client");
    facing_free(&client);
    want(facing_close(&map) == FACING_DONE && facing_find(&map, 1, &answer) == FACING_DONE && answer.value == 2, "a find");
    facing_free(&map);
    facing_free(&map);
    want(count_told("facing: ") == KEPT + 1 + 5, "nothing else is told");
    for (int i = 0; i < KEPT; i++) free(facing_freed[i]), facing_freed[i] = NULL;
    printf("%llu wrong\n", (unsigned long long)wrong);
    return wrong != 0;
}
