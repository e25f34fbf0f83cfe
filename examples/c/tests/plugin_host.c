/* A program whose plugin opens the first map, and is unloaded. Forks are counted all the same: in a child a call that waits for
 * what a thread of the parent had fails with FACING_AFTER_FORK, and does not wait for ever.
 *
 * usage: plugin_host PLUGIN [shared]    with `shared`, host and plugin call one library: so the plugin sees the host's forks */
#define _GNU_SOURCE
#include "facing_pool.h"
#include <dlfcn.h>
#include <stdio.h>
#include <string.h>
#include <sys/wait.h>
#include <unistd.h>

typedef uint32_t opens(void);
typedef uint32_t gets(facing_pool *pool);

static unsigned wrong;

static void want(int is_so, const char *what) {
    if (is_so) return;
    wrong++;
    printf("%s\n", what);
}

static void *loaded(const char *path) {
    void *plugin = dlopen(path, RTLD_NOW | RTLD_LOCAL);
    if (plugin == NULL) {
        printf("%s\n", dlerror());
        _exit(2);
    }
    return plugin;
}

/* A function of the plugin. (C has no conversion from `void *` to one.) */
static void find(void *plugin, const char *name, void *function) {
    void *at = dlsym(plugin, name);
    want(at != NULL, name);
    memcpy(function, &at, sizeof at);
}

static uint32_t get(facing_pool *pool) {
    return facing_pool_get(pool, 1, NULL);
}

/* A child in which all clients of a pool are in use. It is ended after a minute. */
static void fork_and(gets *call, const char *what) {
    facing_pool pool;
    facing_pool_slot *taken;
    int status = 0;
    pid_t child;
    want(facing_pool_open(1, 1, 0, &pool) == FACING_DONE, "a pool");
    taken = facing_pool_take(&pool);
    child = fork();
    if (child == 0) {
        alarm(60);
        _exit(call(&pool) != FACING_AFTER_FORK);
    }
    want(child > 0 && waitpid(child, &status, 0) == child && status == 0, what);
    facing_pool_give(taken);
    facing_pool_free(&pool);
}

int main(int count, char **words) {
    opens *open_of_plugin = NULL;
    gets *get_of_plugin = NULL;
    void *plugin;
    if (count < 2) return 2;
    plugin = loaded(words[1]);
    find(plugin, "of_plugin_open", &open_of_plugin);
    want(open_of_plugin() == FACING_DONE, "the plugin's map");
    dlclose(plugin);
    fork_and(get, "a child after the plugin was unloaded");
    plugin = loaded(words[1]);
    fork_and(get, "a child while the plugin is loaded again");
    find(plugin, "of_plugin_get", &get_of_plugin);
    if (count > 2) fork_and(get_of_plugin, "a call of the plugin, which opened no map");
    dlclose(plugin);
    fork_and(get, "a child after that");
    printf("%u wrong\n", wrong);
    return wrong != 0;
}
