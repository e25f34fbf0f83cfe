/* What plugin_host.c loads: it opens a map of its own, and calls a pool of its host. */
#include "facing_pool.h"

uint32_t of_plugin_open(void);
uint32_t of_plugin_get(facing_pool *pool);

uint32_t of_plugin_open(void) {
    facing_handle map;
    uint32_t status = facing_open(1, 1, 0, &map);
    facing_free(&map);
    return status;
}

uint32_t of_plugin_get(facing_pool *pool) {
    return facing_pool_get(pool, 1, NULL);
}
