/* Connections that end, and why: INFO counts each reason. */
#include "cache.h"
#include <inttypes.h>
#include <stdio.h>

/* The names of the counters in INFO. */
static const char *const names[CLOSINGS] = {
    [BY_CLIENT] = "client",   [BY_QUIT] = "quit",       [BY_SOCKET] = "socket", [BY_PROTOCOL] = "protocol",
    [BY_HTTP] = "http",       [BY_TIMEOUT] = "timeout", [BY_OUTPUT] = "output", [BY_MEMORY] = "memory",
    [BY_BUFFERS] = "buffers", [BY_KILL] = "kill",       [BY_STOP] = "stop",
};

/* The first reason stays. */
static void because(struct connection *c, enum closing why) {
    if (c->why == STILL_OPEN) c->why = why;
}

/* Takes no more requests from a connection, which is closed once its replies are sent. */
void end_connection(struct connection *c, enum closing why) {
    because(c, why);
    c->is_ending = true;
}

/* Has a connection closed at once. */
void break_connection(struct connection *c, enum closing why) {
    because(c, why);
    c->is_broken = true;
}

/* Writes how many connections were closed for each reason, a line each. Returns the length. */
size_t write_closings(struct cache *cache, char *text, size_t most) {
    size_t len = 0;
    for (int i = BY_CLIENT; i < CLOSINGS && len < most; i++)
        len += (size_t)snprintf(text + len, most - len, "closed_by_%s:%" PRIu64 "\r\n", names[i],
                                atomic_load_explicit(&cache->closed[i], memory_order_relaxed));
    return len;
}
