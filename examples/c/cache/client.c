/* The commands of a connection on itself and on others. */
#define _GNU_SOURCE
#include "cache.h"
#include <arpa/inet.h>
#include <inttypes.h>
#include <netinet/in.h>
#include <stdio.h>
#include <stdlib.h>
#include <string.h>
#include <sys/socket.h>
#include <sys/un.h>

enum { ADDRESS = 128, LINE = 512 };

/* Whether a name is of visible characters alone, as clients' names are. */
static bool is_name(struct bytes name) {
    for (size_t i = 0; i < name.len; i++)
        if (name.at[i] < '!' || name.at[i] > '~') return false;
    return true;
}

/* Gives the connection a name; none where it is empty. Returns an error, or NULL. */
static const char *name_client(struct connection *c, struct bytes name) {
    uint8_t *copy = NULL;
    if (!is_name(name)) return "ERR Client names cannot contain spaces, newlines or special characters.";
    if (name.len > 0 && (copy = heap_zeros(name.len + 1)) == NULL) return error_of(FACING_NO_MEMORY);
    if (copy != NULL) memcpy(copy, name.at, name.len);
    heap_free(c->name);
    c->name = copy;
    c->name_len = copy == NULL ? 0 : name.len;
    return NULL;
}

static struct bytes name_of(const struct connection *c) {
    return (struct bytes){c->name, c->name_len};
}

static const char *set_name(struct connection *c) {
    const char *error = name_client(c, arg(c, 2));
    if (error == NULL) reply_simple(c, "OK");
    return error;
}

static const char *get_name(struct connection *c) {
    (c->name == NULL) ? reply_none(c) : reply_bulk(c, name_of(c));
    return NULL;
}

/* A client's library is taken, and not kept. */
static const char *set_info(struct connection *c) {
    if (!is_word(arg(c, 2), "LIB-NAME") && !is_word(arg(c, 2), "LIB-VER"))
        return error_with(c, "Unrecognized option", arg(c, 2), "");
    if (!is_name(arg(c, 3))) return "ERR lib-name cannot contain spaces, newlines or special characters.";
    reply_simple(c, "OK");
    return NULL;
}

static const char *get_id(struct connection *c) {
    reply_number(c, (int64_t)c->id);
    return NULL;
}

/* Whether the connection may be closed where connections hold too much. */
static const char *no_evict(struct connection *c) {
    if (!is_word(arg(c, 2), "ON") && !is_word(arg(c, 2), "OFF")) return NO_SYNTAX;
    atomic_store(&c->is_spared, is_word(arg(c, 2), "ON"));
    reply_simple(c, "OK");
    return NULL;
}

/* Writes an end of a connection: `host:port`, `[host]:port`, or the path of a socket as Redis writes it. */
static void write_address(char *text, size_t most, int (*get)(int, struct sockaddr *, socklen_t *), int socket) {
    union {
        struct sockaddr any;
        struct sockaddr_in four;
        struct sockaddr_in6 six;
        struct sockaddr_un local;
    } address = {0};
    socklen_t len = sizeof address;
    char host[INET6_ADDRSTRLEN] = "?";
    (void)get(socket, &address.any, &len);
    if (address.any.sa_family == AF_INET6) {
        (void)inet_ntop(AF_INET6, &address.six.sin6_addr, host, sizeof host);
        snprintf(text, most, "[%s]:%d", host, ntohs(address.six.sin6_port));
    } else if (address.any.sa_family == AF_UNIX) {
        (void)getsockname(socket, &address.any, &len);
        snprintf(text, most, "%.100s:0", address.local.sun_path);
    } else {
        (void)inet_ntop(AF_INET, &address.four.sin_addr, host, sizeof host);
        snprintf(text, most, "%s:%d", host, ntohs(address.four.sin_port));
    }
}

void write_peer(char *text, size_t most, const struct connection *c) {
    write_address(text, most, getpeername, c->socket);
}

/* Adds a connection's line. Returns false where there is no memory. */
static bool add_line(struct buffer *lines, const struct connection *c, uint64_t now) {
    char peer[ADDRESS], own[ADDRESS];
    struct bytes name = name_of(c);
    if (!buffer_reserve(lines, LINE + name.len)) return false;
    write_address(peer, ADDRESS, getpeername, c->socket);
    write_address(own, ADDRESS, getsockname, c->socket);
    lines->len += (size_t)snprintf((char *)lines->at + lines->len, LINE + name.len,
                                   "id=%" PRIu64 " addr=%s laddr=%s fd=%d name=%.*s age=%" PRIu64 " idle=%" PRIu64
                                   " flags=%s db=%u sub=%zu psub=%zu user=default resp=%d\n",
                                   c->id, peer, own, c->socket, (int)name.len, name.len > 0 ? (const char *)name.at : "",
                                   (now - c->began) / 1000, now > c->served ? (now - c->served) / 1000 : 0,
                                   c->subscribed != NULL ? "P" : "N", c->db, c->subscriptions[0], c->subscriptions[1],
                                   c->resp == 3 ? 3 : 2);
    return true;
}

static const char *reply_lines(struct connection *c, struct buffer *lines, bool is_whole) {
    if (is_whole) reply_verbatim(c, (struct bytes){lines->at, lines->len});
    buffer_free(lines);
    return is_whole ? NULL : error_of(FACING_NO_MEMORY);
}

static const char *info(struct connection *c) {
    struct buffer lines = {0};
    return reply_lines(c, &lines, add_line(&lines, c, now_ms()));
}

/* Whether LIST is asked for a connection: for all, or for those whose numbers stand behind ID. */
static bool is_listed(const struct connection *c, const struct connection *other) {
    int64_t id;
    for (size_t i = 3; i < c->count; i++)
        if (number_of(arg(c, i), &id) && id == (int64_t)other->id) return true;
    return c->count == 2;
}

/* Reads the options of LIST. Returns an error, or NULL. */
static const char *options_of_list(struct connection *c) {
    int64_t id;
    if (c->count > 2 && (c->count == 3 || !is_word(arg(c, 2), "ID"))) return NO_SYNTAX;
    for (size_t i = 3; i < c->count; i++)
        if (!number_of(arg(c, i), &id)) return "ERR Invalid client ID";
    return NULL;
}

/* It runs alone, so that no list of connections changes. */
static const char *list(struct connection *c) {
    struct cache *cache = c->worker->cache;
    struct buffer lines = {0};
    const char *error = options_of_list(c);
    uint64_t now = now_ms();
    bool is_whole = true;
    if (error != NULL) return error;
    for (size_t i = 0; i < cache->workers_len; i++)
        for (struct connection *it = cache->workers[i].first; it != NULL && is_whole; it = it->after)
            if (is_listed(c, it)) is_whole = add_line(&lines, it, now);
    return reply_lines(c, &lines, is_whole);
}

/* == CLIENT KILL == */

/* Which connections are to be closed. */
struct killing {
    int64_t id;
    struct bytes peer, own, type;
    bool skips_me;
};

/* Reads the filters. Returns an error, or NULL. */
static const char *read_filters(struct connection *c, struct killing *it) {
    static const char *const types[] = {"normal", "pubsub", "master", "replica", "slave"};
    bool is_type = false;
    for (size_t i = 2; i < c->count; i += 2) {
        if (i + 1 == c->count) return NO_SYNTAX;
        if (is_word(arg(c, i), "ID")) {
            if (!number_of(arg(c, i + 1), &it->id) || it->id <= 0) return "ERR client-id should be greater than 0";
        } else if (is_word(arg(c, i), "ADDR")) {
            it->peer = arg(c, i + 1);
        } else if (is_word(arg(c, i), "LADDR")) {
            it->own = arg(c, i + 1);
        } else if (is_word(arg(c, i), "TYPE")) {
            it->type = arg(c, i + 1);
            for (size_t at = 0; at < sizeof types / sizeof *types; at++)
                is_type = is_type || is_word(it->type, types[at]);
            if (!is_type) return error_with(c, "Unknown client type", it->type, "");
        } else if (is_word(arg(c, i), "USER")) {
            if (!is_word(arg(c, i + 1), "default")) return error_with(c, "No such user", arg(c, i + 1), "");
        } else if (is_word(arg(c, i), "SKIPME") && (is_word(arg(c, i + 1), "yes") || is_word(arg(c, i + 1), "no"))) {
            it->skips_me = is_word(arg(c, i + 1), "yes");
        } else {
            return NO_SYNTAX;
        }
    }
    return NULL;
}

static bool is_at(struct bytes place, int (*get)(int, struct sockaddr *, socklen_t *), int socket) {
    char text[ADDRESS];
    if (place.at == NULL) return true;
    write_address(text, ADDRESS, get, socket);
    return place.len == strlen(text) && memcmp(text, place.at, place.len) == 0;
}

static bool is_meant(const struct killing *it, const struct connection *other) {
    bool is_type = it->type.at == NULL || is_word(it->type, other->subscribed != NULL ? "pubsub" : "normal");
    return is_type && (it->id == 0 || it->id == (int64_t)other->id) && is_at(it->peer, getpeername, other->socket)
           && is_at(it->own, getsockname, other->socket);
}

/* Has the connections closed that are meant. Returns how many; the own one is closed when it has the reply. */
static int64_t kill_all(struct connection *c, const struct killing *killing) {
    struct cache *cache = c->worker->cache;
    int64_t killed = 0;
    for (size_t i = 0; i < cache->workers_len; i++) {
        pthread_mutex_lock(&cache->workers[i].list_lock);
        for (struct connection *it = cache->workers[i].first; it != NULL; it = it->after) {
            if ((it == c && killing->skips_me) || !is_meant(killing, it)) continue;
            it == c ? end_connection(c, BY_KILL) : shed(it, BY_KILL);
            killed++;
        }
        pthread_mutex_unlock(&cache->workers[i].list_lock);
    }
    return killed;
}

/* It runs alone: what connections subscribed stays as it is. */
static const char *run_kill(struct connection *c) {
    struct killing killing = {.skips_me = c->count > 3};
    const char *error = NULL;
    if (c->count == 3)
        killing.peer = arg(c, 2);
    else
        error = read_filters(c, &killing);
    if (error != NULL) return error;
    if (c->count > 3) {
        reply_number(c, kill_all(c, &killing));
        return NULL;
    }
    if (kill_all(c, &killing) == 0) return "ERR No such client";
    reply_simple(c, "OK");
    return NULL;
}

const char *run_client(struct connection *c) {
    static const struct command parts[] = {
        {"client|getname", get_name, 2, 0, 0, 0, 0, 0}, {"client|id", get_id, 2, 0, 0, 0, 0, 0},
        {"client|info", info, 2, 0, 0, 0, 0, 0},        {"client|kill", run_kill, -3, ALONE, 0, 0, 0, 0},
        {"client|list", list, -2, ALONE, 0, 0, 0, 0},   {"client|no-evict", no_evict, 3, 0, 0, 0, 0, 0},
        {"client|setinfo", set_info, 4, 0, 0, 0, 0, 0}, {"client|setname", set_name, 3, 0, 0, 0, 0, 0},
    };
    return run_part(c, parts, sizeof parts / sizeof *parts);
}

/* Tells what a client asks for when it begins. */
static void reply_server(struct connection *c) {
    reply_map(c, 7);
    reply_field(c, "server", "redis");
    reply_field(c, "version", REDIS_VERSION);
    reply_count(c, "proto", c->resp == 3 ? 3 : 2);
    reply_count(c, "id", (int64_t)c->id);
    reply_field(c, "mode", is_in_cluster() ? "cluster" : "standalone");
    reply_field(c, "role", "master");
    reply_bulk(c, bytes_of("modules"));
    reply_list(c, 0);
}

/* HELLO: this server speaks RESP2 and RESP3. */
const char *run_hello(struct connection *c) {
    const char *error = NULL;
    int64_t version = c->resp == 3 ? 3 : 2;
    if (c->count > 1 && !number_of(arg(c, 1), &version)) return "ERR Protocol version is not an integer or out of range";
    if (version != 2 && version != 3) return "NOPROTO unsupported protocol version";
    for (size_t i = 2; i < c->count && error == NULL; i++) {
        if (is_word(arg(c, i), "AUTH") && i + 2 < c->count) {
            error = authenticate(c, arg(c, i + 1), arg(c, i + 2));
            i += 2;
        } else if (is_word(arg(c, i), "SETNAME") && i + 1 < c->count) {
            error = name_client(c, arg(c, ++i));
        } else {
            error = error_with(c, "Syntax error in HELLO option", arg(c, i), "");
        }
    }
    if (error == NULL && !c->is_known)
        return "NOAUTH HELLO must be called with the client already authenticated, otherwise the HELLO <proto> AUTH <user> "
               "<pass> option can be used to authenticate the client and select the RESP protocol version at the same time";
    if (error == NULL) c->resp = (int)version;
    if (error == NULL) reply_server(c);
    return error;
}
