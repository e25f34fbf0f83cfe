/* Loads a memcached on this machine, as redis-benchmark loads a redis-server: so many connections, each with so many requests on the
 * way, first sets and then gets of the same keys.
 *
 * usage: load PORT REQUESTS CONNECTIONS PIPELINE SIZE THREADS
 *
 * It prints for SET and for GET the requests a second and the 99th percentile of the time from a request to its reply in
 * milliseconds. Every key is set before, so that all replies to one kind of request have one length. */
#include "loading.h"

enum { AT_ONCE = 100 };

static long port, requests, connections, pipeline, size, threads;
static bool is_get;
static atomic_long begun;
static char *value;

struct connection {
    int socket;
    unsigned drawn;
    long wanted; /* bytes of replies that are still to come */
    long sent;   /* requests on the way */
    uint64_t since;
};

/* Writes a request for a key, and returns its end. */
static char *write_request(char *at, long key, bool is_got) {
    if (is_got) return at + sprintf(at, "get key:%012ld\r\n", key);
    at += sprintf(at, "set key:%012ld 0 0 %ld\r\n%s\r\n", key, size, value);
    return at;
}

static long reply_len(bool is_got) {
    char line[HEAD];
    return is_got ? sprintf(line, "VALUE key:%012d 0 %ld\r\n\r\nEND\r\n", 0, size) + size : (long)strlen("STORED\r\n");
}

static void send_all(int to, const char *at, const char *end) {
    while (at < end) {
        ssize_t sent = send(to, at, (size_t)(end - at), MSG_NOSIGNAL);
        if (sent <= 0) stop("cannot send");
        at += sent;
    }
}

/* Sends the next requests of a connection. Returns false where there are no more. */
static bool send_next(struct connection *c, char *room) {
    char *end = room;
    long at = atomic_fetch_add(&begun, pipeline);
    if (at >= requests) return false;
    for (long i = 0; i < pipeline; i++)
        end = write_request(end, rand_r(&c->drawn) % KEYS, is_get);
    c->wanted = pipeline * reply_len(is_get);
    c->since = now();
    send_all(c->socket, room, end);
    return true;
}

/* Reads replies of a connection; once they are there, sends the next requests. Returns false at the end. */
static bool go_on(struct connection *c, char *room, size_t room_len) {
    ssize_t len = recv(c->socket, room, room_len, 0);
    if (len <= 0) stop("a connection ended");
    c->wanted -= len;
    if (c->wanted > 0) return true;
    if (c->wanted < 0 || memcmp(room + len - 2, "\r\n", 2) != 0) stop("a reply is not of its length");
    add_time(c->since, pipeline);
    return send_next(c, room);
}

static void *run(void *of) {
    long number = (intptr_t)of, count = connections / threads + (number < connections % threads), left = count;
    size_t room_len = (size_t)(pipeline * (size + HEAD));
    char *room = malloc(room_len);
    struct connection *all = calloc((size_t)count, sizeof *all);
    struct epoll_event events[EVENTS];
    int epoll = epoll_create1(0);
    for (long i = 0; i < count; i++) {
        struct epoll_event event = {.events = EPOLLIN, .data.ptr = &all[i]};
        all[i] = (struct connection){.socket = connected(port), .drawn = (unsigned)(number * 1000 + i)};
        epoll_ctl(epoll, EPOLL_CTL_ADD, all[i].socket, &event);
        left -= !send_next(&all[i], room);
    }
    while (left > 0) {
        int found = epoll_wait(epoll, events, EVENTS, -1);
        for (int i = 0; i < found; i++)
            left -= !go_on(events[i].data.ptr, room, room_len);
    }
    for (long i = 0; i < count; i++)
        close(all[i].socket);
    close(epoll);
    free(all);
    free(room);
    return NULL;
}

static void set_all(void) {
    int to = connected(port);
    char *room = malloc(AT_ONCE * (size_t)(size + HEAD)), replies[AT_ONCE * 8];
    for (long key = 0; key < KEYS;) {
        char *end = room;
        for (int i = 0; i < AT_ONCE; i++)
            end = write_request(end, key++, false);
        send_all(to, room, end);
        if (recv(to, replies, sizeof replies, MSG_WAITALL) != sizeof replies) stop("a key is not set");
    }
    close(to);
    free(room);
}

static void measure(const char *name) {
    uint64_t began = now();
    atomic_store(&begun, 0);
    run_all(run, threads);
    printf("%s %.0f %.2f\n", name, (double)requests * 1e9 / (double)(now() - began), percentile(990));
}

int main(int count, char **words) {
    long *const numbers[] = {&port, &requests, &connections, &pipeline, &size, &threads};
    if (!read_numbers(count, words, numbers, 6)) return 2;
    if (threads > THREADS || threads > connections) return 2;
    value = value_of(size);
    set_all();
    measure("SET");
    is_get = true;
    measure("GET");
    return 0;
}
