/* Sends requests to a server of the Redis protocol on this machine at a given rate, whether it answers or not: so many at once, in turn
 * from each of the connections. A request's time begins when it was to be sent, so that a server that is behind does not get fewer.
 *
 * usage: rate PORT RATE SECONDS CONNECTIONS PIPELINE SIZE THREADS
 *
 * It prints for SET and for GET the requests a second that were answered, and the 50th, 99th and 99.9th percentile of their times in
 * milliseconds. Every key is set before, so that all replies to one kind of request have one length. */
#include "loading.h"
#include <fcntl.h>
#include <sys/timerfd.h>

static long port, rate, seconds, connections, pipeline, size, threads;
static bool is_get;
static char *value;

struct connection {
    int socket;
    unsigned drawn;
    long due, begun, answered; /* how many times requests were to be sent, were begun to be sent, and were answered */
    long got;                  /* bytes of replies beyond those */
    char *out;                 /* what is being sent */
    size_t len, sent;
};

/* A thread with its connections, which begin one after the other, an interval apart. */
struct loader {
    long number, count, rounds;
    uint64_t began, interval;
    struct connection *all;
};

static char *write_request(char *at, long key) {
    if (is_get) return at + sprintf(at, "*2\r\n$3\r\nGET\r\n$16\r\nkey:%012ld\r\n", key);
    return at + sprintf(at, "*3\r\n$3\r\nSET\r\n$16\r\nkey:%012ld\r\n$%ld\r\n%s\r\n", key, size, value);
}

static long reply_len(void) {
    char line[HEAD];
    return is_get ? sprintf(line, "$%ld\r\n\r\n", size) + size : (long)strlen("+OK\r\n");
}

/* When the requests of a connection were to be sent for the so many-th time. */
static uint64_t time_of(const struct loader *loader, const struct connection *c, long number) {
    return loader->began + (uint64_t)(number * loader->count + (c - loader->all)) * loader->interval;
}

/* Sends what is due, as far as the socket takes it. */
static void send_due(struct connection *c) {
    while (c->sent < c->len || c->begun < c->due) {
        ssize_t sent;
        if (c->sent == c->len) {
            char *end = c->out;
            for (long i = 0; i < pipeline; i++)
                end = write_request(end, rand_r(&c->drawn) % KEYS);
            c->len = (size_t)(end - c->out);
            c->sent = 0;
            c->begun++;
        }
        sent = send(c->socket, c->out + c->sent, c->len - c->sent, MSG_NOSIGNAL);
        if (sent < 0 && errno == EAGAIN) return;
        if (sent <= 0) stop("cannot send");
        c->sent += (size_t)sent;
    }
}

/* Reads all replies that came. */
static void read_replies(const struct loader *loader, struct connection *c, char *room, size_t room_len) {
    for (;;) {
        ssize_t len = recv(c->socket, room, room_len, 0);
        if (len < 0 && errno == EAGAIN) return;
        if (len <= 0) stop("a connection ended");
        for (c->got += len; c->got >= pipeline * reply_len(); c->got -= pipeline * reply_len())
            add_time(time_of(loader, c, c->answered++), pipeline);
        if (c->got == 0 && memcmp(room + len - 2, "\r\n", 2) != 0) stop("a reply is not of its length");
    }
}

/* Lets each connection send what it is to send by now. Returns when the next one is to. */
static uint64_t send_all_due(struct loader *loader, long *turn) {
    for (; *turn < loader->count * loader->rounds; (*turn)++) {
        struct connection *c = &loader->all[*turn % loader->count];
        uint64_t at = time_of(loader, c, c->due);
        if (at > now()) return at;
        c->due++;
        send_due(c);
    }
    return UINT64_MAX;
}

static void begin(struct loader *loader, int epoll, int timer) {
    struct epoll_event event = {.events = EPOLLIN, .data.ptr = NULL};
    epoll_ctl(epoll, EPOLL_CTL_ADD, timer, &event);
    for (long i = 0; i < loader->count; i++) {
        struct connection *c = &loader->all[i];
        *c = (struct connection){.socket = connected(port), .drawn = (unsigned)(loader->number * 1000 + i)};
        c->out = malloc((size_t)(pipeline * (size + HEAD)));
        fcntl(c->socket, F_SETFL, O_NONBLOCK);
        event = (struct epoll_event){.events = EPOLLIN | EPOLLOUT | EPOLLET, .data.ptr = c};
        epoll_ctl(epoll, EPOLL_CTL_ADD, c->socket, &event);
    }
    loader->began = now();
}

static bool is_over(const struct loader *loader) {
    for (long i = 0; i < loader->count; i++)
        if (loader->all[i].answered < loader->rounds) return false;
    return true;
}

static void *run(void *of) {
    enum { ROOM = 1 << 18 };
    struct loader loader = {.number = (intptr_t)of, .count = connections / threads + ((intptr_t)of < connections % threads)};
    int epoll = epoll_create1(0), timer = timerfd_create(CLOCK_MONOTONIC, 0);
    struct epoll_event events[EVENTS];
    char *room = malloc(ROOM);
    long turn = 0;
    loader.all = calloc((size_t)loader.count, sizeof *loader.all);
    loader.interval = (uint64_t)(1e9 * (double)pipeline * (double)connections / (double)rate / (double)loader.count);
    loader.rounds = rate * seconds / (pipeline * connections) + 1;
    begin(&loader, epoll, timer);
    while (!is_over(&loader)) {
        uint64_t next = send_all_due(&loader, &turn);
        struct itimerspec at = {.it_value = {(time_t)(next / 1000000000), (long)(next % 1000000000)}};
        if (next != UINT64_MAX) timerfd_settime(timer, TFD_TIMER_ABSTIME, &at, NULL);
        int found = epoll_wait(epoll, events, EVENTS, -1);
        for (int i = 0; i < found; i++) {
            struct connection *c = events[i].data.ptr;
            uint64_t ticks;
            if (c == NULL) {
                (void)!read(timer, &ticks, sizeof ticks);
            } else {
                read_replies(&loader, c, room, ROOM);
                send_due(c);
            }
        }
    }
    for (long i = 0; i < loader.count; i++) {
        close(loader.all[i].socket);
        free(loader.all[i].out);
    }
    close(epoll);
    close(timer);
    free(loader.all);
    free(room);
    return NULL;
}

static void measure(const char *name) {
    uint64_t began = now();
    long rounds = rate * seconds / (pipeline * connections) + 1;
    run_all(run, threads);
    printf("%s %.0f %.2f %.2f %.2f\n", name, (double)(rounds * pipeline * connections) * 1e9 / (double)(now() - began), percentile(500),
           percentile(990), percentile(999));
}

int main(int count, char **words) {
    long *const numbers[] = {&port, &rate, &seconds, &connections, &pipeline, &size, &threads};
    if (!read_numbers(count, words, numbers, 7) || threads > THREADS || threads > connections) return 2;
    value = value_of(size);
    measure("SET");
    is_get = true;
    measure("GET");
    return 0;
}
