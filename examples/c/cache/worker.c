/* A thread's loop over its connections. It takes new ones from a pipe, reads what came, runs the requests that are whole,
 * and sends the replies. A connection that leaves many replies unread is not read until it took them. Once the pipe is
 * closed the thread answers what has come, and closes each connection when its replies are sent. */
#define _GNU_SOURCE
#include "cache.h"
#include <errno.h>
#include <fcntl.h>
#include <string.h>
#include <sys/epoll.h>
#include <sys/eventfd.h>
#include <sys/socket.h>
#include <unistd.h>

enum { LEAST_READ = KEPT / 4, EVENTS = 128, LOOKS = 1000 };

static bool watch(int epoll, int how, int file, uint32_t events, void *of) {
    struct epoll_event event = {.events = events, .data = {.ptr = of}};
    return epoll_ctl(epoll, how, file, &event) == 0;
}

/* A worker that is not opened yet, and may be closed. */
void worker_begin(struct worker *worker, struct seat *seat) {
    *worker = (struct worker){.epoll = -1, .inbox = -1, .outbox = -1, .bell = -1, .store = {.seat = seat}};
    pthread_mutex_init(&worker->list_lock, NULL);
}

bool worker_open(struct worker *worker, struct cache *cache) {
    int ends[2];
    worker->cache = cache;
    worker->stats = heap_zeros(commands_count() * sizeof *worker->stats);
    if (worker->stats == NULL) return false;
    if (store_open(&worker->store, cache) != FACING_DONE) return false;
    worker->epoll = epoll_create1(EPOLL_CLOEXEC);
    if (worker->epoll < 0 || pipe2(ends, O_CLOEXEC) != 0) return false;
    worker->inbox = ends[0];
    worker->outbox = ends[1];
    worker->bell = eventfd(0, EFD_CLOEXEC | EFD_NONBLOCK);
    if (worker->bell < 0 || !watch(worker->epoll, EPOLL_CTL_ADD, worker->bell, EPOLLIN, worker)) return false;
    return watch(worker->epoll, EPOLL_CTL_ADD, worker->inbox, EPOLLIN, NULL);
}

void worker_close(struct worker *worker) {
    store_close(&worker->store);
    heap_free(worker->stats);
    walk_free(&worker->walk);
    buffer_free(&worker->in);
    buffer_free(&worker->out);
    if (worker->epoll >= 0) close(worker->epoll);
    if (worker->inbox >= 0) close(worker->inbox);
    if (worker->outbox >= 0) close(worker->outbox);
    if (worker->bell >= 0) close(worker->bell);
}

/* == The list of connections: those that were served last are first. It changes under its lock == */

static void put_first(struct connection *c) {
    struct worker *worker = c->worker;
    pthread_mutex_lock(&worker->list_lock);
    c->before = NULL;
    c->after = worker->first;
    *(c->after != NULL ? &c->after->before : &worker->last) = c;
    worker->first = c;
    pthread_mutex_unlock(&worker->list_lock);
}

static void take_out(struct connection *c) {
    pthread_mutex_lock(&c->worker->list_lock);
    *(c->before != NULL ? &c->before->after : &c->worker->first) = c->after;
    *(c->after != NULL ? &c->after->before : &c->worker->last) = c->before;
    pthread_mutex_unlock(&c->worker->list_lock);
}

/* Closes a connection. The list changes in a turn, so that who runs alone may read it. */
static void drop(struct connection *c, enum closing why) {
    struct store *store = &c->worker->store;
    if (c->why != STILL_OPEN) why = c->why;
    if (atomic_load(&c->shed) != 0) why = (enum closing)atomic_load(&c->shed);
    hold_nothing(c);
    atomic_fetch_add_explicit(&store->cache->closed[why], 1, memory_order_relaxed);
    turn_share(store);
    take_out(c);
    forget_transaction(c);
    leave_channels(c);
    atomic_fetch_sub_explicit(&store->cache->connections, 1, memory_order_relaxed);
    close(c->socket);
    buffer_free(&c->in);
    buffer_free(&c->out);
    heap_free(c->args);
    heap_free(c->name);
    heap_free(c);
    turn_end(store);
}

static void take_in(struct worker *worker, int socket) {
    struct connection *c = heap_zeros(sizeof *c);
    if (c == NULL || !watch(worker->epoll, EPOLL_CTL_ADD, socket, EPOLLIN, c)) {
        heap_free(c);
        close(socket);
        atomic_fetch_sub_explicit(&worker->cache->connections, 1, memory_order_relaxed);
        return;
    }
    c->worker = worker;
    c->socket = socket;
    c->watched = EPOLLIN;
    c->id = atomic_fetch_add_explicit(&worker->cache->ids, 1, memory_order_relaxed) + 1;
    c->began = c->served = now_ms();
    turn_share(&worker->store);
    c->is_known = worker->cache->limits.password.len == 0;
    put_first(c);
    turn_end(&worker->store);
}

/* == Requests and replies == */

/* Whether the limits allow what more there is of a long request. */
static bool may_be_longer(struct connection *c) {
    struct store *store = &c->worker->store;
    bool has_it;
    if (c->in.len < KEPT / 2 || c->in.room - c->in.len >= LEAST_READ) return true;
    if (!may_hold(c, c->in.room / 4)) {
        break_connection(c, BY_BUFFERS);
        return false;
    }
    if (c->in.len < HELD) return true;
    turn_share(store);
    has_it = make_room(store, c->in.len / 4);
    turn_end(store);
    return has_it;
}

/* Reads once what has come. Returns whether there may be more at once. */
static bool receive(struct connection *c) {
    ssize_t len;
    if (c->in.at == NULL) buffer_move(&c->in, &c->worker->in);
    if (!may_be_longer(c)) {
        if (!c->is_broken) reply_error(c, error_of(STORE_FULL));
        end_connection(c, BY_MEMORY);
        return false;
    }
    if (!buffer_reserve(&c->in, c->in.at == NULL ? KEPT : LEAST_READ)) {
        break_connection(c, BY_MEMORY);
        return false;
    }
    len = recv(c->socket, c->in.at + c->in.len, c->in.room - c->in.len, 0);
    if (len > 0)
        c->in.len += (size_t)len;
    else if (len == 0)
        end_connection(c, BY_CLIENT);
    else if (errno != EAGAIN && errno != EWOULDBLOCK && errno != EINTR)
        break_connection(c, BY_SOCKET);
    return len > 0;
}

/* Whether the replies that wait are so many that they go out first. Where memory is full, fewer are. */
static bool has_many(const struct connection *c) {
    return unsent(c) >= KEPT && (unsent(c) >= HELD || !has_room(c->worker->cache, 0));
}

/* Runs the requests that are whole, in a turn, until too many replies wait. */
static enum parsed run_some(struct connection *c) {
    struct store *store = &c->worker->store;
    enum parsed parsed = PARSED;
    turn_share(store);
    c->served = c->worker->now;
    if (c->worker->cache->limits.timeout > 0) {
        take_out(c);
        put_first(c);
    }
    while (!c->is_broken && !c->is_ending && !has_many(c) && (parsed = request_next(c)) == PARSED) {
        run_request(c);
        request_done(c);
        turn_pass(store);
    }
    store_rest(store);
    turn_end(store);
    return parsed;
}

/* Runs the requests that are whole, and keeps what is behind them. Where too many replies wait the rest waits for them. */
static void run_requests(struct connection *c) {
    enum parsed parsed;
    do {
        parsed = run_some(c);
        c->is_held = !c->is_broken && !c->is_ending && parsed == PARSED && has_many(c);
        if (c->is_held) send_replies(c);
    } while (c->is_held && !c->is_broken && unsent(c) == 0);
    if (parsed == WRONG) end_connection(c, BY_PROTOCOL);
    if (c->begin > 0) memmove(c->in.at, c->in.at + c->begin, c->in.len - c->begin);
    c->in.len -= c->begin;
    c->begin = 0;
    if (c->in.len == 0) buffer_move(&c->worker->in, &c->in);
}

/* Sends the replies, closes a connection that is at its end, and else says what it waits for. What a connection holds that
 * is not read goes out when the socket takes more: were all of it sent here, nothing would be left to wait for. */
static void settle(struct connection *c) {
    uint32_t events;
    if (!c->is_held) send_replies(c);
    if (!c->is_known) buffer_fit(&c->in);
    hold_within(c);
    events = (c->is_ending || c->is_held ? 0U : (uint32_t)EPOLLIN) | (unsent(c) > 0 ? (uint32_t)EPOLLOUT : 0U);
    if (c->is_broken || events == 0) {
        drop(c, BY_CLIENT);
    } else if (events != c->watched) {
        if (watch(c->worker->epoll, EPOLL_CTL_MOD, c->socket, events, c))
            c->watched = events;
        else
            drop(c, BY_MEMORY);
    }
}

/* At a stop: answers what has come, and takes no more. */
static void finish(struct connection *c) {
    while (!c->is_held && !c->is_ending && !c->is_broken && now_ms() < c->worker->drain_by && receive(c))
        run_requests(c);
    if (!c->is_held) end_connection(c, BY_STOP);
}

static void serve(struct connection *c, uint32_t events) {
    if (c->is_held) {
        send_replies(c);
        if (!c->is_broken && unsent(c) == 0) run_requests(c);
        if (c->worker->drain_by != 0) finish(c);
    } else if (!c->is_ending && (events & (EPOLLIN | EPOLLHUP | EPOLLERR))) {
        receive(c);
        run_requests(c);
    }
    settle(c);
}

/* Takes in the connections that came. Once there will be no more, the worker stops. */
static void look_into_inbox(struct worker *worker) {
    int sockets[64];
    ssize_t len = read(worker->inbox, sockets, sizeof sockets);
    for (size_t i = 0; len > 0 && i < (size_t)len / sizeof *sockets; i++)
        take_in(worker, sockets[i]);
    if (len == 0) {
        watch(worker->epoll, EPOLL_CTL_DEL, worker->inbox, 0, NULL);
        worker->drain_by = now_ms() + worker->cache->limits.grace;
    }
}

/* Sends the messages of channels that came for connections. It may close one, so no event of them is looked at after it. */
static void deliver(struct worker *worker) {
    uint64_t rings;
    struct buffer mail;
    (void)!read(worker->bell, &rings, sizeof rings);
    for (struct connection *c = next_mailed(worker, &mail); c != NULL; c = next_mailed(worker, &mail)) {
        turn_share(&worker->store);
        c->answered = 0;
        if (unsent(c) + mail.len > MOST_MAIL) break_connection(c, BY_BUFFERS);
        reply_raw(c, (struct bytes){mail.at, mail.len});
        turn_end(&worker->store);
        buffer_free(&mail);
        settle(c);
    }
}

/* Answers what has come on each connection. */
static void drain(struct worker *worker) {
    for (struct connection *c = worker->first, *after; c != NULL; c = after) {
        after = c->after;
        finish(c);
        settle(c);
    }
}

/* Closes the connections that were idle for too long, but for those that wait for messages. */
static void close_idle(struct worker *worker) {
    uint64_t timeout = 1000 * worker->cache->limits.timeout;
    while (timeout > 0 && worker->last != NULL && worker->last->served + timeout <= worker->now) {
        struct connection *c = worker->last;
        if (c->subscribed == NULL) {
            drop(c, BY_TIMEOUT);
            continue;
        }
        c->served = worker->now;
        take_out(c);
        put_first(c);
    }
}

/* How many milliseconds to wait for events: -1 for as long as there are none. */
static int time_left(const struct worker *worker) {
    uint64_t now = now_ms();
    if (worker->drain_by == 0) return worker->cache->limits.timeout > 0 || !worker->is_rested ? LOOKS : -1;
    return worker->drain_by > now ? (int)(worker->drain_by - now) : 0;
}

/* Waits for events. A thread without any for a second gives the free blocks back that it keeps. */
static int wait_for_events(struct worker *worker, struct epoll_event *events) {
    int count = epoll_wait(worker->epoll, events, EVENTS, time_left(worker));
    if (count == 0 && !worker->is_rested) blocks_rest();
    worker->is_rested = count == 0;
    return count;
}

/* A worker's thread. */
void *worker_run(void *of) {
    struct worker *worker = of;
    struct epoll_event events[EVENTS];
    while (worker->drain_by == 0 || (worker->first != NULL && now_ms() < worker->drain_by)) {
        int count = wait_for_events(worker, events);
        bool was_stopping = worker->drain_by != 0, has_rung = false;
        worker->now = now_ms();
        for (int i = 0; i < count; i++) {
            if (events[i].data.ptr == NULL)
                look_into_inbox(worker);
            else if (events[i].data.ptr == worker)
                has_rung = true;
            else
                serve(events[i].data.ptr, events[i].events);
        }
        if (has_rung) deliver(worker);
        if (worker->drain_by != 0 && !was_stopping) drain(worker);
        close_idle(worker);
    }
    while (worker->first != NULL)
        drop(worker->first, BY_STOP);
    return NULL;
}
