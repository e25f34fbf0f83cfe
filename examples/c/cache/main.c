/* The server: reads its options, opens the map, starts the threads, and stops them.
 *
 * usage: cache [OPTION..]; `cache --help` lists the options. */
#define _GNU_SOURCE
#include "options.h"
#include <errno.h>
#include <inttypes.h>
#include <malloc.h>
#include <netinet/in.h>
#include <netinet/tcp.h>
#include <poll.h>
#include <signal.h>
#include <stdio.h>
#include <stdlib.h>
#include <string.h>
#include <sys/resource.h>
#include <sys/signalfd.h>
#include <sys/socket.h>
#include <unistd.h>

/* A script's patterns and functions may nest deep on the stack, which takes memory where it is used. */
enum { STACK = 1 << 23, BATCH = 64, LARGE = 1 << 17 };

/* In milliseconds: how often the main thread looks around, and how long it removes keys at a time: a tenth of the time,
 * or half of it after a FLUSHALL. */
enum { TICK = 100, SLICE = 1, PAUSE = 9, SHORT_PAUSE = 1 };

/* How often it gives memory back at most, and how much is resident beside what is used before it does. */
enum { TRIM = 10000, SPARE = 1 << 24 };

/* In seconds: after how long without a sign the system asks whether a client is still there, and how often. */
enum { ALIVE_AFTER = 300, ALIVE_EACH = 100, ALIVE_TIMES = 3 };

/* A server: what it runs with, and what must be closed. */
struct server {
    struct options options;
    struct cache cache;
    struct worker *workers;
    size_t opened, started;
    struct store store; /* of the main thread, which removes expired keys */
    struct walk walk;
    unsigned db; /* of the walk */
    int listener, local, signals;
    uint64_t sweeping, trimmed;         /* the generation of the walk; when memory was given back */
    bool is_flushed;                    /* since then what a FLUSHALL left was removed */
    uint64_t refused[REFUSALS], logged; /* what the log has of refusals, and when */
};

bool failed(const char *what) {
    fprintf(stderr, "cache: %s: %s\n", what, strerror(errno));
    return false;
}

/* Takes SIGTERM and SIGINT from now on, in all threads, from a descriptor. A terminal that goes away ends nothing. */
static bool take_signals(struct server *server, sigset_t *set) {
    sigemptyset(set);
    sigaddset(set, SIGTERM);
    sigaddset(set, SIGINT);
    signal(SIGHUP, SIG_IGN);
    signal(SIGPIPE, SIG_IGN);
    if (sigprocmask(SIG_BLOCK, set, NULL) != 0) return failed("cannot block signals");
    server->signals = signalfd(-1, set, SFD_CLOEXEC | SFD_NONBLOCK);
    return server->signals >= 0 || failed("cannot take signals");
}

/* Allows as many descriptors as connections need, where the system lets it. */
void allow_connections(uint64_t connections, uint64_t threads) {
    struct rlimit files;
    rlim_t wanted = connections + 5 * threads + 16;
    if (getrlimit(RLIMIT_NOFILE, &files) != 0 || files.rlim_cur >= wanted) return;
    files.rlim_cur = files.rlim_max < wanted ? files.rlim_max : wanted;
    (void)setrlimit(RLIMIT_NOFILE, &files);
}

static bool start_threads(struct server *server) {
    pthread_attr_t attributes;
    bool is_started = pthread_attr_init(&attributes) == 0 && pthread_attr_setstacksize(&attributes, STACK) == 0;
    while (is_started && server->started < server->opened) {
        struct worker *worker = &server->cache.workers[server->started];
        errno = pthread_create(&worker->thread, &attributes, worker_run, worker);
        is_started = errno == 0;
        server->started += is_started;
    }
    pthread_attr_destroy(&attributes);
    return is_started || failed("cannot start threads");
}

/* Makes what all threads share: for each store a seat and a client of the map. */
static uint32_t open_map(struct server *server) {
    const struct options *options = &server->options;
    struct cache *cache = &server->cache;
    size_t stores = options->threads + 1;
    uint64_t seed[2];
    uint32_t status = facing_seed(seed);
    pthread_mutex_t *const locks[] = {&cache->alone, &cache->hand_lock, &cache->watch_lock, &cache->open_lock};
    for (size_t i = 0; i < sizeof locks / sizeof *locks; i++)
        if (pthread_mutex_init(locks[i], NULL) != 0) return FACING_NO_MEMORY;
    cache->stores = (uint32_t)stores;
    if (status == FACING_DONE) status = database_open(cache, 0, options->buckets);
    if (status != FACING_DONE) return status;
    cache->seed = seed[0];
    cache->workers = heap_zeros(options->threads * sizeof *cache->workers);
    cache->workers_len = cache->workers == NULL ? 0 : options->threads;
    if (cache->workers == NULL || !turns_begin(cache, stores) || !touched_begin(cache)) return FACING_NO_MEMORY;
    for (size_t i = 0; i < options->threads; i++)
        worker_begin(&cache->workers[i], &cache->seats[i]);
    server->store.seat = &cache->seats[options->threads];
    return store_open(&server->store, cache);
}

static bool start(struct server *server) {
    struct cache *cache = &server->cache;
    uint32_t status = open_map(server);
    if (status != FACING_DONE) {
        fprintf(stderr, "cache: cannot open the map: %s\n", facing_strerror(status));
        return false;
    }
    for (; server->opened < cache->workers_len; server->opened++)
        if (!worker_open(&cache->workers[server->opened], cache)) return failed("cannot start");
    heap_tell();
    if (heap_used() > cache->limits.memory) {
        fprintf(stderr, "cache: --memory is too little: the map and the threads take %" PRIu64 " bytes\n", heap_used());
        return false;
    }
    server->listener = listen_on(&server->options);
    if (server->listener < 0) return false;
    server->local = listen_locally(&server->options);
    return server->local != -2 && start_threads(server);
}

/* Replies go out at once, and a connection ends whose client is gone without a word. */
static void set_up(int accepted) {
    static const struct {
        int level, name, value;
    } settings[] = {
        {IPPROTO_TCP, TCP_NODELAY, 1},
        {SOL_SOCKET, SO_KEEPALIVE, 1},
        {IPPROTO_TCP, TCP_KEEPIDLE, ALIVE_AFTER},
        {IPPROTO_TCP, TCP_KEEPINTVL, ALIVE_EACH},
        {IPPROTO_TCP, TCP_KEEPCNT, ALIVE_TIMES},
    };
    for (size_t i = 0; i < sizeof settings / sizeof *settings; i++)
        (void)setsockopt(accepted, settings[i].level, settings[i].name, &settings[i].value, sizeof settings[i].value);
}

/* Deals a connection out, or refuses it. */
static void deal_out(struct server *server, int accepted, size_t *turn) {
    static const char full[] = "-ERR max number of clients reached\r\n";
    struct cache *cache = &server->cache;
    bool is_taken = atomic_fetch_add_explicit(&cache->connections, 1, memory_order_relaxed) < cache->limits.connections;
    if (is_taken) {
        *turn = (*turn + 1) % server->started;
        atomic_fetch_add_explicit(&cache->accepted, 1, memory_order_relaxed);
        set_up(accepted);
        is_taken = write(server->cache.workers[*turn].outbox, &accepted, sizeof accepted) == sizeof accepted;
    } else {
        atomic_fetch_add_explicit(&cache->refused[TOO_MANY], 1, memory_order_relaxed);
        (void)!send(accepted, full, sizeof full - 1, MSG_NOSIGNAL);
    }
    if (is_taken) return;
    atomic_fetch_sub_explicit(&cache->connections, 1, memory_order_relaxed);
    close(accepted);
}

/* Accepts some connections. Returns false where the system has no descriptor or no memory for the next one. */
static bool accept_some(struct server *server, int listener, size_t *turn) {
    for (int i = 0; i < BATCH; i++) {
        int accepted = accept4(listener, NULL, NULL, SOCK_NONBLOCK | SOCK_CLOEXEC);
        if (accepted < 0) return errno != EMFILE && errno != ENFILE && errno != ENOBUFS && errno != ENOMEM;
        deal_out(server, accepted, turn);
    }
    return true;
}

/* Removes what is live no more, for a slice of time. A turn takes a step of the walk. Once a walk that began in a generation
 * is at its end, no value of an older one is stored. */
static void sweep(struct server *server, uint64_t until) {
    struct store *store = &server->store;
    uint32_t status;
    do {
        turn_share(store);
        status = store_select(store, server->db);
        if (server->walk.at == 0) server->sweeping = atomic_load(&store->database->generation);
        if (status == FACING_DONE) status = walk_sweep(&server->walk, store);
        if (status == FACING_DONE && server->walk.at == 0) atomic_store(&store->database->swept, server->sweeping);
        turn_end(store);
    } while (status == FACING_DONE && server->walk.at != 0 && now_ms() < until);
}

/* Gives memory back to the system: after a FLUSHALL, and where much more is resident than is used. */
static void trim(struct server *server, uint64_t now) {
    uint64_t used = heap_used();
    if (!server->is_flushed && now < server->trimmed + TRIM) return;
    if (server->is_flushed || heap_resident() > used + used / 4 + SPARE) {
        blocks_rest();
        malloc_trim(0);
    }
    server->trimmed = now;
    server->is_flushed = false;
}

/* Goes on to the next database that has something to remove, or may have. */
static void next_database(struct server *server) {
    const struct database *of;
    for (int i = 0; i < DATABASES; i++) {
        server->db = (server->db + 1) % DATABASES;
        of = &server->cache.databases[server->db];
        if (atomic_load(&of->is_open) && (atomic_load(&of->dead) > 0 || atomic_load(&of->timed) > 0)) return;
    }
    server->db = 0;
}

/* Removes what is live no more, if there may be some. Returns in how many milliseconds there is more to do. Once all is
 * removed that a FLUSHALL left its memory is given back. */
static uint64_t sweep_slice(struct server *server) {
    struct cache *cache = &server->cache;
    bool has_dead = dead_of_all(cache) > 0;
    if (!has_dead && timed_of_all(cache) <= 0) return TICK;
    if (server->walk.at == 0) next_database(server);
    sweep(server, now_ms() + SLICE);
    server->is_flushed = server->is_flushed || (has_dead && dead_of_all(cache) <= 0);
    return has_dead ? SHORT_PAUSE : PAUSE;
}

/* Writes a line a second at most for each reason why connections were refused. */
static void log_refusals(struct server *server, uint64_t now) {
    static const char *const reasons[REFUSALS] = {"too many connections", "requests of HTTP", "wrong passwords"};
    if (now < server->logged + 1000) return;
    server->logged = now;
    for (size_t i = 0; i < REFUSALS; i++) {
        uint64_t count = atomic_load_explicit(&server->cache.refused[i], memory_order_relaxed);
        if (count == server->refused[i]) continue;
        log_line("refused %" PRIu64 ": %s", count - server->refused[i], reasons[i]);
        server->refused[i] = count;
    }
}

/* Accepts connections and removes expired keys, until a signal comes. Where there are no more descriptors, connections wait
 * until the next slice. */
static void accept_all(struct server *server) {
    struct pollfd files[3] = {{.fd = server->signals, .events = POLLIN}, {.fd = server->listener}, {.fd = server->local}};
    uint64_t next = now_ms();
    size_t turn = 0;
    while ((files[0].revents & POLLIN) == 0) {
        uint64_t now = now_ms();
        if (now >= next) {
            uint64_t pause = sweep_slice(server);
            log_refusals(server, now);
            trim(server, now);
            set_slow_ticks(&server->cache);
            files[1].events = files[2].events = POLLIN;
            next = now_ms() + pause;
        }
        now = now_ms();
        if (poll(files, 3, now < next ? (int)(next - now) : 0) <= 0) continue;
        for (int i = 1; i < 3; i++)
            if ((files[i].revents & POLLIN) && !accept_some(server, files[i].fd, &turn))
                files[1].events = files[2].events = 0;
    }
}

/* Stops the threads: each answers what has come. The signal that came is taken; a second one ends the process. */
static void stop(struct server *server, const sigset_t *set) {
    struct signalfd_siginfo taken;
    if (server->signals >= 0) (void)!read(server->signals, &taken, sizeof taken);
    sigprocmask(SIG_UNBLOCK, set, NULL);
    if (server->listener >= 0) close(server->listener);
    if (server->local >= 0) {
        close(server->local);
        unlink(server->options.unixsocket);
    }
    for (size_t i = 0; i < server->opened; i++) {
        close(server->cache.workers[i].outbox);
        server->cache.workers[i].outbox = -1;
    }
    for (size_t i = 0; i < server->started; i++)
        pthread_join(server->cache.workers[i].thread, NULL);
}

static void close_all(struct server *server) {
    struct cache *cache = &server->cache;
    for (size_t i = 0; i < cache->workers_len; i++)
        worker_close(&cache->workers[i]);
    scripts_close(cache);
    stats_close();
    heap_free(cache->workers);
    walk_free(&server->walk);
    store_close(&server->store);
    databases_close(cache);
    if (server->signals >= 0) close(server->signals);
}

int main(int count, char **words) {
    static struct server server = {.listener = -1, .local = -1, .signals = -1};
    struct options *options = &server.options;
    sigset_t set;
    bool is_started;
    int status = read_options(count, words, options);
    if (status >= 0) return status;
    if (!is_safe(options) || !cluster_open(options->slots, options->nodes)) return 2;
    commands_begin();
    if (options->threads == 0) options->threads = (uint64_t)sysconf(_SC_NPROCESSORS_ONLN);
    if (options->threads > MOST_THREADS) options->threads = MOST_THREADS;
    server.cache.limits = options->limits;
    server.cache.started = now_ms();
    allow_connections(options->limits.connections, options->threads);
    set_slow_ticks(&server.cache);
    mallopt(M_MMAP_THRESHOLD, LARGE); /* what a client did not read in time goes back to the system */
    is_started = take_signals(&server, &set) && start(&server);
    if (is_started) {
        bool is_six = strchr(options->address, ':') != NULL;
        log_line("listens on %s%s%s:%" PRIu64 ", %zu threads", is_six ? "[" : "", options->address, is_six ? "]" : "",
                 options->port, server.started);
        notify_system("READY=1");
        accept_all(&server);
    }
    notify_system("STOPPING=1");
    stop(&server, &set);
    if (is_started)
        log_line("stopped, %" PRIu64 " connections, %" PRId64 " requests", atomic_load(&server.cache.accepted),
                 COUNT_OF(&server.cache, calls));
    close_all(&server);
    return is_started ? 0 : 1;
}
