/* Runs the request that was read: finds its command, and looks whether the connection may make it. */
#include "cache.h"
#include <stdio.h>
#include <string.h>

/* The most bytes of an argument that an error shows. */
enum { SHOWN = 128 };

/* Writes an argument for an error, up to its first zero byte, with spaces for line ends. Returns how many bytes. */
static size_t show(char *to, size_t most, struct bytes bytes) {
    size_t len = 0;
    for (; len < bytes.len && len < most && bytes.at[len] != 0; len++)
        to[len] = bytes.at[len] == '\r' || bytes.at[len] == '\n' ? ' ' : (char)bytes.at[len];
    to[len] = 0;
    return len;
}

/* An error with an argument in it. It stands until the worker's next error. */
const char *error_with(struct connection *c, const char *before, struct bytes bytes, const char *after) {
    char shown[SHOWN + 1];
    show(shown, SHOWN, bytes);
    snprintf(c->worker->error, sizeof c->worker->error, "ERR %s '%s'%s", before, shown, after);
    return c->worker->error;
}

/* The error of an option that a command does not have, without line ends at its end. */
const char *error_of_option(struct connection *c, struct bytes option) {
    char shown[SHOWN + 1];
    while (option.len > 0 && (option.at[option.len - 1] == '\r' || option.at[option.len - 1] == '\n'))
        option.len--;
    show(shown, SHOWN, option);
    snprintf(c->worker->error, sizeof c->worker->error, "ERR Unsupported option %s", shown);
    return c->worker->error;
}

static const char *error_of_command(struct connection *c, const char *before) {
    return error_with(c, before, bytes_of(c->command->name), " command");
}

const char *wrong_count(struct connection *c) {
    return error_of_command(c, "wrong number of arguments for");
}

const char *no_deadline(struct connection *c) {
    return error_of_command(c, "invalid expire time in");
}

/* A request of HTTP, which a browser sends for any page: its lines are not to be run, nor its body. */
static bool is_of_http(struct bytes word) {
    return is_word(word, "POST") || is_word(word, "Host:");
}

static const char *unknown(struct connection *c) {
    char args[3 * SHOWN] = ", with args beginning with: ";
    size_t begin = strlen(args), len = begin;
    for (size_t i = 1; i < c->count && len - begin < SHOWN; i++) {
        size_t left = SHOWN - (len - begin);
        args[len++] = '\'';
        len += show(args + len, left, arg(c, i));
        strcpy(args + len, "' ");
        len += 2;
    }
    return error_with(c, "unknown command", arg(c, 0), args);
}

/* Why the request cannot be made; NULL where it can. */
static const char *refused(struct connection *c) {
    if (c->command == NULL) return unknown(c);
    if (!takes_count(c->command, c->count)) return wrong_count(c);
    if (!c->is_known && (c->command->flags & NO_AUTH) == 0) return "NOAUTH Authentication required.";
    if (c->subscribed != NULL && c->resp != 3 && (c->command->flags & SUBSCRIBED) == 0) {
        snprintf(c->worker->error, sizeof c->worker->error,
                 "ERR Can't execute '%s': only (P|S)SUBSCRIBE / (P|S)UNSUBSCRIBE / PING / QUIT / RESET are allowed in this "
                 "context",
                 c->command->name);
        return c->worker->error;
    }
    return cluster_refuses(c);
}

/* A request that is refused voids the transaction; an EXEC that is refused ends it. */
static const char *void_transaction(struct connection *c, const char *error) {
    char text[sizeof c->worker->error];
    c->transaction.is_wrong = true;
    if (c->command == NULL || c->command->run != run_exec) return error;
    forget_transaction(c);
    snprintf(text, sizeof text, "EXECABORT Transaction discarded because of: %s",
             strncmp(error, "ERR ", 4) == 0 ? error + 4 : error);
    strcpy(c->worker->error, text);
    return c->worker->error;
}

/* Runs a command: alone, where it is one of those. */
const char *run_command_of(struct connection *c, const struct command *command) {
    struct store *store = &c->worker->store;
    bool is_taken = (command->flags & ALONE) && !store->is_alone;
    const char *error;
    uint64_t began;
    c->command = command;
    if (is_taken) turn_take_alone(store);
    began = ticks_now();
    error = command->run(c);
    command_ran(c, command, ticks_now() - began, error != NULL);
    if (is_taken) turn_leave_alone(store);
    return error;
}

/* Runs the request that was read. */
void run_request(struct connection *c) {
    const char *error;
    if (c->count == 0) return;
    c->base = c->in.at + c->begin;
    c->answered = 0;
    c->worker->store.now = 0;
    if (c->db != c->worker->store.db && store_select(&c->worker->store, c->db) != FACING_DONE) {
        reply_error(c, error_of(FACING_NO_MEMORY));
        return;
    }
    c->worker->store.counts.calls++;
    c->command = command_of(arg(c, 0));
    if (c->command == NULL && is_of_http(arg(c, 0))) {
        atomic_fetch_add_explicit(&c->worker->cache->refused[CROSS_PROTOCOL], 1, memory_order_relaxed);
        end_connection(c, BY_HTTP);
        return;
    }
    error = refused(c);
    if (error != NULL) {
        count_rejected(c);
        error = void_transaction(c, error);
    } else if (c->transaction.is_open && (c->command->flags & UNQUEUED) == 0) {
        error = queue_request(c);
    } else {
        error = run_command_of(c, c->command);
    }
    if (error != NULL) reply_error(c, error);
}
