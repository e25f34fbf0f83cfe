/* Writes replies, and sends them. What a client does not read waits here; the worker takes no more requests from a
 * connection where much waits. A request whose own replies go past a limit ends its connection. */
#include "cache.h"
#include <errno.h>
#include <string.h>
#include <sys/socket.h>

/* The most bytes of a line with a number. */
enum { NUMBER = 32 };

size_t unsent(const struct connection *c) {
    return c->out.len - c->sent;
}

/* Sends what there is, as far as the socket takes it. */
void send_replies(struct connection *c) {
    while (!c->is_broken && unsent(c) > 0) {
        ssize_t sent = send(c->socket, c->out.at + c->sent, unsent(c), MSG_NOSIGNAL);
        if (sent > 0)
            c->sent += (size_t)sent;
        else if (sent < 0 && (errno == EAGAIN || errno == EWOULDBLOCK))
            return;
        else if (sent == 0 || errno != EINTR)
            break_connection(c, BY_SOCKET);
    }
    c->out.len = c->sent = 0;
    buffer_move(&c->worker->out, &c->out);
}

/* Whether the replies may grow by so many bytes: those of a request have a limit, and what is much must have room. */
static bool may_grow(struct connection *c, size_t len) {
    if (c->answered + len > c->worker->cache->limits.output) break_connection(c, BY_OUTPUT);
    if (c->is_broken || unsent(c) + len <= HELD || c->out.room - c->out.len >= len) return !c->is_broken;
    if (!may_hold(c, len)) break_connection(c, BY_BUFFERS);
    return !c->is_broken && make_room(&c->worker->store, len);
}

/* Makes room for so many bytes, and returns where they go; NULL where the connection is to be closed. */
static uint8_t *more_out(struct connection *c, size_t len) {
    if (c->is_broken) return NULL;
    if (c->sent > unsent(c) && c->out.room - c->out.len < len) {
        memmove(c->out.at, c->out.at + c->sent, unsent(c));
        c->out.len -= c->sent;
        c->sent = 0;
    }
    if (c->out.at == NULL) buffer_move(&c->out, &c->worker->out);
    if (!may_grow(c, len) || !buffer_reserve(&c->out, len)) {
        break_connection(c, BY_MEMORY);
        return NULL;
    }
    return c->out.at + c->out.len;
}

/* So many bytes were written there. */
static void wrote(struct connection *c, size_t len) {
    c->out.len += len;
    c->answered += len;
}

/* Writes a line with a number behind a mark, and returns its length. */
static size_t write_number(uint8_t line[NUMBER], char mark, int64_t number) {
    uint8_t digits[NUMBER];
    uint64_t left = number < 0 ? 0 - (uint64_t)number : (uint64_t)number;
    size_t n = 0, len = 0;
    do
        digits[n++] = (uint8_t)('0' + left % 10);
    while ((left /= 10) > 0);
    line[len++] = (uint8_t)mark;
    if (number < 0) line[len++] = '-';
    while (n > 0)
        line[len++] = digits[--n];
    line[len++] = '\r';
    line[len++] = '\n';
    return len;
}

static void reply_line(struct connection *c, char mark, int64_t number) {
    uint8_t *to = more_out(c, NUMBER);
    if (to != NULL) wrote(c, write_number(to, mark, number));
}

static void reply_text(struct connection *c, char mark, const char *text) {
    size_t len = strlen(text);
    uint8_t *to = more_out(c, len + 3);
    if (to == NULL) return;
    to[0] = (uint8_t)mark;
    memcpy(to + 1, text, len);
    memcpy(to + 1 + len, "\r\n", 2);
    wrote(c, len + 3);
}

void reply_simple(struct connection *c, const char *text) {
    reply_text(c, '+', text);
}

/* The text has no line's end. */
void reply_error(struct connection *c, const char *text) {
    reply_text(c, '-', text);
}

void reply_number(struct connection *c, int64_t number) {
    reply_line(c, ':', number);
}

void reply_list(struct connection *c, size_t count) {
    reply_line(c, '*', (int64_t)count);
}

static bool is_resp3(const struct connection *c) {
    return c->resp == 3;
}

/* So many pairs. */
void reply_map(struct connection *c, size_t count) {
    is_resp3(c) ? reply_line(c, '%', (int64_t)count) : reply_line(c, '*', 2 * (int64_t)count);
}

void reply_set(struct connection *c, size_t count) {
    reply_line(c, is_resp3(c) ? '~' : '*', (int64_t)count);
}

/* What is not the reply to a request. */
void reply_push(struct connection *c, size_t count) {
    reply_line(c, is_resp3(c) ? '>' : '*', (int64_t)count);
}

void reply_true(struct connection *c, bool is_so) {
    if (is_resp3(c))
        reply_text(c, '#', is_so ? "t" : "f");
    else
        is_so ? reply_number(c, 1) : reply_none(c);
}

void reply_none(struct connection *c) {
    is_resp3(c) ? reply_text(c, '_', "") : reply_line(c, '$', -1);
}

void reply_no_list(struct connection *c) {
    is_resp3(c) ? reply_none(c) : reply_line(c, '*', -1);
}

/* Writes what is before and behind so many bytes, and returns where they go; NULL where the connection is to be closed. */
static uint8_t *write_bulk(struct connection *c, size_t len) {
    uint8_t *to = more_out(c, NUMBER + len + 2);
    size_t head = to == NULL ? 0 : write_number(to, '$', (int64_t)len);
    if (to == NULL) return NULL;
    memcpy(to + head + len, "\r\n", 2);
    wrote(c, head + len + 2);
    return to + head;
}

/* Writes replies that are whole. */
void reply_raw(struct connection *c, struct bytes bytes) {
    uint8_t *to = more_out(c, bytes.len);
    if (to == NULL) return;
    if (bytes.len > 0) memcpy(to, bytes.at, bytes.len);
    wrote(c, bytes.len);
}

void reply_bulk(struct connection *c, struct bytes bytes) {
    uint8_t *to = write_bulk(c, bytes.len);
    if (to != NULL && bytes.len > 0) memcpy(to, bytes.at, bytes.len);
}

/* Replies with a text that is for people. */
void reply_verbatim(struct connection *c, struct bytes text) {
    uint8_t *to;
    if (!is_resp3(c)) {
        reply_bulk(c, text);
        return;
    }
    reply_line(c, '=', (int64_t)text.len + 4);
    to = more_out(c, text.len + 6);
    if (to == NULL) return;
    memcpy(to, "txt:", 4);
    if (text.len > 0) memcpy(to + 4, text.at, text.len);
    memcpy(to + 4 + text.len, "\r\n", 2);
    wrote(c, text.len + 6);
}

/* Replies with bytes of a value that is held, from a place on. */
void reply_held(struct connection *c, facing_bytes_handle *held, size_t from, size_t len) {
    uint8_t *to = write_bulk(c, len);
    if (to != NULL && facing_bytes_read(held, from, to, len, NULL) != FACING_DONE) break_connection(c, BY_MEMORY);
}

/* A name, and what is told of it. */
void reply_field(struct connection *c, const char *name, const char *text) {
    reply_bulk(c, bytes_of(name));
    reply_bulk(c, bytes_of(text));
}

void reply_count(struct connection *c, const char *name, int64_t number) {
    reply_bulk(c, bytes_of(name));
    reply_number(c, number);
}

/* Why a call was not made; NULL where it was. */
const char *error_of(uint32_t status) {
    switch (status) {
    case FACING_DONE: return NULL;
    case STORE_FULL: return "OOM command not allowed when used memory > 'maxmemory'.";
    case FACING_NO_MEMORY: return "OOM out of memory";
    case FACING_TOO_LONG: return "ERR string exceeds maximum allowed size (proto-max-bulk-len)";
    default: return "ERR the map did not make the call";
    }
}

/* Replies with a number where the call was made, and returns the error else. */
const char *done_or_error(struct connection *c, uint32_t status, int64_t number) {
    if (status == FACING_DONE) reply_number(c, number);
    return error_of(status);
}
