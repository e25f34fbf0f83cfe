/* Takes requests apart: a list of byte strings, or a line of words, as the Redis protocol has them. */
#include "cache.h"
#include <ctype.h>
#include <stdlib.h>
#include <string.h>
#include <strings.h>

enum { LONGEST_MARK = 32, LONGEST_LINE = 65536, MOST_ARGS = 1048576, KEPT_ARGS = 256 };

/* What a request may have before the password was given. */
enum { UNKNOWN_ARGS = 10, UNKNOWN_BULK = 16384 };

/* An argument of the request that runs; they lie there until request_done. */
struct bytes arg(const struct connection *c, size_t number) {
    return (struct bytes){c->base + c->args[number].from, c->args[number].len};
}

struct bytes bytes_of(const char *text) {
    return (struct bytes){(const uint8_t *)text, strlen(text)};
}

/* Reads a whole number as Redis takes them: a sign where it is negative, no other zero in front, nothing else. */
bool number_of(struct bytes text, int64_t *number) {
    bool is_negative = text.len > 1 && text.at[0] == '-';
    int64_t value = 0;
    size_t i = is_negative;
    if (text.len == 0 || text.len > 20) return false;
    if (text.at[i] == '0' && text.len > 1) return false;
    for (; i < text.len; i++) {
        int digit = text.at[i] - '0';
        if (digit < 0 || digit > 9) return false;
        if (__builtin_mul_overflow(value, 10, &value)) return false;
        if (__builtin_add_overflow(value, is_negative ? -digit : digit, &value)) return false;
    }
    *number = value;
    return true;
}

/* Whether a text is a word, whatever the case of its letters. */
bool is_word(struct bytes text, const char *word) {
    return text.len == strlen(word) && strncasecmp((const char *)text.at, word, text.len) == 0;
}

static enum parsed wrong(struct connection *c, const char *text) {
    reply_error(c, text);
    return WRONG;
}

/* Adds an argument to the request. Returns false where there is no memory. */
bool add_arg(struct connection *c, size_t from, size_t len) {
    if (c->count == c->arg_room) {
        size_t room = c->arg_room ? 2 * c->arg_room : 8;
        struct span *args = heap_resize(c->args, room * sizeof *args);
        if (args == NULL) return false;
        c->args = args;
        c->arg_room = room;
    }
    c->args[c->count++] = (struct span){(uint32_t)from, (uint32_t)len};
    return true;
}

/* Reads the number of a line such as `*3`, behind its first byte. */
static enum parsed read_head(struct connection *c, int64_t *number, const char *too_long, const char *no_number) {
    const uint8_t *line = c->in.at + c->begin + c->at;
    size_t len = c->in.len - c->begin - c->at, i = 1;
    const uint8_t *end;
    int64_t small = 0;
    for (; i < len && i < 10 && line[i] >= '0' && line[i] <= '9'; i++)
        small = 10 * small + (line[i] - '0');
    if (i > 1 && i + 1 < len && line[i] == '\r' && line[i + 1] == '\n' && (i == 2 || line[1] != '0')) {
        *number = small;
        c->at += i + 2;
        return PARSED;
    }
    end = memchr(line, '\r', len < LONGEST_MARK ? len : LONGEST_MARK);
    if (end == NULL) return len < LONGEST_MARK ? MORE : wrong(c, too_long);
    if ((size_t)(end - line) + 2 > len) return MORE;
    if (end[1] != '\n' || !number_of((struct bytes){line + 1, (size_t)(end - line) - 1}, number)) return wrong(c, no_number);
    c->at += (size_t)(end - line) + 2;
    return PARSED;
}

/* Reads an argument: its length, and so many bytes. */
static enum parsed read_arg(struct connection *c) {
    const uint8_t *from = c->in.at + c->begin;
    size_t len = c->in.len - c->begin, start = c->at;
    int64_t bulk = 0;
    enum parsed parsed;
    if (len == start) return MORE;
    if (from[start] != '$') {
        char text[] = "ERR Protocol error: expected '$', got '?'";
        if (from[start] > ' ' && from[start] < 127) text[sizeof text - 3] = (char)from[start];
        return wrong(c, text);
    }
    parsed = read_head(c, &bulk, "ERR Protocol error: too big bulk count string", "ERR Protocol error: invalid bulk length");
    if (parsed != PARSED) return parsed;
    if (bulk < 0 || (uint64_t)bulk + c->at > c->worker->cache->limits.request)
        return wrong(c, "ERR Protocol error: invalid bulk length");
    if (!c->is_known && bulk > UNKNOWN_BULK) return wrong(c, "ERR Protocol error: unauthenticated bulk length");
    if (len - c->at < (size_t)bulk + 2) {
        c->at = start;
        return MORE;
    }
    if (memcmp(from + c->at + bulk, "\r\n", 2) != 0)
        return wrong(c, "ERR Protocol error: expected a line's end behind a bulk");
    if (!add_arg(c, c->at, (size_t)bulk)) return wrong(c, "OOM out of memory");
    c->at += (size_t)bulk + 2;
    c->left--;
    return PARSED;
}

static bool is_blank(uint8_t byte) {
    return byte == ' ' || byte == '\t' || byte == '\r' || byte == '\n';
}

/* The byte that an escape such as `\n` or `\x0a` stands for, from its backslash at `i`, which is its last byte then. */
static uint8_t escaped(const uint8_t *line, size_t end, size_t *i) {
    static const char letters[] = "nrtba", meant[] = "\n\r\t\b\a";
    const char *found;
    uint8_t byte = line[++*i];
    if (byte == 'x' && *i + 2 < end && isxdigit(line[*i + 1]) && isxdigit(line[*i + 2])) {
        char digits[3] = {(char)line[*i + 1], (char)line[*i + 2], 0};
        *i += 2;
        return (uint8_t)strtoul(digits, NULL, 16);
    }
    found = memchr(letters, byte, sizeof letters - 1);
    return found == NULL ? byte : (uint8_t)meant[found - letters];
}

/* Reads a word from `at` on, and puts it there without its quotes. Returns its end, and sets `at` behind it; NULL where a
 * quote has no end, or no blank behind it. In double quotes backslashes are escapes, in single ones `\'` alone is. */
static uint8_t *read_word(uint8_t *line, size_t end, size_t *at) {
    uint8_t *to = line + *at, quote = 0;
    size_t i = *at;
    for (; i < end && (quote != 0 || !is_blank(line[i])); i++) {
        if (quote == 0 && (line[i] == '"' || line[i] == '\'')) {
            quote = line[i];
        } else if (quote != 0 && line[i] == quote) {
            if (i + 1 < end && !is_blank(line[i + 1])) return NULL;
            quote = 0;
        } else if (line[i] == '\\' && i + 1 < end && (quote == '"' || (quote == '\'' && line[i + 1] == '\''))) {
            *to++ = escaped(line, end, &i);
        } else {
            *to++ = line[i];
        }
    }
    *at = i;
    return quote == 0 ? to : NULL;
}

/* Reads a line of words between blanks. */
static enum parsed read_line(struct connection *c) {
    uint8_t *from = c->in.at + c->begin;
    size_t len = c->in.len - c->begin, end;
    const uint8_t *found = memchr(from, '\n', len < LONGEST_LINE ? len : LONGEST_LINE);
    if (found == NULL) return len < LONGEST_LINE ? MORE : wrong(c, "ERR Protocol error: too big inline request");
    end = (size_t)(found - from);
    c->at = end + 1;
    for (size_t i = 0; i < end;) {
        size_t start = i;
        const uint8_t *word_end;
        if (is_blank(from[i])) {
            i++;
            continue;
        }
        word_end = read_word(from, end, &i);
        if (word_end == NULL) return wrong(c, "ERR Protocol error: unbalanced quotes in request");
        if (!c->is_known && c->count == UNKNOWN_ARGS)
            return wrong(c, "ERR Protocol error: unauthenticated multibulk length");
        if (!add_arg(c, start, (size_t)(word_end - from) - start)) return wrong(c, "OOM out of memory");
    }
    return PARSED;
}

/* Reads on in the next request. Returns PARSED where it is whole, with no argument where it is empty. A request that is
 * wrong has its error in the replies, and nothing behind it can be read. */
enum parsed request_next(struct connection *c) {
    int64_t count = 0;
    enum parsed parsed;
    if (c->left == 0) {
        if (c->in.len == c->begin) return MORE;
        if (c->in.at[c->begin] != '*') return read_line(c);
        parsed = read_head(c, &count, "ERR Protocol error: too big mbulk count string",
                           "ERR Protocol error: invalid multibulk length");
        if (parsed != PARSED) return parsed;
        if (count > MOST_ARGS) return wrong(c, "ERR Protocol error: invalid multibulk length");
        if (!c->is_known && count > UNKNOWN_ARGS) return wrong(c, "ERR Protocol error: unauthenticated multibulk length");
        c->left = count > 0 ? (size_t)count : 0;
    }
    while (c->left > 0) {
        parsed = read_arg(c);
        if (parsed != PARSED) return parsed;
    }
    return PARSED;
}

/* Goes past the request. */
void request_done(struct connection *c) {
    if (c->arg_room > KEPT_ARGS) {
        heap_free(c->args);
        c->args = NULL;
        c->arg_room = 0;
    }
    c->begin += c->at;
    c->at = 0;
    c->count = 0;
    c->left = 0;
}
