/* Patterns of Redis, for keys and names. */
#include "cache.h"

/* Whether a byte is in a set such as `[a-z]`, whose first byte behind the bracket `at` is; which then is behind the set. */
static bool is_in_set(struct bytes pattern, size_t *at, uint8_t byte) {
    size_t i = *at;
    bool is_in = false, is_not = i < pattern.len && pattern.at[i] == '^';
    for (i += is_not; i < pattern.len && pattern.at[i] != ']'; i++) {
        uint8_t low, high;
        if (pattern.at[i] == '\\' && i + 1 < pattern.len) i++;
        low = high = pattern.at[i];
        if (i + 2 < pattern.len && pattern.at[i + 1] == '-') {
            high = pattern.at[i + 2];
            i += 2;
        }
        is_in = is_in || (low <= high ? low <= byte && byte <= high : high <= byte && byte <= low);
    }
    *at = i < pattern.len ? i + 1 : i;
    return is_in != is_not;
}

/* Whether the part of a pattern at `at`, which is no star, takes a byte; `at` is behind the part then. */
static bool takes(struct bytes pattern, size_t *at, uint8_t byte) {
    uint8_t part = pattern.at[(*at)++];
    if (part == '?') return true;
    if (part == '[') return is_in_set(pattern, at, byte);
    if (part == '\\' && *at < pattern.len) part = pattern.at[(*at)++];
    return part == byte;
}

/* Whether a text is of a pattern of Redis: `*`, `?`, `[..]`, and `\` before a byte that stands for itself. Only the last
 * star is tried again, so that no pattern takes longer than its length times the text's. */
bool is_like(struct bytes text, struct bytes pattern) {
    size_t i = 0, at = 0, star = SIZE_MAX, again = 0;
    while (i < text.len || at < pattern.len) {
        size_t next = at;
        if (at < pattern.len && pattern.at[at] == '*') {
            star = ++at;
            again = i;
        } else if (at < pattern.len && i < text.len && takes(pattern, &next, text.at[i])) {
            at = next;
            i++;
        } else if (star != SIZE_MAX && again < text.len) {
            at = star;
            i = ++again;
        } else {
            return false;
        }
    }
    return true;
}
