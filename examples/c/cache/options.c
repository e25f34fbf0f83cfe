/* Reads the options of the server. */
#define _GNU_SOURCE
#include "options.h"
#include <getopt.h>
#include <inttypes.h>
#include <stdio.h>
#include <stdlib.h>
#include <string.h>

/* The options with a number: what they are by default, and their range. One in bytes may have a unit. */
struct option_number {
    const char *name, *text;
    size_t at;
    uint64_t value, least, most;
    bool is_in_bytes;
};

#define AT(of) offsetof(struct options, of)
static const struct option_number numbers[] = {
    {"port", "the port to listen on; 0 takes one that is free", AT(port), 6379, 0, 65535, false},
    {"threads", "threads that serve connections; more for pipelines; 0: as many as processors", AT(threads), 1, 0,
     MOST_THREADS, false},
    {"buckets", "buckets of the map to begin with; it grows", AT(buckets), 4096, 1, 1 << 26, false},
    {"connections", "the most connections", AT(limits.connections), 10000, 1, 1 << 20, false},
    {"request", "the most bytes of a request", AT(limits.request), 1 << 29, 64, 1 << 30, true},
    {"output", "the most bytes of the replies to a request", AT(limits.output), 1 << 30, 1 << 17, (uint64_t)1 << 33, true},
    {"memory", "the most bytes of memory, for keys, values and replies", AT(limits.memory), 1 << 30, 1 << 20,
     (uint64_t)1 << 48, true},
    {"buffers", "the most bytes that connections hold together; 0: half of --memory", AT(limits.buffers), 0, 0,
     (uint64_t)1 << 48, true},
    {"timeout", "seconds after which a connection is closed that sends nothing; 0: never", AT(limits.timeout), 0, 0,
     100000000, false},
    {"instructions", "the most instructions of a script", AT(limits.instructions), 10000000, 1000, (uint64_t)1 << 40, false},
    {"grace", "milliseconds until a stop closes what is left", AT(limits.grace), 5000, 0, 600000, false},
};
enum { NUMBERS = sizeof numbers / sizeof *numbers };

/* The options with a word, or with nothing. */
enum { ADDRESS = NUMBERS, PASSWORD, PASSWORD_FILE, UNIXSOCKET, EVICT, SLOTS, NODES, CONFIG, OPEN, VERSION, HELP, OPTIONS };
static const char *const names[] = {"address", "password", "password-file", "unixsocket", "evict", "slots",
                                    "nodes",   "config",   "open",          "version",    "help"};

/* The longest line of a file of options. */
enum { LINE = 1024 };

static const char *const policies[] = {"none", "lru", "ttl"};

static int usage(FILE *to, int status) {
    fprintf(to, "usage: cache [OPTION..]\n"
                "  --address ADDRESS  the address to listen on, of IPv4 or IPv6 (127.0.0.1)\n"
                "  --unixsocket PATH  a socket of the file system to listen on, too\n"
                "  --config FILE      a file with an option a line, such as `memory 4gb`; those here go before\n"
                "  --password WORD    the password that clients give with AUTH\n"
                "  --password-file FILE  a file whose first line is the password\n"
                "  --open             takes clients from other machines without a password\n"
                "  --evict POLICY     what goes where memory is full: lru, ttl or none (lru)\n"
                "  --slots FROM-TO    the slots of this server in a cluster, and\n"
                "  --nodes FILE       its servers: a line ADDRESS PORT FROM-TO for each\n");
    for (size_t i = 0; i < NUMBERS; i++)
        fprintf(to, "  --%-12s N  %s (%" PRIu64 ")\n", numbers[i].name, numbers[i].text, numbers[i].value);
    fprintf(
        to,
        "  --version          what this is built of\nBytes may have a unit: kb, mb, gb of 1,024 each, k, m, g of 1,000.\n");
    return status;
}

/* Reads a number of bytes, with a unit or without: `4gb` as Redis takes it, of 1,024 each; `4g` of 1,000. */
bool bytes_from(struct bytes text, uint64_t *bytes) {
    static const struct {
        const char *unit;
        uint64_t size;
    } units[] = {{"", 1},        {"b", 1},        {"k", 1000},       {"kb", 1 << 10},
                 {"m", 1000000}, {"mb", 1 << 20}, {"g", 1000000000}, {"gb", 1 << 30}};
    uint64_t number = 0;
    size_t at = 0;
    for (; at < text.len && text.at[at] >= '0' && text.at[at] <= '9'; at++)
        if (__builtin_mul_overflow(number, 10, &number)
            || __builtin_add_overflow(number, (uint64_t)(text.at[at] - '0'), &number))
            return false;
    for (size_t i = 0; at > 0 && i < sizeof units / sizeof *units; i++)
        if (is_word((struct bytes){text.at + at, text.len - at}, units[i].unit))
            return !__builtin_mul_overflow(number, units[i].size, bytes);
    return false;
}

static bool number_from(const char *text, const struct option_number *of, uint64_t *number) {
    size_t digits = strspn(text, "0123456789");
    return (of->is_in_bytes || text[digits] == 0) && bytes_from(bytes_of(text), number) && *number >= of->least
           && *number <= of->most;
}

static int take_number(const struct option_number *of, const char *text, struct options *options) {
    uint64_t number;
    if (!number_from(text, of, &number)) {
        fprintf(stderr, "cache: --%s takes %" PRIu64 " to %" PRIu64 "\n", of->name, of->least, of->most);
        return 2;
    }
    memcpy((char *)options + of->at, &number, sizeof number);
    return -1;
}

static int take_policy(const char *text, struct options *options) {
    for (size_t i = 0; i < sizeof policies / sizeof *policies; i++) {
        if (strcmp(text, policies[i]) != 0) continue;
        options->limits.evicts = (enum evicts)i;
        return -1;
    }
    fprintf(stderr, "cache: --evict takes lru, ttl or none\n");
    return 2;
}

/* Keeps the password, and takes it out of the words that the system shows of a process. */
static int take_password(char *text, struct options *options) {
    char *kept = strdup(text);
    if (kept == NULL || text[0] == 0) {
        fprintf(stderr, "cache: --password takes a word\n");
        free(kept);
        return 2;
    }
    options->limits.password = (struct bytes){(const uint8_t *)kept, strlen(kept)};
    memset(text, '*', strlen(text));
    return -1;
}

static int say_version(void) {
#ifdef CACHE_LUA
    const char *scripts = "scripts by Lua 5.1";
#else
    const char *scripts = "without scripts";
#endif
    printf("cache over facing %s, replies of Redis " REDIS_VERSION ", %s\n", facing_version(), scripts);
    return 0;
}

/* Takes the first line of a file as the password. */
static int take_password_file(const char *path, struct options *options) {
    char line[LINE] = "";
    FILE *file = fopen(path, "r");
    if (file == NULL || fgets(line, sizeof line, file) == NULL) line[0] = 0;
    if (file != NULL) fclose(file);
    line[strcspn(line, "\r\n")] = 0;
    if (line[0] != 0) return take_password(line, options);
    fprintf(stderr, "cache: --password-file: %s has no password in its first line\n", path);
    return 2;
}

static int take_text(const char *text, const char **to) {
    *to = strdup(text);
    return *to != NULL ? -1 : 2;
}

/* Takes an option. Returns the status to exit with, or -1. */
static int take(int which, char *text, struct options *options) {
    if (which < NUMBERS) return take_number(&numbers[which], text, options);
    switch (which) {
    case ADDRESS: return take_text(text, &options->address);
    case PASSWORD: return take_password(text, options);
    case PASSWORD_FILE: return take_password_file(text, options);
    case UNIXSOCKET: return take_text(text, &options->unixsocket);
    case EVICT: return take_policy(text, options);
    case SLOTS: return take_text(text, &options->slots);
    case NODES: return take_text(text, &options->nodes);
    case OPEN: options->is_open = true; return -1;
    case CONFIG: return -1;
    case VERSION: return say_version();
    case HELP: return usage(stdout, 0);
    default: return usage(stderr, 2);
    }
}

static const char *name_of(int which) {
    return which < NUMBERS ? numbers[which].name : names[which - NUMBERS];
}

/* Takes a line of a file of options: a name, and what it is. Returns -1, or says what is wrong and returns 2. */
static int take_line(const char *path, size_t number, char *line, struct options *options) {
    char *name = line + strspn(line, " \t"), *value;
    size_t len = strcspn(name, " \t\r\n");
    int status = 2;
    if (name[0] == '#' || len == 0) return -1;
    value = name + len + strspn(name + len, " \t");
    value[strcspn(value, "\r\n")] = 0;
    for (size_t end = strlen(value); end > 0 && (value[end - 1] == ' ' || value[end - 1] == '\t');)
        value[--end] = 0;
    name[len] = 0;
    for (int which = 0; which < VERSION; which++)
        if (which != CONFIG && strcmp(name, name_of(which)) == 0 && (value[0] == 0) == (which == OPEN))
            status = take(which, value, options);
    if (status == 2) fprintf(stderr, "cache: %s, line %zu: a wrong option or value: %s %s\n", path, number, name, value);
    return status;
}

static int take_file(const char *path, struct options *options) {
    char line[LINE];
    size_t number = 1;
    int status = -1;
    FILE *file = fopen(path, "r");
    if (file == NULL) {
        fprintf(stderr, "cache: --config: %s cannot be read\n", path);
        return 2;
    }
    for (; status < 0 && fgets(line, sizeof line, file) != NULL; number++)
        status = take_line(path, number, line, options);
    fclose(file);
    return status;
}

/* Reads the options, first those of a file. Returns the status to exit with, or -1. */
int read_options(int count, char **words, struct options *options) {
    struct option known[OPTIONS + 1] = {{0}};
    int which = 0, status = -1, at;
    *options = (struct options){.address = "127.0.0.1", .limits = {.evicts = EVICT_LRU, .slow = 10000, .slow_len = 128}};
    for (int i = 0; i < OPTIONS; i++) {
        known[i] = (struct option){name_of(i), i < OPEN ? required_argument : no_argument, NULL, i};
        if (i < NUMBERS) memcpy((char *)options + numbers[i].at, &numbers[i].value, sizeof numbers[i].value);
    }
    while (status < 0 && (which = getopt_long(count, words, "", known, &at)) >= 0)
        status = which == CONFIG ? take_file(optarg, options) : which < OPTIONS ? -1 : usage(stderr, 2);
    for (optind = 1; status < 0 && (which = getopt_long(count, words, "", known, &at)) >= 0;)
        status = take(which, optarg, options);
    if (status >= 0) return status;
    return optind < count ? usage(stderr, 2) : -1;
}
