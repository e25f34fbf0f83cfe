/* COMMAND: what the commands are, as clients ask when they begin. And what finds the subcommand of a request. */
#include "cache.h"
#include <ctype.h>
#include <string.h>

/* The words for flags. */
static const struct {
    unsigned flag;
    const char *word;
} words[] = {
    {WRITES, "write"},
    {READS, "readonly"},
    {GROWS, "denyoom"},
    {ADMIN, "admin"},
    {PUBSUB, "pubsub"},
    {NO_SCRIPT, "noscript"},
    {LOADING, "loading"},
    {STALE, "stale"},
    {SKIP_SLOWLOG, "skip_slowlog"},
    {FAST, "fast"},
    {NO_AUTH, "no_auth"},
    {BUSY, "allow_busy"},
    {SKIP_MONITOR, "skip_monitor"},
    {NO_KEYS, "no_mandatory_keys"},
    {COUNTED, "movablekeys"},
};
enum { WORDS = sizeof words / sizeof *words };

static void reply_flags(struct connection *c, unsigned flags) {
    size_t count = 0;
    for (size_t i = 0; i < WORDS; i++)
        count += (flags & words[i].flag) != 0;
    reply_set(c, count);
    for (size_t i = 0; i < WORDS; i++)
        if (flags & words[i].flag) reply_simple(c, words[i].word);
}

/* Its name, number of words, flags, first and last key, and step. */
static void reply_command(struct connection *c, const struct command *command) {
    reply_list(c, 6);
    reply_bulk(c, bytes_of(command->name));
    reply_number(c, command->arity);
    reply_flags(c, command->flags);
    reply_number(c, command->first);
    reply_number(c, command->last);
    reply_number(c, command->step);
}

static void reply_all(struct connection *c) {
    reply_list(c, commands_count());
    for (size_t i = 0; i < commands_count(); i++)
        reply_command(c, command_at(i));
}

static const char *count_all(struct connection *c) {
    reply_number(c, (int64_t)commands_count());
    return NULL;
}

/* What the named commands are; none for one that is not here. */
static const char *info(struct connection *c) {
    if (c->count == 2) {
        reply_all(c);
        return NULL;
    }
    reply_list(c, c->count - 2);
    for (size_t i = 2; i < c->count; i++) {
        const struct command *command = command_of(arg(c, i));
        if (command == NULL)
            reply_none(c);
        else
            reply_command(c, command);
    }
    return NULL;
}

/* There are no texts on commands. */
static const char *docs(struct connection *c) {
    reply_map(c, 0);
    return NULL;
}

const char *run_command(struct connection *c) {
    static const struct command parts[] = {
        {"command|count", count_all, 2, 0, 0, 0, 0, 0},
        {"command|docs", docs, -2, 0, 0, 0, 0, 0},
        {"command|info", info, -2, 0, 0, 0, 0, 0},
    };
    if (c->count > 1) return run_part(c, parts, sizeof parts / sizeof *parts);
    reply_all(c);
    return NULL;
}

/* Makes the subcommand that the second word names the request's command; the name of each has the command's in front of a
 * bar. Returns an error, or NULL. */
const char *find_part(struct connection *c, const struct command *parts, size_t count) {
    char tried[] = ". Try ................ HELP.";
    size_t len = strlen(c->command->name), front = strlen(". Try ");
    for (size_t i = 0; i < count; i++) {
        if (!is_word(arg(c, 1), parts[i].name + len + 1)) continue;
        c->command = &parts[i];
        return takes_count(c->command, c->count) ? NULL : wrong_count(c);
    }
    for (size_t i = 0; i < len; i++)
        tried[front + i] = (char)toupper(c->command->name[i]);
    strcpy(tried + front + len, " HELP.");
    return error_with(c, "unknown subcommand", arg(c, 1), tried);
}

const char *run_part(struct connection *c, const struct command *parts, size_t count) {
    const char *error = find_part(c, parts, count);
    return error != NULL ? error : run_command_of(c, c->command);
}
