/* Channels: PUBLISH, SUBSCRIBE and their kin. A message is written into the mail of each connection that subscribed, and the
 * thread that serves it sends it. All this is under one lock. */
#define _GNU_SOURCE
#include "cache.h"
#include <stdio.h>
#include <string.h>
#include <unistd.h>

enum { CHAINS = 1024, HEADS = 96 };

/* A channel or a pattern that somebody subscribed. Its name lies behind it. */
struct channel {
    struct channel *next;
    struct subscription *first;
    size_t subscribers, len;
    bool is_pattern;
    uint8_t name[];
};

struct subscription {
    struct subscription *next, *next_own; /* of the channel, of the connection */
    struct connection *c;
    struct channel *channel;
};

static pthread_mutex_t lock = PTHREAD_MUTEX_INITIALIZER;
static struct channel *chains[CHAINS], *patterns;

static struct bytes name_of(const struct channel *it) {
    return (struct bytes){it->name, it->len};
}

/* == The channels; the lock is held == */

static struct channel **find(struct bytes name, bool is_pattern) {
    uint64_t hash = name.len;
    struct channel **at;
    for (size_t i = 0; i < name.len; i++)
        hash = (hash ^ name.at[i]) * 1099511628211U;
    at = is_pattern ? &patterns : &chains[hash % CHAINS];
    while (*at != NULL && ((*at)->len != name.len || memcmp((*at)->name, name.at, name.len) != 0))
        at = &(*at)->next;
    return at;
}

static struct channel *open_channel(struct bytes name, bool is_pattern) {
    struct channel **at = find(name, is_pattern);
    if (*at != NULL) return *at;
    *at = heap_zeros(sizeof **at + name.len);
    if (*at == NULL) return NULL;
    (*at)->len = name.len;
    (*at)->is_pattern = is_pattern;
    if (name.len > 0) memcpy((*at)->name, name.at, name.len);
    return *at;
}

static void close_channel(struct channel *it) {
    struct channel **at = find(name_of(it), it->is_pattern);
    *at = it->next;
    heap_free(it);
}

static struct subscription **find_own(struct connection *c, struct bytes name, bool is_pattern) {
    struct subscription **at = &c->subscribed;
    for (; *at != NULL; at = &(*at)->next_own) {
        struct channel *of = (*at)->channel;
        if (of->is_pattern == is_pattern && of->len == name.len && memcmp(of->name, name.at, name.len) == 0) break;
    }
    return at;
}

/* Returns false where there is no memory. */
static bool subscribe(struct connection *c, struct bytes name, bool is_pattern) {
    struct channel *channel;
    struct subscription *it;
    if (*find_own(c, name, is_pattern) != NULL) return true;
    channel = open_channel(name, is_pattern);
    it = channel == NULL ? NULL : heap_zeros(sizeof *it);
    if (channel != NULL && it == NULL && channel->first == NULL) close_channel(channel);
    if (it == NULL) return false;
    *it = (struct subscription){.next = channel->first, .next_own = c->subscribed, .c = c, .channel = channel};
    channel->first = c->subscribed = it;
    channel->subscribers++;
    c->subscriptions[is_pattern]++;
    return true;
}

static void unsubscribe(struct subscription **own) {
    struct subscription *it = *own, **at = &it->channel->first;
    while (*at != it)
        at = &(*at)->next;
    *at = it->next;
    *own = it->next_own;
    it->c->subscriptions[it->channel->is_pattern]--;
    if (--it->channel->subscribers == 0) close_channel(it->channel);
    heap_free(it);
}

/* == Mail == */

static bool add_text(struct buffer *mail, const char *mark, const char *head, struct bytes text) {
    char line[HEADS];
    size_t len = (size_t)snprintf(line, HEADS, "%s%s$%zu\r\n", mark, head, text.len);
    if (!buffer_reserve(mail, len + text.len + 2)) return false;
    memcpy(mail->at + mail->len, line, len);
    if (text.len > 0) memcpy(mail->at + mail->len + len, text.at, text.len);
    memcpy(mail->at + mail->len + len + text.len, "\r\n", 2);
    mail->len += len + text.len + 2;
    return true;
}

/* Has the thread that serves a connection look for its mail. */
static void announce(struct connection *c) {
    struct worker *worker = c->worker;
    const uint64_t one = 1;
    if (c->has_mail) return;
    if (worker->mailed == NULL) (void)!write(worker->bell, &one, sizeof one);
    c->has_mail = true;
    c->next_mailed = worker->mailed;
    worker->mailed = c;
}

static void close_late(struct connection *c) {
    pthread_mutex_lock(&c->worker->list_lock);
    shed(c, BY_BUFFERS);
    pthread_mutex_unlock(&c->worker->list_lock);
}

/* Writes a message into the mail of all who subscribed a channel, or a pattern. Returns how many they are. */
static size_t post(const struct channel *of, struct bytes channel, struct bytes message) {
    for (struct subscription *it = of->first; it != NULL; it = it->next) {
        struct buffer *mail = &it->c->mail;
        size_t before = mail->len;
        bool is_posted = mail->len + message.len <= MOST_MAIL;
        const char *as = it->c->resp == 3 ? ">" : "*";
        if (is_posted && of->is_pattern)
            is_posted = add_text(mail, as, "4\r\n$8\r\npmessage\r\n", name_of(of)) && add_text(mail, "", "", channel);
        else if (is_posted)
            is_posted = add_text(mail, as, "3\r\n$7\r\nmessage\r\n", channel);
        is_posted = is_posted && add_text(mail, "", "", message);
        if (!is_posted) mail->len = before;
        is_posted ? announce(it->c) : close_late(it->c);
    }
    return of->subscribers;
}

/* Takes the mail of a connection of this thread that has some. Returns NULL where none has. */
struct connection *next_mailed(struct worker *worker, struct buffer *mail) {
    struct connection *c;
    pthread_mutex_lock(&lock);
    c = worker->mailed;
    if (c != NULL) {
        worker->mailed = c->next_mailed;
        c->has_mail = false;
        *mail = c->mail;
        c->mail = (struct buffer){0};
    }
    pthread_mutex_unlock(&lock);
    return c;
}

/* Unsubscribes all, and forgets the mail. */
void leave_channels(struct connection *c) {
    struct connection **at = &c->worker->mailed;
    if (!c->was_subscribed) return;
    pthread_mutex_lock(&lock);
    while (c->subscribed != NULL)
        unsubscribe(&c->subscribed);
    while (c->has_mail && *at != c)
        at = &(*at)->next_mailed;
    if (c->has_mail) *at = c->next_mailed;
    c->has_mail = false;
    buffer_free(&c->mail);
    pthread_mutex_unlock(&lock);
}

/* == Commands == */

static void reply_subscribed(struct connection *c, const char *what, const struct bytes *name) {
    reply_push(c, 3);
    reply_bulk(c, bytes_of(what));
    name != NULL ? reply_bulk(c, *name) : reply_none(c);
    reply_number(c, (int64_t)(c->subscriptions[0] + c->subscriptions[1]));
}

/* SUBSCRIBE; with the number 1 PSUBSCRIBE. */
const char *run_subscribe(struct connection *c) {
    bool is_pattern = c->command->number == 1, is_done = true;
    c->was_subscribed = true;
    for (size_t i = 1; i < c->count && is_done; i++) {
        struct bytes name = arg(c, i);
        pthread_mutex_lock(&lock);
        is_done = subscribe(c, name, is_pattern);
        pthread_mutex_unlock(&lock);
        if (is_done) reply_subscribed(c, is_pattern ? "psubscribe" : "subscribe", &name);
    }
    return is_done ? NULL : error_of(FACING_NO_MEMORY);
}

static void unsubscribe_named(struct connection *c, struct bytes name, bool is_pattern) {
    struct subscription **own;
    pthread_mutex_lock(&lock);
    own = find_own(c, name, is_pattern);
    if (*own != NULL) unsubscribe(own);
    pthread_mutex_unlock(&lock);
}

/* UNSUBSCRIBE, of all where none is named; with the number 1 PUNSUBSCRIBE. */
const char *run_unsubscribe(struct connection *c) {
    bool is_pattern = c->command->number == 1;
    const char *what = is_pattern ? "punsubscribe" : "unsubscribe";
    for (size_t i = 1; i < c->count; i++) {
        struct bytes name = arg(c, i);
        unsubscribe_named(c, name, is_pattern);
        reply_subscribed(c, what, &name);
    }
    if (c->count > 1) return NULL;
    if (c->subscriptions[is_pattern] == 0) reply_subscribed(c, what, NULL);
    for (struct subscription *it = c->subscribed, *next; it != NULL; it = next) {
        struct buffer name = {0};
        next = it->next_own;
        if (it->channel->is_pattern != is_pattern) continue;
        if (!buffer_reserve(&name, it->channel->len + 1)) return error_of(FACING_NO_MEMORY);
        memcpy(name.at, it->channel->name, it->channel->len);
        name.len = it->channel->len;
        unsubscribe_named(c, (struct bytes){name.at, name.len}, is_pattern);
        reply_subscribed(c, what, &(struct bytes){name.at, name.len});
        buffer_free(&name);
    }
    return NULL;
}

const char *run_publish(struct connection *c) {
    struct bytes channel = arg(c, 1);
    const struct channel *it;
    size_t count = 0;
    pthread_mutex_lock(&lock);
    it = *find(channel, false);
    if (it != NULL) count += post(it, channel, arg(c, 2));
    for (it = patterns; it != NULL; it = it->next)
        if (is_like(channel, name_of(it))) count += post(it, channel, arg(c, 2));
    pthread_mutex_unlock(&lock);
    reply_number(c, (int64_t)count);
    return NULL;
}

/* The channels that somebody subscribed, of a pattern where one is given. The lock is held for as long as they are shown. */
static const char *channels(struct connection *c) {
    size_t count = 0;
    if (c->count > 3)
        return error_with(c, "unknown subcommand or wrong number of arguments for", arg(c, 1), ". Try PUBSUB HELP.");
    pthread_mutex_lock(&lock);
    for (int shows = 0; shows < 2; shows++) {
        if (shows) reply_list(c, count);
        for (size_t i = 0; i < CHAINS; i++)
            for (const struct channel *it = chains[i]; it != NULL; it = it->next) {
                if (c->count == 3 && !is_like(name_of(it), arg(c, 2))) continue;
                if (shows)
                    reply_bulk(c, name_of(it));
                else
                    count++;
            }
    }
    pthread_mutex_unlock(&lock);
    return NULL;
}

static const char *subscribers(struct connection *c) {
    reply_list(c, 2 * (c->count - 2));
    for (size_t i = 2; i < c->count; i++) {
        const struct channel *it;
        size_t count;
        pthread_mutex_lock(&lock);
        it = *find(arg(c, i), false);
        count = it == NULL ? 0 : it->subscribers;
        pthread_mutex_unlock(&lock);
        reply_bulk(c, arg(c, i));
        reply_number(c, (int64_t)count);
    }
    return NULL;
}

static const char *count_patterns(struct connection *c) {
    int64_t count = 0;
    pthread_mutex_lock(&lock);
    for (const struct channel *it = patterns; it != NULL; it = it->next)
        count++;
    pthread_mutex_unlock(&lock);
    reply_number(c, count);
    return NULL;
}

const char *run_pubsub(struct connection *c) {
    static const struct command parts[] = {
        {"pubsub|channels", channels, -2, 0, 0, 0, 0, 0},
        {"pubsub|numpat", count_patterns, 2, 0, 0, 0, 0, 0},
        {"pubsub|numsub", subscribers, -2, 0, 0, 0, 0, 0},
    };
    return run_part(c, parts, sizeof parts / sizeof *parts);
}
