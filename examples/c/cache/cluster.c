/* Redis Cluster's protocol for clients, with slots that stay where they are: each of some servers has a range of the slots,
 * and tells clients which server has the others. A file names all of them, the same for each. */
#include "cache.h"
#include <arpa/inet.h>
#include <stdio.h>
#include <string.h>

enum { SLOTS = 16384, NODES = 1000, ID = 40, LINE = 256, PLACE = 32 };

struct node {
    char host[INET_ADDRSTRLEN], id[ID + 1];
    unsigned port, from, to;
};

/* They do not change once there are threads. Without nodes the server is not one of a cluster. */
static struct node nodes[NODES];
static size_t count;
static const struct node *own;
static uint16_t owners[SLOTS]; /* for each slot the number of its node, plus one */
static uint16_t remainders[256];

bool is_in_cluster(void) {
    return count > 0;
}

/* == The file of nodes == */

/* Fills the table for CRC16, of the polynomial x^16 + x^12 + x^5 + 1. */
static void fill_remainders(void) {
    for (unsigned byte = 0; byte < 256; byte++) {
        unsigned it = byte << 8;
        for (int bit = 0; bit < 8; bit++)
            it = (it & 0x8000) ? it << 1 ^ 0x1021 : it << 1;
        remainders[byte] = (uint16_t)it;
    }
}

/* A node's name of 40 digits, which its address alone gives. */
static void write_id(struct node *node) {
    char place[PLACE];
    uint64_t hash = 14695981039346656037U;
    snprintf(place, sizeof place, "%s:%u", node->host, node->port);
    for (int at = 0; at < ID; at++) {
        for (const char *byte = place; *byte != 0; byte++)
            hash = (hash ^ (uint8_t)*byte) * 1099511628211U;
        node->id[at] = "0123456789abcdef"[hash >> 60];
    }
    node->id[ID] = 0;
}

/* Reads a line such as `127.0.0.1 7201 0-5460`. Returns what is wrong, or NULL. */
static const char *read_node(const char *line) {
    struct node *node = &nodes[count];
    struct in_addr address;
    char more;
    if (count == NODES) return "too many nodes";
    if (sscanf(line, "%15s %5u %5u-%5u %c", node->host, &node->port, &node->from, &node->to, &more) != 4)
        return "a line is not ADDRESS PORT FROM-TO";
    if (inet_pton(AF_INET, node->host, &address) != 1 || node->port == 0 || node->port > 65535)
        return "a wrong address or port";
    if (node->from > node->to || node->to >= SLOTS) return "slots are 0 to 16383";
    for (unsigned slot = node->from; slot <= node->to; slot++) {
        if (owners[slot] != 0) return "two nodes have one slot";
        owners[slot] = (uint16_t)(count + 1);
    }
    write_id(node);
    count++;
    return NULL;
}

static const char *read_nodes(FILE *file) {
    char line[LINE];
    const char *error = NULL;
    while (error == NULL && fgets(line, sizeof line, file) != NULL)
        if (line[strspn(line, " \t\r\n")] != 0 && line[0] != '#') error = read_node(line);
    for (unsigned slot = 0; error == NULL && slot < SLOTS; slot++)
        if (owners[slot] == 0) error = "a slot has no node";
    return error;
}

/* Makes the server the one of the file's nodes that has these slots. Returns what is wrong, or NULL. */
static const char *join(const char *slots, const char *path) {
    const char *error;
    unsigned from, to;
    char more;
    FILE *file;
    if (slots == NULL || path == NULL) return "--slots and --nodes go together";
    if (sscanf(slots, "%5u-%5u%c", &from, &to, &more) != 2) return "--slots takes FROM-TO";
    file = fopen(path, "r");
    if (file == NULL) return "the file of --nodes cannot be read";
    error = read_nodes(file);
    fclose(file);
    for (size_t i = 0; i < count; i++)
        if (nodes[i].from == from && nodes[i].to == to) own = &nodes[i];
    fill_remainders();
    return error != NULL ? error : own == NULL ? "no node has the slots of --slots" : NULL;
}

/* Joins a cluster where the slots, such as `0-5460`, and the file are given. Returns false, and says why, where it
 * cannot. */
bool cluster_open(const char *slots, const char *path) {
    const char *error = slots == NULL && path == NULL ? NULL : join(slots, path);
    if (error != NULL) fprintf(stderr, "cache: %s\n", error);
    return error == NULL;
}

/* == Slots == */

/* The slot of a key: of what stands between its first brace and the next one that closes, where there is something. */
static unsigned slot_of(struct bytes key) {
    const uint8_t *end = key.at + key.len, *open = key.len > 0 ? memchr(key.at, '{', key.len) : NULL;
    const uint8_t *close = open != NULL ? memchr(open, '}', (size_t)(end - open)) : NULL;
    unsigned crc = 0;
    if (close != NULL && close > open + 1) key = (struct bytes){open + 1, (size_t)(close - open) - 1};
    for (size_t i = 0; i < key.len; i++)
        crc = (crc << 8 & 0xffff) ^ remainders[crc >> 8 ^ key.at[i]];
    return crc % SLOTS;
}

/* Which words of a request are its keys: from `first` to `last`, every `step`-th one. Returns false where none is. */
static bool find_keys(const struct connection *c, size_t *first, size_t *last, size_t *step) {
    const struct command *command = c->command;
    int64_t keys = 0;
    if (command->flags & COUNTED) {
        *first = 3;
        *step = 1;
        *last = number_of(arg(c, 2), &keys) && keys > 0 && keys < (int64_t)c->count ? 2 + (size_t)keys : 0;
        return *last > 0;
    }
    *first = (size_t)command->first;
    *step = (size_t)command->step;
    *last = command->last < 0 ? c->count - (size_t)-command->last : (size_t)command->last;
    return *first > 0;
}

/* Why this server does not run the request: its keys are of several slots, or of one that another server has. NULL where it
 * does. */
const char *cluster_refuses(struct connection *c) {
    size_t first, last, step;
    unsigned slot = SLOTS;
    if (count == 0 || !find_keys(c, &first, &last, &step)) return NULL;
    for (size_t i = first; i <= last && i < c->count; i += step) {
        unsigned of = slot_of(arg(c, i));
        if (slot != SLOTS && of != slot) return "CROSSSLOT Keys in request don't hash to the same slot";
        slot = of;
    }
    if (slot == SLOTS || &nodes[owners[slot] - 1] == own) return NULL;
    snprintf(c->worker->error, sizeof c->worker->error, "MOVED %u %s:%u", slot, nodes[owners[slot] - 1].host,
             nodes[owners[slot] - 1].port);
    return c->worker->error;
}

/* == CLUSTER == */

static const char *key_slot(struct connection *c) {
    reply_number(c, slot_of(arg(c, 2)));
    return NULL;
}

static const char *own_id(struct connection *c) {
    reply_bulk(c, bytes_of(own->id));
    return NULL;
}

static const char *slots(struct connection *c) {
    reply_list(c, count);
    for (const struct node *it = nodes; it < nodes + count; it++) {
        reply_list(c, 3);
        reply_number(c, it->from);
        reply_number(c, it->to);
        reply_list(c, 4);
        reply_bulk(c, bytes_of(it->host));
        reply_number(c, it->port);
        reply_bulk(c, bytes_of(it->id));
        reply_list(c, 0);
    }
    return NULL;
}

static const char *shards(struct connection *c) {
    reply_list(c, count);
    for (const struct node *it = nodes; it < nodes + count; it++) {
        reply_map(c, 2);
        reply_bulk(c, bytes_of("slots"));
        reply_list(c, 2);
        reply_number(c, it->from);
        reply_number(c, it->to);
        reply_bulk(c, bytes_of("nodes"));
        reply_list(c, 1);
        reply_map(c, 7);
        reply_field(c, "id", it->id);
        reply_count(c, "port", it->port);
        reply_field(c, "ip", it->host);
        reply_field(c, "endpoint", it->host);
        reply_field(c, "role", "master");
        reply_count(c, "replication-offset", 0);
        reply_field(c, "health", "online");
    }
    return NULL;
}

/* A line a node. There is no bus between the nodes: its port is 0. */
static const char *list(struct connection *c) {
    struct buffer lines = {0};
    bool is_whole = true;
    for (const struct node *it = nodes; it < nodes + count && is_whole; it++) {
        is_whole = buffer_reserve(&lines, LINE);
        if (is_whole)
            lines.len +=
                (size_t)snprintf((char *)lines.at + lines.len, LINE, "%s %s:%u@0 %smaster - 0 0 0 connected %u-%u\n", it->id,
                                 it->host, it->port, it == own ? "myself," : "", it->from, it->to);
    }
    if (is_whole) reply_verbatim(c, (struct bytes){lines.at, lines.len});
    buffer_free(&lines);
    return is_whole ? NULL : error_of(FACING_NO_MEMORY);
}

/* All slots have a server; whether these are up the others do not know. */
static const char *info(struct connection *c) {
    char text[LINE * 2];
    snprintf(text, sizeof text,
             "cluster_state:ok\r\ncluster_slots_assigned:%d\r\ncluster_slots_ok:%d\r\ncluster_slots_pfail:0\r\n"
             "cluster_slots_fail:0\r\ncluster_known_nodes:%zu\r\ncluster_size:%zu\r\ncluster_current_epoch:0\r\n"
             "cluster_my_epoch:0\r\ncluster_stats_messages_sent:0\r\ncluster_stats_messages_received:0\r\n"
             "total_cluster_links_buffer_limit_exceeded:0\r\n",
             SLOTS, SLOTS, count, count);
    reply_verbatim(c, bytes_of(text));
    return NULL;
}

const char *run_cluster(struct connection *c) {
    static const struct command parts[] = {
        {"cluster|info", info, 2, 0, 0, 0, 0, 0},     {"cluster|keyslot", key_slot, 3, 0, 0, 0, 0, 0},
        {"cluster|myid", own_id, 2, 0, 0, 0, 0, 0},   {"cluster|nodes", list, 2, 0, 0, 0, 0, 0},
        {"cluster|shards", shards, 2, 0, 0, 0, 0, 0}, {"cluster|slots", slots, 2, 0, 0, 0, 0, 0},
    };
    const char *error = find_part(c, parts, sizeof parts / sizeof *parts);
    if (error != NULL) return error;
    return count == 0 ? "ERR This instance has cluster support disabled" : c->command->run(c);
}
