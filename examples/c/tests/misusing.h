/* Slots with handles of all kinds, draws, and what was wrong. The includer says what a map holds (`struct content`, which counts
 * clients and handles), and the type of its handles (`any_handle`). */
#ifndef MISUSING_H
#define MISUSING_H

enum { SLOTS = 12 };

/* What the handle in a slot stands for; a value that is held has a number. */
enum kind { NOTHING, MAP, CLIENT, CLOSED, HELD };

struct slot {
    any_handle handle;
    enum kind kind;
    struct content *of;
    unsigned value;
};

static struct slot slots[SLOTS];
static uint64_t state, misuses, wrong, calls;

static uint64_t draw(void) {
    uint64_t z = (state += 0x9e3779b97f4a7c15u);
    z = (z ^ (z >> 30)) * 0xbf58476d1ce4e5b9u;
    z = (z ^ (z >> 27)) * 0x94d049bb133111ebu;
    return z ^ (z >> 31);
}

static uint64_t below(uint64_t count) {
    return draw() % count;
}

/* One in twenty. */
static int seldom(void) {
    return below(20) == 0;
}

static void want(int is_so, const char *what) {
    if (is_so) return;
    wrong++;
    printf("call %llu: %s\n", (unsigned long long)calls, what);
}

static void want_status(uint32_t status, uint32_t expected, const char *what) {
    calls++;
    misuses += expected != FACING_DONE;
    if (status == expected) return;
    wrong++;
    printf("call %llu: %s: %u, and not %u\n", (unsigned long long)calls, what, status, expected);
}

/* The handle in a slot is there where the slot stands for something. */
static void want_kept(const struct slot *it) {
    want((it->handle.at != NULL) == (it->kind != NOTHING), "whether a handle is there");
}

/* A slot that stands for this, in two of three cases where there is one. */
static struct slot *some_slot(enum kind kind) {
    uint64_t from = below(SLOTS), end = below(3) == 0 ? from : from + SLOTS;
    for (uint64_t i = from; i < end; i++)
        if (slots[i % SLOTS].kind == kind) return &slots[i % SLOTS];
    return &slots[from];
}

static void fill(struct slot *it, enum kind kind, struct content *of) {
    it->kind = kind;
    it->of = of;
    of->handles++;
}

static void empty(struct slot *it) {
    if (it->kind == NOTHING) return;
    if (it->kind == CLIENT) it->of->out--;
    it->kind = NOTHING;
    if (--it->of->handles == 0) free(it->of);
}

static struct content *content_like(const struct content *from, uint32_t clients) {
    struct content *it = (struct content *)calloc(1, sizeof *it);
    if (it == NULL) exit(2);
    if (from != NULL) *it = *from;
    it->clients = clients;
    it->out = it->handles = 0;
    return it;
}

#endif
