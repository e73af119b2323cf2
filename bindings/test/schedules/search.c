/* The search over all states of a program, depth first. A state is a world in which each thread has stopped before its
 * next act. Two worlds with the same hash of 128 bits are taken for one. */
#define _GNU_SOURCE
#include "world.h"
#include <stdlib.h>
#include <string.h>
#include <sys/mman.h>

struct frame { char *world; uint32_t state; uint8_t next; };
enum { DEEPEST = 1 << 20, EDGES_OF_A_STATE = X_THREADS * (MESSAGES + 2) };
struct seen *seen;
struct edge *edge;
uint32_t states, edges, most = 20000000, many[4];
const char *fault;
bool stops_at_fault;
static uint32_t *table, mask, most_edges;
static struct frame *stack;

static void *room_for(size_t bytes) {
    void *at = mmap(NULL, bytes, PROT_READ | PROT_WRITE, MAP_PRIVATE | MAP_ANONYMOUS | MAP_NORESERVE, -1, 0);
    if (at == MAP_FAILED) die("no memory");
    return at;
}
void make_tables(void) {
    mask = 1023;
    while (mask < most + most / 2) mask = 2 * mask + 1;
    most_edges = most > UINT32_MAX / 5 ? UINT32_MAX : most * 5;
    table = room_for(sizeof *table * (mask + (size_t)1));
    seen = room_for(sizeof *seen * (size_t)most);
    edge = room_for(sizeof *edge * (size_t)most_edges);
    stack = room_for(sizeof *stack * DEEPEST);
}
static void add_edge(uint32_t k, uint32_t choice) {
    enum kind kind = w->thread[k].op.kind;
    bool is_stale = weak && choice && choice != EARLY && (kind == LOAD || kind == SLEEP);
    bool is_lock = kind == LOCK || kind == RELOCK;
    edge[edges++] = (struct edge){NOWHERE, (uint8_t)k, (uint8_t)choice, is_stale, is_lock};
}
static void add_edges(uint32_t k) {
    for (uint32_t choice = 0; has(k, choice); choice++) add_edge(k, choice);
    if (has(k, EARLY)) add_edge(k, EARLY);
}
static bool are_all_done(void) {
    for (uint32_t k = 0; k < w->threads; k++)
        if (w->thread[k].op.kind != DONE) return false;
    return true;
}
/* Adds the present state's edges, and returns what it is. A state that only an early return leaves is stuck. */
static uint8_t mark_state(struct seen *s) {
    bool goes_on = false;
    if (are_all_done()) {
        if (weak) end_messages();
        if (!w->failed) w->failed = x_finished();
        if (!w->failed) return IS_END;
    }
    if (w->failed) return fault = w->failed, IS_FAILED;
    if (edges + EDGES_OF_A_STATE > most_edges) die("too many acts");
    for (uint32_t k = 0; k < w->threads; k++) add_edges(k);
    s->edges = (uint8_t)(edges - s->first);
    for (uint32_t i = s->first; i < edges; i++) goes_on |= edge[i].choice != EARLY;
    if (goes_on) return GOES_ON;
    edges = s->first, s->edges = 0;
    return IS_STUCK;
}
/* Returns the number of the present state, and adds it if it is new. */
static uint32_t state_now(bool *is_new) {
    uint64_t h[2];
    hash_world(h);
    uint32_t at = (uint32_t)h[0] & mask;
    for (*is_new = false; table[at]; at = (at + 1) & mask)
        if (!memcmp(seen[table[at] - 1].hash, h, sizeof h)) return table[at] - 1;
    if (states == most) die("too many states");
    struct seen *s = &seen[states];
    table[at] = ++states, *is_new = true;
    *s = (struct seen){{h[0], h[1]}, edges, 0, 0};
    s->mark = mark_state(s);
    many[s->mark]++;
    return states - 1;
}
static bool is_over(void) { return learned || (stops_at_fault && many[IS_FAILED] + many[IS_STUCK]); }
static void search_once(void) {
    uint32_t depth = 0;
    bool is_new;
    make_world();
    uint32_t first = state_now(&is_new);
    stack[depth++] = (struct frame){keep_world(), first, 0};
    while (depth) {
        struct frame *f = &stack[depth - 1];
        if (f->next == seen[f->state].edges || is_over()) {
            free(f->world), depth--;
            continue;
        }
        struct edge *e = &edge[seen[f->state].first + f->next++];
        put_back(f->world);
        make(e->thread, e->choice);
        e->to = state_now(&is_new);
        if (!is_new || !seen[e->to].edges) continue;
        if (depth == DEEPEST) die("too deep");
        stack[depth++] = (struct frame){keep_world(), e->to, 0};
    }
}
void search(void) {
    forget_words();
    do {
        madvise(table, sizeof *table * (mask + (size_t)1), MADV_DONTNEED); /* all zero again */
        states = edges = 0, learned = false;
        memset(many, 0, sizeof many);
        search_once();
    } while (learned);
}
