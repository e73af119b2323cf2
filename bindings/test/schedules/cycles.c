/* Fair cycles: states through which threads can go on for ever though each gets its turn. They are looked for in the
 * strongly connected components of the graph of states (Tarjan's algorithm). */
#include "world.h"
#include <stdlib.h>
#include <string.h>

enum { ON_PATH = 1, IN_COMPONENT };
static uint32_t *low, *number, *path, *calls, last_number, depth, top;
static uint8_t *next, *on, *left_out;

/* Without early returns no thread goes round, except one that frees: then any cycle is a fault, a thread that spins. */
static bool is_any_cycle_a_fault(void) {
    for (uint32_t k = 0; k < w->threads; k++)
        if (strchr(program->script[k], 'f')) return false;
    return early == 0;
}
/* What the threads do in a component: each is a set of threads. */
struct moves { uint32_t always, locks, moves, acts; };
static void add_moves(struct moves *m, uint32_t state) {
    uint32_t can = 0;
    for (uint32_t j = 0; j < seen[state].edges; j++) {
        struct edge *e = &edge[seen[state].first + j];
        uint32_t by = 1u << e->thread;
        if (e->choice != EARLY) can |= by;
        if (e->is_lock) m->locks |= by;
        if (e->to != NOWHERE && !e->is_stale && on[e->to] == IN_COMPONENT) m->acts++, m->moves |= by;
    }
    m->always &= can;
}
static void leave_out_locks(uint32_t state, uint32_t threads) {
    for (uint32_t j = 0; j < seen[state].edges; j++) {
        struct edge *e = &edge[seen[state].first + j];
        if (e->is_lock && threads >> e->thread & 1) left_out[state] = true;
    }
}
/* Judges the component path[from ..]: returns 1 if it has a fair cycle. A lock that is free again and again isn't
 * denied for ever. So states in which a thread could lock that never does are left out, and all begins again. */
static uint32_t judge(uint32_t from, bool *again) {
    struct moves m = {~0u, 0, 0, 0};
    for (uint32_t i = from; i < top; i++) on[path[i]] = IN_COMPONENT;
    for (uint32_t i = from; i < top; i++) add_moves(&m, path[i]);
    for (uint32_t i = from; i < top; i++) on[path[i]] = 0;
    if (!m.acts || ((m.always & ~m.moves) && !is_any_cycle_a_fault())) return 0;
    if (!(m.locks & ~m.moves)) return 1;
    for (uint32_t i = from; i < top; i++) leave_out_locks(path[i], m.locks & ~m.moves);
    *again = true;
    return 0;
}
static void begin_state(uint32_t v) {
    number[v] = low[v] = ++last_number;
    calls[depth++] = path[top++] = v;
    on[v] = ON_PATH;
}
/* Follows the next edge of state v. */
static void follow(uint32_t v) {
    struct edge *e = &edge[seen[v].first + next[v]++];
    if (e->to == NOWHERE || e->is_stale || left_out[e->to]) return; /* no thread reads what is stale for ever */
    if (!number[e->to]) begin_state(e->to);
    else if (on[e->to] && number[e->to] < low[v]) low[v] = number[e->to];
}
static uint32_t cycles_from(uint32_t root, uint32_t *in, bool *again) {
    uint32_t cycles = 0;
    begin_state(root);
    while (depth) {
        uint32_t v = calls[depth - 1], from = top;
        if (next[v] < seen[v].edges) {
            follow(v);
            continue;
        }
        depth--;
        if (depth && low[v] < low[calls[depth - 1]]) low[calls[depth - 1]] = low[v];
        if (low[v] != number[v]) continue;
        while (path[--from] != v) {}
        if (judge(from, again)) cycles++, *in = v;
        top = from;
    }
    return cycles;
}
static uint32_t cycles_once(uint32_t *in, bool *again) {
    uint32_t cycles = 0;
    last_number = 0, *again = false;
    memset(number, 0, 4u * states), memset(next, 0, states), memset(on, 0, states);
    for (uint32_t root = 0; root < states; root++)
        if (!number[root] && !left_out[root]) cycles += cycles_from(root, in, again);
    return cycles;
}
/* Returns the number of components with a fair cycle, and a state of one. */
uint32_t fair_cycles(uint32_t *in) {
    uint32_t **words_of[] = {&low, &number, &path, &calls}, cycles;
    uint8_t **bytes_of[] = {&next, &on, &left_out};
    bool again;
    for (int i = 0; i < 4; i++) *words_of[i] = malloc(4u * states);
    for (int i = 0; i < 3; i++) *bytes_of[i] = calloc(states, 1);
    do cycles = cycles_once(in, &again);
    while (again);
    for (int i = 0; i < 4; i++) free(*words_of[i]);
    for (int i = 0; i < 3; i++) free(*bytes_of[i]);
    return cycles;
}
