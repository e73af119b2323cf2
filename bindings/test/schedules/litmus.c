/* Tests the weak memory: small programs whose weak outcome C11 allows (_seen), so the explorer has to find it, or
 * forbids (_never). A letter is an access: W, w write 1 to X, Y; R, r read X, Y; S swaps X for 1. The next letter is
 * its order (s sequentially consistent, a acquire, r release, x relaxed). W2, w2 write 2. F is a full fence. */
#include "explore.h"
#include <stdatomic.h>
#include <string.h>

static struct shared { _Atomic uint32_t x, y; uint32_t got[X_THREADS][2]; } *s;
static const char *name;
const struct x_program x_programs[] = {
    {"sb_relaxed_seen", {"0:Wx rx", "0:wx Rx"}, 1, 1, 0, NULL},
    {"sb_acqrel_seen", {"0:Wr ra", "0:wr Ra"}, 1, 1, 0, NULL},
    {"sb_mixed_seen", {"0:Ws ra", "0:ws Rs"}, 1, 1, 0, NULL},
    {"sb_sc_never", {"0:Ws rs", "0:ws Rs"}, 1, 1, 0, NULL},
    {"sb_fence_seen", {"0:WxFrx", "0:wx Rx"}, 1, 1, 0, NULL},
    {"sb_fences_never", {"0:WxFrx", "0:wxFRx"}, 1, 1, 0, NULL},
    {"mp_relaxed_seen", {"0:Wx wr", "0:rx Rx"}, 1, 1, 0, NULL},
    {"mp_relaxed2_seen", {"0:Wx wx", "0:ra Rx"}, 1, 1, 0, NULL},
    {"mp_acqrel_never", {"0:Wx wr", "0:ra Rx"}, 1, 1, 0, NULL},
    {"mp_sc_never", {"0:Ws ws", "0:rs Rs"}, 1, 1, 0, NULL},
    {"corr_never", {"0:Wx", "0:Rx Rx"}, 1, 1, 0, NULL},
    {"iriw_acquire_seen", {"0:Wr", "0:wr", "0:Ra ra", "0:ra Ra"}, 1, 1, 0, NULL},
    {"iriw_sc_never", {"0:Ws", "0:ws", "0:Rs rs", "0:rs Rs"}, 1, 1, 0, NULL},
    {"twice_relaxed_seen", {"0:Wx w2x", "0:wx W2x"}, 1, 1, 0, NULL},
    {"twice_sc_never", {"0:Ws w2s", "0:ws W2s"}, 1, 1, 0, NULL},
    {"swap_never", {"0:Sx", "0:Sx", "0:Sx"}, 1, 1, 0, NULL},
    {NULL, {NULL}, 0, 0, 0, NULL}};
void x_make(const struct x_program *p) { s = x_room(sizeof *s, 8), name = p->name; }
uint32_t x_place_of(void *handle) { return (void)handle, X_NOBODY; }
const char *x_name_of(void *at) { return at == (void *)&s->x ? "X" : at == (void *)&s->y ? "Y" : NULL; }
#define DO(order) do { \
        if (*c == 'S') s->got[k][n++] = atomic_exchange_explicit(&s->x, 1, order); \
        else if (writes) atomic_store_explicit(c0 == 'W' ? &s->x : &s->y, value, order); \
        else s->got[k][n++] = atomic_load_explicit(c0 == 'R' ? &s->x : &s->y, order); \
    } while (0)
#pragma clang diagnostic ignored "-Wunknown-warning-option"
#pragma clang diagnostic ignored "-Watomic-memory-ordering"
void x_run(uint32_t k, uint32_t place, const char *c) {
    uint32_t n = 0;
    (void)place;
    for (; *c; c++) {
        if (*c == 'F') atomic_thread_fence(memory_order_seq_cst);
        if (*c == 'F' || *c == ' ') continue;
        char c0 = *c;
        bool writes = c0 == 'W' || c0 == 'w';
        uint32_t value = writes && c[1] == '2' ? 2 : 1;
        char order = c[value];
        if (order == 's') DO(memory_order_seq_cst);
        else if (order == 'x') DO(memory_order_relaxed);
        else if (writes) atomic_store_explicit(c0 == 'W' ? &s->x : &s->y, value, memory_order_release);
        else s->got[k][n++] = atomic_load_explicit(c0 == 'R' ? &s->x : &s->y, memory_order_acquire);
        c += value;
    }
    if (!strncmp(name, "twice", 5)) { /* what the two words are at last */
        s->got[k][0] = 1;
        if (s->got[1 - k][0]) s->got[0][1] = atomic_load(&s->x), s->got[1][1] = atomic_load(&s->y);
    }
}
const char *x_finished(void) {
    uint32_t (*g)[2] = s->got;
    bool seen = !strncmp(name, "sb", 2) ? !g[0][0] && !g[1][0]
        : !strncmp(name, "mp", 2) ? g[1][0] && !g[1][1]
        : !strncmp(name, "corr", 4) ? g[1][0] && !g[1][1]
        : !strncmp(name, "iriw", 4) ? g[2][0] && !g[2][1] && g[3][0] && !g[3][1]
        : !strncmp(name, "twice", 5) ? g[0][1] == 1 && g[1][1] == 1
        : g[0][0] + g[1][0] + g[2][0] != 2;
    return seen ? "the weak outcome" : NULL;
}
