/* gcc -include races.h: a drawn pause before each atomic operation of zaulinte_monitor.c and its port, and after each
 * store, so that a window of two operations is hit within seconds. */
#define _GNU_SOURCE
#include <sched.h>
#include <stdatomic.h>
#include <stdint.h>

static inline void race_pause(void) {
    static _Thread_local uint32_t seed;
    if (!seed) seed = (uint32_t)(uintptr_t)&seed | 1;
    seed = seed * 1664525u + 1013904223u;
    if ((seed >> 24) % 8 == 0)
        for (unsigned i = (seed >> 16) % 4; i; i--) sched_yield();
}
#ifdef __clang__
#define RACE_STORE __c11_atomic_store
#else
#define RACE_STORE __atomic_store_n
#endif
#undef atomic_load
#undef atomic_store
#undef atomic_store_explicit
#undef atomic_exchange
#undef atomic_compare_exchange_strong
#undef atomic_fetch_add
#undef atomic_fetch_sub
#define atomic_load(p) (race_pause(), atomic_load_explicit(p, memory_order_seq_cst))
#define atomic_store(p, v) atomic_store_explicit(p, v, memory_order_seq_cst)
#define atomic_store_explicit(p, v, order) (race_pause(), RACE_STORE(p, v, order), race_pause())
#define atomic_exchange(p, v) (race_pause(), atomic_exchange_explicit(p, v, memory_order_seq_cst))
#define atomic_fetch_add(p, v) (race_pause(), atomic_fetch_add_explicit(p, v, memory_order_seq_cst))
#define atomic_fetch_sub(p, v) (race_pause(), atomic_fetch_sub_explicit(p, v, memory_order_seq_cst))
#define atomic_compare_exchange_strong(p, e, v) \
    (race_pause(), atomic_compare_exchange_strong_explicit(p, e, v, memory_order_seq_cst, memory_order_seq_cst))
