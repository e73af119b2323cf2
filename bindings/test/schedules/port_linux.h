/* zaulinte_port_linux.h itself, over what Linux 6.1 does for it in kernel/sched/wait_bit.c, wait.c and core.c. The
 * functions have Linux's names. What other threads see without the queue's lock is read and written by acts: the bell's
 * word, if the queue is empty, and the state of a thread. What isn't here changes no outcome:
 * - Interrupts are off under the lock. A handler acts as a thread that isn't interrupted.
 * - A walk along a queue drops the lock after 64 entries, and goes on there. Threads are queued after that.
 * - Linux puts an entry that isn't exclusive first. But one walk wakes all of these.
 * - Signals don't end the state TASK_IDLE, nor is it interruptible. */
#ifdef ZAULINTE_PORT_CODE
#include "explore.h"
enum { TASK_RUNNING, TASK_NORMAL = 3, TASK_WAKEKILL = 0x100, TASK_IDLE = 0x402 };
struct wait_entry { const void *var; uint32_t thread, exclusive; };
struct wait_queue { _Alignas(8) uint8_t lock, many; _Atomic uint8_t is_active; struct wait_entry entry[X_THREADS]; };
#pragma clang section bss = "explored"
static _Alignas(8) _Atomic uint32_t state_of[X_THREADS];
static struct wait_queue table[QUEUES]; /* all words share one, or the queue is chosen by the word's address */
#pragma clang section bss = ""
#define current (&state_of[x_me()])
#define in_task() true
#define in_hardirq() false
#define raw_smp_processor_id() 0
#define cpu_relax() ((void)0)
#define ZAULINTE_MODULE_H /* bindings/linux/module.h isn't read */
#define zaulinte_may_sleep() ((void)0)
#define smp_mb() atomic_thread_fence(memory_order_seq_cst)

static struct wait_queue *__var_waitqueue(const void *var) { return &table[(uintptr_t)var / 64 % QUEUES]; }
static uint32_t position(const struct wait_queue *q) {
    uint32_t i = 0;
    while (i < q->many && q->entry[i].thread != x_me()) i++;
    return i;
}
static void list_add_tail(struct wait_queue *q, const struct wait_entry *mine) {
    q->entry[q->many++] = *mine;
    if (q->many == 1) atomic_store_explicit(&q->is_active, 1, memory_order_relaxed);
}
static void list_del(struct wait_queue *q, uint32_t i) {
    if (!--q->many) atomic_store_explicit(&q->is_active, 0, memory_order_relaxed);
    for (; i < q->many; i++) q->entry[i] = q->entry[i + 1];
    q->entry[q->many] = (struct wait_entry){0};
}
/* Returns true if the thread was killed, which isn't queued then: each thread was, if a kill ends the state. */
static bool prepare_to_wait_event(struct wait_queue *q, const struct wait_entry *mine, uint32_t state) {
    if (state & TASK_WAKEKILL) return true;
    x_lock(&q->lock);
    if (position(q) == q->many) list_add_tail(q, mine);
    atomic_store_explicit(current, state, memory_order_relaxed), smp_mb(); /* set_current_state */
    x_unlock(&q->lock);
    return false;
}
/* One step with its test to try_to_wake_up, by the locks of the thread and of its core. Ends early by a wake-up that
 * isn't for the bell. */
static void schedule(void) {
    x_sleep_while((void *)current, TASK_IDLE);
    atomic_store(current, TASK_RUNNING);
}
/* Linux locks only if the entry is still queued (list_empty_careful). If not, a waker has taken it out, and only
 * unlocks afterwards. */
static void finish_wait(struct wait_queue *q) {
    atomic_store_explicit(current, TASK_RUNNING, memory_order_relaxed);
    x_lock(&q->lock);
    if (position(q) < q->many) list_del(q, position(q));
    x_unlock(&q->lock);
}
#define ___wait_var_event(var, condition, state, exclusive, ret, cmd) \
    do { \
        struct wait_queue *wait_queue = __var_waitqueue(var); \
        struct wait_entry wait_entry = {var, x_me(), exclusive}; \
        bool is_killed; \
        while (is_killed = prepare_to_wait_event(wait_queue, &wait_entry, state), !(condition) && !is_killed) cmd; \
        if (!is_killed) finish_wait(wait_queue); \
    } while (0)
/* The state TASK_WAKING, between these two, isn't in TASK_NORMAL either. */
static bool try_to_wake_up(_Atomic uint32_t *state) {
    if (!(atomic_load(state) & TASK_NORMAL)) return false;
    atomic_store(state, TASK_RUNNING);
    x_wake_one((void *)state);
    return true;
}
/* With var_wake_function, which takes out the entry of a thread that it woke. */
static void wake_up_var(const void *var) {
    struct wait_queue *q = __var_waitqueue(var);
    if (!atomic_load_explicit(&q->is_active, memory_order_relaxed)) return; /* waitqueue_active */
    x_lock(&q->lock);
    for (uint32_t i = 0, is_last = false; i < q->many && !is_last;) {
        struct wait_entry *e = &q->entry[i];
        if (e->var != var || !try_to_wake_up(&state_of[e->thread])) i++;
        else is_last = e->exclusive, list_del(q, i);
    }
    x_unlock(&q->lock);
}
int zaulinte_polls;
#define __atomic_fetch_add __c11_atomic_fetch_add
#define __atomic_fetch_sub __c11_atomic_fetch_sub
#define __atomic_fetch_or __c11_atomic_fetch_or
#pragma clang diagnostic ignored "-Wmacro-redefined" /* the port has atomic_fetch_* for gcc */
#endif
#include "zaulinte_port_linux.h"
