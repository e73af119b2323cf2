/* The kernel's port itself, with the sleep_while and wake_one of its threads.c. This stands in for kernel.h: a thread
 * has a core of its own. It goes on at any time after another thread made it ready, as if an idle core took it then. */
#ifndef ZAULINTE_PORT_CODE
#include "kernel_port.h"
#else
#include "explore.h"
#define KERNEL_H
enum { THREADS = X_THREADS, CORES = X_THREADS };
typedef struct thread {
    void *sp;
    struct thread *next;
    zaulinte_bell done;
    void *(*body)(void *), *with;
    unsigned char stack[8];
} thread;
typedef struct core {
    thread *thread;
    uint64_t switched, preempted;
    uint32_t number;
    bool is_idle;
} core;
enum { STACK = sizeof((thread *)0)->stack };
typedef struct spin_lock { _Alignas(8) uint8_t is_held; } spin_lock;
uint32_t cores_up = 1;
static core cores[CORES];
#pragma clang section bss = "explored"
static thread own[THREADS], *idle_of[CORES];
static uint32_t runs[THREADS];
static struct thread_queue ready;
static thread *take_first(struct thread_queue *q);
static thread *this_thread(void) { return &own[x_me()]; }
static core *this_core(void) {
    static thread idle;
    idle_of[x_me()] = &idle, cores[x_me()].thread = this_thread(), cores[x_me()].number = x_me();
    return &cores[x_me()];
}
static bool in_handler(void) { return false; }
static void call_core(uint32_t number) { (void)number; }
static void interrupts_off(void) {}
static void relax(void) {}
#define fail(...) x_fail("the kernel fails")
static uint64_t lock(spin_lock *l) { return x_lock(l), 0; }
static void unlock(spin_lock *l, uint64_t flags) {
    for (thread *t; (t = take_first(&ready)); t->next = NULL) x_tell(&runs[t - own], 1);
    ready.last = NULL;
    x_unlock(l), (void)flags;
}
#include "threads.c"
void switch_stacks(void **from, void *to) {
    uint32_t *is_running = &runs[(thread *)from - own];
    *is_running = 0, (void)to;
    unlock(&all, 0);
    x_await(is_running, 1);
    x_lock(&all);
}
void thread_begins(void) {}
#pragma clang section bss = ""
#pragma clang diagnostic ignored "-Wmacro-redefined"
#include "kernel_port.h"
#endif
