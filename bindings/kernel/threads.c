/* Threads on all cores: one queue of the ready ones, and a queue in each bell. One lock, with interrupts off, which is
 * held over a switch: the thread that is switched to releases it. */
#include "kernel.h"

void switch_stacks(void **from, void *to);
void thread_begins(void);
_Noreturn void run_thread(void);

static spin_lock all;
static struct thread_queue ready;
static thread threads[THREADS];
static thread *idle_of[CORES];

static void put_last(struct thread_queue *q, thread *t) {
    t->next = NULL;
    if (q->first) q->last->next = t;
    else q->first = t;
    q->last = t;
}
static thread *take_first(struct thread_queue *q) {
    thread *t = q->first;
    if (t) q->first = t->next;
    return t;
}

/* The functions from here to `make_ready` are called with the lock held. */
static void switch_to(thread *to) {
    core *mine = this_core();
    thread *from = mine->thread;
    if (from == to) return;
    mine->thread = to;
    mine->switched++;
    switch_stacks(&from->sp, to->sp);
}
/* Switches away from a thread that is in a queue, or has ended. */
static void switch_away(void) {
    thread *next = take_first(&ready);
    switch_to(next ? next : idle_of[this_core()->number]);
}
static void make_ready(thread *t) {
    put_last(&ready, t);
    for (uint32_t i = 0; i < cores_up; i++) {
        if (!cores[i].is_idle) continue;
        cores[i].is_idle = false;
        if (i != this_core()->number) call_core(i);
        return;
    }
}

void spin(uint32_t times) {
    while (times--) relax();
}
void yield(void) {
    uint64_t flags = lock(&all);
    if (ready.first) {
        put_last(&ready, this_thread());
        switch_away();
    }
    unlock(&all, flags);
}
void preempt(void) {
    uint64_t flags = lock(&all);
    core *mine = this_core();
    if (ready.first && mine->thread != idle_of[mine->number]) {
        mine->preempted++;
        put_last(&ready, mine->thread);
        switch_away();
    }
    unlock(&all, flags);
}
/* The port's functions. A handler is a caller of its own, so it can't act by the place of the thread that it
 * interrupted. */
uintptr_t tick_caller(void) { return (uintptr_t)this_core(); }
uintptr_t caller(void) { return in_handler() ? tick_caller() : (uintptr_t)this_thread(); }
/* Because of the lock the test of the word and the falling asleep are one step. */
void sleep_while(zaulinte_bell *b, uint32_t is) {
    if (in_handler()) fail("an interrupt handler would sleep");
    uint64_t flags = lock(&all);
    if (atomic_load(&b->word) == is) {
        put_last(&b->sleepers, this_thread());
        switch_away();
    }
    unlock(&all, flags);
}
void wake_one(zaulinte_bell *b) {
    uint64_t flags = lock(&all);
    thread *t = take_first(&b->sleepers);
    if (t) make_ready(t);
    unlock(&all, flags);
}

static thread *unused_thread(void) {
    for (thread *t = threads; t < threads + THREADS; t++)
        if (!t->body) return t;
    fail("more than %d threads", THREADS);
}
/* Its first frame: six registers and the address of `thread_begins`, which finds the stack at a multiple of 16. */
thread *start_thread(void *(*body)(void *), void *with) {
    thread *t = unused_thread();
    void **top = (void **)(t->stack + STACK) - 7;
    top[6] = (void *)(uintptr_t)thread_begins;
    t->sp = top;
    t->body = body;
    t->with = with;
    atomic_store(&t->done.word, 0);
    uint64_t flags = lock(&all);
    make_ready(t);
    unlock(&all, flags);
    return t;
}
_Noreturn void run_thread(void) { /* with the lock held, interrupts off */
    unlock(&all, 0x200);
    thread *mine = this_thread();
    mine->body(mine->with);
    lock(&all);
    atomic_store(&mine->done.word, 1);
    thread *joiner = take_first(&mine->done.sleepers);
    if (joiner) make_ready(joiner);
    switch_away();
    __builtin_unreachable();
}
/* Takes the lock once: then the thread that ended has left its stack. */
void join_thread(thread *t) {
    while (atomic_load(&t->done.word) == 0) sleep_while(&t->done, 0);
    unlock(&all, lock(&all));
    t->body = NULL;
}

_Noreturn void run_idle(thread *mine) {
    interrupts_off();
    idle_of[this_core()->number] = mine;
    for (;;) {
        uint64_t flags = lock(&all);
        thread *next = take_first(&ready);
        this_core()->is_idle = !next;
        if (next) switch_to(next);
        unlock(&all, flags);
        if (!next) __asm__ volatile("sti; hlt; cli" ::: "memory");
    }
}
