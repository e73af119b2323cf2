/* zaulinte_port_linux.h: threads sleep in the Linux kernel. ../c/zaulinte_port.h says what a port owes. NOT PROVED.
 *
 * A bell has no fields: threads sleep in the kernel's table of wait queues, by the address of the bell's word. A thread
 * queues itself before it tests the word, and a thread that wakes others changes the word before it reads the queue. So
 * one of the two sees what the other did. EXCLUSIVE: a wake-up is for one thread.
 *
 * A thread that has queued itself, finds the word changed, and so doesn't sleep, may use up a wake-up. To the monitor
 * it is a thread that was woken. */
#ifndef ZAULINTE_PORT_CODE

#define ZAULINTE_PORT_NAME linux_kernel /* gcc has a macro `linux` */
#define ZAULINTE_STDIO 0

#else

#include <linux/preempt.h>
#include <linux/sched.h>
#include <linux/smp.h>
#include <linux/wait_bit.h>
#include "module.h"

/* The state of a thread that sleeps: it isn't part of the load, and isn't reported as a hung task. Nothing but its
 * wake-up may end the sleep: with TASK_KILLABLE a killed thread would return, and sleep again, without end. */
#ifndef ZAULINTE_TASK_STATE
#define ZAULINTE_TASK_STATE TASK_IDLE
#endif
/* zaulinte_monitor.c calls C11's of these names: the kernel has its own. */
#define atomic_fetch_add(at, more) __atomic_fetch_add(at, more, __ATOMIC_SEQ_CST)
#define atomic_fetch_sub(at, less) __atomic_fetch_sub(at, less, __ATOMIC_SEQ_CST)
#define atomic_fetch_or(at, bits) __atomic_fetch_or(at, bits, __ATOMIC_SEQ_CST)

#define ZAULINTE_POLLS zaulinte_polls
#define port_relax() cpu_relax()
#define port_thread() linux_thread()
/* A handler isn't the thread that it interrupts. It has a number of its core and of its kind; addresses of threads are
 * greater. */
static inline uintptr_t linux_thread(void) {
    if (in_task()) return (uintptr_t)current;
    return 4 * (uintptr_t)raw_smp_processor_id() + (in_hardirq() ? 2 : 1);
}
static inline void port_make(zaulinte_bell *b) { (void)b; }
static inline void port_free(zaulinte_bell *b) { (void)b; }
static inline void port_sleep_while(zaulinte_bell *b, uint32_t is) {
    enum { EXCLUSIVE = 1 };
    zaulinte_may_sleep();
    ___wait_var_event(&b->word, atomic_load(&b->word) != is, ZAULINTE_TASK_STATE, EXCLUSIVE, 0, schedule());
}
static inline void port_wake_one(zaulinte_bell *b) {
    smp_mb(); /* wake_up_var reads first, without a lock, if the queue is empty */
    wake_up_var(&b->word);
}

#endif
