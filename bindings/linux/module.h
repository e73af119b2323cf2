/* What the parts of the module zaulinte.ko use of each other. */
#ifndef ZAULINTE_MODULE_H
#define ZAULINTE_MODULE_H
#include <linux/atomic.h>
#include <linux/bug.h>
#include <linux/kernel.h>
#include <linux/preempt.h>

extern int zaulinte_polls;          /* a parameter, for the port */
extern atomic_long_t zaulinte_kept; /* pieces of memory that aren't freed yet */

/* Reports a call that has to sleep, or to allocate or free memory, in a context that may not sleep. */
static inline void zaulinte_may_sleep(void) {
    WARN_ONCE(in_atomic() || irqs_disabled(), "BUG: zaulinte would sleep in a context that may not\n");
    might_sleep();
}
#endif
