/* explore.h: what a program that is explored (explore.c) and its monitor call. */
#ifndef EXPLORE_H
#define EXPLORE_H
#include <stdbool.h>
#include <stddef.h>
#include <stdint.h>

enum { X_THREADS = 4, X_PLACES = 4, X_NOBODY = 64 };

/* A program: its threads' scripts, each with the place by which it acts ("0:e l"), or a dash if it borrows places
 * ("-:g0 e l r"). programs.c explains the letters. `groups` has a digit for each group, how many places it has: the
 * first groups have the first places. */
struct x_program {
    const char *name, *script[X_THREADS];
    uint32_t places, hoare, mesa;
    const char *groups;
};

/* The monitor under test: one of these three is linked, monitor_c.c or the crate's. */
void x_make(const struct x_program *p);   /* makes the monitor in memory of x_room */
void x_run(uint32_t thread, uint32_t place, const char *script);
const char *x_finished(void);             /* all threads ended: NULL, or what is wrong */

/* Memory of the explored world, all zero. It is kept and put back with the world. Only while the monitor is made. */
void *x_room(size_t bytes, size_t align);
/* This memory is the test's own: what its code, if it is compiled for ThreadSanitizer too, does there is no act. */
void x_own(void *from, size_t bytes);
/* The number of the running thread, from 0. */
uint32_t x_me(void);
/* Ends this schedule: it shows a fault. */
_Noreturn void x_fail(const char *what);
/* Sets a word of the world, and blocks until it has a value: an order that both threads see. */
void x_tell(uint32_t *word, uint32_t is);
void x_await(const uint32_t *word, uint32_t is);
/* What a port owes: sleeps while *word is `is`; wakes one. */
#define port_relax() ((void)0)
#define port_thread() ((uintptr_t)x_me() + 1)
void x_sleep_while(void *word, uint32_t is);
void x_wake_one(void *word);
/* A mutex and a condition variable at an address. */
void x_lock(void *lock);
void x_unlock(void *lock);
void x_condition_wait(void *condition, void *lock);
void x_condition_signal(void *condition);
/* The monitor is gone: whoever touches this memory afterwards is at fault. */
void x_gone(void *from, size_t bytes);
/* Keeps the acts on the monitor, only while the monitor is made; and returns them as a script of ./zaulinte, or "" if a
 * script has no line for one of them. */
void x_keep_script(void);
const char *x_script(void);
/* The place that is inside by the steps of the door, or X_NOBODY. */
uint32_t x_inside(void);
/* This place touches the monitor's data: it has to be inside, and to see what the visit before wrote. */
void x_touch(uint32_t place);
#endif
