/* zaulinte_port.h: what the running monitor asks of its platform, and the choice of a port. NOT PROVED.
 *
 * A port is one header. Three are here, in files of their own: zaulinte_port_futex.h (Linux), zaulinte_port_condvar.h
 * (POSIX threads) and zaulinte_port_poll.h (no thread sleeps). For another platform write a header like these (a
 * kernel's is ../kernel/kernel_port.h) and compile zaulinte_monitor.c, and all that includes zaulinte_monitor.h, with
 * -DZAULINTE_PORT='"file.h"'.
 *
 * A port is read twice. First by zaulinte_monitor.h, in C and in C++; there it defines
 *   ZAULINTE_PORT_NAME    a word, which becomes part of a symbol that all these files ask for: a program that was
 *                         compiled with two ports doesn't link;
 *   ZAULINTE_BELL_FIELDS  the fields of a bell besides its word, if there are any. A thread sleeps on a bell;
 *   ZAULINTE_STDIO        0 if there is no stdio.h with files: then no dumps, and no recordings.
 * Then by zaulinte_monitor.c alone, with ZAULINTE_PORT_CODE defined; there it defines
 *   port_make, port_free  set up the fields of a bell, and undo that.
 *   port_sleep_while      blocks the calling thread while the bell's word is `is`. For `port_wake_one` the test of the
 *                         word and the falling asleep are one step: if another thread changes the word and then wakes
 *                         a thread, this thread doesn't sleep through that. May return early, at any time. A thread
 *                         that is cancelled still sleeps.
 *   port_wake_one         wakes one thread that sleeps on the bell, if there is one. Never blocks. If interrupt
 *                         handlers leave monitors, an interrupt handler can call it.
 * It may define two macros, which have a default below:
 *   port_relax()          is a hint to the processor that this is a loop that polls a word.
 *   port_thread()         returns a number of the calling thread, not 0, that no other living thread has.
 *
 * Why no wake-up is lost, here and in Rust: docs/WAKING.md. */
#include "zaulinte_version.h" /* an installed one has the port of the library */
#ifndef ZAULINTE_PORT
#ifdef __linux__
#define ZAULINTE_PORT "zaulinte_port_futex.h"
#else
#define ZAULINTE_PORT "zaulinte_port_condvar.h"
#endif
#endif
#include ZAULINTE_PORT
#ifndef ZAULINTE_PORT_NAME
#error "the port defines no ZAULINTE_PORT_NAME"
#endif

#ifdef ZAULINTE_PORT_CODE
#ifdef __cplusplus
#error "compile zaulinte_monitor.c as C"
#endif
#ifndef ZAULINTE_POLLS
/* Spin hints, at most: for all polls of a thread that waits to resume, before it sleeps; and for each single pause of
 * an entering thread. More than a wake-up takes. 0: no thread polls. */
#define ZAULINTE_POLLS 2000
#endif
#ifndef ZAULINTE_BACK_OFF
#define ZAULINTE_BACK_OFF 128 /* hints for which a place lets others enter, after it got the monitor by a leave */
#endif
#ifndef port_relax
static inline void port_relax(void) {
#if defined(__x86_64__) || defined(__i386__)
    __builtin_ia32_pause();
#elif defined(__aarch64__)
    __asm__ volatile("isb");
#endif
}
#endif
#ifndef port_thread
#if defined(__x86_64__) && defined(__linux__) && __STDC_HOSTED__
static inline uintptr_t port_thread(void) { /* its pthread_t, which a debugger shows */
    uintptr_t mine;
    __asm__("mov %%fs:0, %0" : "=r"(mine));
    return mine;
}
#else
static inline uintptr_t port_thread(void) {
    static _Thread_local char mine;
    return (uintptr_t)&mine;
}
#endif
#endif
#ifndef PORT_THREAD
#define PORT_THREAD "thread %#" PRIxPTR /* how to print it */
#endif

/* ThreadSanitizer doesn't see into the archive: these two calls show it that a visit comes after the visit before. They
 * are there in a program that it watches, also if this library was compiled without it. */
#if defined(__ELF__) && ZAULINTE_STDIO
__attribute__((weak)) void __tsan_acquire(void *at);
__attribute__((weak)) void __tsan_release(void *at);
#define visit_begins(m) (__tsan_acquire ? __tsan_acquire(&(m)->door) : (void)0)
#define visit_ends(m) (__tsan_release ? __tsan_release(&(m)->door) : (void)0)
#else
#define visit_begins(m) ((void)(m))
#define visit_ends(m) ((void)(m))
#endif
#endif
