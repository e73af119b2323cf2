/* zaulinte_port_futex.h: threads sleep on Linux futexes. zaulinte_port.h says what a port owes. NOT PROVED. */
#ifndef ZAULINTE_PORT_CODE

#define ZAULINTE_PORT_NAME futex

#else

#include <linux/futex.h>
#include <stddef.h>
#include <sys/syscall.h>
long syscall(long number, ...); /* unistd.h has it, but not by -std=c11 */

#ifdef ZAULINTE_CHECKS
/* The thread's number in the kernel (LWP), which no later thread has soon. Its pthread_t may be that of the next one.
 * */
static inline uintptr_t port_thread_number(void) {
    static _Thread_local long mine;
    if (!mine) mine = syscall(SYS_gettid);
    return (uintptr_t)mine;
}
#define port_thread port_thread_number
#define PORT_THREAD "LWP %" PRIuPTR
#endif
static inline void port_make(zaulinte_bell *b) { (void)b; }
static inline void port_free(zaulinte_bell *b) { (void)b; }
static inline void port_sleep_while(zaulinte_bell *b, uint32_t is) {
    syscall(SYS_futex, &b->word, FUTEX_WAIT_PRIVATE, is, NULL, NULL, 0);
}
static inline void port_wake_one(zaulinte_bell *b) {
    syscall(SYS_futex, &b->word, FUTEX_WAKE_PRIVATE, 1, NULL, NULL, 0);
}

#endif
