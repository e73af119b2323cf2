/* zaulinte_port_futex.h itself, over a futex of explore.c. */
#ifdef ZAULINTE_PORT_CODE
#include "explore.h"
#include <linux/futex.h>
#include <stdarg.h>
#include <sys/syscall.h>
static inline long explored_syscall(long number, ...) {
    va_list rest;
    va_start(rest, number);
    void *word = va_arg(rest, void *);
    int what = va_arg(rest, int);
    unsigned is = va_arg(rest, unsigned);
    va_end(rest);
    if (number != SYS_futex) x_fail("another system call");
    if (what == FUTEX_WAIT_PRIVATE) x_sleep_while(word, is);
    else if (what == FUTEX_WAKE_PRIVATE && is == 1) x_wake_one(word);
    else x_fail("another call of futex");
    return 0;
}
#define syscall explored_syscall
#endif
#include "zaulinte_port_futex.h"
