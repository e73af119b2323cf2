/* A port that counts, for monitor.c: another port, COUNTED, with the number of its bells that are made and not freed
 * yet, of its mutexes and condition variables, and of the sleeps. Each spin hint is a call of the test. */
#ifndef COUNTED
#ifdef __linux__
#define COUNTED "zaulinte_port_futex.h"
#else
#define COUNTED "zaulinte_port_condvar.h"
#endif
#endif
#ifndef ZAULINTE_POLLS
#define ZAULINTE_POLLS 2000 /* what zaulinte_port.h has: the test asks for it too */
#endif
#ifndef ZAULINTE_PORT_CODE

#include COUNTED
extern _Atomic unsigned port_bells, port_objects, port_sleeps;
void port_hint(void);
#define port_relax port_hint

#else

#include <pthread.h>
#define pthread_mutex_init(m, with) (void)(port_objects += (pthread_mutex_init)(m, with) == 0)
#define pthread_cond_init(c, with) (void)(port_objects += (pthread_cond_init)(c, with) == 0)
#define pthread_mutex_destroy(m) (void)(port_objects -= (pthread_mutex_destroy)(m) == 0)
#define pthread_cond_destroy(c) (void)(port_objects -= (pthread_cond_destroy)(c) == 0)
#define port_make counted_make
#define port_free counted_free
#define port_sleep_while counted_sleep_while
#include COUNTED
#undef port_make
#undef port_free
#undef port_sleep_while
static inline void port_make(zaulinte_bell *b) {
    port_bells++;
    counted_make(b);
}
static inline void port_free(zaulinte_bell *b) {
    port_bells--;
    counted_free(b);
}
static inline void port_sleep_while(zaulinte_bell *b, uint32_t is) {
    port_sleeps++;
    counted_sleep_while(b, is);
}

#endif
