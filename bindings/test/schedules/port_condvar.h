/* zaulinte_port_condvar.h itself, over mutexes and condition variables of explore.c. */
#ifndef ZAULINTE_PORT_CODE
#include <pthread.h>
typedef struct { uint8_t is_held; } explored_mutex;
typedef struct { uint8_t unused; } explored_cond;
#define pthread_mutex_t explored_mutex
#define pthread_cond_t explored_cond
#else
#include "explore.h"
#define pthread_mutex_init(m, a) ((void)(m))
#define pthread_cond_init(c, a) ((void)(c))
#define pthread_mutex_destroy(m) ((void)(m))
#define pthread_cond_destroy(c) ((void)(c))
#define pthread_setcancelstate(is, was) explored_cancel(was)
static inline void explored_cancel(int *was) { if (was) *was = 0; }
#define pthread_mutex_lock(m) x_lock(m)
#define pthread_mutex_unlock(m) x_unlock(m)
#define pthread_cond_wait(c, m) x_condition_wait(c, m)
#define pthread_cond_signal(c) x_condition_signal(c)
#endif
#include "zaulinte_port_condvar.h"
