/* zaulinte_port_condvar.h: threads sleep on POSIX condition variables. zaulinte_port.h says what a port owes. NOT
 * PROVED. */
#ifndef ZAULINTE_PORT_CODE

#include <pthread.h>
#define ZAULINTE_PORT_NAME condvar
#define ZAULINTE_BELL_FIELDS \
    pthread_mutex_t lock; \
    pthread_cond_t rung;

#else

static inline void port_make(zaulinte_bell *b) {
    pthread_mutex_init(&b->lock, NULL);
    pthread_cond_init(&b->rung, NULL);
}
static inline void port_free(zaulinte_bell *b) {
    pthread_cond_destroy(&b->rung);
    pthread_mutex_destroy(&b->lock);
}
/* Sleeps while the word is `is`. The lock makes the test and the falling asleep one step. */
static inline void port_sleep_while(zaulinte_bell *b, uint32_t is) {
    int was;
    pthread_setcancelstate(PTHREAD_CANCEL_DISABLE, &was);
    pthread_mutex_lock(&b->lock);
    if (atomic_load(&b->word) == is) pthread_cond_wait(&b->rung, &b->lock);
    pthread_mutex_unlock(&b->lock);
    pthread_setcancelstate(was, NULL);
}
static inline void port_wake_one(zaulinte_bell *b) {
    pthread_mutex_lock(&b->lock);
    pthread_cond_signal(&b->rung);
    pthread_mutex_unlock(&b->lock);
}

#endif
