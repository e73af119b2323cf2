/* zaulinte_port_poll.h: no thread sleeps; a thread that would sleep yields and polls again. The least that a port can
 * be. zaulinte_port.h says what a port owes. NOT PROVED. */
#ifndef ZAULINTE_PORT_CODE

#define ZAULINTE_PORT_NAME poll

#else

#include <sched.h>

static inline void port_make(zaulinte_bell *b) { (void)b; }
static inline void port_free(zaulinte_bell *b) { (void)b; }
static inline void port_sleep_while(zaulinte_bell *b, uint32_t is) { (void)b, (void)is, sched_yield(); }
static inline void port_wake_one(zaulinte_bell *b) { (void)b; }

#endif
