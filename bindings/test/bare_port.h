/* A port for a program without a C library, of one thread: no thread sleeps or is woken. */
#ifndef ZAULINTE_PORT_CODE

#define ZAULINTE_PORT_NAME bare

#else

#define port_thread() 1

static inline void port_make(zaulinte_bell *b) { (void)b; }
static inline void port_free(zaulinte_bell *b) { (void)b; }
static inline void port_sleep_while(zaulinte_bell *b, uint32_t is) { (void)b, (void)is; }
static inline void port_wake_one(zaulinte_bell *b) { (void)b; }

#endif
