/* A port whose threads sleep and wake as explore.c says: no more than zaulinte_port.h asks of a port. */
#ifndef ZAULINTE_PORT_CODE
#define ZAULINTE_PORT_NAME weakest
#else
#include "explore.h"
static inline void port_make(zaulinte_bell *b) { (void)b; }
static inline void port_free(zaulinte_bell *b) { (void)b; }
static inline void port_sleep_while(zaulinte_bell *b, uint32_t is) { x_sleep_while((void *)&b->word, is); }
static inline void port_wake_one(zaulinte_bell *b) { x_wake_one((void *)&b->word); }
#endif
