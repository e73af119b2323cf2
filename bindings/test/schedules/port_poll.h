/* zaulinte_port_poll.h itself: a thread that would sleep yields. */
#ifdef ZAULINTE_PORT_CODE
#include "explore.h"
#include <sched.h>
#define sched_yield() 0
#endif
#include "zaulinte_port_poll.h"
