/* What zaulinte_monitor.c asks of this kernel. ../c/zaulinte_port.h says what a port owes. NOT PROVED. */
#ifndef ZAULINTE_PORT_CODE

#define ZAULINTE_PORT_NAME kernel
#define ZAULINTE_STDIO 0
struct thread;
struct thread_queue {
    struct thread *first, *last;
};
#define ZAULINTE_BELL_FIELDS struct thread_queue sleepers; /* under the lock of threads.c */

#else

extern uint32_t cores_up;
uintptr_t caller(void); /* the thread, or this core's handler */
void sleep_while(zaulinte_bell *b, uint32_t is);
void wake_one(zaulinte_bell *b);

#define ZAULINTE_POLLS (cores_up > 1 ? 2000 : 0)
#define port_thread() caller()
#ifndef PAUSES
#define port_relax() __asm__ volatile("" ::: "memory") /* kernel.h has the reason */
#endif
static inline void port_make(zaulinte_bell *b) { (void)b; } /* all zero is right */
static inline void port_free(zaulinte_bell *b) { (void)b; }
static inline void port_sleep_while(zaulinte_bell *b, uint32_t is) { sleep_while(b, is); }
static inline void port_wake_one(zaulinte_bell *b) { wake_one(b); }

#endif
