/* What the parts of the kernel use of each other. */
#ifndef KERNEL_H
#define KERNEL_H
#include "programs.h"
#include <stdarg.h>
#include <stddef.h>

/* The vectors of the interrupts. */
enum { TIMER = 32, SLICE_ENDS = 64, CALL = 65, SPURIOUS = 255 };

/* A core. While a thread runs, its interrupts are on, and it may be taken to another core at any instruction. */
typedef struct core {
    struct thread *thread; /* %gs:0 */
    uint64_t has_handler;  /* %gs:8: 1 while an interrupt handler runs, else 0 */
    struct core *self;     /* %gs:16 */
    uint32_t number, apic;
    bool is_idle; /* under the lock of threads.c */
    uint64_t preempted, switched, called; /* counts */
} core;
extern core cores[CORES];
extern uint32_t cores_up;
static inline struct thread *this_thread(void) { /* one instruction, so interrupts needn't be off */
    struct thread *mine;
    __asm__ volatile("mov %%gs:0, %0" : "=r"(mine));
    return mine;
}
static inline bool in_handler(void) { /* likewise */
    uint64_t is;
    __asm__ volatile("mov %%gs:8, %0" : "=r"(is));
    return is != 0;
}
static inline core *this_core(void) { /* with interrupts off */
    core *mine;
    __asm__ volatile("mov %%gs:16, %0" : "=r"(mine));
    return mine;
}
/* ports and interrupts */
static inline void out8(uint16_t port, uint8_t is) { __asm__ volatile("outb %0, %1" ::"a"(is), "Nd"(port)); }
static inline uint8_t in8(uint16_t port) {
    uint8_t is;
    __asm__ volatile("inb %1, %0" : "=a"(is) : "Nd"(port));
    return is;
}
static inline uint64_t interrupts_off(void) {
    uint64_t flags;
    __asm__ volatile("pushfq; pop %0; cli" : "=r"(flags)::"memory");
    return flags;
}
static inline void interrupts_as(uint64_t flags) {
    if (flags & 0x200) __asm__ volatile("sti" ::: "memory");
}
/* For a loop that polls a word. Under QEMU without KVM `pause` leaves the compiled code and takes a lock, by which an
 * item of a buffer takes ten times as long: so -DPAUSES is for a machine. */
static inline void relax(void) {
#ifdef PAUSES
    __builtin_ia32_pause();
#else
    __asm__ volatile("" ::: "memory");
#endif
}
/* A lock that a handler may take: interrupts are off while it is held. */
typedef struct spin_lock {
    atomic_bool is_held;
} spin_lock;
static inline uint64_t lock(spin_lock *l) {
    uint64_t flags = interrupts_off();
    while (atomic_exchange(&l->is_held, true)) relax();
    return flags;
}
static inline void unlock(spin_lock *l, uint64_t flags) {
    atomic_store(&l->is_held, false);
    interrupts_as(flags);
}

/* machine.c: cores and time */
void call_core(uint32_t number); /* interrupts another core, so that it takes a ready thread */
void end_slice_interrupt(void);
void end_tick(void);
_Noreturn void stop(uint32_t status); /* ends QEMU, whose status is then 2 * status + 1 */

/* tables.c: what the processor asks of a kernel, and the interrupts */
extern _Atomic uint64_t ticks;
void make_gates(void);
void load_tables(uint32_t number);

/* threads.c */
enum { STACK = 16384, THREADS = 32 };
struct thread {
    void *sp;
    thread *next; /* in the one queue that it is in */
    zaulinte_bell done;  /* 0, or 1 once it has ended */
    void *(*body)(void *);
    void *with;
    _Alignas(16) unsigned char stack[STACK];
};
void preempt(void); /* the last act of the handler at the end of a slice */
void sleep_while(zaulinte_bell *b, uint32_t is);
void wake_one(zaulinte_bell *b); /* a handler may call it too: it waits for no thread */
_Noreturn void run_idle(thread *mine);

/* console.c */
enum { SERIAL = 0x3f8, LOG = 0xe9 };
extern uint16_t printf_to; /* SERIAL or LOG: the port to which the printf of the programs writes */
void put_text(uint16_t port, const char *text, size_t bytes);
int print(uint16_t port, const char *form, va_list with);
size_t format(char *to, size_t room, const char *form, va_list with);

/* the programs that main.c runs after those of programs.h */
void run_registers(void);
void run_clock(void);
void *memset(void *to, int is, size_t bytes);
void *memcpy(void *to, const void *from, size_t bytes);
#endif
