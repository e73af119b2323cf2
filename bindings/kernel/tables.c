/* The tables that an x86-64 processor needs, and what each interrupt does. */
#include "kernel.h"

struct frame { /* as interrupts.S puts it on the stack */
    uint64_t r15, r14, r13, r12, r11, r10, r9, r8, rbp, rdi, rsi, rdx, rcx, rbx, rax;
    uint64_t vector, error, rip, cs, flags, rsp, ss;
};
void interrupt(struct frame *f);
extern char vectors[];
extern uint64_t gdt[];

_Atomic uint64_t ticks;
static void (*_Atomic on_tick)(void);
void tick_by(void (*handler)(void)) {
    atomic_store(&on_tick, handler);
    uint64_t since = atomic_load(&ticks);
    while (atomic_load(&ticks) == since) yield(); /* the tick after that begins once the earlier handler has ended */
}

static struct {
    uint16_t low, segment;
    uint8_t stack, kind;
    uint16_t middle;
    uint32_t high, none;
} gates[256];
struct __attribute__((packed)) table {
    uint16_t last;
    void *at;
};
static struct __attribute__((packed)) {
    uint32_t none;
    uint64_t stacks[3], none_either, interrupt_stacks[7];
    uint64_t nor_this;
    uint16_t nor_that, no_ports;
} tasks[CORES];
static _Alignas(16) unsigned char interrupt_stacks[CORES][1024];

/* Each interrupt arrives with interrupts off, on the core's interrupt stack. */
void make_gates(void) {
    for (int v = 0; v < 256; v++) {
        uint64_t at = (uint64_t)(uintptr_t)vectors + 16 * (uint64_t)v;
        gates[v].low = (uint16_t)at;
        gates[v].middle = (uint16_t)(at >> 16);
        gates[v].high = (uint32_t)(at >> 32);
        gates[v].segment = 0x18;
        gates[v].stack = 1;
        gates[v].kind = 0x8e;
    }
}
void load_tables(uint32_t number) {
    uint64_t at = (uint64_t)(uintptr_t)&tasks[number];
    tasks[number].interrupt_stacks[0] = (uint64_t)(uintptr_t)(interrupt_stacks[number] + sizeof interrupt_stacks[0]);
    tasks[number].no_ports = sizeof tasks[0];
    gdt[4 + 2 * number] = (sizeof tasks[0] - 1) | (at & 0xffffff) << 16 | 0x89ull << 40 | (at >> 24 & 0xff) << 56;
    gdt[5 + 2 * number] = at >> 32;
    struct table t = {sizeof gates - 1, gates};
    __asm__ volatile("lidt %0; ltr %w1" ::"m"(t), "r"(0x20 + 16 * number));
}

static void handle_tick(void) {
    atomic_fetch_add(&ticks, 1);
    void (*handler)(void) = atomic_load(&on_tick);
    if (handler) handler();
}
static void handle(uint64_t vector) {
    switch (vector) {
    case TIMER:
        handle_tick();
        end_tick();
        break;
    case SLICE_ENDS:
    case CALL: end_slice_interrupt();
    }
}
/* interrupts.S calls it, with interrupts off. A thread is preempted once its handler has ended. */
void interrupt(struct frame *f) {
    core *mine = this_core();
    if (f->vector < 32)
        fail("core %u: exception %lu, error %lx, at %lx", mine->number, f->vector, f->error, f->rip);
    mine->has_handler = 1;
    handle(f->vector);
    mine->has_handler = 0;
    mine->called += f->vector == CALL;
    if (f->vector == SLICE_ENDS) preempt();
}
