/* The machine: cores and time of a PC. The timer (8254) interrupts the first core through an 8259. Each core's own
 * timer, in its local APIC, ends the slices. */
#include "kernel.h"

enum { TRAMPOLINE = 0x8000, PER_SECOND = 1000, STEPS_PER_SECOND = 1193182 };
void start_core(uint32_t number);
void run_all(void); /* main.c */
extern char trampoline[], trampoline_end[];
extern _Atomic uint32_t cores_started;

core cores[CORES];
uint32_t cores_up = 1;
static _Atomic uint32_t cores_ready;
static thread idle[CORES];

/* the local APIC */
enum { ID = 0x20, END = 0xb0, SPURIOUS_AT = 0xf0, SEND = 0x300, SEND_TO = 0x310 };
enum { TIMER_AS = 0x320, LINE_0 = 0x350, TIMER_FROM = 0x380, TIMER_NOW = 0x390, TIMER_BY = 0x3e0 };
static volatile uint32_t *apic(uint32_t at) { return (volatile uint32_t *)(uintptr_t)(0xfee00000u + at); }
static uint32_t slice; /* its timer's steps in a millisecond */
static void send(uint32_t to, uint32_t what) {
    while (*apic(SEND) & 0x1000) relax();
    *apic(SEND_TO) = to << 24;
    *apic(SEND) = what;
}
void call_core(uint32_t number) { send(cores[number].apic, CALL); }
void end_slice_interrupt(void) { *apic(END) = 0; }
static void start_apic(bool first) {
    *apic(LINE_0) = first ? 0x700 : 0x10000; /* the 8259 interrupts the first core */
    *apic(SPURIOUS_AT) = 0x100 | SPURIOUS;
    *apic(TIMER_BY) = 3;
    *apic(TIMER_AS) = 0x20000 | SLICE_ENDS;
    *apic(TIMER_FROM) = slice;
}

/* time, measured once by the 8254 */
static uint64_t counter(void) { return __builtin_ia32_rdtsc(); }
static uint64_t counter_from, counter_per_ms;
int64_t nanoseconds(void) {
    uint64_t now = counter() - counter_from;
    return (int64_t)(now / counter_per_ms * 1000000 + now % counter_per_ms * 1000000 / counter_per_ms);
}
static void wait_10_ms(void) {
    uint32_t steps = STEPS_PER_SECOND / 100;
    out8(0x61, (uint8_t)((in8(0x61) & ~2) | 1));
    out8(0x43, 0xb0);
    out8(0x42, (uint8_t)steps);
    out8(0x42, (uint8_t)(steps >> 8));
    while (!(in8(0x61) & 0x20)) {}
}
static void wait_100_ms(void) {
    for (int i = 0; i < 10; i++) wait_10_ms();
}
/* Takes the shortest of five measures: QEMU's host may stop a core during a measure. */
static void measure_time(void) {
    *apic(SPURIOUS_AT) = 0x100 | SPURIOUS;
    *apic(TIMER_BY) = 3;
    *apic(TIMER_AS) = 0x10000;
    *apic(TIMER_FROM) = UINT32_MAX;
    slice = UINT32_MAX;
    counter_per_ms = UINT64_MAX;
    for (int i = 0; i < 5; i++) {
        uint64_t from = counter();
        uint32_t steps = *apic(TIMER_NOW);
        wait_10_ms();
        steps = (steps - *apic(TIMER_NOW)) / 10;
        uint64_t many = (counter() - from) / 10;
        if (steps < slice) slice = steps;
        if (many < counter_per_ms) counter_per_ms = many;
    }
    counter_from = counter();
}

void end_tick(void) { out8(0x20, 0x20); }
/* The first 8259: vectors from 32 on. Only the timer may interrupt. */
static void start_timer(void) {
    static const uint8_t words[] = {0x11, TIMER, 4, 1};
    for (int i = 0; i < 4; i++) out8(i ? 0x21 : 0x20, words[i]);
    out8(0x21, 0xff & ~1);
    uint32_t steps = STEPS_PER_SECOND / PER_SECOND;
    out8(0x43, 0x34);
    out8(0x40, (uint8_t)steps);
    out8(0x40, (uint8_t)(steps >> 8));
}

static void copy_trampoline(void) {
    char *to = (char *)(uintptr_t)TRAMPOLINE;
    __asm__ volatile("" : "+r"(to)); /* an address that the compiler can't object to */
    for (char *from = trampoline; from < trampoline_end; from++) *to++ = *from;
}
/* Starts the other cores, all at once, and waits until no further core has come up for a tenth of a second. */
static void start_others(void) {
    copy_trampoline();
    send(0, 0xc4500);
    wait_10_ms();
    uint32_t came = 0;
    while (came != atomic_load(&cores_started)) {
        came = atomic_load(&cores_started);
        send(0, 0xc4600 | TRAMPOLINE >> 12); /* a core that is up ignores it */
        wait_100_ms();
    }
    cores_up = came < CORES ? came : CORES;
}
static void wait_for_others(void) {
    while (atomic_load(&cores_ready) + 1 < cores_up) relax();
}
static void know_core(uint32_t number) {
    core *mine = &cores[number];
    uint64_t at = (uint64_t)(uintptr_t)mine;
    mine->self = mine;
    mine->number = number;
    mine->thread = &idle[number];
    mine->apic = *apic(ID) >> 24;
    __asm__ volatile("wrmsr" ::"c"(0xc0000101), "a"((uint32_t)at), "d"((uint32_t)(at >> 32)));
}
static void *run_first(void *unused) {
    run_all();
    return unused;
}
void start_core(uint32_t number) {
    load_tables(number);
    know_core(number);
    if (number == 0) {
        make_gates();
        measure_time();
        start_others();
        wait_for_others();
        start_timer();
        start_thread(run_first, NULL);
    } else {
        atomic_fetch_add(&cores_ready, 1);
    }
    start_apic(number == 0);
    run_idle(&idle[number]);
}
_Noreturn void stop(uint32_t status) {
    for (;;) __asm__ volatile("outl %0, %1; cli; hlt" ::"a"(status), "Nd"((uint16_t)0xf4));
}
