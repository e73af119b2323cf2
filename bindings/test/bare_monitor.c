/* A monitor without a C library: x86-64 Linux, with an entry and an exit of its own, bare_port.h and zaulinte_heap.c.
 * Makes a monitor of 64 places three times, so that freed memory is used again; each place enters, calls and leaves.
 * The status is 0, or 1 if a call was refused. */
#include "zaulinte_monitor.h"
#include <stddef.h>

size_t zaulinte_room_used(void);
void _start(void);

static zaulinte_monitor m;
static uint64_t visits(uint32_t place) {
    uint64_t called, refused = zaulinte_enter(&m, place);
    if (!refused) refused = zaulinte_signal(&m, place, 0, NULL);
    if (!refused) refused = zaulinte_broadcast(&m, place, 7, &called);
    return refused ? refused : zaulinte_leave(&m, place);
}
static int fails(void) {
    uint64_t refused = zaulinte_make(&m, 64, 8, 4);
    for (uint32_t k = 0; k < 64 && !refused; k++) refused = visits(k);
    return refused || zaulinte_room_used() == 0 || zaulinte_free(&m) || zaulinte_room_used() != 0;
}
__attribute__((force_align_arg_pointer, noreturn)) void _start(void) {
    int status = fails() || fails() || fails();
    __asm__ volatile("syscall" ::"a"(60), "D"(status) : "memory");
    __builtin_unreachable();
}
