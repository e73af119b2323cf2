/* No C library at all: x86-64 Linux, with an entry and an exit of its own. Fills a book of 64 places
 * three times, so that freed memory is used again. The status is 0, or 1 if a call was refused. */
#include "zaulinte_book.h"
#include <stddef.h>

size_t zaulinte_room_used(void);
void _start(void);

static zaulinte_book b;
static int fills(void) {
    if (zaulinte_book_make(&b, 64, 8, 4)) return 1;
    for (uint64_t k = 0; k < 64; k++) {
        if (zaulinte_book_enter(&b, k) != k) return 1;
        if (zaulinte_book_wait(&b, k, k % 8, k) != ZAULINTE_FREE) return 1;
    }
    return zaulinte_room_used() == 0 || zaulinte_book_free(&b) || zaulinte_room_used() != 0;
}
__attribute__((force_align_arg_pointer, noreturn)) void _start(void) {
    int status = fills() || fills() || fills();
    __asm__ volatile("syscall" ::"a"(60), "D"(status) : "memory");
    __builtin_unreachable();
}
