/* Lines for people, on the serial port; and a log for programs. */
#include "kernel.h"

uint16_t printf_to = SERIAL;
static spin_lock ports;

static void wait_for_serial(void) {
    while (!(in8(SERIAL + 5) & 0x20)) relax();
}
static void put_serial(const char *text, size_t bytes) {
    for (; bytes; bytes--, text++) wait_for_serial(), out8(SERIAL, (uint8_t)*text);
}
static void put_log(const char *text, size_t bytes) {
    __asm__ volatile("rep outsb" : "+S"(text), "+c"(bytes) : "d"((uint16_t)LOG) : "memory");
}
void put_text(uint16_t port, const char *text, size_t bytes) {
    uint64_t flags = lock(&ports);
    (port == LOG ? put_log : put_serial)(text, bytes);
    unlock(&ports, flags);
}

typedef struct {
    char *at;
    size_t room, many;
} line;
static void put(line *l, char c) {
    if (l->many < l->room) l->at[l->many++] = c;
}
static void put_digits(line *l, uint64_t n, unsigned base) {
    char digits[24];
    size_t many = 0;
    do digits[many++] = "0123456789abcdef"[n % base];
    while (n /= base);
    while (many) put(l, digits[--many]);
}
static void put_string(line *l, const char *text) {
    while (*text) put(l, *text++);
}
static void put_signed(line *l, int64_t n) {
    if (n < 0) put(l, '-');
    put_digits(l, n < 0 ? -(uint64_t)n : (uint64_t)n, 10);
}
/* %c %d %s %u %x, and %ld %lu %lx. Returns the number of characters written; there is no zero at the end. */
size_t format(char *to, size_t room, const char *form, va_list with) {
    line l = {to, room, 0};
    for (; *form; form++) {
        if (*form != '%') {
            put(&l, *form);
            continue;
        }
        bool is_long = *++form == 'l';
        form += is_long;
        switch (*form) {
        case 's': put_string(&l, va_arg(with, const char *)); break;
        case 'c': put(&l, (char)va_arg(with, int)); break;
        case 'd': put_signed(&l, is_long ? va_arg(with, int64_t) : va_arg(with, int)); break;
        case 'u':
        case 'x':
            put_digits(&l, is_long ? va_arg(with, uint64_t) : va_arg(with, unsigned), *form == 'x' ? 16 : 10);
            break;
        default: put(&l, *form);
        }
    }
    return l.many;
}
int print(uint16_t port, const char *form, va_list with) {
    char text[240];
    size_t many = format(text, sizeof text, form, with);
    put_text(port, text, many);
    return (int)many;
}
void say(const char *form, ...) {
    va_list with;
    va_start(with, form);
    print(SERIAL, form, with);
    va_end(with);
}
void note(const char *form, ...) {
    va_list with;
    va_start(with, form);
    print(LOG, form, with);
    va_end(with);
}
/* The first failure is shown; another core that fails stops here. */
_Noreturn void fail(const char *form, ...) {
    static atomic_bool has_failed;
    va_list with;
    va_start(with, form);
    interrupts_off();
    while (atomic_exchange(&has_failed, true)) relax();
    put_text(SERIAL, "FAILED: ", 8);
    print(SERIAL, form, with);
    put_text(SERIAL, "\n", 1);
    stop(1);
}
