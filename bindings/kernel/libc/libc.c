/* What the examples and the stress ask of a C library, and what a compiler asks of any. */
#include "kernel.h"
#include <pthread.h>
#include <sched.h>
#include <stdio.h>
#include <stdlib.h>
#include <string.h>
#include <time.h>
#include <unistd.h>

void *memset(void *to, int is, size_t bytes) {
    void *at = to;
    __asm__ volatile("rep stosb" : "+D"(at), "+c"(bytes) : "a"(is) : "memory");
    return to;
}
void *memcpy(void *to, const void *from, size_t bytes) {
    void *at = to;
    __asm__ volatile("rep movsb" : "+D"(at), "+S"(from), "+c"(bytes)::"memory");
    return to;
}
int pthread_create(pthread_t *id, const void *attributes, void *(*body)(void *), void *with) {
    (void)attributes;
    *id = start_thread(body, with);
    return 0;
}
int pthread_join(pthread_t id, void **result) {
    (void)result;
    join_thread(id);
    return 0;
}
int pthread_detach(pthread_t id) {
    (void)id;
    return 0;
}
int sched_yield(void) {
    yield();
    return 0;
}
int nanosleep(const struct timespec *time, struct timespec *left) {
    (void)left;
    int64_t until = nanoseconds() + time->tv_sec * 1000000000 + time->tv_nsec;
    while (nanoseconds() < until) yield();
    return 0;
}
unsigned sleep(unsigned seconds) {
    nanosleep(&(struct timespec){seconds, 0}, NULL);
    return 0;
}

FILE *const stderr = NULL;
int printf(const char *form, ...) {
    va_list with;
    va_start(with, form);
    int many = print(printf_to, form, with);
    va_end(with);
    return many;
}
int fprintf(FILE *to, const char *form, ...) {
    (void)to;
    va_list with;
    va_start(with, form);
    int many = print(SERIAL, form, with);
    va_end(with);
    return many;
}
int snprintf(char *to, size_t room, const char *form, ...) {
    va_list with;
    va_start(with, form);
    size_t many = format(to, room - 1, form, with);
    va_end(with);
    to[many] = 0;
    return (int)many;
}
int puts(const char *text) { return printf("%s\n", text); }

/* Memory from the kernel's end on, which is never given back. One thread at a time calls. */
extern char ended[];
extern uint32_t memory_kb;
static char *free_from = ended;
void *malloc(size_t bytes) {
    size_t left = (size_t)memory_kb * 1024 + 0x100000 - (size_t)(uintptr_t)free_from;
    if (bytes > left - 64) return NULL;
    void *at = free_from;
    free_from += (bytes + 63) / 64 * 64;
    return at;
}
void *aligned_alloc(size_t align, size_t bytes) { return align <= 64 ? malloc(bytes) : NULL; }
void free(void *at) { (void)at; }
void exit(int status) { fail("exit %d", status); }
void abort(void) { fail("abort"); }
unsigned long long strtoull(const char *text, char **end, int base) {
    (void)end;
    unsigned long long n = 0;
    while (*text) n = n * (unsigned)base + (unsigned)(*text++ - '0');
    return n;
}
unsigned long strtoul(const char *text, char **end, int base) { return strtoull(text, end, base); }
