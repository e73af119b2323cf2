#ifndef KERNEL_STDLIB_H
#define KERNEL_STDLIB_H
#include <stddef.h>
void *malloc(size_t bytes);
void *aligned_alloc(size_t align, size_t bytes);
void free(void *at);
_Noreturn void exit(int status);
_Noreturn void abort(void);
unsigned long strtoul(const char *text, char **end, int base);
unsigned long long strtoull(const char *text, char **end, int base);
#endif
