#ifndef KERNEL_STRING_H
#define KERNEL_STRING_H
#include <stddef.h>
void *memset(void *to, int is, size_t bytes);
void *memcpy(void *to, const void *from, size_t bytes);
#endif
