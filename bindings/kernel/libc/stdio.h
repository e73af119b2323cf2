#ifndef KERNEL_STDIO_H
#define KERNEL_STDIO_H
#include <stddef.h>
typedef struct FILE FILE;
extern FILE *const stderr;
int printf(const char *form, ...) __attribute__((format(printf, 1, 2)));
int fprintf(FILE *to, const char *form, ...) __attribute__((format(printf, 2, 3)));
int snprintf(char *to, size_t room, const char *form, ...) __attribute__((format(printf, 3, 4)));
int puts(const char *text);
#endif
