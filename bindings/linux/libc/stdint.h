/* The kernel's types: its uint64_t isn't the compiler's. */
#ifndef LINUX_STDINT_H
#define LINUX_STDINT_H
#include <linux/types.h>
#define UINT32_MAX 0xffffffffu
#define UINT64_MAX 0xffffffffffffffffull
#define UINT64_C(number) number##ull
#endif
