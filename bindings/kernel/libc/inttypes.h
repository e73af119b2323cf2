#ifndef KERNEL_INTTYPES_H
#define KERNEL_INTTYPES_H
#include <stdint.h>
#define PRIu32 "u"
#define PRIu64 "lu"
#endif
