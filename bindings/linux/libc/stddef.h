#include <linux/stddef.h> /* NULL and offsetof */
#include <linux/types.h>  /* size_t */
