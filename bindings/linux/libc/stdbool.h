#include <linux/types.h> /* bool, true and false */
