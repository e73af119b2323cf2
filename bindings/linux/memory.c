/* The two functions by which the archive allocates and frees memory, with kmalloc and kfree. NOT PROVED. */
#include <linux/atomic.h>
#include <linux/log2.h>
#include <linux/minmax.h>
#include <linux/slab.h>
#include "module.h"

struct tried {
    bool is;
    void *at;
};
struct tried rattle_alloc(size_t bytes, size_t align);
void rattle_dealloc(void *at);

atomic_long_t zaulinte_kept = ATOMIC_LONG_INIT(0);
/* kmalloc aligns a size that is a power of two to that size, and any other to ARCH_KMALLOC_MINALIGN. */
struct tried rattle_alloc(size_t bytes, size_t align) {
    size_t room = align <= ARCH_KMALLOC_MINALIGN ? bytes : roundup_pow_of_two(max(bytes, align));
    zaulinte_may_sleep();
    void *at = kmalloc(room, GFP_KERNEL);
    if (at) atomic_long_inc(&zaulinte_kept);
    return (struct tried){at != NULL, at};
}
void rattle_dealloc(void *at) {
    zaulinte_may_sleep();
    if (at) atomic_long_dec(&zaulinte_kept);
    kfree(at);
}
