/* The archive's memory: ../c/zaulinte_heap.c under a lock. Fails if a handler makes or frees a monitor. */
#include "kernel.h"

struct tried {
    bool is;
    void *at;
};
struct tried rattle_alloc(size_t bytes, size_t align);
void rattle_dealloc(void *at);
struct tried heap_alloc(size_t bytes, size_t align);
void heap_dealloc(void *at);

static spin_lock heap;
static uint64_t lock_heap(void) {
    if (in_handler()) fail("an interrupt handler takes or frees memory");
    return lock(&heap);
}
struct tried rattle_alloc(size_t bytes, size_t align) {
    uint64_t flags = lock_heap();
    struct tried got = heap_alloc(bytes, align);
    unlock(&heap, flags);
    return got;
}
void rattle_dealloc(void *at) {
    uint64_t flags = lock_heap();
    heap_dealloc(at);
    unlock(&heap, flags);
}
