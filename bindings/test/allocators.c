/* Tests the two files by which the archives allocate memory.
 *
 * The heap of zaulinte_heap.c is filled with pieces of odd sizes and of each alignment. They are aligned, apart from
 * each other and inside of its room. The heap is empty again once all of them are freed, and no earlier.
 *
 * The function of zaulinte_malloc.c refuses if malloc fails, and if malloc doesn't have the alignment. */
#include <stdint.h>
#include <stdio.h>
#include <stdlib.h>
#include <string.h>
#define ZAULINTE_ROOM 4096
#define rattle_alloc heap_alloc
#define rattle_dealloc heap_dealloc
#include "zaulinte_heap.c"
#undef rattle_alloc
#undef rattle_dealloc
#define tried malloc_tried
static bool malloc_fails;
static void *test_malloc(size_t bytes) { return malloc_fails ? NULL : malloc(bytes); }
#define malloc test_malloc
#include "zaulinte_malloc.c"
#undef tried

#define IS(so) ((so) ? (void)0 : fails(__LINE__, #so))
static void fails(int line, const char *what) {
    printf("allocators.c, line %d: not so: %s\n", line, what);
    exit(1);
}
enum { MOST = 1000 };
static struct {
    unsigned char *at;
    size_t bytes;
} piece[MOST];
/* Allocates pieces until one is refused, and fills each. Returns their number. */
static int fill(void) {
    int many = 0;
    for (size_t bytes = 1;; bytes = bytes * 5 % 97 + 1, many++) {
        size_t align = (size_t)1 << (bytes % 7);
        struct tried t = heap_alloc(bytes, align);
        IS(t.is == (t.at != NULL));
        if (!t.is) return many;
        IS((uintptr_t)t.at % align == 0);
        IS((unsigned char *)t.at >= room && (unsigned char *)t.at + bytes <= room + ZAULINTE_ROOM);
        piece[many].at = t.at, piece[many].bytes = bytes;
        memset(t.at, many, bytes);
    }
}
static void heap(void) {
    IS(!heap_alloc(8, 128).is);
    IS(!heap_alloc(ZAULINTE_ROOM + 1, 1).is);
    IS(!heap_alloc((size_t)-8, 8).is);
    IS(zaulinte_room_used() == 0);
    int many = fill();
    IS(many > 60 && zaulinte_room_used() > ZAULINTE_ROOM - 200);
    for (int k = 0; k < many; k++)
        for (size_t i = 0; i < piece[k].bytes; i++) IS(piece[k].at[i] == (unsigned char)k);
    for (int k = 0; k < many; k++) IS(zaulinte_room_used() > 0), heap_dealloc(piece[k].at);
    IS(zaulinte_room_used() == 0);
    IS(heap_alloc(ZAULINTE_ROOM, 64).at == room);
}
int main(void) {
    heap();
    struct malloc_tried right = rattle_alloc(100, 16);
    IS(right.is && right.at != NULL && !rattle_alloc(100, 128).is);
    rattle_dealloc(right.at);
    malloc_fails = true;
    IS(!rattle_alloc(100, 16).is);
    return 0;
}
