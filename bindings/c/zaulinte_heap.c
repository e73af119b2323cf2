/* The two functions by which the archives allocate and free memory, for programs without malloc: from one array of
 * ZAULINTE_ROOM bytes. A freed block can be allocated again only when all blocks are free. NOT PROVED. A monitor of 64
 * places takes some 8 KB, a book some 3 KB. There is no lock: one thread at a time makes and frees monitors and books
 * (the other calls of a monitor allocate nothing). */
#include <stdbool.h>
#include <stddef.h>

#ifndef ZAULINTE_ROOM
#define ZAULINTE_ROOM 12288
#endif
struct tried {
    bool is;
    void *at;
};
struct tried rattle_alloc(size_t bytes, size_t align);
void rattle_dealloc(void *at);
size_t zaulinte_room_used(void);

static _Alignas(64) unsigned char room[ZAULINTE_ROOM];
static size_t used, pieces;

struct tried rattle_alloc(size_t bytes, size_t align) {
    if (align > 64) return (struct tried){false, NULL};
    size_t from = (used + align - 1) / align * align;
    if (from > sizeof room || bytes > sizeof room - from) return (struct tried){false, NULL};
    used = from + bytes;
    pieces++;
    return (struct tried){true, room + from};
}
void rattle_dealloc(void *at) {
    (void)at;
    if (--pieces == 0) used = 0;
}
size_t zaulinte_room_used(void) { return used; }
