/* A bounded buffer, after Hoare: append waits while the buffer is full, remove while it is empty. */
#include "zaulinte_monitor.h"
#include <pthread.h>
#include <stdio.h>

enum { ROOM = 8, ITEMS = 20000, NONFULL = 0, NONEMPTY = 1 };
static struct {
    zaulinte_monitor m;
    long item[ROOM];
    unsigned count, last;
} buffer;

static void append(uint32_t place, long x) {
    ZAULINTE_CHECK(zaulinte_enter(&buffer.m, place));
    if (buffer.count == ROOM) ZAULINTE_CHECK(zaulinte_wait(&buffer.m, place, NONFULL, 0));
    buffer.item[buffer.last] = x;
    buffer.last = (buffer.last + 1) % ROOM;
    buffer.count++;
    ZAULINTE_CHECK(zaulinte_signal_leave(&buffer.m, place, NONEMPTY, NULL));
}
static long take(uint32_t place) {
    ZAULINTE_CHECK(zaulinte_enter(&buffer.m, place));
    if (buffer.count == 0) ZAULINTE_CHECK(zaulinte_wait(&buffer.m, place, NONEMPTY, 0));
    long x = buffer.item[(buffer.last + ROOM - buffer.count) % ROOM];
    buffer.count--;
    ZAULINTE_CHECK(zaulinte_signal_leave(&buffer.m, place, NONFULL, NULL));
    return x;
}
static void *produces(void *unused) {
    for (long i = 1; i <= ITEMS; i++) append(0, i);
    return unused;
}
int main(void) {
    pthread_t producer;
    ZAULINTE_CHECK(zaulinte_make(&buffer.m, 2, 2, 0));
    pthread_create(&producer, NULL, produces, NULL);
    long in_order = 0;
    for (long i = 1; i <= ITEMS; i++) in_order += take(1) == i;
    pthread_join(producer, NULL);
    printf("%ld items, in order\n", in_order);
    ZAULINTE_CHECK(zaulinte_free(&buffer.m));
    return in_order != ITEMS;
}
