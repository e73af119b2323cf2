/* A program that hangs on purpose: `append` forgets to signal. After a second it prints what each place does, and
 * writes the acts of its threads to the file that it was given, as a script. */
#include "zaulinte_monitor.h"
#include <pthread.h>
#include <threads.h>

enum { ROOM = 2, NONFULL = 0, NONEMPTY = 1 };
static struct {
    zaulinte_monitor m;
    long item[ROOM];
    unsigned count, last;
} buffer;

static void append(uint32_t place, long x) {
    ZAULINTE_CHECK(zaulinte_enter(&buffer.m, place));
    if (buffer.count == ROOM) ZAULINTE_CHECK(zaulinte_wait(&buffer.m, place, NONFULL, 0));
    buffer.item[buffer.last] = x;
    buffer.last = (buffer.last + 1) % ROOM;
    buffer.count++;
    ZAULINTE_CHECK(zaulinte_leave(&buffer.m, place)); /* not signal_leave */
}
static long take(uint32_t place) {
    ZAULINTE_CHECK(zaulinte_enter(&buffer.m, place));
    if (buffer.count == 0) ZAULINTE_CHECK(zaulinte_wait(&buffer.m, place, NONEMPTY, 0));
    long x = buffer.item[(buffer.last + ROOM - buffer.count) % ROOM];
    buffer.count--;
    ZAULINTE_CHECK(zaulinte_signal_leave(&buffer.m, place, NONFULL, NULL));
    return x;
}
static void *consumes(void *unused) {
    for (;;) take(1);
    return unused;
}
static void *produces(void *unused) {
    for (long i = 1;; i++) append(0, i);
    return unused;
}
static void show(void *data) { fprintf(stderr, "  %u of %d items\n", *(unsigned *)data, ROOM); }
static void starts(void *(*runs)(void *)) {
    pthread_t id;
    pthread_create(&id, NULL, runs, NULL);
    thrd_sleep(&(struct timespec){.tv_nsec = 500000000}, NULL);
}
int main(int argc, char **argv) {
    size_t size = zaulinte_recording_size(400);
    ZAULINTE_CHECK(zaulinte_make(&buffer.m, 2, 2, 0));
    zaulinte_name(&buffer.m, "buffer", "nonfull, nonempty");
    zaulinte_show(&buffer.m, show, &buffer.count);
    ZAULINTE_CHECK(zaulinte_record(&buffer.m, malloc(size), size));
    starts(consumes);
    starts(produces);
    zaulinte_dump(&buffer.m);
    return argc > 1 && !zaulinte_save(&buffer.m, argv[1]);
}
