/* A program that hangs: `seen ACTS FILE` prints where each thread waits, and writes the recording of its last ACTS acts
 * to FILE. `seen` alone then hangs, for a debugger. Place 0 is inside, 1 and 2 wait, 3 and 4 are notified, 7
 * and then 5 have signalled, 6 enters, and 8 is outside. */
#define _GNU_SOURCE
#include "zaulinte_monitor.h"
#include <pthread.h>
#include <unistd.h>

enum { NONEMPTY, NONFULL, CHANGED, CONDITIONS, PLACES = 9 };
static zaulinte_monitor m;
static _Atomic int items = 1;

static void shows(void *data) { fprintf(stderr, "  %d items\n", *(_Atomic int *)data); }
static void acts(uint32_t me) {
    static const struct { uint32_t condition; uint64_t priority; } waits[] = {
        {NONEMPTY, 1}, {NONFULL, 7}, {NONFULL, 5}, {CHANGED, 2}, {CHANGED, 1}, {NONEMPTY, 0}};
    ZAULINTE_CHECK(zaulinte_enter(&m, me));
    if (me <= 5) ZAULINTE_CHECK(zaulinte_wait(&m, me, waits[me].condition, waits[me].priority));
    if (me == 5) ZAULINTE_CHECK(zaulinte_broadcast(&m, me, CHANGED, NULL));
    if (me == 5) ZAULINTE_CHECK(zaulinte_signal_to(&m, me, NONEMPTY, 0, NULL));
    if (me > 5) ZAULINTE_CHECK(zaulinte_signal(&m, me, NONEMPTY, NULL));
    ZAULINTE_CHECK(zaulinte_broadcast(&m, me, CHANGED, NULL)); /* place 0 alone comes so far */
    items++;
    pause();
}
static void *runs(void *place) {
    acts((uint32_t)(uintptr_t)place);
    return NULL;
}
static bool is_done(uintptr_t place) {
    if (place == 7) return items == 2; /* the thread of place 0 has done its last part, too */
    return place == 6 ? m.sleepers > 0 : m.place[place].away != 0;
}
/* Starts the thread of a place, and waits until it has done its part. */
static void starts(uintptr_t place) {
    pthread_t id;
    pthread_create(&id, NULL, runs, (void *)place);
    while (!is_done(place)) usleep(1000);
}
int main(int argc, char **argv) {
    size_t size = zaulinte_recording_size(argc > 1 ? strtoul(argv[1], NULL, 10) : 9);
    ZAULINTE_CHECK(zaulinte_make(&m, PLACES, CONDITIONS, 1));
    zaulinte_name(&m, "buffer", "nonempty, nonfull, changed");
    zaulinte_show(&m, shows, &items);
    ZAULINTE_CHECK(zaulinte_record(&m, malloc(size), size));
    static const uintptr_t order[] = {1, 2, 3, 4, 0, 5, 7, 6};
    for (int i = 0; i < 8; i++) starts(order[i]);
    if (argc < 3) pause();
    zaulinte_dump(&m);
    return !zaulinte_save(&m, argv[2]);
}
