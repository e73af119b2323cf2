/* A single resource, after Hoare: acquire waits, by priority, if it is busy; release hands it to the next waiter. */
#include "zaulinte_monitor.h"
#include <pthread.h>
#include <stdio.h>

enum { THREADS = 4, TURNS = 5000, NONBUSY = 0 };
static struct {
    zaulinte_monitor m;
    bool busy;
} resource;
static long used; /* touched only by the place that has the resource */

static void acquire(uint32_t place, uint64_t priority) {
    ZAULINTE_CHECK(zaulinte_enter(&resource.m, place));
    if (resource.busy) ZAULINTE_CHECK(zaulinte_wait(&resource.m, place, NONBUSY, priority));
    resource.busy = true;
    ZAULINTE_CHECK(zaulinte_leave(&resource.m, place));
}
static void release(uint32_t place) {
    ZAULINTE_CHECK(zaulinte_enter(&resource.m, place));
    resource.busy = false;
    ZAULINTE_CHECK(zaulinte_signal_leave(&resource.m, place, NONBUSY, NULL));
}
static void *uses(void *place) {
    uint32_t me = *(uint32_t *)place;
    for (int i = 0; i < TURNS; i++) {
        acquire(me, me);
        used++;
        release(me);
    }
    return NULL;
}
int main(void) {
    pthread_t ids[THREADS];
    uint32_t place[THREADS];
    ZAULINTE_CHECK(zaulinte_make(&resource.m, THREADS, 1, 0));
    for (uint32_t k = 0; k < THREADS; k++) {
        place[k] = k;
        pthread_create(&ids[k], NULL, uses, &place[k]);
    }
    for (int k = 0; k < THREADS; k++) pthread_join(ids[k], NULL);
    printf("used %ld times\n", used);
    ZAULINTE_CHECK(zaulinte_free(&resource.m));
    return used != THREADS * TURNS;
}
