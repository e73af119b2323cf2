/* Hoare's disk head: a request waits for the sweep that reaches its cylinder, and a release hands the drive to the next
 * request of the present sweep. The decisions are the proved steps of zaulinte_head.h. */
#include "zaulinte_head.h"
#include "zaulinte_monitor.h"
#include <pthread.h>
#include <sched.h>
#include <stdio.h>

enum { THREADS = 4, TURNS = 2000, LAST = 399 };
static struct {
    zaulinte_monitor m;
    zaulinte_head head;
} disk;
static uint64_t travelled, at, granted; /* touched only by the place that has the drive */

static void request(uint32_t place, uint64_t cylinder) {
    uint64_t sweep, priority;
    ZAULINTE_CHECK(zaulinte_enter(&disk.m, place));
    if (zaulinte_head_ask(&disk.head, cylinder, &sweep, &priority) == ZAULINTE_HEAD_WAITS)
        ZAULINTE_CHECK(zaulinte_wait(&disk.m, place, (uint32_t)sweep, priority));
    ZAULINTE_CHECK(zaulinte_head_grant(&disk.head, cylinder));
    ZAULINTE_CHECK(zaulinte_leave(&disk.m, place));
}
static void release(uint32_t place) {
    uint64_t sweep;
    bool waits;
    ZAULINTE_CHECK(zaulinte_enter(&disk.m, place));
    ZAULINTE_CHECK(zaulinte_queue(&disk.m, place, (uint32_t)zaulinte_head_sweep(&disk.head), &waits));
    ZAULINTE_CHECK(zaulinte_head_give_back(&disk.head, waits, &sweep));
    ZAULINTE_CHECK(zaulinte_signal_leave(&disk.m, place, (uint32_t)sweep, NULL));
}
static void *reads(void *place) {
    uint32_t me = *(uint32_t *)place;
    for (uint64_t i = 0, cylinder = me; i < TURNS; i++) {
        cylinder = (cylinder * 37 + 11) % (LAST + 1);
        request(me, cylinder);
        travelled += at < cylinder ? cylinder - at : at - cylinder;
        at = cylinder, granted++;
        sched_yield(); /* the drive reads, and others ask meanwhile */
        release(me);
    }
    return NULL;
}
int main(void) {
    pthread_t ids[THREADS];
    uint32_t place[THREADS];
    ZAULINTE_CHECK(zaulinte_make(&disk.m, THREADS, 2, 0));
    ZAULINTE_CHECK(zaulinte_head_make(&disk.head, LAST));
    for (uint32_t k = 0; k < THREADS; k++) {
        place[k] = k;
        pthread_create(&ids[k], NULL, reads, &place[k]);
    }
    for (int k = 0; k < THREADS; k++) pthread_join(ids[k], NULL);
    printf("%lu grants, %lu cylinders travelled\n", (unsigned long)granted, (unsigned long)travelled);
    ZAULINTE_CHECK(zaulinte_free(&disk.m));
    return granted != THREADS * TURNS;
}
