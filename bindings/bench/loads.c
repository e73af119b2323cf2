/* The loads of bench/ over zaulinte_monitor: bench/run compares them with those over bench/peers/hoare.c. */
#define _GNU_SOURCE
#include "zaulinte_monitor.h"
#include <pthread.h>
#include <sched.h>
#include <stdint.h>
#include <stdio.h>
#include <stdlib.h>
#include <string.h>
#include <time.h>

enum { PLACES = 17, CONDITIONS = 8, WORKERS = 8, RING = 16 };
typedef struct {
    zaulinte_monitor z;
    int finished;
    uint64_t value, cells[RING];
    size_t count, last;
} monitor;

static void make(monitor *m) {
    memset(m, 0, sizeof *m);
    if (zaulinte_make(&m->z, PLACES, CONDITIONS, 0)) abort();
}
static void must(uint64_t code) {
    if (code) abort();
}
static void enter(monitor *m, int me) { must(zaulinte_enter(&m->z, (uint32_t)me)); }
static void leave(monitor *m, int me) { must(zaulinte_leave(&m->z, (uint32_t)me)); }
static void wait_on(monitor *m, int me, int c, uint64_t priority) {
    must(zaulinte_wait(&m->z, (uint32_t)me, (uint32_t)c, priority));
}
static void signal_on(monitor *m, int me, int c) { must(zaulinte_signal(&m->z, (uint32_t)me, (uint32_t)c, NULL)); }
static void signal_leave(monitor *m, int me, int c) {
    must(zaulinte_signal_leave(&m->z, (uint32_t)me, (uint32_t)c, NULL));
}
static int queue(monitor *m, int me, int c) {
    bool waits;
    must(zaulinte_queue(&m->z, (uint32_t)me, (uint32_t)c, &waits));
    return waits;
}
static int waiting(monitor *m, int me) {
    uint64_t all = 0;
    for (uint32_t c = 0; c < CONDITIONS; c++) {
        uint64_t count = 0;
        must(zaulinte_count(&m->z, (uint32_t)me, c, &count));
        all += count;
    }
    return (int)all;
}

#include "../../bench/peers/loads_body.c"
