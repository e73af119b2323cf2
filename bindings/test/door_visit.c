/* Measures a visit of one thread, `try_enter` and `leave`, beside a compare-and-swap and an exchange of one word, and
 * beside a mutex. Prints nanoseconds of the thread's CPU time, the least of 15 batches. No test: it only prints.
 *
 *   gcc -std=c11 -O2 -pthread -Ibindings/c bindings/test/door_visit.c bindings/c/zaulinte_malloc.c \
 *       bindings/lib/x86_64-linux/libzaulinte.a -o visit && ./visit */
#define _GNU_SOURCE
#include "zaulinte_door.h"
#include <pthread.h>
#include <stdatomic.h>
#include <stdio.h>
#include <stdlib.h>
#include <time.h>

enum { BATCHES = 15, VISITS = 1000000 };
static zaulinte_door door;
static zaulinte_door_place place, other;
static _Atomic uint64_t word;
static pthread_mutex_t lock = PTHREAD_MUTEX_INITIALIZER;

static void visit(void) {
    if (zaulinte_door_try_enter(&place) != ZAULINTE_DOOR_ENTERED) abort();
    if (zaulinte_door_leave(&place) != ZAULINTE_DOOR_NOBODY) abort();
}
static void signalled_visit(void) {
    uint64_t resumed;
    if (zaulinte_door_try_enter(&place) != ZAULINTE_DOOR_ENTERED) abort();
    if (zaulinte_door_signal_leave(&place, 0, &resumed) != ZAULINTE_DOOR_NOBODY) abort();
}
static void two_steps(void) {
    uint64_t is = 0;
    if (!atomic_compare_exchange_strong(&word, &is, 1)) abort();
    if (atomic_exchange(&word, 0) != 1) abort();
}
static void mutex(void) {
    if (pthread_mutex_lock(&lock) || pthread_mutex_unlock(&lock)) abort();
}
/* a waiter that is signalled, and both leave: eight calls */
static void hand_over(void) {
    if (zaulinte_door_try_enter(&place) != 64 || zaulinte_door_wait(&place, 0, 0) != 64) abort();
    if (zaulinte_door_try_enter(&other) != 64 || zaulinte_door_signal(&other, 0) > 63) abort();
    if (zaulinte_door_try_return(&place) != 64 || zaulinte_door_leave(&place) > 63) abort();
    if (zaulinte_door_try_return(&other) != 64 || zaulinte_door_leave(&other) != 64) abort();
}
static double now(void) {
    struct timespec t;
    clock_gettime(CLOCK_THREAD_CPUTIME_ID, &t);
    return (double)t.tv_sec * 1e9 + (double)t.tv_nsec;
}
static double batch(void (*does)(void)) {
    double start = now();
    for (int i = 0; i < VISITS; i++) does();
    return (now() - start) / VISITS;
}
int main(void) {
    static const struct { const char *name; void (*does)(void); } rows[] = {
        {"compare-and-swap, exchange", two_steps}, {"pthread mutex: lock, unlock", mutex},
        {"door: try_enter, leave", visit}, {"door: try_enter, signal_leave", signalled_visit},
        {"door: enter, wait, enter, signal, return, leave, return, leave", hand_over}};
    enum { ROWS = sizeof rows / sizeof *rows };
    double least[ROWS];
    if (zaulinte_door_make(&door, 2, 2, 1, 0)) return 2;
    if (zaulinte_door_give_out(&door, &other) > 63 || zaulinte_door_give_out(&door, &place) > 63) return 2;
    for (int b = 0; b < BATCHES; b++) {
        for (int r = 0; r < ROWS; r++) {
            double took = batch(rows[r].does);
            if (b == 0 || took < least[r]) least[r] = took;
        }
    }
    for (int r = 0; r < ROWS; r++) printf("%7.1f ns  %s\n", least[r], rows[r].name);
    return 0;
}
