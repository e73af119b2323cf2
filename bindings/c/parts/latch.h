/* latch.h: threads wait until others have counted it down to 0; then it stays open. A file to copy. NOT PROVED, tested.
 *
 *     static latch ready;                    // all zero, as a monitor
 *     ZAULINTE_CHECK(latch_make(&ready, 4)); // opens after 4 calls of latch_count_down
 *     latch_count_down(&ready);              // any thread
 *     latch_wait(&ready);                    // any thread: returns once the latch is open
 *     latch_free(&ready);                    // after all threads are joined
 *
 * Limits: of the threads that wait, 63 have a place; more than these block until one of these has left. */
#ifndef ZAULINTE_LATCH_H
#define ZAULINTE_LATCH_H
#include "zaulinte_monitor.h"

enum { LATCH_OPEN, LATCH_WAITERS = 63 }; /* the condition; and the places of the threads that wait, of 64 */
typedef struct latch {
    zaulinte_monitor m;
    zaulinte_group waiters, counters;
    uint64_t count; /* 0: open */
} latch;

static inline bool latch_rest(void *context, const zaulinte_waiting *waiting) {
    return ((const latch *)context)->count > 0 || waiting->count[LATCH_OPEN] == 0;
}
static inline bool latch_ready(void *context, uint32_t condition, uint64_t priority, const zaulinte_waiting *waiting) {
    (void)condition, (void)priority, (void)waiting;
    return ((const latch *)context)->count == 0;
}
/* Makes a latch that opens after `count` calls of `latch_count_down`, at 0 at once. Returns 0. Refused as
 * `zaulinte_make`. */
static inline ZAULINTE_CODE latch_make(latch *l, uint64_t count) {
    uint64_t refused = zaulinte_make(&l->m, LATCH_WAITERS + 1, 1, 0);
    if (refused) return refused;
    l->count = count;
    ZAULINTE_CHECK(zaulinte_group_make(&l->waiters, &l->m, 0, LATCH_WAITERS));
    ZAULINTE_CHECK(zaulinte_group_make(&l->counters, &l->m, LATCH_WAITERS, 1));
    zaulinte_check(&l->m, NULL, latch_rest, latch_ready, l);
    zaulinte_name(&l->m, "latch", "open");
    return 0;
}
/* Frees the latch. Join the threads before: it ends the program if one is in a call. */
static inline void latch_free(latch *l) {
    ZAULINTE_CHECK(zaulinte_group_free(&l->waiters));
    ZAULINTE_CHECK(zaulinte_group_free(&l->counters));
    ZAULINTE_CHECK(zaulinte_free(&l->m));
}
/* Counts down by 1, and opens the latch at 0. Changes nothing if it is open. */
static inline void latch_count_down(latch *l) {
    uint32_t place;
    ZAULINTE_CHECK(zaulinte_borrow(&l->counters, &place));
    ZAULINTE_CHECK(zaulinte_enter(&l->m, place));
    if (l->count > 0) l->count--;
    if (l->count > 0) ZAULINTE_CHECK(zaulinte_leave(&l->m, place));
    else ZAULINTE_CHECK(zaulinte_signal_leave(&l->m, place, LATCH_OPEN, NULL));
    ZAULINTE_CHECK(zaulinte_give_back(&l->counters, place));
}
/* Blocks until the latch is open. Each thread that leaves resumes the next one. */
static inline void latch_wait(latch *l) {
    uint32_t place;
    ZAULINTE_CHECK(zaulinte_borrow(&l->waiters, &place));
    ZAULINTE_CHECK(zaulinte_enter(&l->m, place));
    if (l->count > 0) ZAULINTE_CHECK(zaulinte_wait(&l->m, place, LATCH_OPEN, 0));
    ZAULINTE_CHECK(zaulinte_signal_leave(&l->m, place, LATCH_OPEN, NULL));
    ZAULINTE_CHECK(zaulinte_give_back(&l->waiters, place));
}
#endif
