/* barrier.h: each thread waits until as many have arrived as there are parties, round after round. A file to copy.
 * NOT PROVED, tested.
 *
 *     static barrier b;                    // all zero, as a monitor
 *     ZAULINTE_CHECK(barrier_make(&b, 8)); // 8 threads
 *     compute(part);                       // each of them, in each round
 *     if (barrier_wait(&b)) collect();     // true in one of them: the last to arrive
 *     barrier_free(&b);                    // after all threads are joined
 *
 * Limits: 1 to 64 parties, since all but one of them wait at once. */
#ifndef ZAULINTE_BARRIER_H
#define ZAULINTE_BARRIER_H
#include "zaulinte_monitor.h"

enum { BARRIER_ALL_HERE }; /* the condition */
typedef struct barrier {
    zaulinte_monitor m;
    zaulinte_group threads;
    uint32_t parties, here; /* here: the threads that have arrived in this round, and haven't left */
    bool all_here;          /* from the last arrival until all have left */
} barrier;

static inline bool barrier_rest(void *context, const zaulinte_waiting *waiting) {
    const barrier *b = context;
    return !b->all_here && b->here < b->parties && waiting->count[BARRIER_ALL_HERE] == b->here;
}
static inline bool barrier_ready(void *context, uint32_t condition, uint64_t priority, const zaulinte_waiting *w) {
    const barrier *b = context;
    (void)condition, (void)priority;
    return b->all_here && w->count[BARRIER_ALL_HERE] == b->here - 1;
}
static inline bool barrier_inv(void *context) {
    const barrier *b = context;
    return b->here <= b->parties;
}
/* Makes a barrier of `parties` threads, 1 to 64, and returns 0. Refused as `zaulinte_make`. */
static inline ZAULINTE_CODE barrier_make(barrier *b, uint32_t parties) {
    uint64_t refused = zaulinte_make(&b->m, parties, 1, 0);
    if (refused) return refused;
    b->parties = parties, b->here = 0, b->all_here = false;
    ZAULINTE_CHECK(zaulinte_group_make(&b->threads, &b->m, 0, parties));
    zaulinte_check(&b->m, barrier_inv, barrier_rest, barrier_ready, b);
    zaulinte_name(&b->m, "barrier", "all_here");
    return 0;
}
/* Frees the barrier. Join the threads before: it ends the program if one is in a call. */
static inline void barrier_free(barrier *b) {
    ZAULINTE_CHECK(zaulinte_group_free(&b->threads));
    ZAULINTE_CHECK(zaulinte_free(&b->m));
}
/* Blocks until all parties have arrived. Returns true in the thread that arrived last. That thread resumes the first
 * waiter, and each waiter the next one. No thread enters between them, so none begins the next round before. */
static inline bool barrier_wait(barrier *b) {
    uint32_t place;
    ZAULINTE_CHECK(zaulinte_borrow(&b->threads, &place));
    ZAULINTE_CHECK(zaulinte_enter(&b->m, place));
    bool is_last = ++b->here == b->parties;
    if (is_last) b->all_here = true;
    else ZAULINTE_CHECK(zaulinte_wait(&b->m, place, BARRIER_ALL_HERE, 0));
    if (--b->here == 0) b->all_here = false;
    ZAULINTE_CHECK(zaulinte_signal_leave(&b->m, place, BARRIER_ALL_HERE, NULL));
    ZAULINTE_CHECK(zaulinte_give_back(&b->threads, place));
    return is_last;
}
#endif
