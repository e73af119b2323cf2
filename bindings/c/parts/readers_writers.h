/* readers_writers.h: readers use data together, a writer alone (C. A. R. Hoare, "Monitors", CACM 17(10), 1974).
 * A file to copy. NOT PROVED, tested.
 *
 *     static readers_writers lock;                       // all zero, as a monitor
 *     ZAULINTE_CHECK(readers_writers_make(&lock));
 *     start_read(&lock), look_up(key), end_read(&lock);  // any thread
 *     start_write(&lock), insert(key), end_write(&lock); // any thread
 *     readers_writers_free(&lock);                       // after all threads are joined
 *
 * A thread that starts to read waits if a writer writes or waits. A writer that ends lets all waiting readers in first.
 *
 * Limits: any number of threads read at a time. Of the threads that wait to start, 56 have a place; more than these
 * block until one of these has started, and the rule doesn't see them. If a read is short, keep the data in a monitor
 * instead: a read by two visits, as here, takes longer (docs/BINDINGS.md). */
#ifndef ZAULINTE_READERS_WRITERS_H
#define ZAULINTE_READERS_WRITERS_H
#include "zaulinte_monitor.h"

/* The conditions, and the sizes of the groups. Only threads that start wait, and those that end signal them. */
enum { READERS_WRITERS_READ, READERS_WRITERS_WRITE, READERS_WRITERS_STARTERS = 56, READERS_WRITERS_ENDERS = 8 };
typedef struct readers_writers {
    zaulinte_monitor m;
    zaulinte_group starters, enders;
    uint64_t readers;
    bool writes;
} readers_writers;

static inline bool readers_writers_inv(void *context) {
    const readers_writers *l = context;
    return !(l->writes && l->readers > 0) && l->readers <= UINT64_MAX / 2; /* else more reads ended than began */
}
static inline bool readers_writers_rest(void *context, const zaulinte_waiting *waiting) {
    const readers_writers *l = context;
    if (waiting->count[READERS_WRITERS_WRITE] > 0) return l->writes || l->readers > 0;
    return l->writes || waiting->count[READERS_WRITERS_READ] == 0;
}
static inline bool readers_writers_ready(void *context, uint32_t condition, uint64_t priority,
                                         const zaulinte_waiting *waiting) {
    const readers_writers *l = context;
    (void)priority, (void)waiting;
    return !l->writes && (condition == READERS_WRITERS_READ || l->readers == 0);
}
/* Makes the lock, and returns 0. Refused as `zaulinte_make`. */
static inline ZAULINTE_CODE readers_writers_make(readers_writers *l) {
    uint64_t refused = zaulinte_make(&l->m, READERS_WRITERS_STARTERS + READERS_WRITERS_ENDERS, 2, 0);
    if (refused) return refused;
    l->readers = 0, l->writes = false;
    ZAULINTE_CHECK(zaulinte_group_make(&l->starters, &l->m, 0, READERS_WRITERS_STARTERS));
    ZAULINTE_CHECK(zaulinte_group_make(&l->enders, &l->m, READERS_WRITERS_STARTERS, READERS_WRITERS_ENDERS));
    zaulinte_check(&l->m, readers_writers_inv, readers_writers_rest, readers_writers_ready, l);
    zaulinte_name(&l->m, "readers_writers", "read, write");
    return 0;
}
/* Frees the lock. Join the threads before: it ends the program if one is in a call. */
static inline void readers_writers_free(readers_writers *l) {
    ZAULINTE_CHECK(zaulinte_group_free(&l->starters));
    ZAULINTE_CHECK(zaulinte_group_free(&l->enders));
    ZAULINTE_CHECK(zaulinte_free(&l->m));
}

/* Enters by a place of the group, which it returns. */
static inline uint32_t readers_writers_enter(readers_writers *l, zaulinte_group *group) {
    uint32_t place;
    ZAULINTE_CHECK(zaulinte_borrow(group, &place));
    ZAULINTE_CHECK(zaulinte_enter(&l->m, place));
    return place;
}
static inline bool readers_writers_waits(readers_writers *l, uint32_t place, uint32_t condition) {
    bool waits;
    ZAULINTE_CHECK(zaulinte_queue(&l->m, place, condition, &waits));
    return waits;
}
/* Blocks until the thread may read. A reader that waited resumes the next one. */
static inline void start_read(readers_writers *l) {
    uint32_t place = readers_writers_enter(l, &l->starters);
    if (l->writes || readers_writers_waits(l, place, READERS_WRITERS_WRITE))
        ZAULINTE_CHECK(zaulinte_wait(&l->m, place, READERS_WRITERS_READ, 0));
    l->readers++;
    ZAULINTE_CHECK(zaulinte_signal_leave(&l->m, place, READERS_WRITERS_READ, NULL));
    ZAULINTE_CHECK(zaulinte_give_back(&l->starters, place));
}
/* Ends a read. The last reader resumes a waiting writer. */
static inline void end_read(readers_writers *l) {
    uint32_t place = readers_writers_enter(l, &l->enders);
    if (--l->readers > 0) ZAULINTE_CHECK(zaulinte_leave(&l->m, place));
    else ZAULINTE_CHECK(zaulinte_signal_leave(&l->m, place, READERS_WRITERS_WRITE, NULL));
    ZAULINTE_CHECK(zaulinte_give_back(&l->enders, place));
}
/* Blocks until the thread may write. */
static inline void start_write(readers_writers *l) {
    uint32_t place = readers_writers_enter(l, &l->starters);
    if (l->writes || l->readers > 0) ZAULINTE_CHECK(zaulinte_wait(&l->m, place, READERS_WRITERS_WRITE, 0));
    l->writes = true;
    ZAULINTE_CHECK(zaulinte_leave(&l->m, place));
    ZAULINTE_CHECK(zaulinte_give_back(&l->starters, place));
}
/* Ends a write, and resumes a waiting reader; if no reader waits, a waiting writer. */
static inline void end_write(readers_writers *l) {
    uint32_t place = readers_writers_enter(l, &l->enders);
    bool some_read = readers_writers_waits(l, place, READERS_WRITERS_READ);
    uint32_t next = some_read ? READERS_WRITERS_READ : READERS_WRITERS_WRITE;
    l->writes = false;
    ZAULINTE_CHECK(zaulinte_signal_leave(&l->m, place, next, NULL));
    ZAULINTE_CHECK(zaulinte_give_back(&l->enders, place));
}
#endif
