/* work_queue.h: a bounded queue of jobs, which any number of threads submit and take. A file to copy.
 * NOT PROVED, tested.
 *
 *     static work_queue q;                               // all zero, as a monitor
 *     void *job;
 *     ZAULINTE_CHECK(work_queue_make(&q, 100));          // room for 100 jobs
 *     if (!work_queue_submit(&q, job)) free(job);        // any thread: the queue is closed
 *     while (work_queue_take(&q, &job)) run(job);        // any thread
 *     work_queue_close(&q);                              // then join the threads, and work_queue_free(&q)
 *
 * Jobs are taken in the order in which they were submitted.
 *
 * Limits: of the threads that wait for a job 32 have a place, and 31 of those that wait for room. More threads than
 * these block until one of these has its job, or its room. */
#ifndef ZAULINTE_WORK_QUEUE_H
#define ZAULINTE_WORK_QUEUE_H
#include "zaulinte_monitor.h"

/* The conditions, and the sizes of the groups. A taker waits only for a submitter or for the thread that closes the
 * queue, and a submitter only for a taker or that thread: so never all places wait. */
enum { WORK_QUEUE_NONEMPTY, WORK_QUEUE_NONFULL, WORK_QUEUE_TAKERS = 32, WORK_QUEUE_SUBMITTERS = 31 };
typedef struct work_queue {
    zaulinte_monitor m;
    zaulinte_group takers, submitters, closers;
    void **job; /* a ring: `count` jobs from `first` on */
    size_t capacity, first, count;
    bool closed;
} work_queue;

static inline bool work_queue_inv(void *context) {
    const work_queue *q = context;
    return q->count <= q->capacity && q->first < q->capacity;
}
static inline bool work_queue_rest(void *context, const zaulinte_waiting *waiting) {
    const work_queue *q = context;
    bool may_take = q->count > 0 || q->closed, may_submit = q->count < q->capacity || q->closed;
    return !(may_take && waiting->count[WORK_QUEUE_NONEMPTY]) && !(may_submit && waiting->count[WORK_QUEUE_NONFULL]);
}
static inline bool work_queue_ready(void *context, uint32_t condition, uint64_t priority, const zaulinte_waiting *w) {
    const work_queue *q = context;
    (void)priority, (void)w;
    return q->closed || (condition == WORK_QUEUE_NONEMPTY ? q->count > 0 : q->count < q->capacity);
}

/* Makes a queue with room for `capacity` jobs, and returns 0. Refused: as `zaulinte_make`, 109 `capacity` is 0. */
static inline ZAULINTE_CODE work_queue_make(work_queue *q, size_t capacity) {
    if (!capacity) return ZAULINTE_BAD_PLACES;
    uint64_t refused = zaulinte_make(&q->m, WORK_QUEUE_TAKERS + WORK_QUEUE_SUBMITTERS + 1, 2, 0);
    if (refused) return refused;
    q->job = calloc(capacity, sizeof *q->job);
    if (!q->job) {
        ZAULINTE_CHECK(zaulinte_free(&q->m));
        return ZAULINTE_NO_MEMORY;
    }
    q->capacity = capacity, q->first = q->count = 0, q->closed = false;
    ZAULINTE_CHECK(zaulinte_group_make(&q->takers, &q->m, 0, WORK_QUEUE_TAKERS));
    ZAULINTE_CHECK(zaulinte_group_make(&q->submitters, &q->m, WORK_QUEUE_TAKERS, WORK_QUEUE_SUBMITTERS));
    ZAULINTE_CHECK(zaulinte_group_make(&q->closers, &q->m, WORK_QUEUE_TAKERS + WORK_QUEUE_SUBMITTERS, 1));
    zaulinte_check(&q->m, work_queue_inv, work_queue_rest, work_queue_ready, q);
    zaulinte_name(&q->m, "work_queue", "nonempty, nonfull");
    return 0;
}
/* Frees the queue, but no job that is left in it. Join the threads before: it ends the program if one is in a call. */
static inline void work_queue_free(work_queue *q) {
    ZAULINTE_CHECK(zaulinte_group_free(&q->takers));
    ZAULINTE_CHECK(zaulinte_group_free(&q->submitters));
    ZAULINTE_CHECK(zaulinte_group_free(&q->closers));
    ZAULINTE_CHECK(zaulinte_free(&q->m));
    free(q->job);
}

/* A visit: by a place of a group, from the entry to a signal. */
static inline uint32_t work_queue_enter(work_queue *q, zaulinte_group *group) {
    uint32_t place;
    ZAULINTE_CHECK(zaulinte_borrow(group, &place));
    ZAULINTE_CHECK(zaulinte_enter(&q->m, place));
    return place;
}
static inline void work_queue_leave(work_queue *q, zaulinte_group *group, uint32_t place, uint32_t condition) {
    ZAULINTE_CHECK(zaulinte_signal_leave(&q->m, place, condition, NULL));
    ZAULINTE_CHECK(zaulinte_give_back(group, place));
}
/* Submits a job, and blocks while there is no room. Returns false if the queue is closed: the job isn't in it then. */
static inline bool work_queue_submit(work_queue *q, void *job) {
    uint32_t place = work_queue_enter(q, &q->submitters);
    if (q->count == q->capacity && !q->closed)
        ZAULINTE_CHECK(zaulinte_wait(&q->m, place, WORK_QUEUE_NONFULL, 0));
    bool is_open = !q->closed;
    if (is_open) q->job[(q->first + q->count++) % q->capacity] = job;
    work_queue_leave(q, &q->submitters, place, is_open ? WORK_QUEUE_NONEMPTY : WORK_QUEUE_NONFULL);
    return is_open;
}
/* Takes the job that was submitted first, and blocks while there is none. Returns false, and leaves *job, if the queue
 * is closed and empty. */
static inline bool work_queue_take(work_queue *q, void **job) {
    uint32_t place = work_queue_enter(q, &q->takers);
    if (q->count == 0 && !q->closed)
        ZAULINTE_CHECK(zaulinte_wait(&q->m, place, WORK_QUEUE_NONEMPTY, 0));
    bool is_there = q->count > 0;
    if (is_there) {
        *job = q->job[q->first];
        q->first = (q->first + 1) % q->capacity, q->count--;
    }
    work_queue_leave(q, &q->takers, place, q->closed ? WORK_QUEUE_NONEMPTY : WORK_QUEUE_NONFULL);
    return is_there;
}
/* Closes the queue: no job is submitted any more, and takers get those that are left. Resumes all threads that wait in
 * it: each signals the next one as it leaves. */
static inline void work_queue_close(work_queue *q) {
    uint32_t place = work_queue_enter(q, &q->closers);
    q->closed = true;
    work_queue_leave(q, &q->closers, place, q->count == 0 ? WORK_QUEUE_NONEMPTY : WORK_QUEUE_NONFULL);
}
#endif
