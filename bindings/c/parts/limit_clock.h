/* limit_clock.h: waits with a time limit. One clock thread serves any number of monitors, and sleeps until the first
 * deadline. A file to copy. NOT PROVED, tested on Linux.
 *
 *     static limit_clock timer; static limit on_item;         // all zero
 *     limit_clock_add(&timer, &on_item, &m, ITEM, CLOCK);     // place CLOCK of m is for the clock thread alone
 *     if (limit_clock_start(&timer)) abort();
 *     if (!items && !limit_wait(&on_item, k, 0, limit_deadline(20))) .. // by place k, inside: 20 ms are over
 *     limit_cancel(&on_item, j, k);                           // by place j, inside: ends the wait of place k
 *     limit_clock_stop(&timer);                               // after the threads that wait are joined
 *
 * A limit changes no order. A waiter has the priority that its thread passes, and a signal resumes the waiter of least
 * priority, of equal ones the longest waiting, whichever is due first. Threads signal as ever. The limit keeps the
 * deadline of each place; the clock thread resumes each waiter that is due by `zaulinte_signal_to`, whichever waits
 * before it, and the others keep their order. `limit_cancel` does the same for one place before its deadline: a client
 * is gone, for example. `limit_wait` returns false if its wait ended so, and true if another thread signalled. The
 * waiter is inside as soon as it is resumed, and no other signal goes to it: so no item is lost or taken twice.
 *
 * The user owes: the condition is one of Hoare's, and a wait on it that shall have a limit, or that `limit_cancel` may
 * end, is by `limit_wait`. Other threads may wait there by `zaulinte_wait`: the clock thread never resumes these. If
 * they are tested, `inv` holds when the clock thread signals, and `ready` of the condition holds if `by_clock` of the
 * limit is true.
 *
 * Limits: all limits are added before the clock starts. Each time that one is due, the clock thread enters all of the
 * monitors, and looks at 64 deadlines in each: so a thread that stays inside one of them delays the limits of all. Of
 * waiters that are due at one visit the clock thread resumes that of the lowest place first.
 *
 * Needs POSIX: compile with -std=gnu11, or define _GNU_SOURCE before the first #include. On Linux the clock thread
 * sleeps by a timerfd; elsewhere, and if LIMIT_CLOCK_CONDVAR is defined, by a condition variable. If that can't take
 * CLOCK_MONOTONIC, the deadlines are times of CLOCK_REALTIME (not tested). */
#ifndef ZAULINTE_LIMIT_CLOCK_H
#define ZAULINTE_LIMIT_CLOCK_H
#include "zaulinte_monitor.h"
#include <errno.h>
#include <pthread.h>
#include <time.h>
#include <unistd.h>
#ifndef CLOCK_MONOTONIC
#error "limit_clock.h needs POSIX: compile with -std=gnu11, or define _GNU_SOURCE before the first #include"
#endif
#if !defined(__linux__) && !defined(LIMIT_CLOCK_CONDVAR)
#define LIMIT_CLOCK_CONDVAR
#endif
#ifndef LIMIT_CLOCK_CONDVAR
#include <sys/timerfd.h>
#endif
#if _POSIX_CLOCK_SELECTION > 0
#define LIMIT_TIME CLOCK_MONOTONIC
#else
#define LIMIT_TIME CLOCK_REALTIME
#endif

/* The waits with a limit on one condition of a monitor. The clock thread enters by `place`. */
typedef struct limit {
    zaulinte_monitor *m;
    uint32_t condition, place;
    bool by_clock;         /* the clock thread or a cancel ended a wait, and its `limit_wait` hasn't returned yet */
    uint64_t deadline[64]; /* of each place. UINT64_MAX: none. 0: the place isn't in `limit_wait` */
    struct limit_clock *clock;
    struct limit *next; /* of the same clock */
} limit;
typedef struct limit_clock {
    _Atomic uint64_t due; /* the clock thread sleeps until then, in nanoseconds of LIMIT_TIME. UINT64_MAX: for ever */
    _Atomic bool ends;
    _Atomic uint64_t wakes; /* how often the clock thread woke, and visited the monitors */
    limit *limits;
    pthread_t thread;
#ifdef LIMIT_CLOCK_CONDVAR
    pthread_mutex_t lock;
    pthread_cond_t changed;
#else
    int timer;
#endif
} limit_clock;

static inline void limit_test(int failed) {
    if (failed) perror("limit_clock"), abort();
}
static inline uint64_t limit_now(void) {
    struct timespec now;
    limit_test(clock_gettime(LIMIT_TIME, &now));
    return (uint64_t)now.tv_sec * 1000000000 + (uint64_t)now.tv_nsec;
}
static inline struct timespec limit_time(uint64_t due) {
    return (struct timespec){(time_t)(due / 1000000000), (long)(due % 1000000000)};
}

/* How the clock thread sleeps. `limit_open` returns 0 or an error number. `limit_sleep` sleeps until `due`, and may
 * return earlier; `limit_arm` makes it see that `due` was lowered. */
#ifdef LIMIT_CLOCK_CONDVAR
static inline int limit_open(limit_clock *c) {
    pthread_condattr_t with;
    pthread_condattr_init(&with);
#if _POSIX_CLOCK_SELECTION > 0
    pthread_condattr_setclock(&with, LIMIT_TIME);
#endif
    int refused = pthread_cond_init(&c->changed, &with);
    pthread_condattr_destroy(&with);
    return refused ? refused : pthread_mutex_init(&c->lock, NULL);
}
static inline void limit_close(limit_clock *c) {
    pthread_cond_destroy(&c->changed);
    pthread_mutex_destroy(&c->lock);
}
static inline void limit_arm(limit_clock *c) {
    pthread_mutex_lock(&c->lock);
    pthread_cond_signal(&c->changed);
    pthread_mutex_unlock(&c->lock);
}
static inline void limit_sleep(limit_clock *c) {
    pthread_mutex_lock(&c->lock);
    for (uint64_t due; (due = atomic_load(&c->due)) > limit_now();) {
        struct timespec until = limit_time(due);
        if (due == UINT64_MAX) pthread_cond_wait(&c->changed, &c->lock);
        else pthread_cond_timedwait(&c->changed, &c->lock, &until);
    }
    pthread_mutex_unlock(&c->lock);
}
#else
static inline int limit_open(limit_clock *c) {
    c->timer = timerfd_create(LIMIT_TIME, TFD_CLOEXEC);
    return c->timer < 0 ? errno : 0;
}
static inline void limit_close(limit_clock *c) { close(c->timer); }
/* Several threads may arm the timer at once. The last of them reads `due` afterwards: the timer is armed for that. */
static inline void limit_arm(limit_clock *c) {
    uint64_t due;
    do {
        due = atomic_load(&c->due);
        struct itimerspec at = {{0, 0}, limit_time(due ? due : 1)}; /* 0 would disarm it */
        limit_test(timerfd_settime(c->timer, TFD_TIMER_ABSTIME, &at, NULL));
    } while (atomic_load(&c->due) != due);
}
static inline void limit_sleep(limit_clock *c) {
    uint64_t times;
    limit_test(read(c->timer, &times, sizeof times) < 0 && errno != EINTR);
}
#endif

/* Lowers `due` to the deadline if that is earlier. Returns true if so: the caller then arms the clock. */
static inline bool limit_lower(limit_clock *c, uint64_t deadline) {
    uint64_t due = atomic_load(&c->due);
    while (deadline < due && !atomic_compare_exchange_weak(&c->due, &due, deadline)) {}
    return deadline < due;
}
/* Ends the wait of the place `waiter` on the condition of the limit, by `place`, which is inside: its `limit_wait`
 * returns false. Returns false, and does nothing, if `waiter` isn't in `limit_wait`, or is no place. */
static inline bool limit_cancel(limit *l, uint32_t place, uint32_t waiter) {
    if (waiter >= 64 || !l->deadline[waiter]) return false;
    l->by_clock = true;
    ZAULINTE_CHECK(zaulinte_signal_to(l->m, place, l->condition, waiter, NULL));
    return true;
}
/* Resumes all waiters of a limit that are due. Returns the first deadline that is left. */
static inline uint64_t limit_visit(limit *l) {
    uint64_t now = limit_now(), first = UINT64_MAX;
    ZAULINTE_CHECK(zaulinte_enter(l->m, l->place));
    for (uint32_t k = 0; k < 64; k++) {
        if (l->deadline[k] <= now) limit_cancel(l, l->place, k);
        else if (l->deadline[k] < first) first = l->deadline[k];
    }
    ZAULINTE_CHECK(zaulinte_leave(l->m, l->place));
    return first;
}
static inline uint64_t limit_visit_all(limit_clock *c) {
    uint64_t first = UINT64_MAX;
    for (limit *l = c->limits; l; l = l->next) {
        uint64_t left = limit_visit(l);
        if (left < first) first = left;
    }
    return first;
}
/* No deadline is lost: a waiter lowers `due` while it is inside. If that comes before the store here, the visit after
 * the store finds the waiter; if it comes later, `due` stays as low. */
static inline void *limit_clock_run(void *of) {
    limit_clock *c = of;
    for (;; c->wakes++) {
        atomic_store(&c->due, UINT64_MAX);
        if (atomic_load(&c->ends)) return NULL;
        limit_lower(c, limit_visit_all(c));
        limit_arm(c);
        limit_sleep(c);
    }
}

/* Adds the waits on `condition` of `m` to the clock, before it starts. No other thread uses `place` of `m`; the limits
 * of one monitor may share it. */
static inline void limit_clock_add(limit_clock *c, limit *l, zaulinte_monitor *m, uint32_t condition, uint32_t place) {
    *l = (limit){.m = m, .condition = condition, .place = place, .clock = c, .next = c->limits};
    c->limits = l;
}
/* Starts the clock thread, and returns 0, or an error number: no thread or no timer can be made. */
static inline int limit_clock_start(limit_clock *c) {
    int refused = limit_open(c);
    if (refused) return refused;
    c->due = UINT64_MAX;
    c->wakes = 0;
    c->ends = false;
    refused = pthread_create(&c->thread, NULL, limit_clock_run, c);
    if (refused) limit_close(c);
    return refused;
}
/* Ends the clock thread, and joins it. No thread may be in `limit_wait` meanwhile. Limits may be added then, and the
 * clock started again. */
static inline void limit_clock_stop(limit_clock *c) {
    c->ends = true;
    limit_lower(c, 0);
    limit_arm(c);
    limit_test(pthread_join(c->thread, NULL));
    limit_close(c);
}

/* Returns the deadline that is so many milliseconds from now. */
static inline uint64_t limit_deadline(uint64_t milliseconds) {
    uint64_t now = limit_now();
    return milliseconds < (UINT64_MAX - now) / 1000000 ? now + 1000000 * milliseconds : UINT64_MAX;
}
/* Waits on the condition of the limit with a priority, by a place that is inside, until another thread signals it:
 * returns true. If the deadline comes first, or a `limit_cancel`, returns false. UINT64_MAX is no limit. */
static inline bool limit_wait(limit *l, uint32_t place, uint64_t priority, uint64_t deadline) {
    if (place < 64) l->deadline[place] = deadline ? deadline : 1; /* else the wait is refused */
    if (limit_lower(l->clock, deadline)) limit_arm(l->clock);
    ZAULINTE_CHECK(zaulinte_wait(l->m, place, l->condition, priority));
    bool is_over = l->by_clock;
    l->by_clock = false, l->deadline[place] = 0; /* now: the thread may signal others, or leave */
    return !is_over;
}
#endif
