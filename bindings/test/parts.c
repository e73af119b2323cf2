/* The parts to copy (bindings/c/parts), each by threads. `parts NAME` tests one of them. A thread that sleeps for ever
 * ends the program by a signal. */
#define _GNU_SOURCE
#if defined(__linux__) && !defined(LIMIT_CLOCK_CONDVAR)
#include <stdatomic.h>
#include <sys/timerfd.h>
/* Each third thread that arms the timer does so after a pause: meanwhile others arm it. */
static int arms_late(int timer, int flags, const struct itimerspec *to, struct itimerspec *was) {
    static atomic_uint times;
    if (times++ % 3 == 0) nanosleep(&(struct timespec){0, 1}, NULL);
    return timerfd_settime(timer, flags, to, was);
}
#define timerfd_settime arms_late
#endif
#include "parts/barrier.h"
#include "parts/latch.h"
#include "parts/limit_clock.h"
#include "parts/readers_writers.h"
#include "parts/work_queue.h"
#include <inttypes.h>
#include <sched.h>

static void is(int line, const char *what, uint64_t found, uint64_t wanted) {
    if (found == wanted) return;
    fprintf(stderr, "parts.c, line %d: %s: %" PRIu64 " and not %" PRIu64 "\n", line, what, found, wanted);
    exit(1);
}
#define IS(what, wanted) is(__LINE__, #what, (what), (wanted))
typedef void *(*body)(void *);
static void starts(pthread_t *ids, int threads, body runs, void *with) {
    for (int k = 0; k < threads; k++) IS(pthread_create(&ids[k], NULL, runs, with), 0);
}
static void joins(pthread_t *ids, int threads) {
    for (int k = 0; k < threads; k++) pthread_join(ids[k], NULL);
}
/* Returns once so many places wait on a condition, by a visit of a place of the group. */
static void until_waiting(zaulinte_monitor *m, zaulinte_group *group, uint32_t condition, uint64_t wanted) {
    for (uint64_t found = wanted + 1; found != wanted; sched_yield()) {
        uint32_t place;
        ZAULINTE_CHECK(zaulinte_borrow(group, &place));
        ZAULINTE_CHECK(zaulinte_enter(m, place));
        ZAULINTE_CHECK(zaulinte_count(m, place, condition, &found));
        ZAULINTE_CHECK(zaulinte_leave(m, place));
        ZAULINTE_CHECK(zaulinte_give_back(group, place));
    }
}

/* The work queue: each job that was submitted is taken once, also if it is closed while threads wait in it. */
enum { TAKERS = 300, SUBMITTERS = 20, EACH = 30, JOBS = SUBMITTERS * EACH, ROOM = 7 };
static work_queue queue;
static _Atomic uint64_t jobs[JOBS], submitted, taken, refused;
static void *submits(void *all) {
    for (uint64_t n; (n = atomic_fetch_add(&submitted, 1)) < *(uint64_t *)all;)
        if (!work_queue_submit(&queue, (void *)&jobs[n])) refused++;
    return NULL;
}
static void *takes(void *unused) {
    for (void *job; work_queue_take(&queue, &job); taken++) ++*(_Atomic uint64_t *)job;
    return unused;
}
static void takes_all(void) {
    pthread_t takers[TAKERS], submitters[SUBMITTERS];
    uint64_t all = JOBS;
    ZAULINTE_CHECK(work_queue_make(&queue, ROOM));
    starts(takers, TAKERS, takes, NULL);
    until_waiting(&queue.m, &queue.closers, WORK_QUEUE_NONEMPTY, WORK_QUEUE_TAKERS);
    starts(submitters, SUBMITTERS, submits, &all);
    joins(submitters, SUBMITTERS);
    until_waiting(&queue.m, &queue.closers, WORK_QUEUE_NONEMPTY, WORK_QUEUE_TAKERS);
    work_queue_close(&queue);
    joins(takers, TAKERS);
    work_queue_free(&queue);
    for (int n = 0; n < JOBS; n++) IS(jobs[n], 1);
    IS(taken, JOBS);
    IS(refused, 0);
}
static void closes_full(void) {
    pthread_t submitters[SUBMITTERS];
    uint64_t all = ROOM + SUBMITTERS;
    void *job = NULL;
    submitted = 0;
    ZAULINTE_CHECK(work_queue_make(&queue, ROOM));
    starts(submitters, 1, submits, &(uint64_t){ROOM});
    joins(submitters, 1);
    submitted = ROOM;
    starts(submitters, SUBMITTERS, submits, &all);
    until_waiting(&queue.m, &queue.closers, WORK_QUEUE_NONFULL, SUBMITTERS);
    work_queue_close(&queue);
    joins(submitters, SUBMITTERS);
    IS(refused, SUBMITTERS);
    for (int n = 0; n < ROOM; n++) IS(work_queue_take(&queue, &job) && job == &jobs[n], true);
    IS(work_queue_take(&queue, &job), false);
    IS(work_queue_submit(&queue, job), false);
    work_queue_free(&queue);
}
static void queues(void) {
    takes_all();
    closes_full();
    IS(work_queue_make(&queue, 0), ZAULINTE_BAD_PLACES);
}

/* The latch: no thread continues before the last call of count_down, and all do after it. */
enum { WAITERS = 100, COUNT = 10 };
static latch opens;
static _Atomic uint64_t counted;
static void *waits_for_latch(void *unused) {
    latch_wait(&opens);
    IS(counted, COUNT);
    return unused;
}
static void *counts_down(void *unused) {
    counted++;
    latch_count_down(&opens);
    return unused;
}
static void latches(void) {
    pthread_t waiters[WAITERS], counters[COUNT];
    ZAULINTE_CHECK(latch_make(&opens, COUNT));
    starts(waiters, WAITERS, waits_for_latch, NULL);
    until_waiting(&opens.m, &opens.counters, LATCH_OPEN, LATCH_WAITERS);
    starts(counters, COUNT, counts_down, NULL);
    joins(waiters, WAITERS);
    joins(counters, COUNT);
    latch_count_down(&opens);
    latch_wait(&opens);
    latch_free(&opens);
}

/* The barrier: after a round of it all threads have arrived, and one of them was last. */
enum { MOST = 64, ROUNDS = 1000 };
static barrier meets;
static _Atomic uint64_t arrived[ROUNDS], last[ROUNDS];
static void *meets_all(void *rounds) {
    for (int n = 0; n < *(int *)rounds; n++) {
        arrived[n]++;
        if (barrier_wait(&meets)) last[n]++;
        IS(arrived[n], meets.parties);
    }
    return NULL;
}
static void meet(uint32_t parties, int rounds) {
    pthread_t ids[MOST];
    for (int n = 0; n < rounds; n++) arrived[n] = last[n] = 0;
    ZAULINTE_CHECK(barrier_make(&meets, parties));
    starts(ids, (int)parties, meets_all, &rounds);
    joins(ids, (int)parties);
    barrier_free(&meets);
    for (int n = 0; n < rounds; n++) IS(last[n], 1);
}
static void barriers(void) {
    meet(8, ROUNDS);
    meet(MOST, 30);
    meet(1, 30);
    IS(barrier_make(&meets, MOST + 1), ZAULINTE_BAD_PLACES);
}

/* Readers and writers: a reader sees a value whole; two readers read at once; and Hoare's rule for a reader and writers
 * that wait. */
enum { READERS = 70, WRITERS = 10, TURNS = 100 };
static readers_writers lock;
static uint64_t left, right;
static char order[20];
static void *reads(void *unused) {
    for (int n = 0; n < TURNS; n++) {
        start_read(&lock);
        IS(left, right);
        end_read(&lock);
    }
    return unused;
}
static void *writes(void *unused) {
    for (int n = 0; n < TURNS; n++) {
        start_write(&lock);
        left++;
        sched_yield();
        right++;
        end_write(&lock);
    }
    return unused;
}
static void *reads_with_another(void *unused) {
    start_read(&lock);
    barrier_wait(&meets);
    end_read(&lock);
    return unused;
}
static void *reads_once(void *unused) {
    start_read(&lock);
    strcat(order, "r");
    end_read(&lock);
    return unused;
}
static void *writes_once(void *unused) {
    start_write(&lock);
    strcat(order, "w");
    end_write(&lock);
    return unused;
}
static void rule(void) {
    pthread_t ids[3];
    start_read(&lock);
    starts(&ids[0], 1, writes_once, NULL);
    until_waiting(&lock.m, &lock.enders, READERS_WRITERS_WRITE, 1);
    starts(&ids[1], 1, reads_once, NULL);
    until_waiting(&lock.m, &lock.enders, READERS_WRITERS_READ, 1);
    starts(&ids[2], 1, writes_once, NULL);
    until_waiting(&lock.m, &lock.enders, READERS_WRITERS_WRITE, 2);
    end_read(&lock);
    joins(ids, 3);
    IS(strcmp(order, "wrw"), 0);
}
static void readers_and_writers(void) {
    pthread_t readers[READERS], writers[WRITERS];
    ZAULINTE_CHECK(readers_writers_make(&lock));
    start_read(&lock);
    starts(writers, WRITERS, writes, NULL);
    until_waiting(&lock.m, &lock.enders, READERS_WRITERS_WRITE, WRITERS);
    starts(readers, READERS, reads, NULL);
    until_waiting(&lock.m, &lock.enders, READERS_WRITERS_READ, READERS_WRITERS_STARTERS - WRITERS);
    end_read(&lock);
    joins(readers, READERS);
    joins(writers, WRITERS);
    IS(left, WRITERS * TURNS);
    ZAULINTE_CHECK(barrier_make(&meets, 2));
    starts(readers, 2, reads_with_another, NULL);
    joins(readers, 2);
    barrier_free(&meets);
    rule();
    readers_writers_free(&lock);
}

/* Limits: STORES monitors with one clock. A wait ends not before its time, and soon after it; each item is taken once;
 * the clock thread sleeps until the next deadline; and a limit, or a cancel, changes the order of no other wait. */
enum { STORES = 3, OF_EACH = 4, WAITS = 12, GIVEN = 20, ITEM = 0, PLACES = 64, CLOCK = 63, SOON = 10000, FAR = 20000 };
typedef struct store {
    zaulinte_monitor m;
    zaulinte_group takers, givers;
    limit on_item;
    uint64_t items;
} store;
static store stores[STORES];
static limit_clock timer;
static _Atomic uint64_t got, over;
static bool store_rest(void *context, const zaulinte_waiting *waiting) {
    const store *s = context;
    return !s->on_item.by_clock && (!s->items || !waiting->count[ITEM]);
}
static bool store_ready(void *context, uint32_t condition, uint64_t priority, const zaulinte_waiting *waiting) {
    const store *s = context;
    (void)condition, (void)priority, (void)waiting;
    return !s->items == s->on_item.by_clock;
}
/* A thread that takes an item, if it comes before the deadline. With a name it writes that into `order`, after a `-` if
 * its wait ended early. */
typedef struct taker {
    const char *name;
    uint64_t priority, deadline; /* or PLAIN: it waits by `zaulinte_wait` */
    uint32_t place;
} taker;
static const uint64_t PLAIN = UINT64_MAX - 1;
static _Atomic uint64_t takers_inside;
static bool waits_for_item(store *s, taker *t) {
    takers_inside++;
    if (t->deadline != PLAIN) return limit_wait(&s->on_item, t->place, t->priority, t->deadline);
    ZAULINTE_CHECK(zaulinte_wait(&s->m, t->place, ITEM, t->priority));
    return true;
}
static bool takes_by(store *s, taker *t) {
    ZAULINTE_CHECK(zaulinte_borrow(&s->takers, &t->place));
    ZAULINTE_CHECK(zaulinte_enter(&s->m, t->place));
    bool is_there = s->items > 0 || waits_for_item(s, t);
    if (is_there) IS(s->items-- > 0, true);
    if (t->name) strcat(strcat(order, is_there ? "" : "-"), t->name);
    ZAULINTE_CHECK(zaulinte_leave(&s->m, t->place));
    ZAULINTE_CHECK(zaulinte_give_back(&s->takers, t->place));
    return is_there;
}
static bool takes_item(store *s, uint64_t deadline) {
    uint64_t from = limit_now();
    bool is_there = takes_by(s, &(taker){.deadline = deadline});
    uint64_t now = limit_now();
    if (!is_there) IS(now >= deadline && now - from < SOON * UINT64_C(1000000), true);
    return is_there;
}
static void gives_item(store *s) {
    uint32_t place;
    ZAULINTE_CHECK(zaulinte_borrow(&s->givers, &place));
    ZAULINTE_CHECK(zaulinte_enter(&s->m, place));
    s->items++;
    ZAULINTE_CHECK(zaulinte_signal_leave(&s->m, place, ITEM, NULL));
    ZAULINTE_CHECK(zaulinte_give_back(&s->givers, place));
}
static void *takes_items(void *of) {
    for (uint64_t n = 0; n < WAITS; n++)
        if (takes_item(of, limit_deadline(5 + 35 * n / (WAITS - 1)))) got++;
        else over++;
    return NULL;
}
static void sleeps(uint64_t milliseconds) {
    struct timespec time = limit_time(1000000 * milliseconds);
    nanosleep(&time, NULL);
}
static void *gives_items(void *unused) {
    for (int n = 0; n < GIVEN; n++) {
        for (int k = 0; k < STORES; k++) gives_item(&stores[k]);
        sleeps(7);
    }
    return unused;
}
static void take_items(bool are_given) {
    pthread_t takers[STORES][OF_EACH], giver;
    uint64_t items = 0, woken = timer.wakes;
    got = over = 0;
    for (int k = 0; k < STORES; k++) starts(takers[k], OF_EACH, takes_items, &stores[k]);
    if (are_given) starts(&giver, 1, gives_items, NULL);
    for (int k = 0; k < STORES; k++) joins(takers[k], OF_EACH);
    if (are_given) joins(&giver, 1);
    for (int k = 0; k < STORES; k++) items += stores[k].items, stores[k].items = 0;
    IS(got + items, are_given ? STORES * GIVEN : 0);
    IS(timer.wakes - woken <= 2 * over + got, true);
}
/* Rounds of one waiter for each store: if a deadline is lost, no later one of the round makes the clock thread wake. */
static void *takes_in_rounds(void *of) {
    uint64_t k = (uint64_t)((store *)of - stores);
    for (uint64_t n = 0; n < ROUNDS; n++) {
        IS(takes_item(of, limit_now() + 1000 * ((k + 3) * n % 101)), false);
        barrier_wait(&meets);
    }
    return NULL;
}
static void take_in_rounds(void) {
    pthread_t ids[STORES];
    ZAULINTE_CHECK(barrier_make(&meets, STORES));
    for (int k = 0; k < STORES; k++) starts(&ids[k], 1, takes_in_rounds, &stores[k]);
    joins(ids, STORES);
    barrier_free(&meets);
}
/* Three takers of the first store begin to wait, one after the other. */
static void *takes_in_order(void *with) { return takes_by(&stores[0], with), NULL; }
static void begin(taker *t, pthread_t *ids) {
    *order = 0;
    takers_inside = 0;
    for (int k = 0; k < 3; k++) {
        starts(&ids[k], 1, takes_in_order, &t[k]);
        while (takers_inside <= (uint64_t)k) sched_yield();
    }
}
/* Those that still wait get an item each. */
static void end(pthread_t *ids, int items, const char *wanted) {
    for (int k = 0; k < items; k++) gives_item(&stores[0]);
    joins(ids, 3);
    if (strcmp(order, wanted)) fprintf(stderr, "the order is %s and not %s\n", order, wanted);
    IS(strcmp(order, wanted), 0);
}
static bool cancels(uint32_t waiter) {
    store *s = &stores[0];
    uint32_t place;
    ZAULINTE_CHECK(zaulinte_borrow(&s->givers, &place));
    ZAULINTE_CHECK(zaulinte_enter(&s->m, place));
    bool did = limit_cancel(&s->on_item, place, waiter);
    ZAULINTE_CHECK(zaulinte_leave(&s->m, place));
    ZAULINTE_CHECK(zaulinte_give_back(&s->givers, place));
    return did;
}
static void take_in_order(const taker *of, const char *wanted) {
    pthread_t ids[3];
    taker t[3] = {of[0], of[1], of[2]};
    begin(t, ids);
    end(ids, 3, wanted);
}
/* The wait of the second ends early: by its limit, or by a cancel if that is far. */
static void take_without_second(taker *t, const char *wanted) {
    pthread_t ids[3];
    begin(t, ids);
    if (t[1].deadline > limit_deadline(SOON)) {
        until_waiting(&stores[0].m, &stores[0].givers, ITEM, 3);
        IS(cancels(t[1].place), true);
    }
    until_waiting(&stores[0].m, &stores[0].givers, ITEM, 2);
    for (uint32_t k = 0; k <= 64; k++)
        if (k != t[0].place && k != t[2].place) IS(cancels(k), false);
    end(ids, 2, wanted);
}
static void keep_order(void) {
    uint64_t far = limit_deadline(2 * FAR), before = limit_deadline(FAR), woken = timer.wakes, never = UINT64_MAX;
    take_in_order((taker[]){{"a", 7, far, 0}, {"b", 7, before, 0}, {"c", 7, never, 0}}, "abc");
    take_in_order((taker[]){{"a", 5, before, 0}, {"b", 1, never, 0}, {"c", 3, far, 0}}, "bca");
    take_in_order((taker[]){{"a", 0, never, 0}, {"b", 0, PLAIN, 0}, {"c", 0, before, 0}}, "abc");
    IS(timer.wakes - woken <= 2, true);
    take_without_second((taker[]){{"a", 0, never, 0}, {"b", 0, limit_deadline(30), 0}, {"c", 0, far, 0}}, "-bac");
    take_without_second((taker[]){{"a", 6, far, 0}, {"b", 7, limit_deadline(30), 0}, {"c", 5, never, 0}}, "-bca");
    IS(timer.wakes - woken <= 6, true);
    take_without_second((taker[]){{"a", 0, before, 0}, {"b", 0, far, 0}, {"c", 0, never, 0}}, "-bac");
    take_without_second((taker[]){{"a", 2, before, 0}, {"b", 3, never, 0}, {"c", 1, far, 0}}, "-bca");
    IS(timer.wakes - woken <= 6, true);
}
static void limits(void) {
    for (int k = 0; k < STORES; k++) {
        store *s = &stores[k];
        ZAULINTE_CHECK(zaulinte_make(&s->m, PLACES, 1, 0));
        zaulinte_check(&s->m, NULL, store_rest, store_ready, s);
        ZAULINTE_CHECK(zaulinte_group_make(&s->takers, &s->m, 0, 60));
        ZAULINTE_CHECK(zaulinte_group_make(&s->givers, &s->m, 60, 3));
        limit_clock_add(&timer, &s->on_item, &s->m, ITEM, CLOCK);
    }
    IS((uint64_t)limit_clock_start(&timer), 0);
    IS(takes_item(&stores[0], 0), false);
    keep_order();
    take_in_rounds();
    take_items(false);
    take_items(true);
    limit_clock_stop(&timer);
    IS((uint64_t)limit_clock_start(&timer), 0);
    IS(takes_item(&stores[1], limit_deadline(5)), false);
    limit_clock_stop(&timer);
}

static const struct {
    const char *name;
    void (*test)(void);
} parts[] = {{"work_queue", queues},
             {"latch", latches},
             {"barrier", barriers},
             {"readers_writers", readers_and_writers},
             {"limit_clock", limits}};
int main(int argc, char **argv) {
    alarm(100);
    for (size_t k = 0; k < sizeof parts / sizeof *parts; k++)
        if (argc < 2 || !strcmp(argv[1], parts[k].name)) parts[k].test();
    return 0;
}
