/* Threads over one door. Two only poll. Eight share a bounded buffer: producers wait on one of Hoare's conditions,
 * consumers on a Mesa condition, and each parks on the bell of its place. Three share two places, which they take and
 * give back. The sums are checked.
 *
 * The archive isn't instrumented: ThreadSanitizer doesn't see that it orders the visits. Under ThreadSanitizer the
 * word `owner` has that order: a thread stores it before it releases the monitor, and the next thread inside
 * exchanges it. So ThreadSanitizer checks the parking, and `owner` that no two threads are inside at once. The
 * archive's own order is tested only by the other runs.
 *
 *   door_threads [ROUNDS]    100,000; half as many for the buffer */
#include "zaulinte_door.h"
#include <pthread.h>
#include <sched.h>
#include <stdatomic.h>
#include <stdbool.h>
#include <stdio.h>
#include <stdlib.h>

#if defined(__SANITIZE_THREAD__)
#define IS_WATCHED 1
#elif defined(__has_feature)
#if __has_feature(thread_sanitizer)
#define IS_WATCHED 1
#endif
#endif
#ifndef IS_WATCHED
#define IS_WATCHED 0
#endif
#define CHECK(is) ((is) ? (void)0 : fails(__LINE__, #is))
static void fails(int line, const char *what) {
    fprintf(stderr, "door_threads.c, line %d: not so: %s\n", line, what);
    _Exit(1);
}
static long rounds = 100000;
static _Atomic int owner;
static void came_in(void) {
    if (IS_WATCHED) CHECK(atomic_exchange_explicit(&owner, 1, memory_order_acquire) == 0);
}
static void gives_up(void) {
    if (IS_WATCHED) atomic_store_explicit(&owner, 0, memory_order_release);
}

/* A thread's place, with its number: the place's bell has that index. `give_out` and `collect` are called under the
 * keeper's lock, and `give_back` without it. */
enum { MOST = 8 };
typedef struct {
    zaulinte_door_place place;
    uint64_t number;
} seat;
static zaulinte_door door;
static pthread_mutex_t keeper = PTHREAD_MUTEX_INITIALIZER;
static _Atomic int is_out[MOST];
static _Atomic long none_left;
/* Takes a place, with a number that no other thread has; false if all are taken. */
static bool takes_place(seat *s) {
    pthread_mutex_lock(&keeper);
    s->number = zaulinte_door_give_out(&door, &s->place);
    CHECK(zaulinte_door_collect(&door) == ZAULINTE_DOOR_DONE);
    pthread_mutex_unlock(&keeper);
    if (s->number == ZAULINTE_DOOR_NONE_LEFT) return false;
    CHECK(s->number < MOST && atomic_exchange(&is_out[s->number], 1) == 0);
    return true;
}
static void gives_place_back(seat *s) {
    CHECK(atomic_exchange(&is_out[s->number], 0) == 1);
    CHECK(zaulinte_door_give_back(&s->place) == ZAULINTE_DOOR_DONE);
}
static long visits; /* plain: the monitor guards it, and all data below */
/* the same count once more, in the word that the door carries */
static void counts(zaulinte_door_place *p) {
    uint64_t value = 0;
    CHECK(zaulinte_door_get(p, &value) == 0 && value == (uint64_t)visits);
    CHECK(zaulinte_door_set(p, (uint64_t)++visits) == 0);
}
/* Runs threads over a door of so many places. Once all have given their places back, the door is closed at once. */
static void run(void *(*const *runs)(void *), int threads, int places, long wanted) {
    pthread_t ids[MOST];
    uint64_t value = 0;
    visits = 0;
    CHECK(zaulinte_door_make(&door, (uint64_t)places, 2, 1, 0) == 0);
    for (int i = 0; i < threads; i++) CHECK(pthread_create(&ids[i], NULL, runs[i], NULL) == 0);
    for (int i = 0; i < threads; i++) pthread_join(ids[i], NULL);
    CHECK(zaulinte_door_collect(&door) == 0 && zaulinte_door_close(&door, &value) == 0);
    CHECK(visits == wanted && value == (uint64_t)wanted);
}

static void enter(zaulinte_door_place *p) {
    uint64_t code;
    while ((code = zaulinte_door_try_enter(p)) == ZAULINTE_DOOR_NOT_NOW) sched_yield();
    CHECK(code == ZAULINTE_DOOR_ENTERED);
    came_in();
    counts(p);
}
static void spin_back(zaulinte_door_place *p) {
    uint64_t code;
    while ((code = zaulinte_door_try_return(p)) == ZAULINTE_DOOR_NOT_NOW) sched_yield();
    CHECK(code == ZAULINTE_DOOR_ENTERED);
    came_in();
}

/* two threads that poll: one fills `ready` and signals, the other waits if it is empty */
static long ready;
static void *fills(void *unused) {
    seat s = {0};
    CHECK(takes_place(&s));
    for (long i = 0; i < rounds; i++) {
        enter(&s.place);
        ready++;
        gives_up();
        uint64_t next = zaulinte_door_signal(&s.place, 0);
        if (next == ZAULINTE_DOOR_NOBODY) came_in();
        else CHECK(next == 1 - s.number), spin_back(&s.place);
        gives_up();
        CHECK(zaulinte_door_leave(&s.place) <= ZAULINTE_DOOR_NOBODY);
    }
    gives_place_back(&s);
    return unused;
}
static void *empties(void *unused) {
    seat s = {0};
    CHECK(takes_place(&s));
    for (long i = 0; i < rounds; i++) {
        enter(&s.place);
        if (ready == 0) {
            gives_up();
            CHECK(zaulinte_door_wait(&s.place, 0, 0) == ZAULINTE_DOOR_NOBODY);
            spin_back(&s.place);
            CHECK(ready == 1);
        }
        ready--;
        gives_up();
        CHECK(zaulinte_door_leave(&s.place) <= ZAULINTE_DOOR_NOBODY);
    }
    gives_place_back(&s);
    return unused;
}

/* A bell is rung once for each time that the monitor is owed to its place. So an attempt to return succeeds then. */
static struct {
    pthread_mutex_t lock;
    pthread_cond_t rung;
    bool is_rung;
} bells[MOST];
static void wakes(uint64_t next) {
    CHECK(next < MOST || next == ZAULINTE_DOOR_NOBODY);
    if (next == ZAULINTE_DOOR_NOBODY) return;
    pthread_mutex_lock(&bells[next].lock);
    bells[next].is_rung = true;
    pthread_cond_signal(&bells[next].rung);
    pthread_mutex_unlock(&bells[next].lock);
}
static void come_back(seat *s) {
    pthread_mutex_lock(&bells[s->number].lock);
    while (!bells[s->number].is_rung) pthread_cond_wait(&bells[s->number].rung, &bells[s->number].lock);
    bells[s->number].is_rung = false;
    pthread_mutex_unlock(&bells[s->number].lock);
    CHECK(zaulinte_door_try_return(&s->place) == ZAULINTE_DOOR_ENTERED);
    came_in();
}
static void wait_on(seat *s, uint64_t condition) {
    gives_up();
    wakes(zaulinte_door_wait(&s->place, condition, 0));
    come_back(s);
}
static void leave(seat *s) {
    gives_up();
    wakes(zaulinte_door_leave(&s->place));
}
static void signal_on(seat *s, uint64_t condition) {
    gives_up();
    uint64_t next = zaulinte_door_signal(&s->place, condition);
    wakes(next);
    if (next == ZAULINTE_DOOR_NOBODY) came_in();
    else come_back(s);
    leave(s);
}
static void signal_and_leave(seat *s, uint64_t condition) {
    uint64_t resumed;
    gives_up();
    wakes(zaulinte_door_signal_leave(&s->place, condition, &resumed));
}

/* the buffer: that there is room is condition 0, one of Hoare's, and that there are items the Mesa condition 1 */
enum { ROOM = 4 };
static long item[ROOM], put, taken, sum;
static void *produces(void *unused) {
    seat s = {0};
    CHECK(takes_place(&s));
    for (long i = 1; i <= rounds / 2; i++) {
        enter(&s.place);
        if (put - taken == ROOM) wait_on(&s, 0);
        CHECK(put - taken < ROOM);
        item[put++ % ROOM] = i;
        CHECK(zaulinte_door_notify(&s.place, 1) <= 1);
        leave(&s);
    }
    gives_place_back(&s);
    return unused;
}
static void *consumes(void *unused) {
    seat s = {0};
    CHECK(takes_place(&s));
    for (long i = 1; i <= rounds / 2; i++) {
        enter(&s.place);
        while (put == taken) wait_on(&s, 1);
        sum += item[taken++ % ROOM];
        (i % 2 ? signal_and_leave : signal_on)(&s, 0);
    }
    gives_place_back(&s);
    return unused;
}

static void *takes_and_gives_back(void *unused) {
    seat s = {0};
    for (long i = 0; i < rounds / 4; i++) {
        while (!takes_place(&s)) atomic_fetch_add(&none_left, 1), sched_yield();
        enter(&s.place);
        gives_up();
        CHECK(zaulinte_door_leave(&s.place) == ZAULINTE_DOOR_NOBODY);
        gives_place_back(&s);
    }
    return unused;
}
int main(int count, char **words) {
    void *(*runs[MOST])(void *) = {fills, empties};
    if (count > 1) rounds = strtol(words[1], NULL, 10);
    run(runs, 2, 2, 2 * rounds);
    CHECK(ready == 0);
    for (int k = 0; k < MOST; k++) {
        pthread_mutex_init(&bells[k].lock, NULL);
        pthread_cond_init(&bells[k].rung, NULL);
        runs[k] = k % 2 ? consumes : produces;
    }
    long items = rounds / 2;
    run(runs, MOST, MOST, MOST * items);
    CHECK(put == taken && sum == MOST / 2 * (items * (items + 1) / 2));
    for (int k = 0; k < 3; k++) runs[k] = takes_and_gives_back;
    run(runs, 3, 2, 3 * (rounds / 4));
    printf("door_threads: sums right; a place was refused %ld times (114)\n", atomic_load(&none_left));
    return 0;
}
