/* Groups of places (zaulinte_group_make): their codes, and more threads than places. In `groups all` takers borrow all
 * places of the monitor, and wait: with ZAULINTE_CHECKS the program ends by a line that says so. `groups lent` prints a
 * dump in which a group has lent all of its places. In `groups waits` they wait, and a thread wants one. */
#include "zaulinte_monitor.h"
#include <inttypes.h>
#include <pthread.h>
#include <sched.h>

enum { TAKERS = 300, GIVERS = 20, EACH = TAKERS / GIVERS, PLACES = 64, FOR_TAKERS = 60, ITEM = 0 };
static struct {
    zaulinte_monitor m;
    long items, taken;
    _Atomic bool used[PLACES];
} store;
static zaulinte_group takers, givers;

static void is(int line, const char *call, uint64_t found, uint64_t wanted) {
    if (found == wanted) return;
    fprintf(stderr, "groups.c, line %d: %s: %" PRIu64 " and not %" PRIu64 "\n", line, call, found, wanted);
    exit(1);
}
#define IS(call, wanted) is(__LINE__, #call, (call), (wanted))

static uint32_t borrows(zaulinte_group *g) {
    uint32_t place = 99;
    ZAULINTE_CHECK(zaulinte_borrow(g, &place));
    IS(atomic_exchange(&store.used[place], true), false);
    return place;
}
static void gives_back(zaulinte_group *g, uint32_t place) {
    store.used[place] = false;
    ZAULINTE_CHECK(zaulinte_give_back(g, place));
}
static void *take(void *unused) {
    uint32_t place = borrows(&takers);
    ZAULINTE_CHECK(zaulinte_enter(&store.m, place));
    if (!store.items) ZAULINTE_CHECK(zaulinte_wait(&store.m, place, ITEM, 0));
    store.items--, store.taken++;
    ZAULINTE_CHECK(zaulinte_leave(&store.m, place));
    gives_back(&takers, place);
    return unused;
}
static void *give(void *unused) {
    for (int n = 0; n < EACH; n++) {
        uint32_t place = borrows(&givers);
        ZAULINTE_CHECK(zaulinte_enter(&store.m, place));
        store.items++;
        ZAULINTE_CHECK(zaulinte_signal_leave(&store.m, place, ITEM, NULL));
        gives_back(&givers, place);
    }
    return unused;
}
static void runs(int threads) {
    pthread_t ids[TAKERS + GIVERS];
    for (int k = 0; k < threads; k++) pthread_create(&ids[k], NULL, k < TAKERS ? take : give, NULL);
    for (int k = 0; k < threads; k++) pthread_join(ids[k], NULL);
    IS((uint64_t)store.taken, TAKERS);
}
/* Threads borrow and give back at once, and more than one place is free at a time. If a wake-up is lost, a thread
 * sleeps for ever. */
enum { THREADS = 8, FEW = 3, TURNS = 2000 };
static void *turns(void *unused) {
    for (int n = 0; n < TURNS; n++) gives_back(&givers, borrows(&givers));
    return unused;
}
static void few_places(void) {
    pthread_t ids[THREADS];
    ZAULINTE_CHECK(zaulinte_group_make(&givers, &store.m, 0, FEW));
    for (int k = 0; k < THREADS; k++) pthread_create(&ids[k], NULL, turns, NULL);
    for (int k = 0; k < THREADS; k++) pthread_join(ids[k], NULL);
    ZAULINTE_CHECK(zaulinte_group_free(&givers));
}
static void refused_makes(void) {
    static zaulinte_group other;
    IS(zaulinte_group_make(&takers, &store.m, 0, 1), ZAULINTE_NO_BOOK);
    IS(zaulinte_group_free(&takers), ZAULINTE_NO_BOOK);
    ZAULINTE_CHECK(zaulinte_make(&store.m, PLACES, 1, 0));
    IS(zaulinte_group_make(&takers, &store.m, 0, 0), ZAULINTE_BAD_PLACES);
    IS(zaulinte_group_make(&takers, &store.m, PLACES, 1), ZAULINTE_BAD_PLACES);
    IS(zaulinte_group_make(&takers, &store.m, 1, PLACES), ZAULINTE_BAD_PLACES);
    IS(zaulinte_group_make(&takers, &store.m, 1, UINT32_MAX), ZAULINTE_BAD_PLACES);
    ZAULINTE_CHECK(zaulinte_group_make(&takers, &store.m, 0, FOR_TAKERS));
    IS(zaulinte_group_make(&takers, &store.m, FOR_TAKERS, 1), ZAULINTE_IS_MADE);
    IS(zaulinte_group_make(&other, &store.m, FOR_TAKERS - 1, 2), ZAULINTE_IN_USE);
    IS(zaulinte_free(&store.m), ZAULINTE_IN_USE);
    ZAULINTE_CHECK(zaulinte_group_make(&givers, &store.m, FOR_TAKERS, PLACES - FOR_TAKERS));
    ZAULINTE_CHECK(zaulinte_group_free(&takers));
    IS(zaulinte_group_make(&other, &store.m, PLACES - 1, 1), ZAULINTE_IN_USE);
    ZAULINTE_CHECK(zaulinte_group_free(&givers));
    ZAULINTE_CHECK(zaulinte_group_make(&other, &store.m, 0, PLACES));
    ZAULINTE_CHECK(zaulinte_group_free(&other));
}
static void refused_places(void) {
    uint32_t place = 99;
    IS(zaulinte_borrow(&givers, &place), ZAULINTE_NO_BOOK);
    IS(zaulinte_try_borrow(&givers, &place), ZAULINTE_NO_BOOK);
    IS(zaulinte_give_back(&givers, 0), ZAULINTE_NO_BOOK);
    ZAULINTE_CHECK(zaulinte_group_make(&givers, &store.m, PLACES - 2, 2));
    for (uint32_t k = PLACES - 2; k < PLACES; k++) {
        IS(zaulinte_give_back(&givers, k), ZAULINTE_NO_PLACE);
        IS(zaulinte_try_borrow(&givers, &place), 0);
        IS(place, k);
    }
    place = 99;
    IS(zaulinte_try_borrow(&givers, &place), ZAULINTE_NOT_FREE);
    IS(place, 99);
    IS(zaulinte_give_back(&givers, 0), ZAULINTE_NO_PLACE);
    IS(zaulinte_give_back(&givers, PLACES), ZAULINTE_NO_PLACE);
    ZAULINTE_CHECK(zaulinte_enter(&store.m, PLACES - 1));
    IS(zaulinte_give_back(&givers, PLACES - 1), ZAULINTE_NOT_OUTSIDE);
    ZAULINTE_CHECK(zaulinte_leave(&store.m, PLACES - 1));
    for (uint32_t k = PLACES - 2; k < PLACES; k++) {
        IS(zaulinte_group_free(&givers), ZAULINTE_IN_USE);
        ZAULINTE_CHECK(zaulinte_give_back(&givers, k));
    }
    ZAULINTE_CHECK(zaulinte_group_free(&givers));
}
/* A dump while one thread has the only place of a group, and another wants one. */
static void lent(void) {
    pthread_t id;
    ZAULINTE_CHECK(zaulinte_make(&store.m, 2, 1, 0));
    ZAULINTE_CHECK(zaulinte_group_make(&takers, &store.m, 0, 1));
    ZAULINTE_CHECK(zaulinte_group_make(&givers, &store.m, 1, 1));
    uint32_t place = borrows(&takers);
    store.items = 1;
    pthread_create(&id, NULL, take, NULL);
    while (takers.sleepers == 0) sched_yield();
    zaulinte_dump(&store.m);
    gives_back(&takers, place);
    pthread_join(id, NULL);
}
static void waits(void) {
    pthread_t ids[2];
    uint64_t waiters = 0;
    ZAULINTE_CHECK(zaulinte_make(&store.m, 2, 1, 0));
    ZAULINTE_CHECK(zaulinte_group_make(&takers, &store.m, 0, 1));
    for (int k = 0; k < 2; k++) pthread_create(&ids[k], NULL, take, NULL);
    while (takers.bell.word == 0 || waiters == 0) { /* the other thread sleeps, and has printed the line */
        ZAULINTE_CHECK(zaulinte_enter(&store.m, 1));
        ZAULINTE_CHECK(zaulinte_count(&store.m, 1, ITEM, &waiters));
        ZAULINTE_CHECK(zaulinte_leave(&store.m, 1));
    }
    exit(0);
}
int main(int argc, char **argv) {
    const char *what = argc > 1 ? argv[1] : "";
    if (!strcmp(what, "lent")) return lent(), 0;
    if (!strcmp(what, "waits")) waits();
    refused_makes();
    refused_places();
    few_places();
    ZAULINTE_CHECK(zaulinte_group_make(&takers, &store.m, 0, *what ? PLACES : FOR_TAKERS));
    if (*what) runs(TAKERS);
    ZAULINTE_CHECK(zaulinte_group_make(&givers, &store.m, FOR_TAKERS, PLACES - FOR_TAKERS));
    runs(TAKERS + GIVERS);
    ZAULINTE_CHECK(zaulinte_group_free(&takers));
    ZAULINTE_CHECK(zaulinte_group_free(&givers));
    ZAULINTE_CHECK(zaulinte_free(&store.m));
    return 0;
}
