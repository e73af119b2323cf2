/* An alarm clock, after Hoare, on the machine's timer. First a thread ticks, and the timer's handler wakes it. Then the
 * handler itself ticks if the monitor is free, and else leaves the tick to the thread. */
#include "kernel.h"

enum { SLEEPERS = 8, SLEEPS = 25, HAND = SLEEPERS, HANDLER, ASKER, PLACES, WAKE_UP = 0 };
static struct {
    zaulinte_monitor m;
    uint64_t now;
} alarms;
static zaulinte_bell owed; /* the number of the timer's ticks that the clock hasn't made yet */
static uint64_t owed_in_all;
static _Atomic bool is_over;
static _Atomic uint64_t late, sleeps;
static uint64_t interrupts, shut; /* calls of the handler that ticks itself; how often the monitor wasn't free */

static uint64_t wake_me(uint32_t place, uint64_t in) { /* returns how late it is by the clock */
    CHECK(zaulinte_enter(&alarms.m, place));
    uint64_t setting = alarms.now + in;
    while (alarms.now < setting) CHECK(zaulinte_wait(&alarms.m, place, WAKE_UP, setting));
    uint64_t now = alarms.now;
    CHECK(zaulinte_signal_leave(&alarms.m, place, WAKE_UP, NULL));
    return now - setting;
}
/* Called by the place inside: so no tick is lost or made twice. */
static void tick_and_leave(uint32_t place) {
    if (atomic_load(&owed.word) > 0) {
        atomic_fetch_sub(&owed.word, 1);
        alarms.now++;
    }
    CHECK(zaulinte_signal_leave(&alarms.m, place, WAKE_UP, NULL));
}
static void *tick_what_is_owed(void *unused) {
    while (!atomic_load(&is_over)) {
        while (atomic_load(&owed.word) == 0) sleep_while(&owed, 0);
        CHECK(zaulinte_enter(&alarms.m, HAND));
        tick_and_leave(HAND);
    }
    return unused;
}
static void owe_tick(void) {
    owed_in_all++;
    atomic_fetch_add(&owed.word, 1);
}
static void wake_hand(void) { /* the handler changes a word, and wakes the thread */
    owe_tick();
    wake_one(&owed);
}
static void tick_or_wake(void) { /* the handler tries to enter */
    interrupts++;
    owe_tick();
    if (zaulinte_try_enter(&alarms.m, HANDLER)) shut++, wake_one(&owed);
    else tick_and_leave(HANDLER);
}

static void *sleep_and_wake(void *with) {
    uint32_t me = (uint32_t)(uintptr_t)with;
    for (uint32_t i = 0; i < SLEEPS; i++) {
        atomic_fetch_add(&late, wake_me(me, 1 + (7 * me + 5 * i) % 9));
        atomic_fetch_add(&sleeps, 1);
    }
    return NULL;
}
static void *ask_the_time(void *unused) { /* so that the handler finds the monitor shut now and then */
    while (!atomic_load(&is_over)) {
        CHECK(zaulinte_enter(&alarms.m, ASKER));
        spin(20);
        CHECK(zaulinte_leave(&alarms.m, ASKER));
        spin(60);
    }
    return unused;
}
static void run_by(const char *name, void (*handler)(void)) {
    thread *by[SLEEPERS];
    alarms.now = owed_in_all = 0;
    owed.word = 0;
    late = sleeps = 0;
    is_over = false;
    CHECK(zaulinte_make(&alarms.m, PLACES, 1, 0));
    thread *asker = start_thread(ask_the_time, NULL), *hand = start_thread(tick_what_is_owed, NULL);
    start_threads(by, SLEEPERS, sleep_and_wake);
    int64_t from = nanoseconds();
    tick_by(handler);
    join_threads(by, SLEEPERS);
    int64_t took = nanoseconds() - from;
    atomic_store(&is_over, true);
    tick_by(wake_hand); /* the thread wakes, finds that all is over, and ends */
    join_thread(hand);
    tick_by(NULL);
    join_thread(asker);
    if (late || sleeps != SLEEPERS * SLEEPS) fail("the alarm clock: %lu sleeps, late by %lu", sleeps, late);
    if (alarms.now + owed.word != owed_in_all)
        fail("the alarm clock made %lu ticks and owes %u, of %lu", alarms.now, owed.word, owed_in_all);
    say("alarm clock, ticked by %s: %lu sleeps, none late by the clock, in %ld ms\n", name, sleeps, took / 1000000);
    CHECK(zaulinte_free(&alarms.m));
}
void run_clock(void) {
    run_by("a thread that the handler wakes", wake_hand);
    run_by("the handler itself", tick_or_wake);
    say("  the monitor wasn't free at %lu of %lu ticks\n", shut, interrupts);
}
