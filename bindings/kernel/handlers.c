/* Calls from an interrupt handler. At each tick the timer's handler tries to enter a monitor, in which threads wait on
 * one of Hoare's conditions and on a Mesa condition. Inside it makes each call that never blocks. It borrows its place
 * from a group of one, and so does a thread, which sleeps while the handler keeps the place. Each place writes its calls
 * to a log, which ../test/judge.c judges. The handler also makes calls that are refused: by a thread's place, for
 * example. */
#include "programs.h"

enum { WAITERS = 6, HANDLER = WAITERS, ASKER, SWEEPER, PLACES, HOARE = 0, MESA = 1, EACH = 50, MOST_SECONDS = 60 };
static struct {
    zaulinte_monitor m;
    zaulinte_group lent; /* HANDLER alone */
    uint64_t data; /* one more after each visit */
    uint32_t gone; /* the number of waiters that have ended */
    bool is_over;
} hall;
enum { LEAVES, NOTIFIES, BROADCASTS, SIGNALS, WAYS, GIVES_BACK = WAYS, ACTS };
static _Atomic uint32_t done[ACTS]; /* by the handler, while a thread waited, or slept for the place */
static uint32_t visits, shut, lent_out; /* how often the monitor was free, and wasn't, and the place wasn't there */
static bool has_place; /* the handler */

static void must_be(uint64_t is, uint64_t wanted, const char *what) {
    if (is != wanted) fail("%s: %lu instead of %lu", what, is, wanted);
}
static void came(uint32_t place) { note("admit %u %lu\n", place, hall.data++); }
static void leave(uint32_t place) {
    note("leave %u %lu\n", place, hall.data);
    CHECK(zaulinte_leave(&hall.m, place));
}

/* the calls of a place inside, by the handler and by the thread that sweeps */
static uint64_t ask(uint32_t place, uint32_t condition) { /* returns how many wait */
    uint64_t count = 99, priority = 0;
    bool in_queue, has_first;
    CHECK(zaulinte_count(&hall.m, place, condition, &count));
    CHECK(zaulinte_queue(&hall.m, place, condition, &in_queue));
    must_be(in_queue, count > 0, "queue");
    CHECK(zaulinte_first(&hall.m, place, condition, &has_first, &priority));
    must_be(has_first, count > 0, "first");
    note("asked %u %u %lu %lu %lu\n", place, condition, count, priority, hall.data);
    return count;
}
static void notify(uint32_t place) {
    uint64_t called = 99;
    CHECK(zaulinte_notify(&hall.m, place, MESA, &called));
    must_be(called, called > 0, "notify");
    note(called ? "notify %u %u %lu\n" : "empty %u %u %lu\n", place, MESA, hall.data);
}
static void broadcast(uint32_t place) {
    uint64_t called = 99;
    CHECK(zaulinte_broadcast(&hall.m, place, MESA, &called));
    note("broadcast %u %u %lu %lu\n", place, MESA, called, hall.data);
}
static void signal_and_leave(uint32_t place, bool one_waits) {
    bool resumed = !one_waits; /* the handler's own word */
    if (one_waits) note("pass %u %u %lu\n", place, HOARE, hall.data);
    else note("leave %u %lu\n", place, hall.data);
    CHECK(zaulinte_signal_leave(&hall.m, place, HOARE, &resumed));
    must_be(resumed, one_waits, "signal_leave");
}
/* Makes calls that are refused, and change nothing: acts by the places of threads, the interrupted thread's too, and
 * others. */
static void misuse(void) {
    for (uint32_t k = 0; k < PLACES; k++) {
        uint64_t code = k == HANDLER ? ZAULINTE_NOT_OUTSIDE : zaulinte_leave(&hall.m, k);
        if (code != ZAULINTE_NOT_INSIDE) must_be(code, ZAULINTE_NOT_OUTSIDE, "leave by another's place");
    }
    must_be(zaulinte_try_enter(&hall.m, HANDLER), ZAULINTE_NOT_OUTSIDE, "try_enter twice");
    must_be(zaulinte_signal_leave(&hall.m, HANDLER, MESA, NULL), ZAULINTE_WRONG_KIND, "signal_leave");
    must_be(zaulinte_free(&hall.m), ZAULINTE_IN_USE, "free");
    must_be(zaulinte_make(&hall.m, 1, 1, 0), ZAULINTE_IS_MADE, "make");
    must_be(zaulinte_give_back(&hall.lent, HANDLER), ZAULINTE_NOT_OUTSIDE, "give_back inside");
    must_be(zaulinte_give_back(&hall.lent, ASKER), ZAULINTE_NO_PLACE, "give_back of no place");
}
static void visit(void) {
    uint64_t refused = zaulinte_try_enter(&hall.m, HANDLER);
    if (refused) {
        must_be(refused, ZAULINTE_NOT_FREE, "try_enter");
        shut++;
        return;
    }
    came(HANDLER);
    uint32_t way = visits++ % WAYS;
    uint64_t of_hoare = ask(HANDLER, HOARE), of_mesa = ask(HANDLER, MESA);
    misuse();
    if (way == NOTIFIES) notify(HANDLER);
    if (way == BROADCASTS) broadcast(HANDLER);
    if (way == SIGNALS) signal_and_leave(HANDLER, of_hoare > 0);
    else leave(HANDLER);
    done[way] += (way == SIGNALS || way == LEAVES ? of_hoare : of_mesa) > 0;
}
static bool borrows(void) {
    uint32_t place = PLACES;
    uint64_t refused = zaulinte_try_borrow(&hall.lent, &place);
    if (refused) must_be(refused, ZAULINTE_NOT_FREE, "try_borrow");
    else must_be(place, HANDLER, "the place");
    return !refused;
}
static void gives_back(void) {
    bool one_sleeps = atomic_load(&hall.lent.sleepers) > 0;
    CHECK(zaulinte_give_back(&hall.lent, HANDLER));
    done[GIVES_BACK] += one_sleeps;
}
static void handle(void) { /* at one tick the handler borrows its place, at the next it visits and gives it back */
    must_be(caller(), tick_caller(), "the caller in a handler");
    if (!has_place) {
        has_place = borrows();
        lent_out += !has_place;
        return;
    }
    must_be(borrows(), false, "try_borrow twice");
    visit();
    gives_back();
    has_place = false;
}

/* the threads */
static void *wait_again(void *with) {
    uint32_t me = (uint32_t)(uintptr_t)with, condition = me % 2 ? MESA : HOARE;
    for (bool is_over = false; !is_over;) {
        CHECK(zaulinte_enter(&hall.m, me));
        came(me);
        uint64_t priority = hall.data % 3;
        note("wait %u %u %lu %lu\n", me, condition, priority, hall.data);
        CHECK(zaulinte_wait(&hall.m, me, condition, priority));
        note("resume %u %u %lu\n", me, condition, hall.data++);
        is_over = hall.is_over;
        hall.gone += is_over;
        leave(me);
    }
    return NULL;
}
static void *enter_again(void *by_group) { /* so that the handler finds the monitor shut, or no place, now and then */
    uint32_t place = ASKER;
    for (bool is_over = false; !is_over;) {
        if (by_group) CHECK(zaulinte_borrow(&hall.lent, &place));
        CHECK(zaulinte_enter(&hall.m, place));
        came(place);
        is_over = hall.is_over;
        leave(place);
        if (by_group) CHECK(zaulinte_give_back(&hall.lent, place));
        spin(10000);
        yield(); /* a kernel may preempt no thread that is in it */
    }
    return NULL;
}
static bool is_enough(void) {
    for (uint32_t way = 0; way < ACTS; way++)
        if (atomic_load(&done[way]) < EACH) return false;
    return true;
}
static void wait_until_enough(void) {
    int64_t until = nanoseconds() + MOST_SECONDS * 1000000000ll;
    while (!is_enough()) {
        if (nanoseconds() > until) fail("the handler didn't end in time");
        yield();
    }
}
static bool sweep(void) { /* resumes all; returns false once all threads have gone */
    CHECK(zaulinte_enter(&hall.m, SWEEPER));
    came(SWEEPER);
    hall.is_over = true;
    bool more = hall.gone < WAITERS;
    broadcast(SWEEPER);
    signal_and_leave(SWEEPER, ask(SWEEPER, HOARE) > 0);
    yield();
    return more;
}
void run_handlers(void) {
    thread *by[WAITERS], *askers[2];
    note("sizes %u 2 1\n", PLACES);
    CHECK(zaulinte_make(&hall.m, PLACES, 2, 1));
    CHECK(zaulinte_group_make(&hall.lent, &hall.m, HANDLER, 1));
    start_threads(by, WAITERS, wait_again);
    start_threads(askers, 2, enter_again);
    tick_by(handle);
    wait_until_enough();
    tick_by(NULL);
    if (has_place) gives_back();
    while (sweep()) {}
    join_threads(by, WAITERS);
    join_threads(askers, 2);
    note("end\n");
    CHECK(zaulinte_group_free(&hall.lent));
    CHECK(zaulinte_free(&hall.m));
    say("in the timer's handler: %u visits; %u times the monitor wasn't free, %u times the place;\n", visits, shut,
        lent_out);
    say("  beside waiters leave %u, notify %u, broadcast %u, signal_leave %u, give_back %u\n", done[LEAVES],
        done[NOTIFIES], done[BROADCASTS], done[SIGNALS], done[GIVES_BACK]);
}
