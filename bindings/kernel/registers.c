/* SSE registers. Threads keep values in them, while other threads and the timer's handler make calls of a monitor, and
 * so steps of the archive, which uses such registers. All threads are preempted. The test fails if a value is lost. */
#include "kernel.h"

enum { KEEPERS = 4, VISITORS = 4, HANDLER = VISITORS, PLACES, ROUNDS = 2000, MILLISECONDS = 300, TURN = 0 };
bool keep_registers(uint64_t value, uint64_t rounds); /* interrupts.S */
static zaulinte_monitor m;
static _Atomic bool is_over;
static _Atomic uint64_t kept, visited;

static void *keep(void *with) {
    uint64_t me = (uintptr_t)with, value = 0x5a5a000000000000 + me * 0x100000001;
    while (!atomic_load(&is_over)) {
        if (!keep_registers(value, ROUNDS)) fail("thread %lu lost an SSE register", me);
        atomic_fetch_add(&kept, 1);
    }
    return NULL;
}
static void *make_calls(void *with) {
    uint32_t me = (uint32_t)(uintptr_t)with;
    while (!atomic_load(&is_over)) {
        CHECK(zaulinte_enter(&m, me));
        if (me) CHECK(zaulinte_wait(&m, me, TURN, me));
        else CHECK(zaulinte_signal(&m, me, TURN, NULL));
        CHECK(zaulinte_signal_leave(&m, me, TURN, NULL));
        atomic_fetch_add(&visited, 1);
    }
    return NULL;
}
static void visit(void) { /* in the handler, which may have interrupted any of the threads */
    if (zaulinte_try_enter(&m, HANDLER)) return;
    CHECK(zaulinte_signal_leave(&m, HANDLER, TURN, NULL));
}
void run_registers(void) {
    thread *by[KEEPERS], *calls[VISITORS];
    CHECK(zaulinte_make(&m, PLACES, 1, 0));
    start_threads(by, KEEPERS, keep);
    start_threads(calls, VISITORS, make_calls);
    tick_by(visit);
    int64_t until = nanoseconds() + MILLISECONDS * 1000000ll;
    while (nanoseconds() < until) yield();
    atomic_store(&is_over, true);
    join_threads(by, KEEPERS);
    join_threads(calls, VISITORS); /* the handler resumes those that still wait */
    tick_by(NULL);
    CHECK(zaulinte_free(&m));
    say("SSE registers: %d threads kept theirs through %lu rounds, beside %lu visits\n", KEEPERS, kept, visited);
}
