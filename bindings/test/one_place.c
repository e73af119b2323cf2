/* Two threads act by one place, and a third by another place: no call corrupts the monitor, and a call is refused with
 * 103 while the other thread has the place, in a call or inside. one_place [VISITS].
 *
 * `visits`: each thread leaves only if it entered, and the data are right.
 * `tries`: the same without the third thread, and by attempts: the monitor is never found taken without a refusal.
 * `misuses`: each thread makes drawn calls and ignores their codes: it ends only its own visits, and the data are
 * right. */
#define _GNU_SOURCE
#include "zaulinte_monitor.h"
#include <inttypes.h>
#include <pthread.h>
#include <sched.h>

enum { SHARED, HELPER, PLACES, CONDITION = 0 };
typedef struct {
    uint64_t visits, seed, entered, left, refused;
} thread;
static zaulinte_monitor m;
static uint64_t value; /* touched only inside */
static _Atomic bool is_over, was_refused;
static pthread_barrier_t start;

static void is(bool held, const char *what) {
    if (held) return;
    fprintf(stderr, "one_place: %s\n", what);
    exit(1);
}
static uint64_t draw(thread *t) {
    t->seed = t->seed * 6364136223846793005u + 1442695040888963407u;
    return t->seed >> 33;
}
/* counts a refusal, which is none of the others' */
static uint64_t counted(thread *t, uint64_t code) {
    is(code <= 1 || code == ZAULINTE_NOT_OUTSIDE || code == ZAULINTE_NOT_INSIDE, zaulinte_text(code));
    if (code != ZAULINTE_NOT_OUTSIDE) return code;
    was_refused = true;
    t->refused++;
    return code;
}

static void *visits(void *p) {
    thread *t = p;
    pthread_barrier_wait(&start);
    while (t->entered < t->visits || !was_refused) {
        if (counted(t, zaulinte_enter(&m, SHARED))) continue;
        t->entered++;
        value++;
        if (t->entered % 64 == 0) sched_yield(); /* so that the other thread calls now */
        ZAULINTE_CHECK(zaulinte_leave(&m, SHARED));
    }
    return NULL;
}
static void *tries(void *p) {
    thread *t = p;
    pthread_barrier_wait(&start);
    while (t->entered < t->visits || !was_refused) {
        if (counted(t, zaulinte_try_enter(&m, SHARED))) continue; /* NOT_FREE: the other thread gave the place back */
        t->entered++;                                             /* before it left, and that isn't counted */
        value++;
        if (t->entered % 64 == 0) sched_yield();
        if (t->entered % 2) ZAULINTE_CHECK(zaulinte_leave(&m, SHARED));
        else ZAULINTE_CHECK(zaulinte_signal_leave(&m, SHARED, CONDITION, NULL));
    }
    return NULL;
}
/* a drawn call; `is_inside` is true if the thread entered and hasn't left */
static void one_call(thread *t, bool is_inside) {
    uint64_t number, lot = draw(t) % 9;
    if (lot < 3) {
        bool entered = !counted(t, zaulinte_enter(&m, SHARED));
        is(!entered || !is_inside, "a thread entered twice");
        if (entered) t->entered++, value++;
        return;
    }
    uint64_t code = lot == 3   ? zaulinte_leave(&m, SHARED)
                    : lot == 4 ? zaulinte_signal_leave(&m, SHARED, CONDITION, NULL)
                    : lot == 5 ? zaulinte_wait(&m, SHARED, CONDITION, 0)
                    : lot == 6 ? zaulinte_signal(&m, SHARED, CONDITION, NULL)
                    : lot == 7 ? zaulinte_signal_to(&m, SHARED, CONDITION, SHARED, NULL)
                               : zaulinte_count(&m, SHARED, CONDITION, &number);
    is((counted(t, code) == 0) == is_inside, "a call by another thread's place, or none by its own");
    t->left += lot < 5 && code == 0;
}
static void *misuses(void *p) {
    thread *t = p;
    pthread_barrier_wait(&start);
    for (uint64_t i = 0; i < t->visits; i++) {
        one_call(t, t->entered > t->left);
        if (i % 64 == 0) sched_yield();
    }
    if (t->entered > t->left) ZAULINTE_CHECK(zaulinte_leave(&m, SHARED));
    return NULL;
}
/* by a place of its own: resumes the waiters, and finds no refusal */
static void *helps(void *unused) {
    while (!is_over) {
        bool resumed = true;
        ZAULINTE_CHECK(zaulinte_enter(&m, HELPER));
        value++;
        while (resumed) ZAULINTE_CHECK(zaulinte_signal(&m, HELPER, CONDITION, &resumed));
        value--;
        ZAULINTE_CHECK(zaulinte_leave(&m, HELPER));
        sched_yield();
    }
    return unused;
}
static void runs(const char *name, void *(*does)(void *), uint64_t visits, bool is_helped) {
    pthread_t ids[2], helper;
    thread t[2] = {{visits, 7, 0, 0, 0}, {visits, 8, 0, 0, 0}};
    value = 0;
    is_over = was_refused = false;
    pthread_barrier_init(&start, NULL, 2);
    ZAULINTE_CHECK(zaulinte_make(&m, PLACES, 1, 0));
    if (is_helped) pthread_create(&helper, NULL, helps, NULL);
    for (int k = 0; k < 2; k++) pthread_create(&ids[k], NULL, does, &t[k]);
    for (int k = 0; k < 2; k++) pthread_join(ids[k], NULL);
    is_over = true;
    if (is_helped) pthread_join(helper, NULL);
    pthread_barrier_destroy(&start);
    ZAULINTE_CHECK(zaulinte_free(&m));
    is(t[0].entered + t[1].entered == value, "visits or data were lost");
    is(t[0].refused + t[1].refused > 0, "no call was refused");
    printf("%" PRIu64 " %s, %" PRIu64 " refused\n", value, name, t[0].refused + t[1].refused);
}
int main(int argc, char **argv) {
    uint64_t wanted = argc > 1 ? strtoull(argv[1], NULL, 10) : 100000;
    runs("visits", visits, wanted, true);
    runs("visits by attempts", tries, wanted, false);
    runs("visits by misuse", misuses, wanted, true);
}
