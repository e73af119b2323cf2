/* An alarm clock, after Hoare: wake_me waits with the time of waking as its priority. A tick resumes a sleeper whose
 * time has come, and each resumed sleeper resumes the next. */
#include "zaulinte_monitor.h"
#include <pthread.h>
#include <sched.h>
#include <stdio.h>

enum { SLEEPERS = 5, CLOCK = SLEEPERS, WAKE_UP = 0 };
static struct {
    zaulinte_monitor m;
    uint64_t now;
    int asleep, woken;
} alarms;

static void signal_due(uint32_t place) {
    uint64_t first;
    bool waits;
    ZAULINTE_CHECK(zaulinte_first(&alarms.m, place, WAKE_UP, &waits, &first));
    if (waits && first <= alarms.now) ZAULINTE_CHECK(zaulinte_signal(&alarms.m, place, WAKE_UP, NULL));
}
static uint64_t wake_me(uint32_t place, uint64_t in) {
    ZAULINTE_CHECK(zaulinte_enter(&alarms.m, place));
    uint64_t at = alarms.now + in;
    alarms.asleep++;
    if (alarms.now < at) ZAULINTE_CHECK(zaulinte_wait(&alarms.m, place, WAKE_UP, at));
    uint64_t late = alarms.now - at;
    alarms.woken++;
    signal_due(place);
    ZAULINTE_CHECK(zaulinte_leave(&alarms.m, place));
    return late;
}
static bool tick(void) { /* false once all have woken */
    ZAULINTE_CHECK(zaulinte_enter(&alarms.m, CLOCK));
    if (alarms.asleep == SLEEPERS) alarms.now++;
    signal_due(CLOCK);
    bool more = alarms.woken < SLEEPERS;
    ZAULINTE_CHECK(zaulinte_leave(&alarms.m, CLOCK));
    return more;
}
static uint64_t late[SLEEPERS];
static void *sleeps(void *place) {
    uint32_t me = *(uint32_t *)place;
    late[me] = wake_me(me, 10 * (1 + me / 2)); /* two at one time */
    return NULL;
}
int main(void) {
    pthread_t ids[SLEEPERS];
    uint32_t place[SLEEPERS];
    uint64_t all = 0;
    ZAULINTE_CHECK(zaulinte_make(&alarms.m, SLEEPERS + 1, 1, 0));
    for (uint32_t k = 0; k < SLEEPERS; k++) {
        place[k] = k;
        pthread_create(&ids[k], NULL, sleeps, &place[k]);
    }
    while (tick()) sched_yield();
    for (int k = 0; k < SLEEPERS; k++) pthread_join(ids[k], NULL), all += late[k];
    printf("%d woke at their time\n", alarms.woken);
    ZAULINTE_CHECK(zaulinte_free(&alarms.m));
    return all != 0;
}
