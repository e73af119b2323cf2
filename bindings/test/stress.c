/* Eight threads and a sweeper at one monitor of three of Hoare's conditions and a Mesa condition, with drawn waits,
 * priorities, signals, signals to a drawn place, notifies and broadcasts, and with misuse, which has to be refused. The
 * thread inside writes the log, and judge.c reads it: stress CALLS [SEED [SECONDS [FOLDER]]] | judge. If SECONDS isn't
 * 0 it fails if it takes longer, and prints the log so far. With FOLDER it records its last 2 * SEED acts, and the
 * sweeper now and then saves them there as a script. */
#define _GNU_SOURCE
#include "zaulinte_monitor.h"
#include <inttypes.h>
#include <pthread.h>
#include <sched.h>
#include <stdio.h>
#include <stdlib.h>
#include <string.h>
#include <unistd.h>

enum { WORKERS = 8, PLACES = WORKERS + 1, SPARE = PLACES, HOARE = 3, MESA = 3, CONDITIONS = 4 };
enum kind { ADMIT, LEAVE, BACK, RESUME, WAIT, SIGNAL, SIGNAL_TO, ABSENT, PASS, NOTIFY, BROADCAST, EMPTY, ASKED };
static const char *const names[] = {"admit",  "leave", "back",   "resume",    "wait",  "signal", "signalto",
                                    "absent", "pass",  "notify", "broadcast", "empty", "asked"};
typedef struct {
    enum kind kind;
    uint32_t place, condition;
    uint64_t number, first, data;
} event;
static zaulinte_monitor m;
static event *events;
static size_t many, room;
static uint64_t data, finished; /* plain: touched only inside */
static uint32_t waits_on[PLACES]; /* 1 + the condition of its wait, or 0; touched only inside */
static const char *folder; /* for the recordings */

static void shows(void);
static void fails(const char *why) {
    fprintf(stderr, "%s\n", why);
    shows(); /* for the judge: the log so far */
    exit(1);
}
static void put(enum kind kind, uint32_t place, uint32_t condition, uint64_t number, uint64_t first) {
    if (many == room) fails("the log is full");
    events[many++] = (event){kind, place, condition, number, first, data};
}
static void is(uint64_t code, uint64_t wanted) {
    if (code == wanted) return;
    char why[64];
    snprintf(why, sizeof why, "code %" PRIu64 " and not %" PRIu64, code, wanted);
    fails(why);
}
static uint64_t draw(uint64_t *seed) {
    *seed = *seed * 6364136223846793005u + 1442695040888963407u;
    return *seed >> 33;
}
static void comes(uint32_t me) {
    if (zaulinte_try_enter(&m, me)) is(zaulinte_enter(&m, me), 0);
    put(ADMIT, me, 0, 0, 0);
    data++;
}
static void goes(uint32_t me) {
    put(LEAVE, me, 0, 0, 0);
    is(zaulinte_leave(&m, me), 0);
}
static bool somebody(uint32_t me, uint32_t c) {
    bool waits;
    is(zaulinte_queue(&m, me, c, &waits), 0);
    return waits;
}
static uint64_t asks(uint32_t me, uint32_t c) {
    uint64_t count = 0, first; /* MemorySanitizer sees if nobody writes it */
    bool waits;
    is(zaulinte_count(&m, me, c, &count), 0);
    is(zaulinte_first(&m, me, c, &waits, &first), 0);
    is(waits, count > 0);
    if (count == 0) first = 0;
    if (first > 3) fails("a priority that no place has");
    put(ASKED, me, c, count, first);
    return count;
}
static void waits(uint32_t me, uint32_t c, uint64_t priority) {
    put(WAIT, me, c, priority, 0);
    waits_on[me] = c + 1;
    is(zaulinte_wait(&m, me, c, priority), 0);
    waits_on[me] = 0;
    put(RESUME, me, c, 0, 0);
}
static void signals(uint32_t me, uint32_t c) {
    bool was = somebody(me, c), resumed = !was;
    put(was ? SIGNAL : EMPTY, me, c, 0, 0);
    is(zaulinte_signal(&m, me, c, &resumed), 0);
    is(resumed, was);
    if (was) put(BACK, me, 0, 0, 0);
}
/* Returns the first place, from a drawn one on, that waits on the condition, or the drawn one if none does. */
static uint32_t waiter_from(uint32_t drawn, uint32_t c) {
    for (uint32_t k = 0; k < PLACES; k++)
        if (waits_on[(drawn + k) % PLACES] == c + 1) return (drawn + k) % PLACES;
    return drawn;
}
/* Signals to any waiter on the condition, or to any place, also the spare one, and places that there aren't. */
static void signals_to(uint32_t me, uint32_t c, uint64_t lot) {
    uint32_t drawn = (uint32_t)(lot / 2 % (2 * PLACES)), to = lot % 2 ? waiter_from(drawn, c) : drawn;
    bool was = to < PLACES && waits_on[to] == c + 1, resumed = !was;
    put(was ? SIGNAL_TO : ABSENT, me, c, to, 0);
    is(zaulinte_signal_to(&m, me, c, to, &resumed), 0);
    is(resumed, was);
    if (was) put(BACK, me, 0, 0, 0);
}
static void calls(uint32_t me, bool all) {
    uint64_t count = 0, called = 99;
    is(zaulinte_count(&m, me, MESA, &count), 0);
    put(!count ? EMPTY : all ? BROADCAST : NOTIFY, me, MESA, count, 0);
    is((all ? zaulinte_broadcast : zaulinte_notify)(&m, me, MESA, &called), 0);
    is(called, all ? count : count > 0);
}
/* What a build with ZAULINTE_CHECKS tests: they read the data, as a sanitizer sees. */
static bool inv(void *unused) { return unused == NULL && finished <= data; }
static bool rest(void *unused, const zaulinte_waiting *w) { return inv(unused) && w->count[0] <= WORKERS; }
static bool ready(void *unused, uint32_t c, uint64_t priority, const zaulinte_waiting *w) {
    return rest(unused, w) && c < HOARE && priority < 4;
}
/* an act of another thread's place, which is outside, or in a call of that thread: it waits or is about to enter */
static void acts_for_another(uint32_t other) {
    uint64_t code = zaulinte_leave(&m, other);
    is(code, code == ZAULINTE_NOT_OUTSIDE ? code : ZAULINTE_NOT_INSIDE);
}
static void misuses(uint32_t me, uint64_t lot) {
    switch (lot % 10) {
    case 0: is(zaulinte_wait(&m, me, CONDITIONS, 0), ZAULINTE_NO_CONDITION); break;
    case 1: acts_for_another((me + 1) % PLACES); break;
    case 2: is(zaulinte_enter(&m, me), ZAULINTE_NOT_OUTSIDE); break;
    case 3: is(zaulinte_signal(&m, me, MESA, NULL), ZAULINTE_WRONG_KIND); break;
    case 4: is(zaulinte_broadcast(&m, me, 0, NULL), ZAULINTE_WRONG_KIND); break;
    case 5: is(zaulinte_wait(&m, UINT32_MAX, 0, 0), ZAULINTE_NO_PLACE); break;
    case 6: is(zaulinte_try_enter(&m, SPARE), ZAULINTE_NOT_FREE); break; /* a place that no thread has */
    case 7: is(zaulinte_free(&m), ZAULINTE_IN_USE); break;
    case 8: is(zaulinte_signal_to(&m, me, MESA, SPARE, NULL), ZAULINTE_WRONG_KIND); break;
    default: is(zaulinte_make(&m, 1, 1, 0), ZAULINTE_IS_MADE);
    }
}
static void passes(uint32_t me, uint32_t c) {
    bool was = somebody(me, c), resumed = !was;
    put(was ? PASS : LEAVE, me, c, 0, 0);
    is(zaulinte_signal_leave(&m, me, c, &resumed), 0);
    is(resumed, was);
}
static void step(uint32_t me, uint64_t lot) {
    uint64_t waiting = 0, count[CONDITIONS];
    for (uint32_t c = 0; c < CONDITIONS; c++) waiting += count[c] = asks(me, c);
    uint32_t c = (uint32_t)(lot / 8 % CONDITIONS);
    if (lot % 8 < 4 && waiting < WORKERS / 2) waits(me, c, lot / 64 % 4);
    else if (c == MESA) calls(me, lot / 64 % 2);
    else if (lot / 64 % (count[c] > 1 ? 2 : 8) == 0) signals_to(me, c, lot / 512);
    else signals(me, c);
    data++;
    if (lot / 1024 % 4 == 0) misuses(me, lot / 4096);
}
typedef struct { uint32_t me; uint64_t visits, seed; } job;
static void *works(void *p) {
    job *j = p;
    for (uint64_t i = 0; i < j->visits; i++) {
        comes(j->me);
        for (uint64_t steps = draw(&j->seed) % 3; steps; steps--) step(j->me, draw(&j->seed));
        uint64_t lot = draw(&j->seed);
        if (lot % 2) goes(j->me);
        else passes(j->me, (uint32_t)(lot / 2 % HOARE));
    }
    comes(j->me);
    finished++;
    goes(j->me);
    return NULL;
}
#if ZAULINTE_STDIO
/* Saves the recording, and beside it what the script program has to answer then. */
static void saves(uint32_t me, uint32_t turn) {
    char path[256];
    snprintf(path, sizeof path, "%s/%" PRIu32, folder, turn);
    if (!zaulinte_save(&m, path)) fails("the recording isn't saved");
    FILE *script = fopen(path, "a"), *wanted = fopen(strcat(path, ".wanted"), "w");
    if (!script || !wanted) fails("no file");
    for (uint32_t c = 0; c < CONDITIONS; c++) {
        uint64_t first = 0;
        bool waits;
        fprintf(script, "first %" PRIu32 "\n", c);
        is(zaulinte_first(&m, me, c, &waits, &first), 0);
        if (waits) fprintf(wanted, "first %" PRIu32 " -> %" PRIu64 "\n", c, first);
        else fprintf(wanted, "first %" PRIu32 " -> none\n", c);
    }
    fclose(script), fclose(wanted);
}
/* Begins to record in memory that it returns. */
static void *records(size_t acts) {
    size_t size = zaulinte_recording_size(acts);
    void *memory = malloc(size);
    is(zaulinte_record(&m, memory, size), 0);
    return memory;
}
#else
#define saves(me, turn) ((void)(me))
#define records(acts) NULL
#endif
static void *sweeps(void *p) {
    job *j = p;
    for (uint32_t turn = 0;; turn++) {
        comes(j->me);
        if (finished == WORKERS) break;
        if (turn % 2) calls(j->me, true);
        else signals_to(j->me, turn / 2 % HOARE, draw(&j->seed));
        if (folder && turn < 400) saves(j->me, turn);
        passes(j->me, turn % HOARE);
        sched_yield();
    }
    goes(j->me);
    return NULL;
}
static void *watches(void *seconds) {
    sleep(*(unsigned *)seconds);
    fails("the time is over");
    return NULL;
}
static bool has_number(enum kind k) {
    return k == WAIT || k == SIGNAL_TO || k == ABSENT || k == BROADCAST || k == ASKED;
}
static void shows(void) {
    printf("sizes %d %d 1\n", PLACES, CONDITIONS); /* the spare place never enters */
    for (size_t i = 0; i < many; i++) {
        event e = events[i];
        printf("%s %" PRIu32, names[e.kind], e.place);
        if (e.kind > BACK) printf(" %" PRIu32, e.condition);
        if (has_number(e.kind)) printf(" %" PRIu64, e.number);
        if (e.kind == ASKED) printf(" %" PRIu64, e.first);
        printf(" %" PRIu64 "\n", e.data);
    }
    puts("end");
}
int main(int argc, char **argv) {
    uint64_t wanted = argc > 1 ? strtoull(argv[1], NULL, 10) : 10000, seed = argc > 2 ? strtoull(argv[2], NULL, 10) : 1;
    unsigned seconds = argc > 3 ? (unsigned)strtoul(argv[3], NULL, 10) : 0;
    pthread_t watch;
    if (seconds && !pthread_create(&watch, NULL, watches, &seconds)) pthread_detach(watch);
    room = 64 * wanted + 1000000;
    events = malloc(room * sizeof *events);
    if (!events) return 2;
    is(zaulinte_enter(&m, 0), ZAULINTE_NO_BOOK);
    is(zaulinte_make(&m, PLACES + 1, CONDITIONS, 1), 0);
    zaulinte_check(&m, inv, rest, ready, NULL);
    folder = argc > 4 ? argv[4] : NULL;
    void *memory = folder ? records(2 * seed) : NULL;
    pthread_t ids[PLACES];
    job jobs[PLACES];
    for (uint32_t k = 0; k < PLACES; k++) {
        jobs[k] = (job){k, wanted / (WORKERS * 10), seed * 1000 + k};
        pthread_create(&ids[k], NULL, k < WORKERS ? works : sweeps, &jobs[k]);
    }
    for (uint32_t k = 0; k < PLACES; k++) pthread_join(ids[k], NULL);
    is(zaulinte_free(&m), 0);
    is(zaulinte_enter(&m, 0), ZAULINTE_NO_BOOK);
    shows();
    free(events);
    free(memory);
    return 0;
}
