/* What a build with ZAULINTE_CHECKS finds: `checks FAULT`. Two consumers wait on one of Hoare's conditions, and a
 * listener on a Mesa condition. `rest` and `ready` compare the waiters that they are given with an account, which the
 * thread inside keeps. Each fault but `none` ends by an abort, after a line that names the assertion, the place and the
 * condition; but for `later`: a thread that ended inside left its place to no later thread. `null` is no fault: all
 * three functions are null pointers. `none` also tests what a signal to a place tests, and of which place. */
#include "zaulinte_monitor.h"
#include <inttypes.h>
#include <pthread.h>
#include <sched.h>
#include <string.h>

enum { CONSUMER, SECOND, LISTENER, PRODUCER, SPARE, PLACES };
enum { NONEMPTY, FULL, CHANGED = 7, CONDITIONS, MESA = 2 };
enum { LATER = 7, SOONER = 5 }; /* the consumers' priorities */
static zaulinte_monitor m;
static struct store {
    int items;
    uint64_t next; /* the priority of the waiter that is resumed next */
    zaulinte_waiting account;
    unsigned invs, readies; /* how often each was tested */
} store;

static bool is_account(const zaulinte_waiting *w) { return memcmp(w, &store.account, sizeof *w) == 0; }
static bool inv(void *at) {
    ((struct store *)at)->invs++;
    return ((struct store *)at)->items >= 0;
}
static bool rest(void *at, const zaulinte_waiting *w) {
    return is_account(w) && (((struct store *)at)->items == 0 || w->count[NONEMPTY] == 0);
}
static bool ready(void *at, uint32_t condition, uint64_t priority, const zaulinte_waiting *w) {
    struct store *s = at;
    s->readies++;
    return is_account(w) && s->items > 0 && condition == NONEMPTY && priority == s->next;
}
/* Writes into the account that so many wait on the condition, the first of them with `first`. */
static void account(uint32_t condition, uint64_t count, uint64_t first) {
    store.account.count[condition] = count, store.account.first[condition] = first;
}
/* The same, before the consumer of this priority is resumed. */
static void account_next(uint64_t next, uint64_t count, uint64_t first) {
    store.next = next;
    account(NONEMPTY, count, first);
}
static void is(int line, uint64_t found, uint64_t wanted) {
    if (found == wanted) return;
    fprintf(stderr, "checks.c, line %d: %" PRIu64 " and not %" PRIu64 "\n", line, found, wanted);
    exit(1);
}
#define IS(call, wanted) is(__LINE__, (call), (wanted))

static void *consumes(void *place) {
    uint32_t me = (uint32_t)(uintptr_t)place;
    ZAULINTE_CHECK(zaulinte_enter(&m, me));
    account(NONEMPTY, me + 1, me == SECOND ? SOONER : LATER); /* the second waits when the first does */
    ZAULINTE_CHECK(zaulinte_wait(&m, me, NONEMPTY, me == SECOND ? SOONER : LATER));
    store.items--;
    ZAULINTE_CHECK(zaulinte_leave(&m, me));
    return NULL;
}
static void *listens(void *unused) {
    ZAULINTE_CHECK(zaulinte_enter(&m, LISTENER));
    account(CHANGED, 1, 9);
    ZAULINTE_CHECK(zaulinte_wait(&m, LISTENER, CHANGED, 9));
    ZAULINTE_CHECK(zaulinte_leave(&m, LISTENER));
    return unused;
}
/* Starts a consumer or the listener, and returns once it waits. */
static pthread_t waiter(uint32_t place) {
    pthread_t id;
    uint64_t waits = 0, wanted = place == LISTENER ? 1 : place + 1;
    pthread_create(&id, NULL, place == LISTENER ? listens : consumes, (void *)(uintptr_t)place);
    while (waits != wanted) {
        sched_yield();
        ZAULINTE_CHECK(zaulinte_enter(&m, PRODUCER));
        ZAULINTE_CHECK(zaulinte_count(&m, PRODUCER, place == LISTENER ? CHANGED : NONEMPTY, &waits));
        ZAULINTE_CHECK(zaulinte_leave(&m, PRODUCER));
    }
    return id;
}
/* A refused act tests nothing, and inv doesn't hold here. */
static void is_refused(void) {
    store.items = -1;
    IS(zaulinte_wait(&m, PRODUCER, CONDITIONS, 0), ZAULINTE_NO_CONDITION);
    IS(zaulinte_wait(&m, PRODUCER, UINT32_MAX, 0), ZAULINTE_NO_CONDITION);
    IS(zaulinte_signal(&m, PRODUCER, CHANGED, NULL), ZAULINTE_WRONG_KIND);
    IS(zaulinte_signal_to(&m, PRODUCER, CHANGED, LISTENER, NULL), ZAULINTE_WRONG_KIND);
    IS(zaulinte_signal_to(&m, PRODUCER, CONDITIONS, CONSUMER, NULL), ZAULINTE_NO_CONDITION);
    IS(zaulinte_signal_leave(&m, PRODUCER, CHANGED, NULL), ZAULINTE_WRONG_KIND);
    IS(zaulinte_signal_leave(&m, PRODUCER, CONDITIONS, NULL), ZAULINTE_NO_CONDITION);
    store.items = 0;
}
/* Sets the data so that an act of the producer, which is inside, is at fault. Returns the code of the act. */
static uint64_t errs(const char *fault) {
    const char *act = strchr(fault, '-');
    static zaulinte_monitor copy;
    if (!strcmp(fault, "twice")) return zaulinte_enter(&m, SPARE);
    if (!strcmp(fault, "exchanged")) return zaulinte_signal(&m, NONEMPTY, PRODUCER, NULL);
    if (!strcmp(fault, "copy")) return zaulinte_enter(memcpy(&copy, &m, sizeof m), SPARE);
    store.items = strncmp(fault, "inv", 3) == 0 ? -1 : strncmp(fault, "rest", 4) == 0;
    if (!act) account_next(SOONER, 1, LATER); /* ready: there is no item */
    else if (!strcmp(act, "-signal-to")) account_next(LATER, 1, SOONER);
    else if (!strcmp(act, "-wait")) account(FULL, 1, 3);
    if (!act || !strcmp(act, "-signal")) return zaulinte_signal(&m, PRODUCER, NONEMPTY, NULL);
    if (!strcmp(act, "-signal-to")) return zaulinte_signal_to(&m, PRODUCER, NONEMPTY, CONSUMER, NULL);
    if (!strcmp(act, "-wait")) return zaulinte_wait(&m, PRODUCER, FULL, 3);
    if (!strcmp(act, "-signal-leave")) return zaulinte_signal_leave(&m, PRODUCER, NONEMPTY, NULL);
    if (!strcmp(act, "-signal-nobody")) return zaulinte_signal_leave(&m, PRODUCER, FULL, NULL);
    return zaulinte_leave(&m, PRODUCER);
}
static void *ends_inside(void *code) {
    *(uint64_t *)code = zaulinte_enter(&m, SPARE);
    return NULL;
}
static void *leaves(void *code) {
    *(uint64_t *)code = zaulinte_leave(&m, SPARE);
    return NULL;
}
/* Returns the code of a leave, by the place of a thread that ended inside. */
static uint64_t later(void) {
    uint64_t code = 1;
    pthread_t id;
    ZAULINTE_CHECK(zaulinte_make(&m, PLACES, 1, 0));
    pthread_create(&id, NULL, ends_inside, &code);
    pthread_join(id, NULL);
    IS(code, 0);
    pthread_create(&id, NULL, leaves, &code);
    pthread_join(id, NULL);
    return code;
}
/* Resumes all: the second consumer by a signal, then the listener after the first consumer. */
static void produces(void) {
    store.items = 1;
    account_next(SOONER, 1, LATER);
    ZAULINTE_CHECK(zaulinte_signal(&m, PRODUCER, NONEMPTY, NULL));
    IS((uint64_t)store.items, 0);
    account(CHANGED, 0, 0);
    ZAULINTE_CHECK(zaulinte_notify(&m, PRODUCER, CHANGED, NULL));
    store.items = 1;
    account_next(LATER, 0, 0);
    ZAULINTE_CHECK(zaulinte_signal_leave(&m, PRODUCER, NONEMPTY, NULL));
    ZAULINTE_CHECK(zaulinte_enter(&m, PRODUCER));
    ZAULINTE_CHECK(zaulinte_signal_leave(&m, PRODUCER, FULL, NULL));
}
/* Signals to places that don't wait there: it tests nothing, and inv doesn't hold here. */
static void signals_to_nobody(void) {
    static const uint32_t places[] = {LISTENER, PRODUCER, SPARE, PLACES, 64, UINT32_MAX};
    unsigned invs = store.invs;
    store.items = -1;
    ZAULINTE_CHECK(zaulinte_signal_to(&m, PRODUCER, FULL, SECOND, NULL));
    for (size_t k = 0; k < sizeof places / sizeof *places; k++)
        ZAULINTE_CHECK(zaulinte_signal_to(&m, PRODUCER, NONEMPTY, places[k], NULL));
    IS(store.invs, invs);
    store.items = 0;
}
/* Signals to a consumer. It tests inv, and the consumer ready; and inv when it leaves. Then `count` others wait. */
static void signals_to(uint32_t consumer, uint64_t priority, uint64_t count, uint64_t first) {
    unsigned invs = store.invs, readies = store.readies;
    store.items = 1;
    account_next(priority, count, first);
    ZAULINTE_CHECK(zaulinte_signal_to(&m, PRODUCER, NONEMPTY, consumer, NULL));
    IS((uint64_t)store.items, 0);
    IS(store.invs - invs, invs ? 2 : 0); /* 0: it is a null pointer */
    IS(store.readies - readies, invs ? 1 : 0);
}
/* Resumes all: first the consumer that a signal would resume last. */
static void produces_by_place(void) {
    signals_to_nobody();
    signals_to(CONSUMER, LATER, 1, SOONER);
    signals_to(SECOND, SOONER, 0, 0);
    account(CHANGED, 0, 0);
    ZAULINTE_CHECK(zaulinte_notify(&m, PRODUCER, CHANGED, NULL));
    ZAULINTE_CHECK(zaulinte_leave(&m, PRODUCER));
}
static void runs(const char *fault, void (*resumes_all)(void)) {
    bool is_null = !strcmp(fault, "null");
    pthread_t ids[PRODUCER];
    ZAULINTE_CHECK(zaulinte_make(&m, PLACES, CONDITIONS, MESA));
    zaulinte_name(&m, "store", "nonempty full c2 c3, c4 c5 c6, changed");
    zaulinte_check(&m, is_null ? NULL : inv, is_null ? NULL : rest, is_null ? NULL : ready, &store);
    for (uint32_t k = CONSUMER; k < PRODUCER; k++) ids[k] = waiter(k);
    ZAULINTE_CHECK(zaulinte_enter(&m, PRODUCER));
    is_refused();
    if (strcmp(fault, "none") && !is_null) ZAULINTE_CHECK(errs(fault));
    resumes_all();
    for (uint32_t k = CONSUMER; k < PRODUCER; k++) pthread_join(ids[k], NULL);
    ZAULINTE_CHECK(zaulinte_free(&m));
}
int main(int argc, char **argv) {
    const char *fault = argc > 1 ? argv[1] : "none";
    if (!strcmp(fault, "later")) return later() != ZAULINTE_NOT_OUTSIDE;
    runs(fault, produces);
    runs(fault, produces_by_place);
    return store.items;
}
