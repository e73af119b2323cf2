/* sync_zaulinte.h: the monitors of the server. kv.c says what each call does. Threads borrow a place for a visit, so
 * there may be more workers than a monitor has places. */
#include "parts/limit_clock.h" /* and zaulinte_monitor.h */

static uint32_t enter_by(zaulinte_group *group, zaulinte_monitor *m) {
    uint32_t place;
    ZAULINTE_CHECK(zaulinte_borrow(group, &place));
    ZAULINTE_CHECK(zaulinte_enter(m, place));
    return place;
}

/* The queue: a ring of the connections that have input. One signal lets one taker continue, and each taker the next.
 * A signal for each connection would cost more: until the signalled thread has woken and left, no other can enter. */
enum { NONFULL, NONEMPTY, TAKERS = 63, POLLER = TAKERS /* its place; the takers have those below */ };
static struct {
    zaulinte_monitor m;
    zaulinte_group takers;
    connection *ready[ROOM];
    unsigned first, count;
    bool closed;
} queue;
static bool queue_inv(void *unused) { return (void)unused, queue.count <= ROOM; }
static bool queue_rest(void *unused, const zaulinte_waiting *waiting) {
    (void)unused;
    return (queue.count == ROOM || !waiting->count[NONFULL]) &&
           ((!queue.count && !queue.closed) || !waiting->count[NONEMPTY]);
}
static bool queue_ready(void *unused, uint32_t condition, uint64_t priority, const zaulinte_waiting *waiting) {
    (void)unused, (void)priority, (void)waiting;
    return condition == NONFULL ? queue.count < ROOM : queue.count || queue.closed;
}
/* While takers wait the queue is empty, and has room for a whole batch: so the poller never waits beside them. */
static void queue_append(connection **ready, unsigned n) {
    ZAULINTE_CHECK(zaulinte_enter(&queue.m, POLLER));
    for (unsigned i = 0; i < n; i++) {
        if (queue.count == ROOM) ZAULINTE_CHECK(zaulinte_wait(&queue.m, POLLER, NONFULL, 0));
        queue.ready[(queue.first + queue.count++) % ROOM] = ready[i];
    }
    ZAULINTE_CHECK(zaulinte_signal_leave(&queue.m, POLLER, NONEMPTY, NULL));
}
static connection *queue_take(void) {
    connection *taken = NULL;
    uint32_t place = enter_by(&queue.takers, &queue.m);
    if (!queue.count && !queue.closed) ZAULINTE_CHECK(zaulinte_wait(&queue.m, place, NONEMPTY, 0));
    if (queue.count) taken = queue.ready[queue.first++ % ROOM], queue.count--;
    bool others_wait;
    ZAULINTE_CHECK(zaulinte_queue(&queue.m, place, NONEMPTY, &others_wait));
    bool is_next = others_wait && (queue.count || queue.closed);
    ZAULINTE_CHECK(zaulinte_signal_leave(&queue.m, place, is_next ? NONEMPTY : NONFULL, NULL));
    ZAULINTE_CHECK(zaulinte_give_back(&queue.takers, place));
    return taken;
}
static void queue_close(void) {
    ZAULINTE_CHECK(zaulinte_enter(&queue.m, POLLER));
    queue.closed = true;
    ZAULINTE_CHECK(zaulinte_signal_leave(&queue.m, POLLER, NONEMPTY, NULL));
}

/* The store. All clients that wait do so on one condition. An item goes to the client that waits longest for its list,
 * by a signal to that client's place. The priority of a wait is its place: so `store_ready` knows which client resumes.
 * The visits have places of their own: else the clients that wait could take all, and no push would get one. */
enum { ITEM, VISITS = 62 - MOST_WAITS, MAIN = 62 /* the main thread's place */, CLOCK };
struct waiting {
    TAILQ_ENTRY(waiting) beside;
    list *on; /* NULL: no client waits by this place */
    int fd;   /* the client's */
};
static struct {
    zaulinte_monitor m;
    zaulinte_group waits, visits;
    limit_clock clock;
    limit limit;
    struct waiting waiting[MOST_WAITS]; /* by their places */
    bool closed;
} store;
static bool store_rest(void *unused, const zaulinte_waiting *waiting) {
    uint64_t clients = 0, wrong = store.limit.by_clock;
    for (const struct waiting *w = store.waiting; w < store.waiting + MOST_WAITS; w++)
        if (w->on) clients++, wrong += store.closed || w->on->count;
    return (void)unused, !wrong && clients == waiting->count[ITEM];
}
static bool store_ready(void *unused, uint32_t condition, uint64_t place, const zaulinte_waiting *waiting) {
    (void)unused, (void)condition, (void)waiting;
    const struct waiting *w = &store.waiting[place];
    return store.limit.by_clock || store.closed || (w->on->count && w == TAILQ_FIRST(&w->on->waiting));
}
static uint32_t store_enter(void) { return enter_by(&store.visits, &store.m); }
static bool store_enter_to_wait(uint32_t *place) {
    if (zaulinte_try_borrow(&store.waits, place)) return false;
    ZAULINTE_CHECK(zaulinte_enter(&store.m, *place));
    return true;
}
static void store_await(uint32_t place, list *l, int fd, uint64_t milliseconds) {
    struct waiting *w = &store.waiting[place];
    if (store.closed) return;
    w->on = l, w->fd = fd;
    TAILQ_INSERT_TAIL(&l->waiting, w, beside);
    limit_wait(&store.limit, place, place, limit_deadline(milliseconds));
    TAILQ_REMOVE(&l->waiting, w, beside);
    w->on = NULL;
}
static void store_leave(uint32_t place, list *l) {
    struct waiting *next = l->count ? TAILQ_FIRST(&l->waiting) : NULL;
    list_drop(l);
    if (next) ZAULINTE_CHECK(zaulinte_signal_to(&store.m, place, ITEM, (uint32_t)(next - store.waiting), NULL));
    if (store.closed) ZAULINTE_CHECK(zaulinte_signal_leave(&store.m, place, ITEM, NULL));
    else ZAULINTE_CHECK(zaulinte_leave(&store.m, place));
    ZAULINTE_CHECK(zaulinte_give_back(place < MOST_WAITS ? &store.waits : &store.visits, place));
}
static void store_cancel(int fd) {
    ZAULINTE_CHECK(zaulinte_enter(&store.m, MAIN));
    for (uint32_t k = 0; k < MOST_WAITS; k++)
        if (store.waiting[k].on && store.waiting[k].fd == fd) limit_cancel(&store.limit, MAIN, k);
    ZAULINTE_CHECK(zaulinte_leave(&store.m, MAIN));
}
static void store_close(void) {
    ZAULINTE_CHECK(zaulinte_enter(&store.m, MAIN));
    store.closed = true;
    ZAULINTE_CHECK(zaulinte_signal_leave(&store.m, MAIN, ITEM, NULL)); /* a client that resumes lets the next one */
}

static void sync_make(uint32_t waits) {
    ZAULINTE_CHECK(zaulinte_make(&queue.m, TAKERS + 1, 2, 0));
    ZAULINTE_CHECK(zaulinte_group_make(&queue.takers, &queue.m, 0, TAKERS));
    zaulinte_check(&queue.m, queue_inv, queue_rest, queue_ready, NULL);
    zaulinte_name(&queue.m, "queue", "nonfull, nonempty");
    ZAULINTE_CHECK(zaulinte_make(&store.m, CLOCK + 1, 1, 0));
    ZAULINTE_CHECK(zaulinte_group_make(&store.waits, &store.m, 0, waits));
    ZAULINTE_CHECK(zaulinte_group_make(&store.visits, &store.m, MOST_WAITS, VISITS));
    zaulinte_check(&store.m, NULL, store_rest, store_ready, NULL);
    zaulinte_name(&store.m, "store", "item");
    limit_clock_add(&store.clock, &store.limit, &store.m, ITEM, CLOCK);
    limit_test(limit_clock_start(&store.clock));
}
static void sync_free(void) {
    limit_clock_stop(&store.clock);
    ZAULINTE_CHECK(zaulinte_group_free(&store.waits));
    ZAULINTE_CHECK(zaulinte_group_free(&store.visits));
    ZAULINTE_CHECK(zaulinte_free(&store.m));
    ZAULINTE_CHECK(zaulinte_group_free(&queue.takers));
    ZAULINTE_CHECK(zaulinte_free(&queue.m));
}
