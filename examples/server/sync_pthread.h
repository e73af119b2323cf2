/* sync_pthread.h: the twin of sync_zaulinte.h, on mutexes and condition variables. kv.c says what each call does. */
#include <errno.h>
#include <pthread.h>
#include <time.h>

/* The queue: a ring of the connections that have input. */
static struct {
    pthread_mutex_t lock;
    pthread_cond_t nonfull, nonempty;
    connection *ready[ROOM];
    unsigned first, count;
    bool closed;
} queue = {PTHREAD_MUTEX_INITIALIZER, .nonfull = PTHREAD_COND_INITIALIZER, .nonempty = PTHREAD_COND_INITIALIZER};

static void queue_append(connection **ready, unsigned n) {
    pthread_mutex_lock(&queue.lock);
    for (unsigned i = 0; i < n; i++) {
        while (queue.count == ROOM) pthread_cond_wait(&queue.nonfull, &queue.lock);
        queue.ready[(queue.first + queue.count++) % ROOM] = ready[i];
    }
    pthread_mutex_unlock(&queue.lock);
    pthread_cond_signal(&queue.nonempty);
}
static connection *queue_take(void) {
    connection *taken = NULL;
    pthread_mutex_lock(&queue.lock);
    while (!queue.count && !queue.closed) pthread_cond_wait(&queue.nonempty, &queue.lock);
    if (queue.count) taken = queue.ready[queue.first++ % ROOM], queue.count--;
    bool is_next = queue.count > 0;
    pthread_mutex_unlock(&queue.lock);
    if (is_next) pthread_cond_signal(&queue.nonempty);
    pthread_cond_signal(&queue.nonfull);
    return taken;
}
static void queue_close(void) {
    pthread_mutex_lock(&queue.lock);
    queue.closed = true;
    pthread_mutex_unlock(&queue.lock);
    pthread_cond_broadcast(&queue.nonempty);
}

/* The store. Each client that waits has a condition variable, and the one that waits longest for a list is signalled.
 * Before it is inside, a client that comes, or whose time is over, may get its item. */
struct waiting {
    TAILQ_ENTRY(waiting) beside;
    pthread_cond_t resumed;
    bool taken, ends;
    int fd; /* the client's */
};
static struct {
    pthread_mutex_t lock;
    struct waiting waiting[MOST_WAITS];
    uint32_t most_waits;
    bool closed;
} store = {.lock = PTHREAD_MUTEX_INITIALIZER};
enum { NO_WAIT = MOST_WAITS }; /* instead of the number of a place */

static uint32_t store_enter(void) {
    pthread_mutex_lock(&store.lock);
    return NO_WAIT;
}
static bool store_enter_to_wait(uint32_t *place) {
    pthread_mutex_lock(&store.lock);
    for (*place = 0; *place < store.most_waits && store.waiting[*place].taken;) ++*place;
    bool may_wait = *place < store.most_waits;
    if (may_wait) store.waiting[*place].taken = true;
    else pthread_mutex_unlock(&store.lock);
    return may_wait;
}
static void store_await(uint32_t place, list *l, int fd, uint64_t milliseconds) {
    struct timespec until = {0, 0};
    struct waiting *w = &store.waiting[place];
    w->fd = fd, w->ends = false;
    TAILQ_INSERT_TAIL(&l->waiting, w, beside);
    clock_gettime(CLOCK_MONOTONIC, &until);
    uint64_t nanoseconds = (uint64_t)until.tv_nsec + milliseconds % 1000 * 1000000;
    until.tv_sec += (time_t)(milliseconds / 1000 + nanoseconds / 1000000000);
    until.tv_nsec = (long)(nanoseconds % 1000000000);
    for (int over = 0; !l->count && !store.closed && !w->ends && !over;)
        over = milliseconds == UINT64_MAX ? pthread_cond_wait(&w->resumed, &store.lock)
                                        : pthread_cond_timedwait(&w->resumed, &store.lock, &until);
    TAILQ_REMOVE(&l->waiting, w, beside);
}
static void store_leave(uint32_t place, list *l) {
    if (l->count && !TAILQ_EMPTY(&l->waiting)) pthread_cond_signal(&TAILQ_FIRST(&l->waiting)->resumed);
    list_drop(l);
    if (place != NO_WAIT) store.waiting[place].taken = false;
    pthread_mutex_unlock(&store.lock);
}
static void store_cancel(int fd) {
    pthread_mutex_lock(&store.lock);
    for (struct waiting *w = store.waiting; w < store.waiting + MOST_WAITS; w++)
        if (w->taken && w->fd == fd) w->ends = true, pthread_cond_signal(&w->resumed);
    pthread_mutex_unlock(&store.lock);
}
static void store_close(void) {
    pthread_mutex_lock(&store.lock);
    store.closed = true;
    for (unsigned i = 0; i < MOST_WAITS; i++) pthread_cond_signal(&store.waiting[i].resumed);
    pthread_mutex_unlock(&store.lock);
}

static void sync_make(uint32_t waits) {
    pthread_condattr_t how;
    pthread_condattr_init(&how);
    pthread_condattr_setclock(&how, CLOCK_MONOTONIC);
    for (unsigned i = 0; i < MOST_WAITS; i++) pthread_cond_init(&store.waiting[i].resumed, &how);
    pthread_condattr_destroy(&how);
    store.most_waits = waits;
}
static void sync_free(void) {}
