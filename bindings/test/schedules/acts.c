/* The acts of the threads. The monitor is compiled with -fsanitize=thread, and this file is the runtime that the
 * compiler then calls: each access to memory is a call. A thread stops before such an access, before a step of the
 * door, and before it sleeps or wakes. The search lets it go on (`make`). */
#include "world.h"
#include <string.h>

bool weak;
uint8_t sleep_order = SEQ_CST;

bool is_access(enum kind kind) { return kind >= LOAD && kind <= SLEEP; }
static bool is_gone(const void *at) {
    return w->gone && (const char *)at >= (char *)w->gone && (const char *)at < (char *)w->gone + w->gone_bytes;
}
static void touch(const void *at) {
    if (me != X_NOBODY && is_gone(at)) x_fail("a thread touches a monitor that is gone");
}
/* A thread that loops stops too: it may wait for what another thread is yet to do. */
static uint64_t access(struct op op) {
    touch(op.at);
    bool stops = me != X_NOBODY && has_conflict(&op);
    if (me != X_NOBODY && (stops || ++since_stop > 200)) return stop(op);
    return do_strongly(&op);
}
#define ACCESS(kind, value, expected, order, fails) \
    access((struct op){kind, (uint8_t)(order), (uint8_t)(fails), sizeof *at, 0, (void *)at, NULL, value, expected, 0})
#define TSAN(bits) \
    typedef uint##bits##_t u##bits; \
    u##bits __tsan_atomic##bits##_load(const volatile u##bits *at, int order) { \
        return (u##bits)ACCESS(LOAD, 0, 0, order, 0); \
    } \
    void __tsan_atomic##bits##_store(volatile u##bits *at, u##bits is, int order) { ACCESS(STORE, is, 0, order, 0); } \
    u##bits __tsan_atomic##bits##_exchange(volatile u##bits *at, u##bits is, int order) { \
        return (u##bits)ACCESS(SWAP, is, 0, order, 0); \
    } \
    u##bits __tsan_atomic##bits##_fetch_add(volatile u##bits *at, u##bits by, int order) { \
        return (u##bits)ACCESS(ADD, by, 0, order, 0); \
    } \
    u##bits __tsan_atomic##bits##_fetch_sub(volatile u##bits *at, u##bits by, int order) { \
        return (u##bits)ACCESS(ADD, (u##bits)-by, 0, order, 0); \
    } \
    u##bits __tsan_atomic##bits##_fetch_or(volatile u##bits *at, u##bits by, int order) { \
        return (u##bits)ACCESS(OR, by, 0, order, 0); \
    } \
    u##bits __tsan_atomic##bits##_compare_exchange_val(volatile u##bits *at, u##bits from, u##bits to, int order, \
                                                       int fails) { \
        return (u##bits)ACCESS(CAS, to, from, order, fails); \
    } \
    int __tsan_atomic##bits##_compare_exchange_strong(volatile u##bits *at, u##bits *from, u##bits to, int order, \
                                                      int fails) { \
        u##bits was = __tsan_atomic##bits##_compare_exchange_val(at, *from, to, order, fails); \
        return was == *from ? 1 : (*from = was, 0); \
    }
TSAN(8) TSAN(32) TSAN(64)
/* Accesses to other memory. A thread stops before such an access too if another's may conflict with it: it is a race,
 * or the threads do that in turn. In a weak memory these have no messages. */
static struct { char *from; size_t bytes; } own; /* the test's */
void x_own(void *from, size_t bytes) { own.from = from, own.bytes = bytes; }
static void access_plainly(enum kind kind, void *at) {
    bool is_in_room = (char *)at >= w->room && (char *)at < w->room + ROOM;
    bool is_own = (char *)at >= own.from && (char *)at < own.from + own.bytes;
    struct op op = {.kind = kind, .size = 1, .at = at};
    touch(at);
    if (weak || me == X_NOBODY || !is_in_room || is_own || !has_conflict(&op)) return;
    op.kind = TOUCH;
    stop(op);
    touch(at);
}
#define PLAIN(kind, name) void __tsan_##name(void *at) { access_plainly(kind, at); }
#define READ(bytes) PLAIN(LOAD, read##bytes) PLAIN(LOAD, unaligned_read##bytes)
#define WRITE(bytes) PLAIN(STORE, write##bytes) PLAIN(STORE, unaligned_write##bytes)
READ(1) READ(2) READ(4) READ(8) READ(16) WRITE(1) WRITE(2) WRITE(4) WRITE(8) WRITE(16) PLAIN(LOAD, vptr_read)
void __tsan_read_range(void *at, unsigned long bytes) { (void)bytes, touch(at); }
void __tsan_write_range(void *at, unsigned long bytes) { (void)bytes, touch(at); }
void *__tsan_memcpy(void *to, const void *from, unsigned long n) { return memcpy(to, from, n); }
void *__tsan_memset(void *to, int is, unsigned long n) { return memset(to, is, n); }
void *__tsan_memmove(void *to, const void *from, unsigned long n) { return memmove(to, from, n); }
void __tsan_func_entry(void *at) { (void)at; }
void __tsan_func_exit(void) {}
void __tsan_init(void) {}
void __tsan_acquire(void *at) { (void)at; }
void __tsan_release(void *at) { (void)at; }
/* In a strong memory a fence does nothing. */
void __tsan_atomic_thread_fence(int order) {
    if (!weak) return;
    if (order != SEQ_CST) die("a fence that isn't full");
    stop((struct op){.kind = FENCE});
}

/* Sleeping and waking. */
void x_sleep_while(void *word, uint32_t is) {
    struct op op = {.kind = SLEEP, .order = sleep_order, .size = 4, .at = word, .expected = is};
    touch(word);
    has_conflict(&op);
    stop(op);
}
static void stop_at(enum kind kind, void *at, void *lock) {
    touch(at);
    stop((struct op){.kind = kind, .size = 4, .at = at, .lock = lock});
}
void x_wake_one(void *word) { stop_at(WAKE, word, NULL); }
void x_lock(void *lock) { stop_at(LOCK, lock, lock); }
void x_unlock(void *lock) { stop_at(UNLOCK, lock, lock); }
void x_condition_wait(void *condition, void *lock) { stop_at(C_WAIT, condition, lock); }
void x_condition_signal(void *condition) { stop_at(C_SIGNAL, condition, NULL); }
void x_await(const uint32_t *word, uint32_t is) {
    stop((struct op){.kind = AWAIT, .size = 4, .at = (void *)word, .expected = is});
}
void x_tell(uint32_t *word, uint32_t is) {
    *word = is;
    join(&w->told, &w->thread[me].view);
}
void x_gone(void *from, size_t bytes) {
    w->gone = from, w->gone_bytes = bytes;
    free_words(from, bytes);
}
void x_touch(uint32_t place) {
    if (w->inside != place) x_fail("a place that isn't inside touches the data");
    write_data(DATA, "a data race on the monitor's data");
}

/* The steps of the proved archive. Each running step has one atomic access, to the word of the door. So it is one act
 * here, and it is sequentially consistent. */
enum { IS_PLAIN, IS_ENTRY, IS_EXIT, IS_SIGNAL };
static void begin_step(const char *what, void *handle) {
    uint32_t place = x_place_of(handle);
    touch(handle);
    stop((struct op){.kind = STEP, .order = SEQ_CST, .at = handle, .what = what});
    touch(handle);
    if (place < X_PLACES) write_data(HANDLE + place, "a data race on the handle of a place");
}
static void end_step(uint64_t code, void *handle, int how) {
    struct view *v = &w->thread[me].view;
    if (how == IS_ENTRY) join(v, &w->door); /* also if it fails, it has read the word */
    if (code > X_NOBODY || how == IS_PLAIN || (how == IS_SIGNAL && code == X_NOBODY)) return;
    if (how == IS_ENTRY && w->inside != X_NOBODY) x_fail("two places are inside");
    w->inside = how == IS_ENTRY ? x_place_of(handle) : X_NOBODY;
    w->owner = how == IS_ENTRY ? me : X_NOBODY;
    w->door = *v;
}
#define WRAP(name, how, parameters, arguments, condition, number) \
    uint64_t __real_zaulinte_door_##name parameters; \
    uint64_t __wrap_zaulinte_door_##name parameters { \
        if (me == X_NOBODY) return __real_zaulinte_door_##name arguments; \
        begin_step(#name, place); \
        uint64_t code = __real_zaulinte_door_##name arguments; \
        if (code <= X_NOBODY) note_act(#name, x_place_of(place), condition, number); \
        end_step(code, place, how); \
        return code; \
    }
#define NONE ((uint64_t)-1)
WRAP(try_enter, IS_ENTRY, (void *place), (place), NONE, NONE)
WRAP(try_return, IS_ENTRY, (void *place), (place), NONE, NONE)
WRAP(leave, IS_EXIT, (void *place), (place), NONE, NONE)
WRAP(wait, IS_EXIT, (void *place, uint64_t c, uint64_t priority), (place, c, priority), c, priority)
WRAP(signal, IS_SIGNAL, (void *place, uint64_t c), (place, c), c, NONE)
WRAP(signal_to, IS_SIGNAL, (void *place, uint64_t c, uint64_t waiter), (place, c, waiter), c, waiter)
WRAP(signal_leave, IS_EXIT, (void *place, uint64_t c, uint64_t *resumed), (place, c, resumed), c, NONE)
WRAP(give_back, IS_PLAIN, (void *place), (place), NONE, NONE)
WRAP(notify, IS_PLAIN, (void *place, uint64_t c), (place, c), c, NONE)
WRAP(broadcast, IS_PLAIN, (void *place, uint64_t c), (place, c), c, NONE)
/* Inside a step (fine.c): before its atomic instruction. */
void x_fine_stop(void) {
    struct op op = {.kind = STEP, .order = SEQ_CST, .what = "makes the atomic access of its step"};
    if (me != X_NOBODY) stop(op);
}

static struct thread *sleeper(void *at, enum kind kind, uint32_t n) {
    for (uint32_t k = 0; k < w->threads; k++)
        if (w->thread[k].op.kind == kind && w->thread[k].op.at == at && n-- == 0) return &w->thread[k];
    return NULL;
}
static bool is_locked(const void *lock) { return *(const uint8_t *)lock != 0; } /* its first byte */
bool has(uint32_t thread, uint32_t choice) {
    struct thread *t = &w->thread[thread];
    if (weak && is_access(t->op.kind)) return has_message(t, choice);
    switch (t->op.kind) {
    case DONE: return false;
    case AWAIT: return choice == 0 && *(uint32_t *)t->op.at == t->op.expected;
    case SLEEPING: case C_SLEEPING: return choice == EARLY && w->early > 0;
    case LOCK: case RELOCK: return choice == 0 && !is_locked(t->op.lock);
    case WAKE: return choice == 0 || sleeper(t->op.at, SLEEPING, choice);
    case C_SIGNAL: return choice == 0 || sleeper(t->op.at, C_SLEEPING, choice);
    default: return choice == 0;
    }
}
/* What the acts on a lock, and wake-ups, let a thread know of the others. */
static void exchange_views(struct thread *t) {
    const struct op *op = &t->op;
    if (op->kind == AWAIT) join(&t->view, &w->told);
    if (op->kind == LOCK || op->kind == RELOCK) join(&t->view, told_at(op->lock, 1));
    if (op->kind == UNLOCK || op->kind == C_WAIT) join(told_at(op->lock, 1), &t->view);
    if (op->kind == WAKE) join(told_at(op->at, 4), &t->view);
    if (op->kind == FENCE) join(&t->view, &w->fenced), w->fenced = t->view;
}
/* Changes the world as an act does that is no access, and returns true if the thread goes on. */
static bool act(struct thread *t, uint32_t choice) {
    struct op *op = &t->op;
    struct thread *woken;
    switch (op->kind) {
    case WAKE:
        woken = sleeper(op->at, SLEEPING, choice);
        if (woken) go((uint32_t)(woken - w->thread));
        return !w->failed;
    case LOCK: case RELOCK: *(uint8_t *)op->lock = 1, t->lock = op->lock; return true;
    case UNLOCK: *(uint8_t *)op->lock = 0, t->lock = NULL; return true;
    case C_WAIT: *(uint8_t *)op->lock = 0, t->lock = NULL, op->kind = C_SLEEPING; return false;
    case C_SLEEPING: op->kind = RELOCK; return false;
    case C_SIGNAL:
        woken = sleeper(op->at, C_SLEEPING, choice);
        if (woken) woken->op.kind = RELOCK;
        return true;
    default: return true;
    }
}
/* Makes an act, and returns what it read. */
uint64_t make(uint32_t thread, uint32_t choice) {
    struct thread *t = &w->thread[thread];
    bool accesses = is_access(t->op.kind), goes_on = true;
    t->result = 0;
    if (choice == EARLY && w->early < 255) w->early--;
    if (accesses && is_gone(t->op.at)) w->failed = "a thread touches a monitor that is gone";
    if (weak) exchange_views(t);
    if (accesses && weak) do_weakly(t, choice);
    else if (accesses) t->result = do_strongly(&t->op);
    else goes_on = act(t, choice);
    uint64_t result = t->result;
    if (goes_on && !(accesses && t->op.kind == SLEEPING)) go(thread);
    t->result = 0;
    if (weak) forget_messages();
    return result;
}
