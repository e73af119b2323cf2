/* A running monitor on the proved door: which thread sleeps, and which thread is woken. NOT PROVED, tested.
 * docs/WAKING.md argues why no wake-up is lost. */
#define ZAULINTE_MONITOR_CODE
#include "zaulinte_monitor.h"
#define ZAULINTE_PORT_CODE
#include "zaulinte_port.h"

const char ZAULINTE_BUILD = 0;
/* Of a function that isn't inlined, so that a call that doesn't block stays short. */
#ifdef __GNUC__
#define APART __attribute__((__noinline__)) static
#else
#define APART static
#endif
/* The word of a place's bell: AWAKE, ASLEEP, or rung. It is rung with RUNG by a thread that waits or signals, and with
 * LEFT by a thread that left the monitor. The word of the entrance: ASLEEP or AWAKE. */
enum { AWAKE, ASLEEP, RUNG, LEFT, NOBODY = ZAULINTE_DOOR_NOBODY };
static zaulinte_door_place *at(zaulinte_monitor *m, uint32_t place) { return &m->place[place].handle; }
static bool is_rung(zaulinte_bell *b) { return atomic_load(&b->word) >= RUNG; }
#include "zaulinte_dump.h"
#include "zaulinte_checks.h"
/* Returns why the number isn't that of a place, or 0. */
static inline uint64_t no_such_place(zaulinte_monitor *m, uint32_t place) {
    uint32_t places = atomic_load_explicit(&m->places, memory_order_relaxed); /* written by `make` and `free` alone */
    if (place < places) return 0;
    return places ? ZAULINTE_NO_PLACE : ZAULINTE_NO_BOOK;
}
static bool has_threads(zaulinte_monitor *m) {
    for (uint32_t k = 0; k < m->places; k++)
        if (m->place[k].thread) return true;
    return false;
}
#include "zaulinte_record.h"

/* Claims a place that is outside for the calling thread. Until `unclaim` only that thread makes steps with it, so two
 * threads never do at once. */
static uint64_t claim(zaulinte_monitor *m, uint32_t place) {
    uint64_t refused = no_such_place(m, place);
    uintptr_t none = 0;
    check_address(m);
    if (refused) return refused;
    bool is_claimed = atomic_compare_exchange_strong(&m->place[place].thread, &none, port_thread());
    return is_claimed ? 0 : ZAULINTE_NOT_OUTSIDE;
}
static uint64_t unclaim(zaulinte_monitor *m, uint32_t place, uint64_t code) {
    /* release: the next claim, and `free`, acquire all that this thread did with the place */
    atomic_store_explicit(&m->place[place].thread, 0, memory_order_release);
    return code;
}
/* Returns why the calling thread can't act by the place, or 0: it has claimed it, so the place is inside. */
static inline uint64_t may_act(zaulinte_monitor *m, uint32_t place) {
    uint64_t refused = no_such_place(m, place);
    if (refused) return refused;
    /* relaxed: it is the thread's own number only if the thread's own claim wrote it last */
    uintptr_t thread = atomic_load_explicit(&m->place[place].thread, memory_order_relaxed);
    if (thread != port_thread()) return thread ? ZAULINTE_NOT_OUTSIDE : ZAULINTE_NOT_INSIDE;
    return 0;
}
#define ON zaulinte_monitor *m, uint32_t place, uint32_t condition
static uint64_t may_act_on(ON) {
    uint64_t refused = may_act(m, place);
    if (refused) check_exchange(m, place, condition);
    return refused;
}
/* Writes the word of a bell, and wakes a thread that sleeps on it. */
static void ring(zaulinte_bell *b, uint32_t how) {
    if (atomic_exchange(&b->word, how) == ASLEEP) port_wake_one(b);
}
/* Wakes one of the threads that sleep on the bell of an entrance, or of a group. */
static inline void wake_sleeper(zaulinte_bell *b) {
    /* sequentially consistent, as the step before it: docs/WAKING.md */
    if (atomic_load(&b->word) == ASLEEP) ring(b, AWAKE);
}
/* Rings the place that has the monitor next with `how`, and wakes its thread. If no place has it (`next` is NOBODY),
 * wakes one entering thread. */
static void wake(zaulinte_monitor *m, uint64_t next, uint32_t how) {
    if (next < NOBODY) ring(&m->place[next].bell, how);
    else wake_sleeper(&m->entrance);
}

/* Lets other places enter first. If place P leaves and hands off the monitor to `p`, then `p` would mostly enter again
 * before P does, find its condition false again and wait: each visit would cost a hand-off. */
static void back_off(zaulinte_place *p) {
    p->backs_off = false;
    for (int i = 0; i < ZAULINTE_BACK_OFF; i++) port_relax();
}
static bool enters(zaulinte_monitor *m, uint32_t place) {
    if (zaulinte_door_try_enter(at(m, place)) != ZAULINTE_DOOR_ENTERED) return false;
    visit_begins(m);
    return true;
}
/* Polls until the place has entered, after pauses of 1, 2, 4 .. hints, or until it is rung, after each hint. Returns
 * true if so. After polls that missed, a place leaves out its next 1, 3, 7 .. at most MOST polls: if the thread for
 * which it waits has no processor, or sleeps, polls only take time. */
enum { TO_ENTER, TO_RESUME, MOST = 255 };
APART bool polls(zaulinte_monitor *m, uint32_t place, int to) {
    zaulinte_patience *p = &m->place[place].patience[to];
    bool is_hit = false;
    if (ZAULINTE_POLLS == 0) return false;
    if (p->skips) return p->skips--, false;
    for (int hints = 0, pause; !is_hit && hints < ZAULINTE_POLLS; hints += pause) {
        pause = to == TO_ENTER ? hints + 1 : 1;
        for (int i = 0; i < pause; i++) port_relax();
        is_hit = to == TO_ENTER ? enters(m, place) : is_rung(&m->place[place].bell);
    }
    if (is_hit) p->misses = 0;
    else if (1 << p->misses <= MOST) p->misses++;
    p->skips = (uint16_t)((1 << p->misses) - 1);
    return is_hit;
}
static bool tries(zaulinte_monitor *m, uint32_t place) { return enters(m, place) || polls(m, place, TO_ENTER); }
/* Enters, and sleeps while the monitor isn't free. */
APART void sleeps(zaulinte_monitor *m, uint32_t place) {
    bool is_in = false;
    atomic_fetch_add(&m->sleepers, 1);
    while (!is_in) {
        /* sequentially consistent, as the attempt after it: docs/WAKING.md */
        atomic_exchange(&m->entrance.word, ASLEEP);
        is_in = enters(m, place);
        if (!is_in) port_sleep_while(&m->entrance, ASLEEP), is_in = tries(m, place);
    }
    if (atomic_fetch_sub(&m->sleepers, 1) > 1) atomic_exchange(&m->entrance.word, ASLEEP);
}
uint64_t zaulinte_enter(zaulinte_monitor *m, uint32_t place) {
    uint64_t refused = claim(m, place);
    if (refused) return refused;
    check_enter(m, place);
    if (m->place[place].backs_off) back_off(&m->place[place]);
    if (!tries(m, place)) sleeps(m, place);
    return 0;
}
uint64_t zaulinte_try_enter(zaulinte_monitor *m, uint32_t place) {
    uint64_t refused = claim(m, place);
    if (refused) return refused;
    return enters(m, place) ? 0 : unclaim(m, place, ZAULINTE_NOT_FREE);
}

/* Wakes the place that has the monitor next, and blocks until `place` is inside again. */
static void resumes(zaulinte_monitor *m, uint32_t place, uint64_t next) {
    zaulinte_bell *mine = &m->place[place].bell;
    uint32_t is = AWAKE;
    wake(m, next, RUNG);
    if (!is_rung(mine)) polls(m, place, TO_RESUME);
    atomic_compare_exchange_strong(&mine->word, &is, ASLEEP);
    while (!is_rung(mine) || zaulinte_door_try_return(at(m, place)) != ZAULINTE_DOOR_ENTERED)
        port_sleep_while(mine, ASLEEP);
    note_here(m, place);
    visit_begins(m);
    /* relaxed: the ring was acquired, and the next one comes after a later step of this place, which releases this */
    m->place[place].backs_off = atomic_exchange_explicit(&mine->word, AWAKE, memory_order_relaxed) == LEFT;
}
uint64_t zaulinte_leave(zaulinte_monitor *m, uint32_t place) {
    uint64_t refused = may_act(m, place);
    if (refused) return refused;
    check_leave(m, place);
    NOTE_ACT(LEAVE, 0, 0);
    visit_ends(m);
    wake(m, zaulinte_door_leave(at(m, place)), LEFT);
    return unclaim(m, place, 0);
}
uint64_t zaulinte_wait(ON, uint64_t priority) {
    uint64_t refused = may_act_on(m, place, condition);
    if (refused) return refused;
    check_wait(m, place, condition, priority);
    NOTE_ACT(WAIT, condition, priority);
    note_away(m, place, WAITS, condition, priority);
    check_groups(m);
    visit_ends(m);
    uint64_t next = zaulinte_door_wait(at(m, place), condition, priority);
    if (next > NOBODY) return note_here(m, place), next;
    resumes(m, place, next);
    check_ready(m, place, condition, priority);
    return 0;
}
/* Ends a signal whose step returned `next`. Blocks until `place` is inside again if another place was resumed. */
static inline uint64_t signalled(zaulinte_monitor *m, uint32_t place, uint64_t next, bool *resumed) {
    if (next >= NOBODY) note_here(m, place);
    if (next > NOBODY) return next;
    if (resumed) *resumed = next < NOBODY;
    if (next < NOBODY) resumes(m, place, next);
    return 0;
}
uint64_t zaulinte_signal(ON, bool *resumed) {
    uint64_t refused = may_act_on(m, place, condition);
    if (refused) return refused;
    check_signal(m, place, condition);
    NOTE_ACT(SIGNAL, condition, 0);
    note_away(m, place, HAS_SIGNALLED, condition, 0);
    visit_ends(m);
    return signalled(m, place, zaulinte_door_signal(at(m, place), condition), resumed);
}
uint64_t zaulinte_signal_to(ON, uint32_t waiter, bool *resumed) {
    uint64_t refused = may_act_on(m, place, condition);
    if (refused) return refused;
    check_signal_to(m, place, condition, waiter);
    NOTE_SIGNAL_TO(condition, waiter);
    note_away(m, place, HAS_SIGNALLED, condition, 0);
    visit_ends(m);
    return signalled(m, place, zaulinte_door_signal_to(at(m, place), condition, waiter), resumed);
}
uint64_t zaulinte_signal_leave(ON, bool *resumed) {
    uint64_t waited = 0; /* MemorySanitizer doesn't see that the archive writes it */
    uint64_t refused = may_act_on(m, place, condition);
    if (refused) return refused;
    check_signal_leave(m, place, condition);
    NOTE_ACT(PASS, condition, 0);
    visit_ends(m);
    uint64_t next = zaulinte_door_signal_leave(at(m, place), condition, &waited);
    if (next > NOBODY) return next;
    if (resumed) *resumed = waited;
    wake(m, next, LEFT);
    return unclaim(m, place, 0);
}

/* The other calls of the place inside. `tell` writes the number that a step returned to *to, or returns its refusal. */
static uint64_t tell(uint64_t number, uint64_t *to) {
    if (number <= NOBODY && to) *to = number;
    return number <= NOBODY ? 0 : number;
}
static uint64_t notifies(ON, uint64_t *called, uint8_t kind, uint64_t (*step)(zaulinte_door_place *, uint64_t)) {
    uint64_t refused = may_act_on(m, place, condition);
    if (refused) return refused;
    NOTE_ACT(kind, condition, 0);
    uint64_t many = step(at(m, place), condition);
    if (many <= NOBODY) note_notified(m, condition, many);
    return tell(many, called);
}
uint64_t zaulinte_notify(ON, uint64_t *called) {
    return notifies(m, place, condition, called, NOTIFY, zaulinte_door_notify);
}
uint64_t zaulinte_broadcast(ON, uint64_t *called) {
    return notifies(m, place, condition, called, BROADCAST, zaulinte_door_broadcast);
}
uint64_t zaulinte_count(ON, uint64_t *count) {
    uint64_t refused = may_act_on(m, place, condition);
    return refused ? refused : tell(zaulinte_door_count(at(m, place), condition), count);
}
uint64_t zaulinte_first(ON, bool *waits, uint64_t *priority) {
    uint64_t least = 0, refused = may_act_on(m, place, condition); /* as in signal_leave */
    uint64_t some = refused ? refused : zaulinte_door_first(at(m, place), condition, &least);
    if (some > 1) return some;
    if (waits) *waits = some;
    if (some && priority) *priority = least;
    return 0;
}
uint64_t zaulinte_queue(ON, bool *waits) { return zaulinte_first(m, place, condition, waits, NULL); }

/* Gives the places back, closes the door, and returns `code`, or why the door isn't closed. No call is under way. */
static uint64_t undo(zaulinte_monitor *m, uint32_t places, uint64_t code) {
    m->places = 0;
    for (uint32_t k = 0; k < places; k++) {
        zaulinte_door_give_back(at(m, k));
        port_free(&m->place[k].bell);
        unclaim(m, k, 0);
    }
    port_free(&m->entrance);
    zaulinte_door_collect(&m->door);
    uint64_t unused, kept = zaulinte_door_close(&m->door, &unused);
    return kept ? kept : code;
}
uint64_t zaulinte_make(zaulinte_monitor *m, uint64_t places, uint64_t conditions, uint64_t mesa) {
    if ((uintptr_t)m % alignof(zaulinte_monitor)) return ZAULINTE_MISALIGNED;
    if (m->places) return ZAULINTE_IS_MADE;
    uint64_t refused = zaulinte_door_make(&m->door, places, conditions, mesa, 0);
    if (refused) return refused;
    port_make(&m->entrance);
    for (uint32_t k = (uint32_t)places; k-- > 0;) { /* a new door gives out its numbers in this order */
        port_make(&m->place[k].bell);
        m->place[k].patience[TO_ENTER] = m->place[k].patience[TO_RESUME] = (zaulinte_patience){0, 0};
        if (zaulinte_door_give_out(&m->door, at(m, k)) != k) refused = ZAULINTE_NO_MEMORY;
    }
    if (refused) return undo(m, (uint32_t)places, refused);
    m->conditions = (uint16_t)conditions, m->hoare = (uint16_t)(conditions - mesa);
    m->name = m->names = NULL, m->show = NULL, m->recording = NULL, m->groups = NULL;
    note_address(m);
    m->places = (uint32_t)places;
    return 0;
}
uint64_t zaulinte_free(zaulinte_monitor *m) {
    if (has_threads(m) || (m->places && m->groups)) return ZAULINTE_IN_USE;
    return m->places ? undo(m, m->places, 0) : ZAULINTE_NO_BOOK;
}
#include "zaulinte_group.h"
