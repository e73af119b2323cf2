/* zaulinte_monitor.h: a running monitor for threads, on the proved door. C11 or C++17.
 *
 * PROVED: the steps of the door (zaulinte_door.h), which decide which place enters, resumes or is inside. NOT PROVED,
 * tested: this header, and zaulinte_monitor.c with the port, which put a thread to sleep and wake the thread whose
 * place a step returns. The caller touches the monitor's data only while its place is inside.
 *
 * zaulinte_port.h says what the monitor asks of its platform. Compile all that includes this header, and
 * zaulinte_monitor.c, with the same ZAULINTE_PORT and the same ZAULINTE_CHECKS: else the program doesn't link. */
#ifndef ZAULINTE_MONITOR_H
#define ZAULINTE_MONITOR_H
#if defined(__cplusplus) ? __cplusplus < 201703L : __STDC_VERSION__ < 201112L
#error "zaulinte_monitor.h is for C11 and C++17: compile with -std=c11 or -std=c++17, or newer"
#endif
#include "zaulinte_book.h" /* its codes */
#include "zaulinte_door.h"
#include "zaulinte_head.h" /* its codes, for zaulinte_text */
#include <stdbool.h>
#include <stddef.h>
#include "zaulinte_port.h"
#ifndef ZAULINTE_STDIO
#define ZAULINTE_STDIO __STDC_HOSTED__ /* 0: no dumps, and no recordings */
#endif
#if __STDC_HOSTED__
#include <stdio.h>
#include <stdlib.h>
#include <string.h>
#endif
#ifndef ZAULINTE_BELL_FIELDS
#define ZAULINTE_BELL_FIELDS
#endif
#ifdef __GNUC__
#define ZAULINTE_CODE __attribute__((warn_unused_result)) uint64_t
#else
#define ZAULINTE_CODE uint64_t
#endif
#ifdef __cplusplus /* C++ never touches the fields: the same layout with plain words */
#define ZAULINTE_WORD(type) type
extern "C" {
#else
#include <stdalign.h>
#include <stdatomic.h>
#define ZAULINTE_WORD(type) _Atomic type
#endif

/* The codes besides those of zaulinte_book.h. */
enum {
    ZAULINTE_IN_USE = 112,    /* `free`: a thread has a place, which is inside, waits or is about to enter */
    ZAULINTE_MISALIGNED = 115 /* `make`: the monitor isn't at an address that is a multiple of 64 */
};

/* A word on which threads sleep, with the port's fields. */
typedef struct zaulinte_bell {
    ZAULINTE_WORD(uint32_t) word;
    ZAULINTE_BELL_FIELDS /* the port's */
} zaulinte_bell;

/* The polls of a place: how many missed since the last hit, and how many of the next ones it leaves out. */
typedef struct zaulinte_patience {
    uint16_t misses, skips;
} zaulinte_patience;

/* A place, at a multiple of 64 bytes: against false sharing. */
typedef struct zaulinte_place {
    alignas(64) zaulinte_bell bell;  /* its thread sleeps on it: 0 awake, 1 asleep, 2 or 3 rung */
    ZAULINTE_WORD(uintptr_t) thread; /* the thread that has the place, from its `enter` until it has left, else 0 */
    zaulinte_door_place handle;
    zaulinte_patience patience[2]; /* to enter, and to resume */
    bool backs_off;                /* it was handed the monitor by a place that left */
    /* why it is away, if it is; on which condition; with which priority; and the number of the act that sent it
     * away, or notified it */
    ZAULINTE_WORD(uint8_t) away, condition;
    ZAULINTE_WORD(uint32_t) order;
    ZAULINTE_WORD(uint64_t) priority;
} zaulinte_place;

/* The waiters on each condition, for a check: `count` is their number, `first` the priority of the waiter that a signal
 * would resume (if there is one). */
typedef struct zaulinte_waiting {
    uint64_t count[8], first[8];
} zaulinte_waiting;

/* The three checks of a monitor's data (`context`), for `zaulinte_check`. Each returns true if what it checks holds. A
 * null pointer instead of a function holds always.
 * - inv: holds whenever the monitor is released.
 * - rest: holds at a leave and at a wait; the place that begins to wait is then among the waiters.
 * - ready: what a waiter on one of Hoare's conditions finds when it is resumed; `waiting` has those that still wait. */
typedef bool (*zaulinte_inv)(void *context);
typedef bool (*zaulinte_rest)(void *context, const zaulinte_waiting *waiting);
typedef bool (*zaulinte_ready)(void *context, uint32_t condition, uint64_t priority, const zaulinte_waiting *waiting);

/* The last acts of a monitor, in memory of the caller's (`zaulinte_record`). */
typedef struct zaulinte_recording zaulinte_recording;

/* Some places of a monitor, which threads borrow (`zaulinte_group_make`). Start with memory that is all zero. */
typedef struct zaulinte_group {
    zaulinte_bell bell;               /* threads that want a place sleep on it */
    ZAULINTE_WORD(uint32_t) sleepers; /* these threads: asleep, about to sleep, or woken and without a place yet */
    ZAULINTE_WORD(uint64_t) free;     /* a bit for each place that no thread has borrowed */
    uint64_t all;                     /* a bit for each place. 0: there is no group */
    ZAULINTE_WORD(bool) was_named;    /* that all of its places wait */
    struct zaulinte_monitor *of;
    struct zaulinte_group *next; /* of the same monitor */
} zaulinte_group;

/* A monitor. Start with `static zaulinte_monitor m;`, with memory that is all zero at an address that is a multiple of
 * 64, or with `zaulinte_new`. It has a size of some 4 KB, with condition variables of some 12 KB; `zaulinte_new`
 * allocates only the places that there are. */
typedef struct zaulinte_monitor {
    alignas(64) zaulinte_bell entrance; /* entering threads sleep on it */
    ZAULINTE_WORD(uint32_t) sleepers;   /* entering threads: asleep, about to sleep, or woken and not in yet */
    ZAULINTE_WORD(uint32_t) places;     /* 0: there is no monitor */
    uint16_t conditions, hoare;         /* the number of conditions, and of Hoare's, which come first */
    zaulinte_door door;
    zaulinte_recording *recording; /* NULL: nobody asked for one */
    uint32_t order; /* the number of the next act that sends a place away, or notifies it */
    const char *name, *names; /* of the monitor and of its conditions */
    void (*show)(void *data);
    void *data;
    zaulinte_group *groups;
#ifdef ZAULINTE_CHECKS
    uint32_t signaller; /* the place that signalled last */
    struct zaulinte_monitor *self;
    zaulinte_inv inv;
    zaulinte_rest rest;
    zaulinte_ready ready;
    void *context;
#endif
    zaulinte_place place[64];
} zaulinte_monitor;

/* Each file that includes this header asks for a symbol that has the choices of the build in its name. */
#define ZAULINTE_JOINED(name, port) name##port
#define ZAULINTE_JOIN(name, port) ZAULINTE_JOINED(name, port)
#ifdef ZAULINTE_CHECKS
#define ZAULINTE_BUILD ZAULINTE_JOIN(zaulinte_build_checked_, ZAULINTE_PORT_NAME)
#else
#define ZAULINTE_BUILD ZAULINTE_JOIN(zaulinte_build_, ZAULINTE_PORT_NAME)
#endif
extern const char ZAULINTE_BUILD;
#ifdef __GNUC__
__attribute__((used))
#endif
static const char *const zaulinte_asks_for = &ZAULINTE_BUILD;

/* Makes a monitor of `places` places, 1 to 64, one for each thread that may be in it at once, and of `conditions`
 * conditions, 1 to 8, the last `mesa` of which are Mesa conditions. For data alone make 1, on which no thread waits.
 * Returns 0. Refused, in this order: 115 `m` isn't at a multiple of 64, 108 there is a monitor already, 109 bad number
 * of places, 110 bad number of conditions or of Mesa conditions, 111 an allocation failed. */
ZAULINTE_CODE zaulinte_make(zaulinte_monitor *m, uint64_t places, uint64_t conditions, uint64_t mesa);
/* Frees what `zaulinte_make` made, and returns 0; there is no monitor then. Refused: 107 there is no monitor; 112 a
 * thread has a place, which is inside or waits, or the thread is in a call; or a group of the monitor isn't freed. A
 * refusal changes nothing. The caller joins the threads first, so that none begins a call meanwhile. */
ZAULINTE_CODE zaulinte_free(zaulinte_monitor *m);

/* The calls of a place. Each returns 0, or a refusal, and then nothing happened.
 *
 * A place belongs to one thread at a time, from its `enter` until it has left. A call of another thread by that place
 * is refused with 103. A place that acts is refused with 107 if there is no monitor, with 101 if there is no such
 * place, with 103 if it is another thread's, and with 104 if it is outside. After that, if the call has a condition, it
 * is refused with 105 if there is no such condition, and with 106 if the condition is of the other kind. A build with
 * ZAULINTE_CHECKS ends the program if place and condition seem to be exchanged.
 *
 * Lets `place` (below the number of places) enter, and returns 0. Blocks until it can enter. Refused: 107 no monitor,
 * 101 no such place, 103 the place is inside, waits, or is another thread's. */
ZAULINTE_CODE zaulinte_enter(zaulinte_monitor *m, uint32_t place);
/* Lets `place` enter if the monitor is free at this moment, and returns 0. Never blocks. Refused: 107, 101 and 103 as
 * `enter`, 102 the monitor isn't free. docs/KERNEL.md has the calls that an interrupt handler of a kernel may make. */
ZAULINTE_CODE zaulinte_try_enter(zaulinte_monitor *m, uint32_t place);
/* Lets `place` leave, and returns 0. Refused: 107, 101, 103, 104. */
ZAULINTE_CODE zaulinte_leave(zaulinte_monitor *m, uint32_t place);
/* Lets `place` wait on `condition` (below the number of conditions) with `priority`, any number; a signal resumes the
 * waiter of least priority, of equal ones the longest waiting. Blocks until the place is resumed, and returns 0: it is
 * inside. Refused: 107, 101, 103, 104, 105. */
ZAULINTE_CODE zaulinte_wait(zaulinte_monitor *m, uint32_t place, uint32_t condition, uint64_t priority);
/* Lets `place` signal `condition`, one of Hoare's. If a place waits on it, that place is inside at once, and the call
 * blocks until `place` returns. Returns 0, with `place` inside. Writes to *resumed, a word of the thread's own, true if
 * a place waited, else false; `resumed` may be NULL. Refused: 107, 101, 103, 104, 105, 106 a Mesa condition. */
ZAULINTE_CODE zaulinte_signal(zaulinte_monitor *m, uint32_t place, uint32_t condition, bool *resumed);
/* Lets `place` signal to the place `waiter` on `condition`, one of Hoare's. As `signal`, but if `waiter` waits on
 * `condition`, it is the place that resumes, whichever places wait there before it; these keep their order. Returns 0,
 * with `place` inside. Writes to *resumed, which may be NULL, true if `waiter` waited there. Else it writes false, and
 * nothing happens: `waiter` is outside, inside or about to enter, has signalled, waits on another condition, or is no
 * place. Refused: 107, 101, 103, 104, 105, 106 a Mesa condition.
 *
 * Use it to end a wait early: a time limit has passed, a client is gone, or the answer has come for one of many
 * waiters, which the signaller finds by a key. A waiter can't tell by which call it was resumed. So before the call the
 * signaller writes to the data why it resumes this waiter, and the waiter reads that when its `wait` returns.
 *
 * The caller owes what it owes at a `signal` (`zaulinte_check`): `inv`, and `ready` for this waiter, with its condition
 * and its priority, while the others still wait. If `ready` says that there is an item, let it say so only of a wait
 * that wasn't ended early. Hoare's paper has no such call: his signal resumes the first waiter. */
ZAULINTE_CODE zaulinte_signal_to(zaulinte_monitor *m, uint32_t place, uint32_t condition, uint32_t waiter,
                                 bool *resumed);
/* Lets `place` signal `condition`, one of Hoare's, and leave, in one step; returns 0. Writes *resumed, and is refused,
 * as `signal`. */
ZAULINTE_CODE zaulinte_signal_leave(zaulinte_monitor *m, uint32_t place, uint32_t condition, bool *resumed);
/* Lets `place` notify the waiter on the Mesa condition `condition` that a signal would resume, and returns 0. The
 * notified place resumes later, and tests again. Writes the number of notified places, 1 or 0, to *called, which may be
 * NULL. Refused: 107, 101, 103, 104, 105, 106 one of Hoare's conditions. */
ZAULINTE_CODE zaulinte_notify(zaulinte_monitor *m, uint32_t place, uint32_t condition, uint64_t *called);
/* Lets `place` notify all waiters on the Mesa condition `condition`, and returns 0. Writes their number, at most 63, to
 * *called, which may be NULL. Refused as `notify`. */
ZAULINTE_CODE zaulinte_broadcast(zaulinte_monitor *m, uint32_t place, uint32_t condition, uint64_t *called);
/* Writes to *waits true if a place waits on `condition` (a notified place doesn't), else false, and returns 0. `waits`
 * may be NULL. Refused: 107, 101, 103, 104, 105; *waits then stays. */
ZAULINTE_CODE zaulinte_queue(zaulinte_monitor *m, uint32_t place, uint32_t condition, bool *waits);
/* As `queue`; if a place waits on `condition`, also writes the priority of the place that a signal would resume to
 * *priority, which stays otherwise. Either pointer may be NULL. Refused as `queue`. */
ZAULINTE_CODE zaulinte_first(zaulinte_monitor *m, uint32_t place, uint32_t condition, bool *waits, uint64_t *priority);
/* Writes the number of places that wait on `condition` to *count, which may be NULL, and returns 0. Refused as
 * `queue`; *count then stays. */
ZAULINTE_CODE zaulinte_count(zaulinte_monitor *m, uint32_t place, uint32_t condition, uint64_t *count);

/* More threads than places. A thread borrows a place of a group, for one visit or for as long as it lives, and calls
 * with its number. A thread that waits keeps its place. So those threads that signal need a group of their own: else
 * all places may wait, and no thread gets one to signal. A build with ZAULINTE_CHECKS prints a line, once for each
 * group, if all of its places wait and a thread wants one; and it ends the program at a wait after which all places of
 * a monitor wait. A dump shows what each group has lent. No thread calls with the number of a place of a group that it
 * hasn't borrowed.
 *
 * Makes a group of the `count` places of `m` from `first` on, and returns 0. Call it before threads borrow of any group
 * of `m`. Refused, in this order: 108 there is a group already, 107 there is no monitor, 109 it hasn't these places, or
 * `count` is 0, 112 another group has one of them. */
ZAULINTE_CODE zaulinte_group_make(zaulinte_group *g, zaulinte_monitor *m, uint32_t first, uint32_t count);
/* Frees what `zaulinte_group_make` made, and returns 0. Join its threads before, and free its monitor afterwards.
 * Refused: 107 there is no group, 112 a place is borrowed. A refusal changes nothing. */
ZAULINTE_CODE zaulinte_group_free(zaulinte_group *g);
/* Borrows a place of the group, writes its number to *place, and returns 0. Blocks until a place is free; in which
 * order blocked threads get places isn't specified. Refused: 107 there is no group. */
ZAULINTE_CODE zaulinte_borrow(zaulinte_group *g, uint32_t *place);
/* Borrows a place as `zaulinte_borrow`, but never blocks. Refused: 107 there is no group, 102 no place is free at this
 * moment; *place then stays. */
ZAULINTE_CODE zaulinte_try_borrow(zaulinte_group *g, uint32_t *place);
/* Gives a borrowed place back, and returns 0. Never blocks. Refused: 107 there is no group, 101 the group hasn't lent
 * such a place, 103 the place isn't outside. */
ZAULINTE_CODE zaulinte_give_back(zaulinte_group *g, uint32_t place);

/* Sets what holds of the data, `context`. Call it after `zaulinte_make`, before any thread enters. A build with
 * ZAULINTE_CHECKS tests it at each wait, signal and leave. If a check fails, it prints to standard error the file and
 * the line of the call, the monitor's name, which of the three, the place and what it does on which condition; then
 * the dump; and aborts. A build without ZAULINTE_CHECKS tests nothing. */
void zaulinte_check(zaulinte_monitor *m, zaulinte_inv inv, zaulinte_rest rest, zaulinte_ready ready, void *context);

/* Names the monitor and its conditions, for dumps and for the lines of checks. `conditions` has the names with commas
 * or blanks between, in the order of their numbers. Either may be NULL, and both are kept, not copied. Call it after
 * `zaulinte_make`, before any thread enters. */
void zaulinte_name(zaulinte_monitor *m, const char *name, const char *conditions);
#ifdef ZAULINTE_CHECKS
/* Says where the calling thread makes its next call, for the line of a check. In C the calls do that themselves. */
void zaulinte_at(const char *file, int line);
#if !defined(__cplusplus) && !defined(ZAULINTE_MONITOR_CODE)
#define ZAULINTE_HERE(call) (zaulinte_at(__FILE__, __LINE__), call)
#define zaulinte_enter(m, place) ZAULINTE_HERE(zaulinte_enter(m, place))
#define zaulinte_try_enter(m, place) ZAULINTE_HERE(zaulinte_try_enter(m, place))
#define zaulinte_leave(m, place) ZAULINTE_HERE(zaulinte_leave(m, place))
#define zaulinte_wait(m, place, condition, priority) ZAULINTE_HERE(zaulinte_wait(m, place, condition, priority))
#define zaulinte_signal(m, place, condition, resumed) ZAULINTE_HERE(zaulinte_signal(m, place, condition, resumed))
#define zaulinte_signal_to(m, place, condition, waiter, resumed) \
    ZAULINTE_HERE(zaulinte_signal_to(m, place, condition, waiter, resumed))
#define zaulinte_signal_leave(m, place, condition, resumed) \
    ZAULINTE_HERE(zaulinte_signal_leave(m, place, condition, resumed))
#define zaulinte_notify(m, place, condition, called) ZAULINTE_HERE(zaulinte_notify(m, place, condition, called))
#define zaulinte_broadcast(m, place, condition, called) ZAULINTE_HERE(zaulinte_broadcast(m, place, condition, called))
#define zaulinte_queue(m, place, condition, waits) ZAULINTE_HERE(zaulinte_queue(m, place, condition, waits))
#define zaulinte_first(m, place, condition, waits, priority) \
    ZAULINTE_HERE(zaulinte_first(m, place, condition, waits, priority))
#define zaulinte_count(m, place, condition, count) ZAULINTE_HERE(zaulinte_count(m, place, condition, count))
#endif
#endif

/* Returns the meaning of a code, of zaulinte_head.h too, as English text without a full stop. */
static inline const char *zaulinte_text(uint64_t code) {
    switch (code) {
    case ZAULINTE_DONE: return "done";
    case ZAULINTE_NO_PLACE: return "there is no such place";
    case ZAULINTE_NOT_FREE: return "the monitor isn't free";
    case ZAULINTE_NOT_OUTSIDE: return "the place isn't outside, or another thread has it";
    case ZAULINTE_NOT_INSIDE: return "the place isn't inside";
    case ZAULINTE_NO_CONDITION: return "there is no such condition";
    case ZAULINTE_WRONG_KIND: return "the condition is of the other kind";
    case ZAULINTE_NO_BOOK: return "there is no monitor";
    case ZAULINTE_IS_MADE: return "there is a monitor already";
    case ZAULINTE_BAD_PLACES: return "a monitor has 1 to 64 places";
    case ZAULINTE_BAD_CONDITIONS: return "a monitor has 1 to 8 conditions";
    case ZAULINTE_NO_MEMORY: return "out of memory";
    case ZAULINTE_IN_USE: return "a thread has a place: it is inside, or in a call";
    case ZAULINTE_MISALIGNED: return "the monitor isn't at a multiple of 64";
    case ZAULINTE_HEAD_OFF_DISK: return "the cylinder is past the last one";
    case ZAULINTE_HEAD_IS_OUT: return "the drive is out already";
    case ZAULINTE_HEAD_NOT_OUT: return "the drive isn't out";
    case ZAULINTE_HEAD_NO_ANSWER: return "whether a request waits is 1 or 0";
    default: return "no code of a monitor";
    }
}

#if ZAULINTE_STDIO
/* Sets a function that prints the monitor's data to standard error, at the end of each dump. */
void zaulinte_show(zaulinte_monitor *m, void (*show)(void *data), void *data);
/* Prints to standard error the thread of each place and what it does: it is outside, enters, is inside, waits (on which
 * condition, with which priority), has signalled, or was notified. Then prints the places that are away in the order in
 * which they resume. Any thread may call it at any time before `zaulinte_free`, and so may a debugger:
 * `call (void)zaulinte_dump(m)`. If threads are running, its lines may be of different moments. */
void zaulinte_dump(zaulinte_monitor *m);

/* Returns how many bytes a recording of so many acts has. */
size_t zaulinte_recording_size(size_t acts);
/* Records the acts of all places from now on, in a ring in `memory`, of `size` bytes and aligned as `malloc`'s, which
 * the caller keeps until `zaulinte_free`; NULL ends the recording. Returns 0. Refused: 107 there is no monitor, 112 a
 * thread has a place, 111 the memory has no room for an act.
 *
 * A script has no line for `zaulinte_signal_to`. If it resumes the waiter that a `signal` would resume, it is recorded
 * as that signal. If it resumes another waiter, the recording begins anew, in the state after it: the acts before it
 * are lost. If it resumes none, nothing is recorded. */
ZAULINTE_CODE zaulinte_record(zaulinte_monitor *m, void *memory, size_t size);
/* Writes the recording to a file, as a script of docs/GUIDE.md: the script program replays it, and the page draws it.
 * If the ring overflowed, or the recording began anew, the script begins with acts that bring a new monitor into the
 * state in which the recording begins. Returns false if nothing is recorded, or the file can't be written. Call it by a
 * place inside, while no thread has a place, or from a debugger. */
bool zaulinte_save(zaulinte_monitor *m, const char *path);
#endif

#if __STDC_HOSTED__
/* Tests the code that a call returned. If it isn't 0, prints file, line, call, text and code to standard error, and
 * aborts. */
#define ZAULINTE_CHECK(call) zaulinte_test((call), #call, __FILE__, __LINE__)
static inline void zaulinte_test(uint64_t code, const char *call, const char *file, int line) {
    if (!code) return;
    fprintf(stderr, "%s:%d: %s: %s (%d)\n", file, line, call, zaulinte_text(code), (int)code);
    abort();
}
/* Makes a monitor in memory of its own, with the sizes of `zaulinte_make`, and returns it. Writes 0 to *code, which may
 * be NULL. Returns a null pointer if it is refused, and writes the reason to *code: 109 bad number of places, 110 bad
 * number of conditions or of Mesa conditions, 111 an allocation failed. */
static inline zaulinte_monitor *zaulinte_new(uint64_t places, uint64_t conditions, uint64_t mesa, uint64_t *code) {
    size_t used = places < 64 ? (size_t)places : 64;
    size_t size = offsetof(zaulinte_monitor, place) + used * sizeof(zaulinte_place);
    void *at = aligned_alloc(64, size);
    zaulinte_monitor *m = (zaulinte_monitor *)(at ? memset(at, 0, size) : NULL);
    uint64_t refused = m ? zaulinte_make(m, places, conditions, mesa) : (uint64_t)ZAULINTE_NO_MEMORY;
    if (code) *code = refused;
    if (!refused) return m;
    free(m);
    return NULL;
}
/* Frees a monitor of `zaulinte_new` and its memory, and returns 0. Refused as `zaulinte_free`, and the memory stays. */
static inline ZAULINTE_CODE zaulinte_delete(zaulinte_monitor *m) {
    uint64_t refused = zaulinte_free(m);
    if (!refused) free(m);
    return refused;
}
#endif
#ifdef __cplusplus
}
#endif
#endif
