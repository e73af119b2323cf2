/* zaulinte_book.h: the queues of one Hoare monitor (C. A. R. Hoare, CACM 17(10), 1974) and of Mesa conditions, for
 * C99, C11 and C++17.
 *
 * PROVED: each function meets its contract in crates/book_c/src/lib.rt. If the book is of a history before a step, it
 * is of that history with the step's events afterwards; a refusal changes nothing. Any number may be passed, to a book
 * that is all zero, made or freed. No call blocks, and only `make` allocates. The caller owes the following, and
 * nothing checks it:
 *  - `book` points to a zaulinte_book that was all zero at first and that these functions alone wrote. It is never
 *    copied. `priority` and `count` point to a word of the caller's;
 *  - one call at a time on one book, in an order that all threads see (by a lock, say);
 *  - no call from a signal handler. */
#ifndef ZAULINTE_BOOK_H
#define ZAULINTE_BOOK_H
#include "zaulinte_version.h"
#include <stdint.h>
#ifdef __cplusplus
extern "C" {
#endif

/* A book. Start with `zaulinte_book book = {0};`. */
typedef struct zaulinte_book {
    uint64_t live;
    void *spare, *at;
} zaulinte_book;

/* The codes. A function tests for 107 first, then for its other refusals in the order of their numbers. */
enum zaulinte_code {
    ZAULINTE_DONE = 0,
    ZAULINTE_FREE = 64,           /* no place is inside */
    ZAULINTE_NO_PLACE = 101,      /* no place has this number */
    ZAULINTE_NOT_FREE = 102,      /* a place is to enter, and a place is inside */
    ZAULINTE_NOT_OUTSIDE = 103,   /* the place that is to enter is away: it waits, was notified, or has signalled */
    ZAULINTE_NOT_INSIDE = 104,    /* the place that acts isn't inside */
    ZAULINTE_NO_CONDITION = 105,  /* no condition has this number */
    ZAULINTE_WRONG_KIND = 106,    /* a signal on a Mesa condition, or a notify or broadcast on one of Hoare's */
    ZAULINTE_NO_BOOK = 107,       /* there is no book: it was never made, or was freed */
    ZAULINTE_IS_MADE = 108,       /* `make`: there is a book already */
    ZAULINTE_BAD_PLACES = 109,    /* `make`: none, or over 64 */
    ZAULINTE_BAD_CONDITIONS = 110, /* `make`: none, over 8, or more Mesa conditions than conditions */
    ZAULINTE_NO_MEMORY = 111      /* `make`: an allocation failed */
};

/* Makes a book of `places` places, 1 to 64, and `conditions` conditions, 1 to 8, the last `mesa` of which are Mesa
 * conditions. Returns 0. Refused: 108 `book` is a book already, 109 bad number of places, 110 bad number of conditions
 * or of Mesa conditions, 111 an allocation failed. */
uint64_t zaulinte_book_make(zaulinte_book *book, uint64_t places, uint64_t conditions, uint64_t mesa);
/* Frees the book and its memory. Returns 0; there is no book then. Refused: 107 no book. */
uint64_t zaulinte_book_free(zaulinte_book *book);

/* The steps. Each returns the place that is inside after it (below 64), or 64 if none is, or a refusal (101 to 107). A
 * place to which a step hands off the monitor is inside at once. If a `wait` or a `signal` of a place returned a number
 * of at most 64 that isn't its own, the place is away. It is inside again exactly when a later step returns its number.
 *
 * A signal resumes the waiter of least priority, and of equal ones the longest waiting. If the monitor is released
 * otherwise, signallers return before notified places, and these before any place enters.
 *
 * Lets `place` (below the number of places) enter. Refused: 107 no book, 101 no such place, 102 a place is inside, 103
 * `place` isn't outside. */
uint64_t zaulinte_book_enter(zaulinte_book *book, uint64_t place);
/* Lets `place` leave. Refused: 107 no book, 101 no such place, 104 `place` isn't inside. */
uint64_t zaulinte_book_leave(zaulinte_book *book, uint64_t place);
/* Lets `place` wait on `condition` (below the number of conditions) with `priority`, any number. Refused: 107 no book,
 * 101 no such place, 104 `place` isn't inside, 105 no such condition. */
uint64_t zaulinte_book_wait(zaulinte_book *book, uint64_t place, uint64_t condition, uint64_t priority);
/* Lets `place` signal `condition`, one of Hoare's. If a place waits on it, that place is resumed, and `place` returns
 * later; else `place` stays inside. Refused: 107 no book, 101 no such place, 104 `place` isn't inside, 105 no such
 * condition, 106 a Mesa condition. */
uint64_t zaulinte_book_signal(zaulinte_book *book, uint64_t place, uint64_t condition);
/* Lets `place` signal to the place `waiter` on `condition`, one of Hoare's. If `waiter` waits on it, `waiter` is
 * resumed, whichever places wait there before it, and `place` returns later; these places keep their order. Else
 * `place` stays inside, also if there is no place `waiter`. Refused as `signal`. */
uint64_t zaulinte_book_signal_to(zaulinte_book *book, uint64_t place, uint64_t condition, uint64_t waiter);
/* Lets `place` signal `condition`, one of Hoare's, as its last act: `place` is outside then. Refused as `signal`. */
uint64_t zaulinte_book_pass(zaulinte_book *book, uint64_t place, uint64_t condition);
/* Lets `place` notify the waiter on the Mesa condition `condition` that a signal would resume. `place` stays inside,
 * and the notified place resumes later. Refused: 107 no book, 101 no such place, 104 `place` isn't inside, 105 no such
 * condition, 106 one of Hoare's conditions. */
uint64_t zaulinte_book_notify(zaulinte_book *book, uint64_t place, uint64_t condition);
/* Lets `place` notify all waiters on the Mesa condition `condition`. Refused as `notify`. */
uint64_t zaulinte_book_broadcast(zaulinte_book *book, uint64_t place, uint64_t condition);

/* Returns the place that is inside (below 64), or 64 if none is. Refused: 107 no book. */
uint64_t zaulinte_book_now(zaulinte_book *book);
/* Returns the number of places, 1 to 64. Refused: 107 no book. */
uint64_t zaulinte_book_places(zaulinte_book *book);
/* Returns the number of conditions, 1 to 8, Mesa conditions included. Refused: 107 no book. */
uint64_t zaulinte_book_conditions(zaulinte_book *book);
/* Returns 1 if `place` is outside, else 0. Refused: 107 no book, 101 no such place. */
uint64_t zaulinte_book_outside(zaulinte_book *book, uint64_t place);
/* Returns 1 if a place waits on `condition` (a notified place doesn't), else 0. Refused: 107 no book, 105 no such
 * condition. */
uint64_t zaulinte_book_queue(zaulinte_book *book, uint64_t condition);
/* Returns 1 if a place waits on `condition`, and writes the priority of the place that a signal would resume to
 * *priority. Else returns 0. Refused: 107 no book, 105 no such condition. Unless 1 is returned, *priority stays. */
uint64_t zaulinte_book_first(zaulinte_book *book, uint64_t condition, uint64_t *priority);
/* Writes the number of places that wait on `condition` to *count, and returns 0. Refused: 107 no book, 105 no such
 * condition; *count then stays. */
uint64_t zaulinte_book_count(zaulinte_book *book, uint64_t condition, uint64_t *count);

#ifdef __cplusplus
}
#endif
#endif
