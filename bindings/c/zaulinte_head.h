/* zaulinte_head.h: the head of a disk that sweeps over its cylinders (C. A. R. Hoare, "Monitors", CACM 17(10), 1974,
 * Disk Head Scheduler), as steps, for C99, C11 and C++17. A step decides where a request waits, where the head goes and
 * which condition is signalled next. The caller makes requests wait and signals, by a monitor with Hoare's conditions 0
 * (upsweep) and 1 (downsweep): bindings/c/examples/disk_head.c. No call blocks or allocates.
 *
 * PROVED: each function meets its contract in crates/head_c/src/lib.rt, for any number: its result, all that it writes,
 * and that a refusal changes nothing. The laws in crates/head_c/src/laws.rt hold if the monitor resumes the waiter of
 * least priority, of equal ones the longest waiting. Then each waiter finds the drive out and its cylinder ahead of the
 * head in its sweep, or under it, and the number of grants that go before it is bounded.
 * Not proved: this header. The caller owes the following, and nothing checks it:
 *  - `head` points to a head that was all zero at first and that these functions alone wrote; `condition` and
 *    `priority` point to a word of the caller's, and no two of the three overlap;
 *  - one call at a time on one head: in a monitor, by the place inside. */
#ifndef ZAULINTE_HEAD_H
#define ZAULINTE_HEAD_H
#include <stdint.h>
#ifdef __cplusplus
extern "C" {
#endif

/* The head: its cylinder and the last cylinder, its sweep (0 up, 1 down), and the drive (0 in; 1 out: a request has
 * it). Start with `zaulinte_head head = {0};`, which is a disk of one cylinder, with the drive in. */
typedef struct zaulinte_head {
    uint64_t at, last, sweep, out;
} zaulinte_head;

/* The codes. The comment of each function names its refusals in the order in which the function tests for them. */
enum zaulinte_head_code {
    ZAULINTE_HEAD_DONE = 0,
    ZAULINTE_HEAD_AT_ONCE = 0,   /* `ask`: the drive is in */
    ZAULINTE_HEAD_WAITS = 1,     /* `ask`: the request waits first */
    ZAULINTE_HEAD_OFF_DISK = 116, /* the cylinder is past the last one; `make`: `last` is above 65,535 */
    ZAULINTE_HEAD_IS_OUT = 117,  /* the drive is out already */
    ZAULINTE_HEAD_NOT_OUT = 118, /* the drive isn't out */
    ZAULINTE_HEAD_NO_ANSWER = 119 /* `give_back`: `waits` is neither 1 nor 0 */
};
/* The two sweeps. Each is also the number of the condition on which requests wait for it. */
enum zaulinte_head_sweeps { ZAULINTE_HEAD_UP = 0, ZAULINTE_HEAD_DOWN = 1 };

/* Makes a head at cylinder 0 of the cylinders 0 to `last`, at most 65,535. It sweeps up, and the drive is in. Returns
 * 0. Refused: 116 `last` is above 65,535. A head may be made anew at any time. */
uint64_t zaulinte_head_make(zaulinte_head *head, uint64_t last);
/* Decides if a request for `cylinder` has to wait. Returns 0 if the drive is in: the request continues at once. Returns
 * 1 if the request waits first, on *condition with *priority, for the sweep that reaches the cylinder. On the upsweep
 * the priority is the cylinder, on the downsweep its distance from the last one. For the cylinder under the head it is
 * the other sweep, so that a stream of such requests can't hold the head there. Refused: 116 the cylinder is past
 * the last one. The two words are written only if 1 is returned, and the head never. */
uint64_t zaulinte_head_ask(const zaulinte_head *head, uint64_t cylinder, uint64_t *condition, uint64_t *priority);
/* Grants the drive to a request for `cylinder`, at once or after its wait, and returns 0: the head is at the cylinder,
 * and the drive is out. Refused: 116 the cylinder is past the last one, 117 the drive is out already. */
uint64_t zaulinte_head_grant(zaulinte_head *head, uint64_t cylinder);
/* Returns the condition of the present sweep, 0 up or 1 down. Before it gives the drive back, the caller asks its
 * monitor if a request waits on that condition. */
uint64_t zaulinte_head_sweep(const zaulinte_head *head);
/* Takes the drive back in, writes the condition that the caller then signals to *condition, and returns 0. `waits` is
 * what the monitor returned: 1 if a request waits for the present sweep, else 0; at 0 the head turns. Refused: 119
 * `waits` is neither, 118 the drive isn't out; *condition then stays. */
uint64_t zaulinte_head_give_back(zaulinte_head *head, uint64_t waits, uint64_t *condition);

#ifdef __cplusplus
}
#endif
#endif
