/* The functions of zaulinte_head.h are proved (crates/head_c). Tested is that header and archive agree: in the sweep
 * that is worked out in the comment of `sweeps`, and once for each code, by numbers that would be right if they were
 * cut to 32 bits. */
#include "zaulinte_head.h"
#include <inttypes.h>
#include <stdio.h>
#include <stdlib.h>

/* the first wrong result ends the test */
#define IS(call, wanted) is(__LINE__, #call, call, wanted)
static void is(int line, const char *call, uint64_t answer, uint64_t wanted) {
    if (answer == wanted) return;
    printf("head.c, line %d: %s: %" PRIu64 " and not %" PRIu64 "\n", line, call, answer, wanted);
    exit(1);
}

static zaulinte_head head;
enum { UP = ZAULINTE_HEAD_UP, DOWN = ZAULINTE_HEAD_DOWN, LAST = 399, UNTOUCHED = 77 };
static void head_is(int line, uint64_t at, uint64_t last, uint64_t sweep, uint64_t out) {
    is(line, "head.at", head.at, at);
    is(line, "head.last", head.last, last);
    is(line, "head.sweep", head.sweep, sweep);
    is(line, "head.out", head.out, out);
    is(line, "zaulinte_head_sweep(&head)", zaulinte_head_sweep(&head), sweep);
}
#define HEAD_IS(at, last, sweep, out) head_is(__LINE__, at, last, sweep, out)

/* A request returns this code. If it waits, it does so on this condition with this priority. */
static void asks(int line, uint64_t cylinder, uint64_t code, uint64_t on, uint64_t by) {
    uint64_t condition = UNTOUCHED, priority = UNTOUCHED;
    is(line, "ask", zaulinte_head_ask(&head, cylinder, &condition, &priority), code);
    is(line, "the condition", condition, on);
    is(line, "the priority", priority, by);
}
#define WAITS(cylinder, on, by) asks(__LINE__, cylinder, ZAULINTE_HEAD_WAITS, on, by)
#define ANSWERS(cylinder, code) asks(__LINE__, cylinder, code, UNTOUCHED, UNTOUCHED)
static void gives_back(int line, uint64_t waits, uint64_t code, uint64_t next) {
    uint64_t condition = UNTOUCHED;
    is(line, "give_back", zaulinte_head_give_back(&head, waits, &condition), code);
    is(line, "the next condition", condition, next);
}
#define GIVES_BACK(waits, next) gives_back(__LINE__, waits, 0, next)
#define REFUSES_BACK(waits, code) gives_back(__LINE__, waits, code, UNTOUCHED)

#define WIDE (UINT64_C(1) << 32)
static void refusals(void) {
    uint64_t word, other;
    REFUSES_BACK(0, ZAULINTE_HEAD_NOT_OUT); /* a head of zeroes: one cylinder, and the drive is in */
    IS(zaulinte_head_make(&head, WIDE), ZAULINTE_HEAD_OFF_DISK);
    IS(zaulinte_head_make(&head, LAST), ZAULINTE_HEAD_DONE);
    IS(zaulinte_head_ask(&head, WIDE, &word, &other), ZAULINTE_HEAD_OFF_DISK);
    ANSWERS(LAST, ZAULINTE_HEAD_AT_ONCE);
    IS(zaulinte_head_grant(&head, WIDE), ZAULINTE_HEAD_OFF_DISK);
    IS(zaulinte_head_grant(&head, LAST), ZAULINTE_HEAD_DONE);
    IS(zaulinte_head_grant(&head, 0), ZAULINTE_HEAD_IS_OUT);
    IS(zaulinte_head_give_back(&head, WIDE, &word), ZAULINTE_HEAD_NO_ANSWER);
}
/* The head is at 200, on its way up. 300 and 250 wait for this sweep, 250 first since its priority is less. 100 waits
 * for the way down, with its distance from the last cylinder, and so does 200, which the head is at. At 300 none waits
 * for this sweep: the head turns, and 200 is next, before 100. */
static void sweeps(void) {
    IS(zaulinte_head_make(&head, LAST), 0);
    HEAD_IS(0, LAST, UP, 0);
    IS(zaulinte_head_grant(&head, 200), 0);
    WAITS(300, UP, 300);
    WAITS(250, UP, 250);
    WAITS(100, DOWN, LAST - 100);
    WAITS(200, DOWN, LAST - 200);
    GIVES_BACK(1, UP);
    HEAD_IS(200, LAST, UP, 0);
    IS(zaulinte_head_grant(&head, 250), 0);
    GIVES_BACK(1, UP);
    IS(zaulinte_head_grant(&head, 300), 0);
    GIVES_BACK(0, DOWN);
    IS(zaulinte_head_grant(&head, 200), 0);
    HEAD_IS(200, LAST, DOWN, 1);
    WAITS(200, UP, 200); /* once more: the other sweep */
    GIVES_BACK(1, DOWN);
    IS(zaulinte_head_grant(&head, 100), 0);
    GIVES_BACK(0, UP);
    HEAD_IS(100, LAST, UP, 0);
}
int main(void) {
    refusals();
    sweeps();
    return 0;
}
