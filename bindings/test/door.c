/* The functions of zaulinte_door.h are proved (crates/door_c). Tested is that header and archive agree: each function
 * is called where exchanged arguments, or arguments cut to 32 bits, have another result, and each code of the header
 * is returned once. And what no clause says:
 *  - `make` and `give_out` succeed if there is memory, and no other call allocates;
 *  - a place is on the shelf once its `give_back` has returned, and `close` isn't refused by 102 then. */
#include "zaulinte_door.h"
#include <inttypes.h>
#include <stdbool.h>
#include <stdio.h>
#include <stdlib.h>
#include <string.h>

/* The archive's memory, by malloc: garbage at first. */
struct tried {
    bool is;
    void *at;
};
struct tried rattle_alloc(size_t bytes, size_t align);
void rattle_dealloc(void *at);
static bool has_memory = true;
static unsigned requests, pieces;
struct tried rattle_alloc(size_t bytes, size_t align) {
    struct tried no = {false, NULL}, yes = {true, NULL};
    requests++;
    if (align > 16 || !has_memory) return no;
    yes.at = malloc(bytes);
    if (!yes.at) return no;
    memset(yes.at, 0xa5, bytes);
    pieces++;
    return yes;
}
void rattle_dealloc(void *at) {
    pieces--;
    free(at);
}

/* the first wrong result ends the test */
#define IS(call, wanted) is(__LINE__, #call, call, wanted)
static void is(int line, const char *call, uint64_t answer, uint64_t wanted) {
    if (answer == wanted) return;
    printf("door.c, line %d: %s: %" PRIu64 " and not %" PRIu64 "\n", line, call, answer, wanted);
    exit(1);
}
#define WIDE (UINT64_C(1) << 32)
#define VALUE UINT64_C(0xfedcba9876543210)

/* place[k] has number k, until places are given out again. door[1] holds nothing. */
static zaulinte_door door[2];
static zaulinte_door_place place[64], more;
static void opens(uint64_t places, uint64_t conditions, uint64_t mesa) {
    IS(zaulinte_door_make(door, places, conditions, mesa, VALUE), ZAULINTE_DOOR_DONE);
    for (uint64_t k = places; k-- > 0;) IS(zaulinte_door_give_out(door, &place[k]), k);
    IS(zaulinte_door_give_out(door, &more), ZAULINTE_DOOR_NONE_LEFT);
}
static void closes(uint64_t places, uint64_t wanted) {
    uint64_t value = 77;
    for (uint64_t k = 0; k < places; k++) IS(zaulinte_door_give_back(&place[k]), ZAULINTE_DOOR_DONE);
    IS(zaulinte_door_close(door, &value), ZAULINTE_DOOR_IN_USE);
    IS(zaulinte_door_collect(door), ZAULINTE_DOOR_DONE);
    IS(zaulinte_door_close(door, &value), ZAULINTE_DOOR_DONE);
    IS(value, wanted);
    IS(pieces, 0);
}
/* The places of odd number are given back, and given out again. */
static void keeps(void) {
    IS(zaulinte_door_make(door, WIDE + 64, 8, 8, VALUE), ZAULINTE_DOOR_BAD_PLACES);
    IS(zaulinte_door_make(door, 64, WIDE + 8, 8, VALUE), ZAULINTE_DOOR_BAD_CONDITIONS);
    IS(zaulinte_door_make(door, 64, 8, WIDE + 8, VALUE), ZAULINTE_DOOR_BAD_CONDITIONS);
    has_memory = false;
    IS(zaulinte_door_make(door, 64, 8, 8, VALUE), ZAULINTE_DOOR_NO_MEMORY);
    has_memory = true;
    opens(64, 8, 8);
    IS(zaulinte_door_give_out(door + 1, &more), ZAULINTE_DOOR_NOTHING_HELD);
    IS(zaulinte_door_give_out(door, &place[0]), ZAULINTE_DOOR_IS_HELD);
    for (int k = 1; k < 64; k += 2) IS(zaulinte_door_give_back(&place[k]), ZAULINTE_DOOR_DONE);
    for (int k = 1; k < 64; k += 2) IS(zaulinte_door_give_out(door, &place[k]) < 64, 1);
    IS(zaulinte_door_give_out(door, &more), ZAULINTE_DOOR_NONE_LEFT);
    closes(64, VALUE);
}

/* a visit that ends with this wait */
static void comes_to_wait(int k, uint64_t condition, uint64_t priority) {
    IS(zaulinte_door_try_enter(&place[k]), ZAULINTE_DOOR_ENTERED);
    IS(zaulinte_door_wait(&place[k], condition, priority), ZAULINTE_DOOR_NOBODY);
}
static void returns_and_leaves(int k, uint64_t next) {
    IS(zaulinte_door_try_return(&place[k]), ZAULINTE_DOOR_ENTERED);
    IS(zaulinte_door_leave(&place[k]), next);
}
static void names_no_condition(zaulinte_door_place *p) {
    uint64_t word;
    IS(zaulinte_door_wait(p, WIDE, 0), ZAULINTE_DOOR_NO_CONDITION);
    IS(zaulinte_door_signal(p, WIDE), ZAULINTE_DOOR_NO_CONDITION);
    IS(zaulinte_door_signal_to(p, WIDE, 0), ZAULINTE_DOOR_NO_CONDITION);
    IS(zaulinte_door_signal_leave(p, WIDE, &word), ZAULINTE_DOOR_NO_CONDITION);
    IS(zaulinte_door_notify(p, WIDE), ZAULINTE_DOOR_NO_CONDITION);
    IS(zaulinte_door_broadcast(p, WIDE), ZAULINTE_DOOR_NO_CONDITION);
    IS(zaulinte_door_queue(p, WIDE), ZAULINTE_DOOR_NO_CONDITION);
    IS(zaulinte_door_first(p, WIDE, &word), ZAULINTE_DOOR_NO_CONDITION);
    IS(zaulinte_door_count(p, WIDE), ZAULINTE_DOOR_NO_CONDITION);
}
static void asks(zaulinte_door_place *p) {
    uint64_t word = 77;
    IS(zaulinte_door_get(p, &word), ZAULINTE_DOOR_DONE);
    IS(word, VALUE);
    IS(zaulinte_door_set(p, VALUE + WIDE), ZAULINTE_DOOR_DONE);
    IS(zaulinte_door_queue(p, 0), 1);
    IS(zaulinte_door_count(p, 0), 2);
    IS(zaulinte_door_first(p, 2, &word), 1);
    IS(word, VALUE);
}
/* Place 6 acts on conditions 0 and 1, which are Hoare's, and on the Mesa condition 2; the others wait there. */
static void acts(zaulinte_door_place *p) {
    uint64_t resumed = 77;
    IS(zaulinte_door_signal(p, 2), ZAULINTE_DOOR_WRONG_KIND);
    IS(zaulinte_door_notify(p, 2), 1);
    IS(zaulinte_door_broadcast(p, 2), 2);
    IS(zaulinte_door_signal_to(p, 0, WIDE + 1), ZAULINTE_DOOR_NOBODY);
    IS(zaulinte_door_signal_to(p, 0, 1), 1); /* not the first */
    IS(zaulinte_door_state(p), ZAULINTE_DOOR_AWAY);
    returns_and_leaves(1, 6);
    IS(zaulinte_door_try_return(p), ZAULINTE_DOOR_ENTERED);
    IS(zaulinte_door_signal(p, 1), 2);
    returns_and_leaves(2, 6);
    IS(zaulinte_door_try_return(p), ZAULINTE_DOOR_ENTERED);
    IS(zaulinte_door_signal_leave(p, 0, &resumed), 0);
    IS(resumed, 1);
}
static void visits(void) {
    zaulinte_door_place *p = &place[6];
    opens(7, 3, 1);
    has_memory = false, requests = 0;
    comes_to_wait(0, 0, 7);
    comes_to_wait(1, 0, 7);
    comes_to_wait(2, 1, 0);
    for (int k = 3; k < 6; k++) comes_to_wait(k, 2, VALUE);
    IS(zaulinte_door_state(p), ZAULINTE_DOOR_OUTSIDE);
    IS(zaulinte_door_leave(p), ZAULINTE_DOOR_NOT_INSIDE);
    IS(zaulinte_door_try_enter(p), ZAULINTE_DOOR_ENTERED);
    IS(zaulinte_door_state(p), ZAULINTE_DOOR_INSIDE);
    IS(zaulinte_door_try_enter(p), ZAULINTE_DOOR_NOT_OUTSIDE);
    IS(zaulinte_door_try_return(p), ZAULINTE_DOOR_NOT_AWAY);
    IS(zaulinte_door_try_return(&place[0]), ZAULINTE_DOOR_NOT_NOW);
    names_no_condition(p);
    asks(p);
    acts(p);
    returns_and_leaves(0, 3);
    returns_and_leaves(3, 4);
    returns_and_leaves(4, 5);
    returns_and_leaves(5, ZAULINTE_DOOR_NOBODY);
    closes(7, VALUE + WIDE);
    IS(requests, 0);
}
int main(void) {
    keeps();
    visits();
    return 0;
}
