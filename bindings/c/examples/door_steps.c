/* The door's steps, by one thread for two places: the waiter waits, the signaller signals, the waiter returns and
 * leaves, and the signaller returns. A step that releases the monitor returns the number of the place whose thread is
 * to be woken. It is the number that `give_out` returned for that place, and so the index of its thread's bell. A bell
 * is a name here. C, and C++ as well. */
#include "zaulinte_door.h"
#include <stdio.h>

int main(void) {
    zaulinte_door door = {0, 0, 0};
    zaulinte_door_place waiter = {0, 0, 0}, signaller = {0, 0, 0};
    const char *bell[64] = {0};
    uint64_t value = 0;
    zaulinte_door_make(&door, 2, 1, 0, 41); /* 2 places, 1 condition, no Mesa condition, and a word */
    uint64_t w = zaulinte_door_give_out(&door, &waiter), s = zaulinte_door_give_out(&door, &signaller);
    if (w > 63 || s > 63) return 1; /* refused: 111, an allocation failed */
    bell[w] = "the waiter", bell[s] = "the signaller";
    zaulinte_door_try_enter(&waiter), zaulinte_door_wait(&waiter, 0, 7), zaulinte_door_try_enter(&signaller);
    printf("wake %s\n", bell[zaulinte_door_signal(&signaller, 0)]); /* the waiter */
    printf("%d\n", (int)zaulinte_door_try_return(&waiter));         /* 64: it is inside again */
    printf("wake %s\n", bell[zaulinte_door_leave(&waiter)]);        /* the signaller */
    printf("%d\n", (int)zaulinte_door_try_return(&signaller));      /* 64 */
    zaulinte_door_set(&signaller, 42);
    zaulinte_door_leave(&signaller);
    zaulinte_door_give_back(&waiter), zaulinte_door_give_back(&signaller);
    zaulinte_door_collect(&door), zaulinte_door_close(&door, &value);
    printf("%d\n", (int)value); /* 42 */
    return value != 42;
}
