/* The programs that are explored. Each thread has a place and a script of letters:
 *   e enter; t try to enter, and end if the monitor isn't free; l leave
 *   E enter by a place that threads compete for, and end if it is another thread's: then all its acts are refused too
 *   sC signal condition C; pC signal it and leave; PC the same, without `resumed`; nC notify; bC broadcast
 *   SCK signal condition C to the place K
 *   ?C wait on condition C if there is no item; *C wait while there is none; wC wait
 *   + one item more; - one less
 *   ! say that it is inside; @ wait until a thread said so; f free the monitor, again until that isn't refused
 *   gG borrow a place of group G; hG try to, and end if none is free; r give it back; GG is refused to free group G
 * No program can deadlock by itself. */
#include "explore.h"

const struct x_program x_programs[] = {
    {"enter2", {"0:e l e l", "1:e l e l"}, 2, 1, 0},
    {"enter3", {"0:e l", "1:e l", "2:e l"}, 3, 1, 0},
    {"enter3_again", {"0:e l e l", "1:e l", "2:e l"}, 3, 1, 0},
    {"enter4", {"0:e l", "1:e l", "2:e l", "3:e l"}, 4, 1, 0},
    {"try3", {"0:t l", "1:e l", "2:e l"}, 3, 1, 0},
    {"signal2", {"0:e + s0 l", "1:e ?0 - l"}, 2, 1, 0},
    {"signal2_again", {"0:e + s0 l e + s0 l", "1:e ?0 - l e ?0 - l"}, 2, 1, 0},
    {"pass2", {"0:e + p0 e + P0", "1:e ?0 - l e ?0 - l"}, 2, 1, 0},
    {"signal3", {"0:e + s0 l e + s0 l", "1:e ?0 - l", "2:e ?0 - l"}, 3, 1, 0},
    {"pass3", {"0:e + p0", "1:e + P0", "2:e ?0 - l e ?0 - l"}, 3, 1, 0},
    {"chain3", {"0:e + s0 l", "1:e ?0 s0 l", "2:e ?0 s0 l"}, 3, 1, 0},
    {"relay3", {"0:e + s0 l", "1:e ?0 p0", "2:e ?0 p0"}, 3, 1, 0},
    {"notify2", {"0:e + n1 l", "1:e *1 - l"}, 2, 1, 1},
    {"notify3", {"0:e + n1 + n1 l", "1:e *1 - l", "2:e *1 - l"}, 3, 1, 1},
    {"broadcast3", {"0:e ++ b1 l", "1:e *1 - l", "2:e *1 - l"}, 3, 1, 1},
    {"both3", {"0:e + n1 s0 l", "1:e *1 s0 l", "2:e ?0 n1 l"}, 3, 1, 1},
    {"one_place2", {"0:E l", "0:E l"}, 1, 1, 0},
    {"one_place3", {"0:E l", "0:E l", "1:e l"}, 2, 1, 0},
    {"one_place_waits", {"0:E ?0 l", "0:E ?0 l", "1:e + s0 l"}, 2, 1, 0},
    {"turns3", {"0:e ! l", "0:@ E l", "1:e l"}, 2, 1, 0},
    {"free", {"0:e ! l", "1:@ f"}, 2, 1, 0},
    {"free_waits", {"0:e ! ?0 - l", "1:@ e + s0 l f"}, 2, 1, 0},
    {"signal4", {"0:e + s0 l", "1:e + p0", "2:e ?0 - l", "3:e ?0 - l"}, 4, 1, 0},
    {"chain4", {"0:e + s0 l", "1:e ?0 s0 l", "2:e ?0 s0 l", "3:e ?0 s0 l"}, 4, 1, 0},
    {"to2", {"0:e + S01 l", "1:e ?0 - l"}, 2, 1, 0},
    {"to2_nobody", {"0:e S01 S00 S09 + S11 l", "1:e ?1 - l"}, 2, 2, 0},
    {"to2_limit", {"0:@ e + S01 - l", "1:e ! w0 l"}, 2, 1, 0},
    {"to3", {"0:e + S02 + s0 l", "1:e ?0 - l", "2:e ?0 - l"}, 3, 1, 0},
    {"to3_two", {"0:e + S02 l", "1:e + S02 + s0 l", "2:e ?0 - l"}, 3, 1, 0},
    {"to3_limit", {"0:@ e + S01 s0 l", "1:e ! w0 l", "2:e ?0 - l"}, 3, 1, 0},
    {"to3_chain", {"0:e + S01 l", "1:e ?0 S02 l", "2:e ?0 S01 p0"}, 3, 1, 0},
    {"to3_both", {"0:e + n1 S02 l", "1:e *1 S02 l", "2:e ?0 n1 l"}, 3, 1, 1},
    {"to4", {"0:e + S02 + s0 + s0 l", "1:e ?0 - l", "2:e ?0 - l", "3:e ?0 - l"}, 4, 1, 0},
    {"lend2", {"-:g0 e l r", "-:g0 e l r"}, 1, 1, 0, "1"},
    {"lend3", {"-:g0 e l r", "-:g0 e l r", "-:g0 e l r"}, 1, 1, 0, "1"},
    {"lend3_again", {"-:g0 r g0 r", "-:g0 r g0 r", "-:g0 r"}, 1, 1, 0, "1"},
    {"lend_try3", {"-:h0 e l r", "-:g0 e l r", "-:g0 r"}, 1, 1, 0, "1"},
    {"lend_two3", {"-:g0 g0 ! r G0 r", "-:@ g0 e ?0 - l r", "-:@ g0 e + p0 r"}, 2, 1, 0, "2"},
    {"lend_takers3", {"-:g0 e ?0 - l r", "-:g0 e ?0 - l r", "-:g1 e + s0 l e + p0 r"}, 2, 1, 0, "11"},
    {"lend4", {"-:g0 r", "-:g0 r", "-:h0 r", "-:g0 r"}, 1, 1, 0, "1"},
    {"lend_two4", {"-:g0 r", "-:g0 r", "-:g0 r", "-:g0 r"}, 2, 1, 0, "2"},
    {"lend_both4", {"-:g0 g0 ! r r", "-:@ g0 e ?0 - l r", "-:@ g0 e + p0 r", "-:@ g0 r"}, 2, 1, 0, "2"},
    {"lend_takers4", {"-:g0 e ?0 - l r", "-:g0 e ?0 - l r", "-:g1 e + s0 l r", "-:g1 e + p0 r"}, 2, 1, 0, "11"},
    {NULL, {NULL}, 0, 0, 0, NULL}};
