/* The acts on the monitor as a script, in the order of the steps of the door: ./zaulinte play opens it. A script has no
 * line for a signal to a place. If a signal would resume that place too, it is a signal; else there is no script. */
#include "world.h"
#include <stdio.h>
#include <string.h>

enum { ACTS = 60, LINE = 32 };
static const char *const steps[][2] = {
    {"try_enter", "enter"}, {"leave", "leave"}, {"wait", "wait"}, {"signal", "signal"},
    {"signal_leave", "pass"}, {"notify", "notify"}, {"broadcast", "broadcast"}};
enum { WAIT = 2, SIGNAL, BROADCAST = 6, STEPS };
struct acts {
    uint32_t many;
    bool has_others; /* a script has no line for one of the acts */
    struct { uint8_t step, place, condition, priority; } act[ACTS];
};
static struct acts *acts, shown;

void forget_script(void) { acts = NULL; }
/* In the room: two worlds with different pasts are two states. */
void x_keep_script(void) { acts = x_room(sizeof *acts, 8); }
/* Outside it: for one schedule. */
void begin_script(void) {
    if (acts) return;
    memset(&shown, 0, sizeof shown);
    acts = &shown;
}
/* Writes the waiters on the condition to `to`, the first to resume first, and returns their number. All wait with one
 * priority. */
static size_t waiters(uint64_t condition, uint8_t *to) {
    size_t many = 0;
    for (uint32_t i = 0; i < acts->many; i++) {
        if (acts->act[i].condition != condition) continue;
        if (acts->act[i].step == WAIT) to[many++] = acts->act[i].place;
        else if (acts->act[i].step == BROADCAST) many = 0;
        else if (acts->act[i].step >= SIGNAL && many) memmove(to, to + 1, --many);
    }
    return many;
}
/* Returns true if a signal resumes this place. If it waits there after others, there is no script. */
static bool is_first(uint32_t place, uint64_t condition) {
    uint8_t waiting[ACTS];
    size_t many = waiters(condition, waiting);
    const uint8_t *found = many ? memchr(waiting, (int)place, many) : NULL;
    acts->has_others |= found && found > waiting;
    return found == waiting;
}
void note_act(const char *step, uint32_t place, uint64_t condition, uint64_t number) {
    uint8_t k = 0;
    if (!acts) return;
    if (!strcmp(step, "signal_to")) {
        if (!is_first((uint32_t)number, condition)) return;
        step = "signal";
    }
    while (k < STEPS && strcmp(steps[k][0], step)) k++;
    if (k == STEPS) return;
    if (acts->many == ACTS) die("too many acts for a script");
    acts->act[acts->many].step = k, acts->act[acts->many].place = (uint8_t)place;
    acts->act[acts->many].condition = (uint8_t)condition, acts->act[acts->many++].priority = (uint8_t)number;
}
const char *x_script(void) {
    static char text[LINE * (ACTS + 1)];
    if (acts->has_others) return "";
    char *to = text + sprintf(text, "monitor %u %u %u\n", program->places, program->hoare + program->mesa,
                               program->mesa);
    for (uint32_t i = 0; i < acts->many; i++) {
        const char *name = steps[acts->act[i].step][1];
        to += sprintf(to, "%s %u", name, acts->act[i].place);
        if (name[0] != 'e' && name[0] != 'l') to += sprintf(to, " %u", acts->act[i].condition);
        if (name[0] == 'w') to += sprintf(to, " %u", acts->act[i].priority);
        to += sprintf(to, "\n");
    }
    return text;
}
