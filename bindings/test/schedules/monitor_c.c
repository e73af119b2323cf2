/* The programs' letters (programs.c) as calls of the running monitor for C. With -DRECORDS the monitor records. */
#include "explore.h"
#include "zaulinte_monitor.h"
#include <unistd.h>

static struct shared {
    zaulinte_monitor *m;
    uint32_t *items, *said, *claims, *lent;
    uint32_t *waits, *chosen; /* of each place 1 + the condition on which it waits, or was notified; 1 + a place */
    zaulinte_group *group;
} s;
static uint32_t places, groups;
static size_t size_of_monitor(void) { return offsetof(zaulinte_monitor, place) + places * sizeof(zaulinte_place); }
#define CHECK(call, code) ((call) == (code) ? (void)0 : x_fail("the call " #call " doesn't return " #code))

#ifdef ZAULINTE_CHECKS
static bool has_item(void *items, uint32_t condition, uint64_t priority, const zaulinte_waiting *waiting) {
    (void)priority;
    return *(uint32_t *)items > 0 && waiting->count[condition] < places;
}
static bool is_few(void *items) { return *(uint32_t *)items <= 2 * places; }
#endif
static void make_groups(const char *sizes) {
    uint32_t first = 0;
    s.lent = x_room(X_PLACES * sizeof(uint32_t), 8), s.group = x_room(groups * sizeof(zaulinte_group), 64);
    for (uint32_t k = 0, size; k < groups; k++, first += size) {
        size = (uint32_t)(sizes[k] - '0');
        if (zaulinte_group_make(&s.group[k], s.m, first, size)) __builtin_trap();
    }
}
void x_make(const struct x_program *p) {
    s.items = x_room(sizeof(uint32_t), 4), s.said = x_room(sizeof(uint32_t), 4);
    s.claims = x_room(X_PLACES * sizeof(uint32_t), 8);
    s.waits = x_room(X_PLACES * sizeof(uint32_t), 8), s.chosen = x_room(sizeof(uint32_t), 4);
    places = p->places;
    s.m = x_room(size_of_monitor(), 64);
    if (zaulinte_make(s.m, p->places, p->hoare + p->mesa, p->mesa)) __builtin_trap();
    groups = p->groups ? (uint32_t)strlen(p->groups) : 0;
    if (groups) make_groups(p->groups);
#ifdef ZAULINTE_CHECKS
    zaulinte_check(s.m, is_few, NULL, has_item, s.items);
#endif
#ifdef RECORDS
    size_t size = zaulinte_recording_size(RECORDS);
    x_keep_script();
    if (zaulinte_record(s.m, x_room(size, 16), size)) __builtin_trap();
#endif
}
uint32_t x_place_of(void *handle) {
    for (uint32_t k = 0; k < places; k++)
        if (handle == &s.m->place[k].handle) return k;
    return X_NOBODY;
}
static const char *name_in_group(void *at) {
    for (uint32_t k = 0; k < groups; k++) {
        if (at == (void *)&s.group[k].bell.word) return "the group's word";
        if (at == (void *)&s.group[k].sleepers) return "the group's number of sleepers";
        if (at == (void *)&s.group[k].free) return "the group's free places";
    }
    return NULL;
}
const char *x_name_of(void *at) {
    static const char *const words[] = {"place 0's word", "place 1's word", "place 2's word", "place 3's word"};
    static const char *const claims[] = {"place 0's claim", "place 1's claim", "place 2's claim", "place 3's claim"};
    if (at == (void *)&s.m->entrance.word) return "the entrance's word";
    if (at == (void *)&s.m->sleepers) return "the number of sleepers";
    if (at == (void *)&s.m->places) return "the number of places";
    for (uint32_t k = 0; k < places; k++) {
        if (at == (void *)&s.m->place[k].bell.word) return words[k];
        if (at == (void *)&s.m->place[k].thread) return claims[k];
        if (at == (void *)&s.m->place[k].handle) return "";
    }
    return name_in_group(at);
}
#ifdef RECORDS
/* Compares the recording with the steps of the door. */
static const char *compare_recording(void) {
    static char path[64], is[4096];
    const char *owed = x_script();
    if (!*owed) return NULL; /* the recording began anew */
    if (!path[0]) snprintf(path, sizeof path, "/dev/shm/schedules_%d", (int)getpid());
    if (!zaulinte_save(s.m, path)) return "the recording isn't saved";
    FILE *from = fopen(path, "r");
    is[fread(is, 1, sizeof is - 1, from)] = 0;
    fclose(from);
    remove(path);
    return strcmp(is, owed) ? "the recording differs from the acts" : NULL;
}
#endif
static const char *finish_groups(void) {
    for (uint32_t k = 0; k < groups; k++) {
        if (s.group[k].sleepers) return "all threads ended, and one is counted as a group's sleeper";
        if (s.group[k].bell.word == 1) return "all threads ended, and a group's word says that one sleeps";
        if (zaulinte_group_free(&s.group[k])) return "all threads ended, and a group can't be freed";
    }
    return NULL;
}
const char *x_finished(void) {
    if (x_inside() != X_NOBODY) return "all threads ended, and a place is inside";
    if (s.m->sleepers) return "all threads ended, and one is counted as a sleeper";
    for (uint32_t k = 0; k < places; k++) {
        if (s.m->place[k].thread) return "all threads ended, and a place is claimed";
        if (s.m->place[k].bell.word == 1) return "all threads ended, and a place's word says that one sleeps";
    }
    const char *wrong = finish_groups();
#ifdef RECORDS
    if (!wrong && s.m->places) wrong = compare_recording();
#endif
    return wrong;
}

/* Each of these makes the call of a letter, and returns true if the place is inside then. */
static bool enters(uint32_t place, char letter) {
    uint64_t code = letter == 't' ? zaulinte_try_enter(s.m, place) : zaulinte_enter(s.m, place);
    if (!code) {
        if (letter == 'E' && s.claims[place]++) x_fail("two threads have one place");
        return true;
    }
    if (letter == 't' && code == ZAULINTE_NOT_FREE) return false;
    if (letter != 'E' || code != ZAULINTE_NOT_OUTSIDE) x_fail("the place isn't let in");
    code = zaulinte_leave(s.m, place);
    if (code != ZAULINTE_NOT_OUTSIDE && code != ZAULINTE_NOT_INSIDE) x_fail("another thread's place leaves");
    return false;
}
static bool somebody(uint32_t place, uint32_t condition) {
    bool waits;
    CHECK(zaulinte_queue(s.m, place, condition, &waits), 0);
    return waits;
}
static bool leaves(uint32_t place, char letter, uint32_t condition) {
    bool resumed = false, *to = letter == 'p' ? &resumed : NULL;
    bool waits = letter == 'p' && somebody(place, condition);
    s.claims[place] = 0;
    if (letter == 'l') CHECK(zaulinte_leave(s.m, place), 0);
    else CHECK(zaulinte_signal_leave(s.m, place, condition, to), 0);
    if (resumed != waits) x_fail("signal_leave tells the wrong number");
    return false;
}
static bool waits(uint32_t place, char letter, uint32_t condition) {
    while (letter == 'w' || !*s.items) {
        s.waits[place] = 1 + condition;
        CHECK(zaulinte_wait(s.m, place, condition, 0), 0);
        s.waits[place] = 0;
        x_touch(place);
        if (*s.chosen && *s.chosen != 1 + place) x_fail("another place resumes than the chosen one");
        *s.chosen = 0;
        if (letter != '*') break;
    }
    if (letter == '?' && !*s.items) x_fail("a place resumes without an item");
    return true;
}
static bool signals(uint32_t place, uint32_t condition) {
    bool resumed, waits = somebody(place, condition);
    CHECK(zaulinte_signal(s.m, place, condition, &resumed), 0);
    if (resumed != waits) x_fail("signal tells the wrong number");
    return true;
}
static bool signals_to(uint32_t place, uint32_t condition, uint32_t waiter) {
    bool resumed, waits = waiter < places && s.waits[waiter] == 1 + condition;
    *s.chosen = waits ? 1 + waiter : 0;
    CHECK(zaulinte_signal_to(s.m, place, condition, waiter, &resumed), 0);
    if (resumed != waits) x_fail("signal_to tells the wrong number");
    if (*s.chosen) x_fail("the chosen place hasn't resumed");
    return true;
}
static bool notifies(uint32_t place, char letter, uint32_t condition) {
    uint64_t count, called;
    CHECK(zaulinte_count(s.m, place, condition, &count), 0);
    if (letter == 'n') CHECK(zaulinte_notify(s.m, place, condition, &called), 0);
    else CHECK(zaulinte_broadcast(s.m, place, condition, &called), 0);
    if (called != (letter == 'n' && count ? 1 : count)) x_fail("notify tells the wrong number");
    return true;
}
static void frees(void) {
    uint64_t code;
    while ((code = zaulinte_free(s.m)) == ZAULINTE_IN_USE) {}
    if (code) x_fail("free returns neither 0 nor 112");
    if (x_inside() != X_NOBODY) x_fail("a monitor is freed while a place is inside");
    CHECK(zaulinte_free(s.m), ZAULINTE_NO_BOOK);
    x_gone(s.m, size_of_monitor());
}
/* Borrows a place, or tries to if the letter is h. Returns false if it tried, and no place is free. */
static bool borrows(char letter, uint32_t group, uint32_t *place) {
    zaulinte_group *g = &s.group[group];
    uint64_t code = letter == 'g' ? zaulinte_borrow(g, place) : zaulinte_try_borrow(g, place);
    if (letter == 'h' && code == ZAULINTE_NOT_FREE) return false;
    if (code) x_fail("no place is lent");
    if (!(*place < places && g->all >> *place & 1)) x_fail("another group's place is lent");
    if (s.lent[*place]++) x_fail("a place is lent to two threads");
    return true;
}
static void gives_back(uint32_t place) {
    zaulinte_group *g = s.group;
    while (!(g->all >> place & 1)) g++;
    s.lent[place] = 0;
    CHECK(zaulinte_give_back(g, place), 0);
}
/* Acts on the data while the place is inside, or returns false. */
static bool acts(char letter) {
    switch (letter) {
    case '+': ++*s.items; return true;
    case '-': return (*s.items)-- || (x_fail("there is no item"), false);
    case '!': x_tell(s.said, 1); return true;
    default: return false;
    }
}
void x_run(uint32_t thread, uint32_t place, const char *script) {
    bool is_inside = false;
    uint32_t outer = place; /* the place that the thread borrowed before */
    (void)thread;
    for (const char *c = script; *c; c++) {
        uint32_t condition = (uint32_t)(c[1] - '0');
        if (*c == ' ' || (*c >= '0' && *c <= '9')) continue;
        if (*c == '@') x_await(s.said, 1);
        else if (*c == 'f') frees();
        else if (*c == 'G') CHECK(zaulinte_group_free(&s.group[condition]), ZAULINTE_IN_USE);
        else if (*c == 'r') gives_back(place), place = outer;
        else if (strchr("gh", *c)) {
            outer = place;
            if (!borrows(*c, condition, &place)) return; /* none is free: its script ends */
        } else if (strchr("etE", *c)) is_inside = enters(place, *c);
        else if (strchr("lpP", *c)) is_inside = leaves(place, *c, condition);
        else if (strchr("?*w", *c)) is_inside = waits(place, *c, condition);
        else if (*c == 's') is_inside = signals(place, condition);
        else if (*c == 'S') is_inside = signals_to(place, condition, (uint32_t)(c[2] - '0'));
        else if (strchr("nb", *c)) is_inside = notifies(place, *c, condition);
        else if (!acts(*c)) x_fail("a letter that isn't known");
        if (is_inside) x_touch(place);
        else if (strchr("tE", *c)) return; /* it wasn't let in: its script ends */
    }
}
