/* zaulinte_dump.h: the part of zaulinte_monitor.c that prints what each place does. NOT PROVED, tested.
 *
 * Each place notes why it is away before the step that sends it away, while it is inside; a place that notifies
 * others notes that of them. So one thread at a time writes the notes. A dump reads them at any time. All accesses to
 * them are relaxed: the door orders those of the places inside, and a dump may mix moments. */
enum { WAITS = 1, HAS_SIGNALLED, WAS_NOTIFIED };
#define NOTED(field) atomic_load_explicit(&(field), memory_order_relaxed)
#define NOTE(field, value) atomic_store_explicit(&(field), (value), memory_order_relaxed)

static void note_away(zaulinte_monitor *m, uint32_t place, int why, uint64_t condition, uint64_t priority) {
    zaulinte_place *p = &m->place[place];
    NOTE(p->condition, (uint8_t)condition);
    NOTE(p->priority, priority);
    NOTE(p->order, m->order++);
    NOTE(p->away, (uint8_t)why);
}
static void note_here(zaulinte_monitor *m, uint32_t place) { NOTE(m->place[place].away, 0); }
/* True if `p` resumes before `q`, which is away for the same reason. */
static bool is_before(zaulinte_place *p, zaulinte_place *q) {
    if (NOTED(p->priority) != NOTED(q->priority)) return NOTED(p->priority) < NOTED(q->priority);
    return (int32_t)(NOTED(p->order) - NOTED(q->order)) < 0;
}
/* Returns the place that resumes first of those that are away for this reason, on this condition (8: on any), and
 * resume after the place `last` (NOBODY: of all). Returns NOBODY if there is none. */
static uint32_t next_away(zaulinte_monitor *m, int why, uint32_t condition, uint32_t last) {
    uint32_t found = NOBODY;
    for (uint32_t k = 0; k < m->places; k++) {
        zaulinte_place *p = &m->place[k];
        if (NOTED(p->away) != why || (condition < 8 && NOTED(p->condition) != condition)) continue;
        if (last != NOBODY && !is_before(&m->place[last], p)) continue;
        if (found == NOBODY || is_before(p, &m->place[found])) found = k;
    }
    return found;
}
/* Returns true if the place, of any number, waits on the condition. Exact if it is called by the place inside. */
static inline bool waits_on(zaulinte_monitor *m, uint32_t place, uint32_t condition) {
    if (place >= m->places || NOTED(m->place[place].away) != WAITS) return false;
    return NOTED(m->place[place].condition) == condition;
}
/* Notes of so many waiters on `condition` that they were notified. */
static void note_notified(zaulinte_monitor *m, uint32_t condition, uint64_t many) {
    for (; many-- > 0;) {
        uint32_t place = next_away(m, WAITS, condition, NOBODY);
        if (place < NOBODY) note_away(m, place, WAS_NOTIFIED, condition, 0);
    }
}
void zaulinte_name(zaulinte_monitor *m, const char *name, const char *conditions) {
    m->name = name, m->names = conditions;
}

#if ZAULINTE_STDIO
#include <inttypes.h>
void zaulinte_show(zaulinte_monitor *m, void (*show)(void *data), void *data) { m->show = show, m->data = data; }
/* The name of a condition: that word of the names, or its number. */
typedef struct condition_name {
    char text[64];
} condition_name;
static condition_name name_of(zaulinte_monitor *m, uint32_t condition) {
    condition_name found;
    const char *name = m->names ? m->names : "", *between = ", ";
    name += strspn(name, between);
    for (uint32_t c = condition; c && *name; c--) {
        name += strcspn(name, between);
        name += strspn(name, between);
    }
    if (*name) snprintf(found.text, sizeof found, "%.*s", (int)strcspn(name, between), name);
    else snprintf(found.text, sizeof found, "condition %" PRIu32, condition);
    return found;
}
static void print_place(zaulinte_monitor *m, uint32_t place) {
    zaulinte_place *p = &m->place[place];
    uintptr_t thread = NOTED(p->thread);
    int why = NOTED(p->away);
    fprintf(stderr, "  place %" PRIu32, place);
    if (!thread) {
        fputs(": outside\n", stderr);
        return;
    }
    fprintf(stderr, ", " PORT_THREAD ": ", thread);
    if (!why) fputs(zaulinte_door_state(&p->handle) == ZAULINTE_DOOR_INSIDE ? "inside" : "enters", stderr);
    else fputs(why == WAITS ? "waits on " : why == HAS_SIGNALLED ? "has signalled " : "was notified on ", stderr);
    if (why) fputs(name_of(m, NOTED(p->condition)).text, stderr);
    if (why == WAITS) fprintf(stderr, " with priority %" PRIu64, NOTED(p->priority));
    if (why && is_rung(&p->bell)) fputs(", and has the monitor next", stderr);
    fputc('\n', stderr);
}
/* Prints the places that are away for a reason, the first to resume first. */
static void print_away(zaulinte_monitor *m, const char *words, int why, uint32_t condition) {
    uint32_t place = next_away(m, why, condition, NOBODY);
    if (place == NOBODY) return;
    fprintf(stderr, "  %s", words);
    if (why == WAITS) fputs(name_of(m, condition).text, stderr);
    fputc(':', stderr);
    for (; place != NOBODY; place = next_away(m, why, condition, place)) fprintf(stderr, " %" PRIu32, place);
    fputc('\n', stderr);
}
static void print_group(zaulinte_group *g) {
    uint32_t first = 0, many = 0, borrowed = 0;
    for (uint32_t k = 64; k-- > 0;) {
        if (!(g->all >> k & 1)) continue;
        first = k, many++;
        borrowed += !(NOTED(g->free) >> k & 1);
    }
    fprintf(stderr, "  group of places %" PRIu32 " to %" PRIu32 ": %" PRIu32 " of %" PRIu32 " borrowed, %" PRIu32
            " threads want one\n", first, first + many - 1, borrowed, many, (uint32_t)NOTED(g->sleepers));
}
void zaulinte_dump(zaulinte_monitor *m) {
    fprintf(stderr, "zaulinte: monitor %s at %p, %" PRIu32 " places\n", m->name ? m->name : "without a name", (void *)m,
            (uint32_t)m->places);
    for (uint32_t k = 0; k < m->places; k++) print_place(m, k);
    for (zaulinte_group *g = m->places ? m->groups : NULL; g; g = g->next) print_group(g);
    print_away(m, "to return from a signal", HAS_SIGNALLED, 8);
    print_away(m, "to resume as notified", WAS_NOTIFIED, 8);
    for (uint32_t c = 0; c < m->conditions; c++) print_away(m, "waiting on ", WAITS, c);
    if (m->places && m->show) m->show(m->data);
}
#endif
