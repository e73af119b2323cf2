/* zaulinte_record.h: the part of zaulinte_monitor.c that records the acts of a monitor, if there are
 * files. NOT PROVED, tested.
 *
 * The place inside notes its act before its step, so the order of the notes is that of the history. That it entered is
 * noted with the first act of its visit: no other place acts in between. If the ring is full, its oldest act is first
 * taken into `start`, the state in which the ring begins. If a place that isn't the first waiter is signalled to, all
 * acts of the ring are taken, and that signal too: the ring has only acts that a script has. */
enum { ENTER, LEAVE, WAIT, SIGNAL, PASS, NOTIFY, BROADCAST };
#if ZAULINTE_STDIO
enum { IS_OUTSIDE, IS_INSIDE, IS_WAITING, IS_SIGNALLER, IS_NOTIFIED };
typedef struct act {
    uint8_t kind, place, condition;
    uint64_t priority;
} act;
/* Where a place is; and the act that brought it there, times 64, since a broadcast brings several. */
typedef struct standing {
    uint8_t is, condition;
    uint64_t since, priority;
} standing;
struct zaulinte_recording {
    standing start[64];
    uint64_t entered; /* the places whose entry was noted, and that haven't left since */
    uint64_t begin;   /* the number of acts that were taken into `start` */
    uint64_t end;     /* the number of acts that were noted */
    uint64_t size;    /* of the ring */
    act ring[];
};

/* Returns the place that is so on this condition (8: on any) and is the first of these to resume, or NOBODY. */
static uint32_t first_of(const standing *all, int is, uint32_t condition) {
    uint32_t found = NOBODY;
    for (uint32_t k = 0; k < NOBODY; k++) {
        const standing *s = &all[k], *f = &all[found % NOBODY];
        if (s->is != is || (condition < 8 && s->condition != condition)) continue;
        bool is_first = s->priority < f->priority || (s->priority == f->priority && s->since < f->since);
        if (found == NOBODY || is_first) found = k;
    }
    return found;
}
/* Takes the state through an act, as a book does. */
static void take(standing *all, const act *a, uint64_t number) {
    standing *mine = &all[a->place];
    uint64_t since = number * NOBODY;
    uint32_t next = a->kind == ENTER || a->kind == LEAVE ? NOBODY : first_of(all, IS_WAITING, a->condition);
    if (a->kind >= NOTIFY) {
        for (; next < NOBODY; next = a->kind == NOTIFY ? NOBODY : first_of(all, IS_WAITING, a->condition))
            all[next] = (standing){IS_NOTIFIED, a->condition, since++, 0};
        return;
    }
    if (a->kind == WAIT) next = NOBODY, *mine = (standing){IS_WAITING, a->condition, since, a->priority};
    else if (a->kind == SIGNAL && next < NOBODY) *mine = (standing){IS_SIGNALLER, a->condition, since, 0};
    else mine->is = a->kind == ENTER || a->kind == SIGNAL ? IS_INSIDE : IS_OUTSIDE;
    if (mine->is == IS_INSIDE) return;
    if (next == NOBODY) next = first_of(all, IS_SIGNALLER, 8);
    if (next == NOBODY) next = first_of(all, IS_NOTIFIED, 8);
    if (next < NOBODY) all[next].is = IS_INSIDE;
}
static void take_oldest(zaulinte_recording *r) {
    take(r->start, &r->ring[r->begin % r->size], r->begin);
    r->begin++;
}
static void add(zaulinte_recording *r, act a) {
    if (r->end - r->begin == r->size) take_oldest(r);
    r->ring[r->end % r->size] = a;
    r->end++;
}
/* Notes an act of the place inside, unless its step will refuse the condition. */
APART void record(zaulinte_monitor *m, uint8_t kind, uint32_t place, uint64_t condition, uint64_t priority) {
    zaulinte_recording *r = m->recording;
    uint64_t mine = (uint64_t)1 << place;
    bool is_hoare = condition < m->hoare;
    if (kind >= WAIT && condition >= m->conditions) return;
    if (kind >= SIGNAL && is_hoare != (kind <= PASS)) return;
    if (!(r->entered & mine)) add(r, (act){ENTER, (uint8_t)place, 0, 0});
    add(r, (act){kind, (uint8_t)place, (uint8_t)condition, priority});
    r->entered = kind == LEAVE || kind == PASS ? r->entered & ~mine : r->entered | mine;
}
/* Begins anew, in the state after a signal of the place inside to the waiter. */
static void begin_anew(zaulinte_recording *r, uint32_t place, uint32_t condition, uint32_t waiter) {
    while (r->begin < r->end) take_oldest(r);
    r->start[place] = (standing){IS_SIGNALLER, (uint8_t)condition, r->end * NOBODY, 0};
    r->start[waiter].is = IS_INSIDE;
    r->entered |= (uint64_t)1 << place;
    r->begin = ++r->end;
}
/* Notes a signal of the place inside to the place `waiter`, if it waits there. */
APART void record_signal_to(zaulinte_monitor *m, uint32_t place, uint32_t condition, uint32_t waiter) {
    if (condition >= m->hoare || !waits_on(m, waiter, condition)) return;
    if (next_away(m, WAITS, condition, NOBODY) == waiter) record(m, SIGNAL, place, condition, 0);
    else begin_anew(m->recording, place, condition, waiter);
}
#define NOTE_ACT(kind, condition, priority) \
    do { if (m->recording) record(m, (kind), place, (condition), (priority)); } while (0)
#define NOTE_SIGNAL_TO(condition, waiter) \
    do { if (m->recording) record_signal_to(m, place, (condition), (waiter)); } while (0)

size_t zaulinte_recording_size(size_t acts) { return sizeof(zaulinte_recording) + (acts ? acts : 1) * sizeof(act); }
uint64_t zaulinte_record(zaulinte_monitor *m, void *memory, size_t size) {
    zaulinte_recording *r = memory;
    if (!m->places) return ZAULINTE_NO_BOOK;
    if (has_threads(m)) return ZAULINTE_IN_USE;
    if (r && size < zaulinte_recording_size(1)) return ZAULINTE_NO_MEMORY;
    if (r) *r = (zaulinte_recording){.size = (size - sizeof *r) / sizeof(act)};
    m->recording = r;
    return 0;
}
static void print_act(FILE *to, act a) {
    static const char *const names[] = {"enter", "leave", "wait", "signal", "pass", "notify", "broadcast"};
    fprintf(to, "%s %d", names[a.kind], a.place);
    if (a.kind >= WAIT) fprintf(to, " %d", a.condition);
    if (a.kind == WAIT) fprintf(to, " %" PRIu64, a.priority);
    fputc('\n', to);
}
static void print_wait(FILE *to, uint32_t place, uint32_t condition, uint64_t priority) {
    print_act(to, (act){.kind = ENTER, .place = (uint8_t)place});
    print_act(to, (act){WAIT, (uint8_t)place, (uint8_t)condition, priority});
}
/* Takes all places that are so out of `all`, into `taken`, the longest waiting first. Returns their number. */
static uint32_t taken(standing *all, int is, uint32_t *to) {
    uint32_t many = 0;
    for (uint32_t k; (k = first_of(all, is, 8)) < NOBODY; many++) to[many] = k, all[k].is = IS_OUTSIDE;
    return many;
}
/* Prints acts that bring a new monitor into the state in which the ring begins. The signallers are made by a chain of
 * signals, each of which resumes the next signaller, and the last the place inside. So these wait before all others. */
static void print_start(FILE *to, const standing *start) {
    standing all[64];
    uint32_t chain[65], called[64], waiting[64];
    for (uint32_t k = 0; k < 64; k++) all[k] = start[k], all[k].priority = 0; /* in the order in which they came */
    uint32_t links = taken(all, IS_SIGNALLER, chain), inside = taken(all, IS_INSIDE, &chain[links]);
    uint32_t calls = taken(all, IS_NOTIFIED, called), waits = taken(all, IS_WAITING, waiting);
    for (uint32_t i = 1; i < links + inside; i++) print_wait(to, chain[i], 0, 0);
    for (uint32_t i = 0; i < calls; i++) print_wait(to, called[i], start[called[i]].condition, 0);
    for (uint32_t i = 0; i < waits; i++)
        print_wait(to, waiting[i], start[waiting[i]].condition, start[waiting[i]].priority);
    if (inside) print_act(to, (act){.kind = ENTER, .place = (uint8_t)chain[0]});
    for (uint32_t i = 0; i < links; i++) print_act(to, (act){.kind = SIGNAL, .place = (uint8_t)chain[i]});
    for (uint32_t i = 0; i < calls; i++)
        print_act(to, (act){NOTIFY, (uint8_t)chain[links], start[called[i]].condition, 0});
}
/* Prints that the place that is inside entered, if it hasn't acted since. */
static void print_silent(FILE *to, zaulinte_monitor *m) {
    for (uint32_t k = 0; k < m->places; k++) {
        if (m->recording->entered >> k & 1 || zaulinte_door_state(at(m, k)) != ZAULINTE_DOOR_INSIDE) continue;
        print_act(to, (act){.kind = ENTER, .place = (uint8_t)k});
        return;
    }
}
bool zaulinte_save(zaulinte_monitor *m, const char *path) {
    zaulinte_recording *r = m->recording;
    FILE *to = r ? fopen(path, "w") : NULL;
    if (!to) return false;
    fprintf(to, "monitor %" PRIu32 " %d %d\n", (uint32_t)m->places, m->conditions, m->conditions - m->hoare);
    print_start(to, r->start);
    for (uint64_t i = r->begin; i < r->end; i++) print_act(to, r->ring[i % r->size]);
    print_silent(to, m);
    bool is_written = !ferror(to);
    return fclose(to) == 0 && is_written;
}
#else
#define NOTE_ACT(kind, condition, priority) ((void)(kind))
#define NOTE_SIGNAL_TO(condition, waiter) ((void)(waiter))
#endif
