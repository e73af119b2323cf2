/* zaulinte_checks.h: the part of zaulinte_monitor.c that tests what its caller owes, in a build with ZAULINTE_CHECKS:
 * what holds of the data (`zaulinte_check`), that a thread is inside by one place at a time, and that the monitor isn't
 * a copy. In any other build each function does nothing. NOT PROVED. */
#ifdef ZAULINTE_CHECKS
/* The file and the line of the thread's call. */
static _Thread_local const char *file;
static _Thread_local int line;
void zaulinte_at(const char *called_file, int called_line) { file = called_file, line = called_line; }

/* Ends the program by a line that says where and what, and by a dump. */
#define FAIL(m, ...) (print_where(m), fprintf(stderr, __VA_ARGS__), fputc('\n', stderr), zaulinte_dump(m), abort())
static void print_where(zaulinte_monitor *m) {
    if (file) fprintf(stderr, "%s:%d: ", file, line);
    fprintf(stderr, "zaulinte: %s%s", m->name ? m->name : "", m->name ? ": " : "");
}
/* The place inside tests inv and rest, before a step that releases the monitor. The place that was resumed tests ready,
 * after its step. */
void zaulinte_check(zaulinte_monitor *m, zaulinte_inv inv, zaulinte_rest rest, zaulinte_ready ready, void *context) {
    m->inv = inv, m->rest = rest, m->ready = ready, m->context = context;
}
static zaulinte_waiting waiting(zaulinte_monitor *m, uint32_t place) {
    zaulinte_waiting w = {{0}, {0}};
    for (uint32_t c = 0; c < m->conditions; c++) {
        w.count[c] = zaulinte_door_count(at(m, place), c);
        zaulinte_door_first(at(m, place), c, &w.first[c]);
    }
    return w;
}
static void test_inv(zaulinte_monitor *m, uint32_t place, const char *act, const char *on) {
    if (!m->inv || m->inv(m->context)) return;
    FAIL(m, "inv doesn't hold when place %" PRIu32 " %s%s", place, act, on);
}
static void test_rest(zaulinte_monitor *m, uint32_t place, const char *act, const char *on, zaulinte_waiting w) {
    if (!m->rest || m->rest(m->context, &w)) return;
    FAIL(m, "rest doesn't hold when place %" PRIu32 " %s%s", place, act, on);
}
static void check_leave(zaulinte_monitor *m, uint32_t place) {
    test_inv(m, place, "leaves", "");
    test_rest(m, place, "leaves", "", waiting(m, place));
}
/* Prints a line, once, if threads want a place of the group and all of its places wait. */
static void check_group(zaulinte_group *g) {
    uint64_t others = g->all;
    atomic_thread_fence(memory_order_seq_cst); /* the last place to wait sees the thread, or the thread sees its note */
    for (uint32_t k = 0; k < g->of->places; k++)
        if (NOTED(g->of->place[k].away) == WAITS) others &= ~(UINT64_C(1) << k);
    if (others || !atomic_load(&g->sleepers) || atomic_exchange(&g->was_named, true)) return;
    print_where(g->of);
    fputs("all places of a group wait, and a thread wants one. Threads that signal need other places:\n", stderr);
    print_group(g);
}
static void check_groups(zaulinte_monitor *m) {
    for (zaulinte_group *g = m->groups; g; g = g->next) check_group(g);
}
static void check_wait(zaulinte_monitor *m, uint32_t place, uint32_t c, uint64_t priority) {
    if (c >= m->conditions) return;
    condition_name name = name_of(m, c);
    zaulinte_waiting w = waiting(m, place);
    if (!w.count[c]++ || priority < w.first[c]) w.first[c] = priority;
    test_inv(m, place, "waits on ", name.text);
    test_rest(m, place, "waits on ", name.text, w);
    uint64_t waiters = 0;
    for (uint32_t k = 0; k < m->conditions; k++) waiters += w.count[k];
    if (waiters < m->places) return;
    FAIL(m, "all %" PRIu32 " places wait when place %" PRIu32 " waits on %s: none is left to signal", m->places, place,
         name.text);
}
static void check_signal(zaulinte_monitor *m, uint32_t place, uint32_t c) {
    if (c >= m->hoare || zaulinte_door_queue(at(m, place), c) != 1) return;
    test_inv(m, place, "signals ", name_of(m, c).text);
    m->signaller = place;
}
static void check_signal_to(zaulinte_monitor *m, uint32_t place, uint32_t c, uint32_t waiter) {
    if (waits_on(m, waiter, c)) check_signal(m, place, c);
}
static void check_signal_leave(zaulinte_monitor *m, uint32_t place, uint32_t c) {
    if (c >= m->hoare) return;
    if (zaulinte_door_queue(at(m, place), c)) check_signal(m, place, c);
    else check_leave(m, place);
}
static void check_ready(zaulinte_monitor *m, uint32_t place, uint32_t c, uint64_t priority) {
    if (c >= m->hoare || !m->ready) return;
    zaulinte_waiting w = waiting(m, place);
    if (m->ready(m->context, c, priority, &w)) return;
    FAIL(m, "ready doesn't hold when place %" PRIu32 " signalled %s and place %" PRIu32 " resumes", m->signaller,
         name_of(m, c).text, place);
}
/* Relaxed loads: only the thread itself writes its number. */
static void check_enter(zaulinte_monitor *m, uint32_t place) {
    for (uint32_t k = 0; k < m->places; k++) {
        if (k == place || NOTED(m->place[k].thread) != port_thread()) continue;
        FAIL(m, "place %" PRIu32 " enters, but its thread is inside by place %" PRIu32, place, k);
    }
}
/* Fails if the refused call would be right with place and condition exchanged. */
static void check_exchange(zaulinte_monitor *m, uint32_t place, uint32_t condition) {
    if (place >= m->conditions || condition >= m->places) return;
    if (NOTED(m->place[condition].thread) != port_thread()) return;
    FAIL(m, "place %" PRIu32 " acts on condition %" PRIu32 ", but its thread is inside by place %" PRIu32
         ": place and condition are exchanged", place, condition, condition);
}
static void note_address(zaulinte_monitor *m) { m->self = m; }
static void check_address(zaulinte_monitor *m) {
    if (m->places && m->self != m) FAIL(m, "this monitor is a copy of that at %p", (void *)m->self);
}
#else
#define check_leave(m, place) ((void)(m))
#define check_wait(m, place, condition, priority) ((void)(m))
#define check_signal(m, place, condition) ((void)(m))
#define check_signal_to(m, place, condition, waiter) ((void)(m))
#define check_signal_leave(m, place, condition) ((void)(m))
#define check_ready(m, place, condition, priority) ((void)(m))
#define check_enter(m, place) ((void)(m))
#define check_group(g) ((void)(g))
#define check_groups(m) ((void)(m))
#define check_exchange(m, place, condition) ((void)(condition))
#define note_address(m) ((void)(m))
#define check_address(m) ((void)(m))
void zaulinte_check(zaulinte_monitor *m, zaulinte_inv inv, zaulinte_rest rest, zaulinte_ready ready, void *context) {
    (void)m, (void)inv, (void)rest, (void)ready, (void)context;
}
#endif
