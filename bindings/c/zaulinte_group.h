/* zaulinte_group.h: the part of zaulinte_monitor.c that lends places to threads. NOT PROVED, tested.
 *
 * A thread that finds no free place sleeps as an entering thread does (docs/WAKING.md has both). */

/* Takes the first free place. Returns its bit, or 0 if no place is free. */
static uint64_t take_free(zaulinte_group *g) {
    uint64_t free = atomic_load(&g->free);
    while (free && !atomic_compare_exchange_weak(&g->free, &free, free & (free - 1))) {}
    return free & (~free + 1);
}
/* Takes a free place, and sleeps while there is none. Unlike the monitor, several places may be free at once: so a
 * thread that has got one wakes the next thread if another place is free. */
APART uint64_t sleeps_for_place(zaulinte_group *g) {
    uint64_t taken = 0;
    atomic_fetch_add(&g->sleepers, 1);
    check_group(g);
    while (!taken) {
        /* sequentially consistent, as the attempt after it: docs/WAKING.md */
        atomic_exchange(&g->bell.word, ASLEEP);
        taken = take_free(g);
        if (!taken) port_sleep_while(&g->bell, ASLEEP), taken = take_free(g);
    }
    if (atomic_fetch_sub(&g->sleepers, 1) > 1) {
        atomic_exchange(&g->bell.word, ASLEEP);
        if (atomic_load(&g->free)) wake_sleeper(&g->bell);
    }
    return taken;
}
/* Writes the number of the place with this bit to *place, and returns 0. */
static uint64_t lends(uint64_t bit, uint32_t *place) {
    *place = 0;
    while (bit >>= 1) ++*place;
    return 0;
}
uint64_t zaulinte_borrow(zaulinte_group *g, uint32_t *place) {
    if (!g->all) return ZAULINTE_NO_BOOK;
    uint64_t taken = take_free(g);
    return lends(taken ? taken : sleeps_for_place(g), place);
}
uint64_t zaulinte_try_borrow(zaulinte_group *g, uint32_t *place) {
    if (!g->all) return ZAULINTE_NO_BOOK;
    uint64_t taken = take_free(g);
    return taken ? lends(taken, place) : (uint64_t)ZAULINTE_NOT_FREE;
}
uint64_t zaulinte_give_back(zaulinte_group *g, uint32_t place) {
    if (!g->all) return ZAULINTE_NO_BOOK;
    uint64_t bit = place < 64 ? UINT64_C(1) << place & g->all : 0;
    if (!bit || atomic_load(&g->free) & bit) return ZAULINTE_NO_PLACE;
    if (g->of->place[place].thread) return ZAULINTE_NOT_OUTSIDE;
    atomic_fetch_or(&g->free, bit);
    wake_sleeper(&g->bell);
    return 0;
}

uint64_t zaulinte_group_make(zaulinte_group *g, zaulinte_monitor *m, uint32_t first, uint32_t count) {
    if (g->all) return ZAULINTE_IS_MADE;
    if (!m->places) return ZAULINTE_NO_BOOK;
    if (!count || first >= m->places || count > m->places - first) return ZAULINTE_BAD_PLACES;
    uint64_t all = UINT64_MAX >> (64 - count) << first;
    zaulinte_group **last = &m->groups;
    for (; *last; last = &(*last)->next)
        if ((*last)->all & all) return ZAULINTE_IN_USE;
    port_make(&g->bell);
    g->free = g->all = all;
    g->was_named = false;
    g->of = m, g->next = NULL, *last = g;
    return 0;
}
uint64_t zaulinte_group_free(zaulinte_group *g) {
    if (!g->all) return ZAULINTE_NO_BOOK;
    if (g->free != g->all) return ZAULINTE_IN_USE;
    zaulinte_group **at = &g->of->groups;
    while (*at != g) at = &(*at)->next;
    *at = g->next;
    port_free(&g->bell);
    g->free = g->all = 0;
    return 0;
}
