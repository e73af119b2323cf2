/* Visits of some length: each thread works inside, leaves, and works outside as long; work polls the clock. The file
   that includes this one defines `monitor`, whose `value` is the time of the last leave, and make, enter and leave.
   `PROGRAM MICROS THREADS VISITS` prints the time of a visit, and how late threads entered that had to wait, in the
   median: the time since the place before left. */
typedef struct {
    monitor *m;
    int me;
    uint64_t length, visits, *lates, late;
} visitor;
static uint64_t nanos(void) {
    struct timespec t;
    clock_gettime(CLOCK_MONOTONIC, &t);
    return (uint64_t)t.tv_sec * 1000000000u + (uint64_t)t.tv_nsec;
}
static void work(uint64_t length) {
    for (uint64_t start = nanos(); nanos() - start < length;) {}
}
static void *visit_many(void *p) {
    visitor *v = p;
    for (uint64_t i = 0; i < v->visits; i++) {
        uint64_t asked = nanos();
        enter(v->m, v->me);
        uint64_t entered = nanos(), before = v->m->value;
        work(v->length);
        v->m->value = nanos();
        leave(v->m, v->me);
        if (before > asked) v->lates[v->late++] = entered > before ? entered - before : 0;
        work(v->length);
    }
    return NULL;
}
static int by_time(const void *a, const void *b) {
    uint64_t x = *(const uint64_t *)a, y = *(const uint64_t *)b;
    return x < y ? -1 : x > y;
}
static int show_visits(char **words) {
    static monitor m;
    enum { MOST = 16 };
    uint64_t length = strtoull(words[0], NULL, 10) * 1000, threads = strtoull(words[1], NULL, 10);
    uint64_t visits = strtoull(words[2], NULL, 10), *lates = calloc(threads * visits + 1, sizeof *lates);
    visitor all[MOST];
    pthread_t ids[MOST];
    if (!lates || threads > MOST) return 1;
    make(&m);
    uint64_t start = nanos(), late = 0;
    for (uint64_t i = 0; i < threads; i++) {
        all[i] = (visitor){&m, (int)i, length, visits, lates + i * visits, 0};
        pthread_create(&ids[i], NULL, visit_many, &all[i]);
    }
    for (uint64_t i = 0; i < threads; i++) {
        pthread_join(ids[i], NULL);
        memmove(lates + late, all[i].lates, all[i].late * sizeof *lates);
        late += all[i].late;
    }
    uint64_t spent = nanos() - start;
    qsort(lates, late, sizeof *lates, by_time);
    printf("visit %.0f ns\n", (double)spent / (double)(threads * visits));
    printf("late_median %.0f ns\n", (double)lates[late ? (late - 1) / 2 : 0]);
    return 0;
}
