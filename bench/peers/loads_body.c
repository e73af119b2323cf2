/* The loads of a Hoare monitor in C, and main. The file that includes this one defines `monitor` (with the data `value`,
   `cells`, `count`, `last` and `finished`), `make`, and each call by a place: enter, leave, wait_on, signal_on,
   signal_leave, queue and waiting (how many). A program's argument is TURNS, the number of iterations; it prints a line
   for each measurement. With three arguments it makes visits. */
#include "visits_body.c"

static void append(monitor *m, int me, uint64_t x) {
    enter(m, me);
    if (m->count == RING) wait_on(m, me, 1, 0);
    m->cells[m->last] = x;
    m->last = (m->last + 1) % RING;
    m->count++;
    signal_leave(m, me, 0);
}
static uint64_t take(monitor *m, int me) {
    enter(m, me);
    if (m->count == 0) wait_on(m, me, 0, 0);
    uint64_t x = m->cells[(m->last + RING - m->count) % RING];
    m->count--;
    signal_leave(m, me, 1);
    return x;
}

/* what a place meets between its visits: the most others that entered, their sum, how often no other entered, and the
   number of visits */
typedef struct { uint64_t largest, sum, none, visits; } others;
typedef struct { monitor *m; int me, threads; uint64_t turns, sum; others met; } job;
static void *adds(void *p) {
    job *j = p;
    for (uint64_t i = 0; i < j->turns; i++) { enter(j->m, j->me); j->m->value++; leave(j->m, j->me); }
    return NULL;
}
static void *pings(void *p) {
    job *j = p;
    enter(j->m, j->me);
    for (uint64_t i = 0; i < j->turns; i++) wait_on(j->m, j->me, 0, j->me);
    leave(j->m, j->me);
    return NULL;
}
static void *pongs(void *p) {
    job *j = p;
    for (uint64_t done = 0; done < j->turns;) {
        enter(j->m, j->me);
        if (queue(j->m, j->me, 0)) { signal_on(j->m, j->me, 0); done++; }
        leave(j->m, j->me);
    }
    return NULL;
}
/* A driver waits on its condition until all other threads wait, resumes those on condition 0, and so on. The value
   counts the threads that have arrived. The last signals the driver, and waits before the driver can enter again. */
enum { DRIVER = CONDITIONS - 1 };
static void rest(job *j, int c, uint64_t priority) {
    enter(j->m, j->me);
    if (++j->m->value == (uint64_t)j->threads) signal_on(j->m, j->me, DRIVER);
    wait_on(j->m, j->me, c, priority);
}
static void *rests(void *p) {
    job *j = p;
    for (uint64_t i = 0; i < j->turns; i++) { rest(j, 0, (uint64_t)j->me + 1); leave(j->m, j->me); }
    return NULL;
}
static void *links(void *p) {
    job *j = p;
    for (uint64_t i = 0; i < j->turns; i++) {
        rest(j, j->me, 1);
        if (j->me + 1 < CONDITIONS) signal_on(j->m, j->me, j->me + 1);
        leave(j->m, j->me);
    }
    return NULL;
}
static void *drives(void *p) {
    job *j = p;
    for (uint64_t i = 0; i < j->turns; i++) {
        enter(j->m, j->me);
        if (++j->m->value < (uint64_t)j->threads) wait_on(j->m, j->me, DRIVER, 0);
        j->m->value = 0;
        leave(j->m, j->me);
        enter(j->m, j->me);
        while (queue(j->m, j->me, 0)) signal_on(j->m, j->me, 0);
        leave(j->m, j->me);
    }
    return NULL;
}
/* the next number of a fixed generator */
static uint64_t draw(uint64_t seed) { return seed * 6364136223846793005u + 1442695040888963407u; }
/* one visit of a worker: it waits, signals, passes or just leaves */
static void visit(monitor *m, int me, uint64_t lot) {
    int c = lot / 8 % 3;
    enter(m, me);
    m->value++;
    if (lot % 8 < 3 && waiting(m, me) < WORKERS / 2) wait_on(m, me, c, lot / 32 % 4);
    else if (lot % 8 < 6 && queue(m, me, c)) signal_on(m, me, c);
    else { signal_leave(m, me, c); return; }
    m->value++;
    leave(m, me);
}
static void *works(void *p) {
    job *j = p;
    uint64_t lot = draw(j->me);
    for (uint64_t i = 0; i < j->turns; i++) { lot = draw(lot); visit(j->m, j->me, lot / 65536); }
    enter(j->m, j->me);
    j->m->finished++;
    leave(j->m, j->me);
    return NULL;
}
static void *sweeps(void *p) {
    job *j = p;
    for (uint64_t turn = 0;; turn++) {
        enter(j->m, j->me);
        if (j->m->finished == WORKERS) break;
        signal_leave(j->m, j->me, turn % 3);
        sched_yield();
    }
    leave(j->m, j->me);
    return NULL;
}
static void *counts(void *p) {
    job *j = p;
    for (uint64_t i = 0, last = 0; i < j->turns; i++) {
        enter(j->m, j->me);
        uint64_t between = j->m->value++ - last;
        if (i) {
            if (between > j->met.largest) j->met.largest = between;
            j->met.sum += between;
            j->met.none += !between;
            j->met.visits++;
        }
        last = j->m->value;
        leave(j->m, j->me);
    }
    return NULL;
}
static void *produces(void *p) {
    job *j = p;
    for (uint64_t i = 0; i < j->turns; i++) append(j->m, j->me, i);
    return NULL;
}
static void *consumes(void *p) {
    job *j = p;
    for (uint64_t i = 0; i < j->turns; i++) j->sum += take(j->m, j->me);
    return NULL;
}

/* Even threads run one body, odd ones another, the last one a third, with its own number of iterations; the
   time is divided by all. */
typedef struct {
    int threads;
    void *(*even)(void *), *(*odd)(void *), *(*last)(void *);
    uint64_t turns, last_turns, all;
} load;
static struct { uint64_t sum, value; others met; } found;

static double run(load l) {
    static monitor m;
    make(&m);
    job jobs[PLACES];
    pthread_t ids[PLACES];
    struct timespec a, b;
    clock_gettime(CLOCK_MONOTONIC, &a);
    for (int i = 0; i < l.threads; i++) {
        int is_last = i == l.threads - 1;
        jobs[i] = (job){&m, i, l.threads, is_last ? l.last_turns : l.turns, 0, {0}};
        pthread_create(&ids[i], NULL, is_last ? l.last : i % 2 ? l.odd : l.even, &jobs[i]);
    }
    memset(&found, 0, sizeof found);
    for (int i = 0; i < l.threads; i++) {
        pthread_join(ids[i], NULL);
        others *met = &jobs[i].met;
        found.sum += jobs[i].sum;
        if (met->largest > found.met.largest) found.met.largest = met->largest;
        found.met.sum += met->sum;
        found.met.none += met->none;
        found.met.visits += met->visits;
    }
    clock_gettime(CLOCK_MONOTONIC, &b);
    found.value = m.value;
    return ((b.tv_sec - a.tv_sec) * 1e9 + (b.tv_nsec - a.tv_nsec)) / l.all;
}
static int show_waits(uint64_t turns) {
    uint64_t each = turns / 100, part = turns / 1000;
    printf("hand_over %.0f ns\n", run((load){2, pings, pings, pongs, each, each, each}));
    for (int pairs = 1; pairs <= 4; pairs += 3) {
        double ns = run((load){2 * pairs, produces, consumes, consumes, each, each, each * pairs});
        if (found.sum != pairs * (each * (each - 1) / 2)) return 1;
        printf("buffer_%d_%d %.0f ns\n", pairs, pairs, ns);
    }
    printf("waiting_16 %.0f ns\n", run((load){17, rests, rests, drives, part, part, part * 16}));
    printf("chain_8 %.0f ns\n", run((load){9, links, links, drives, part, part, part * 8}));
    printf("mixed_9 %.0f ns\n", run((load){9, works, works, sweeps, part, part, part * WORKERS}));
    return 0;
}
static void show_others(uint64_t turns) {
    run((load){8, counts, counts, counts, turns / 10, turns / 10, turns});
    others met = found.met;
    uint64_t visits = met.visits ? met.visits : 1;
    printf("others_largest %lu places\n", (unsigned long)met.largest);
    printf("others_mean %.2f places\n", (double)met.sum / visits);
    printf("others_none %lu percent\n", (unsigned long)(100 * met.none / visits));
}
int main(int argc, char **argv) {
    if (argc == 4) return show_visits(argv + 1);
    uint64_t turns = argc > 1 ? strtoull(argv[1], NULL, 10) : 1000000;
    for (int threads = 1; threads <= 8; threads *= 2) {
        uint64_t each = threads == 1 ? turns : turns / 10;
        double ns = run((load){threads, adds, adds, adds, each, each, each * threads});
        if (found.value != each * threads) return 1;
        if (threads == 1) printf("enter_leave %.0f ns\n", ns);
        else printf("enter_leave_%d %.0f ns\n", threads, ns);
    }
    if (show_waits(turns)) return 1;
    show_others(turns);
    return 0;
}
