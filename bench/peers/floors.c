/* The floors beside the columns: the machine's times for a locked operation, for a cache line from one core to another,
   for a wake-up by the system and for a yield. Then a plain ticket lock, which has nothing but the order by tickets.

     gcc -O2 -pthread -o build/floors peers/floors.c && build/floors [TURNS]
     build/floors --mutex [TURNS]                   a mutex, locked and unlocked, as a row of bench/run
     build/floors --mutex MICROS THREADS VISITS     visits to the mutex */
#define _GNU_SOURCE
#include <linux/futex.h>
#include <pthread.h>
#include <sched.h>
#include <stdint.h>
#include <stdio.h>
#include <stdlib.h>
#include <string.h>
#include <sys/syscall.h>
#include <time.h>
#include <unistd.h>

typedef volatile uint64_t cell;
enum { BATCHES = 2001, HANDS = 100, WAKES = 501 };

static double now(void) {
    struct timespec t;
    clock_gettime(CLOCK_MONOTONIC, &t);
    return t.tv_sec * 1e9 + t.tv_nsec;
}
static int by_size(const void *a, const void *b) {
    double x = *(const double *)a, y = *(const double *)b;
    return x < y ? -1 : x > y;
}
static void show(const char *name, double *all, int count) {
    qsort(all, count, sizeof *all, by_size);
    printf("%-34s %.1f (%.1f)\n", name, all[count / 2], all[0]);
}
static void bind_to(int core) {
    cpu_set_t set;
    CPU_ZERO(&set);
    CPU_SET(core, &set);
    sched_setaffinity(0, sizeof set, &set);
}

/* one thread, its own cache line */
static cell word __attribute__((aligned(64)));
#define EACH(name, step)                                              \
    do {                                                              \
        static double all[101];                                       \
        for (int round = 0; round < 101; round++) {                   \
            double start = now();                                     \
            for (int turn = 0; turn < 10000; turn++) { step; }        \
            all[round] = (now() - start) / 10000;                     \
        }                                                             \
        show(name, all, 101);                                         \
    } while (0)
static void locked_operations(void) {
    EACH("a pause", __builtin_ia32_pause());
    EACH("an exchange", __atomic_exchange_n(&word, 0, __ATOMIC_SEQ_CST));
}

/* a mutex, locked and unlocked while a second thread exists: with one thread the C library locks nothing */
static pthread_mutex_t mutex = PTHREAD_MUTEX_INITIALIZER;
static uint64_t counted;
static void *locks(void *turns) {
    for (uint64_t i = 0; i < (uint64_t)(uintptr_t)turns; i++) {
        pthread_mutex_lock(&mutex);
        counted++;
        pthread_mutex_unlock(&mutex);
    }
    return NULL;
}
static double mutex_pair(uint64_t turns) {
    pthread_t id;
    double start = now();
    pthread_create(&id, NULL, locks, (void *)(uintptr_t)turns);
    pthread_join(id, NULL);
    return (now() - start) / turns;
}

/* two threads on two cores write the cache line in turn */
static void *answers(void *other) {
    bind_to((int)(intptr_t)other);
    for (uint64_t turn = 0; turn < (uint64_t)BATCHES * HANDS; turn++) {
        while (__atomic_load_n(&word, __ATOMIC_ACQUIRE) != 2 * turn + 1) __builtin_ia32_pause();
        __atomic_store_n(&word, 2 * turn + 2, __ATOMIC_RELEASE);
    }
    return NULL;
}
static void transfers(int other) {
    static double all[BATCHES];
    char name[40];
    pthread_t id;
    word = 0;
    bind_to(0);
    pthread_create(&id, NULL, answers, (void *)(intptr_t)other);
    uint64_t turn = 0;
    for (int batch = 0; batch < BATCHES; batch++) {
        double start = now();
        for (int hand = 0; hand < HANDS; hand++, turn++) {
            __atomic_store_n(&word, 2 * turn + 1, __ATOMIC_RELEASE);
            while (__atomic_load_n(&word, __ATOMIC_ACQUIRE) != 2 * turn + 2) __builtin_ia32_pause();
        }
        all[batch] = (now() - start) / (2 * HANDS);
    }
    pthread_join(id, NULL);
    snprintf(name, sizeof name, "a line from core 0 to core %d", other);
    show(name, all, BATCHES);
}

/* a sleeper and the thread that wakes it */
static uint32_t bell __attribute__((aligned(64)));
static double rung, heard[WAKES];
static void *sleeps(void *unused) {
    for (int turn = 0; turn < WAKES; turn++) {
        uint32_t seen = 2 * turn;
        while (__atomic_load_n(&bell, __ATOMIC_SEQ_CST) == seen) syscall(SYS_futex, &bell, FUTEX_WAIT_PRIVATE, seen, NULL, NULL, 0);
        heard[turn] = now() - rung;
        __atomic_store_n(&bell, seen + 2, __ATOMIC_SEQ_CST);
    }
    return unused;
}
static void wakes(void) {
    static double calls[WAKES];
    pthread_t id;
    pthread_create(&id, NULL, sleeps, NULL);
    for (int turn = 0; turn < WAKES; turn++) {
        while (__atomic_load_n(&bell, __ATOMIC_SEQ_CST) != (uint32_t)(2 * turn)) sched_yield();
        for (double start = now(); now() - start < 100000;) __builtin_ia32_pause();
        rung = now();
        __atomic_store_n(&bell, 2 * turn + 1, __ATOMIC_SEQ_CST);
        syscall(SYS_futex, &bell, FUTEX_WAKE_PRIVATE, 1, NULL, NULL, 0);
        calls[turn] = now() - rung;
    }
    pthread_join(id, NULL);
    show("a wake, until the sleeper runs", heard, WAKES);
    show("the call that wakes", calls, WAKES);
}

static void yields(void) {
    static double all[100000];
    int count = 0;
    double start = now();
    while (count < 100000 && now() - start < 2e9) {
        double from = now();
        sched_yield();
        all[count++] = now() - from;
    }
    show("a yield", all, count);
}

/* a ticket lock: the next thread polls, and yields after 500 polls; a thread further back yields at once */
static struct { cell next, pad[7], serving, pad2[7], value; } lock __attribute__((aligned(64)));
static void *adds(void *turns) {
    for (uint64_t i = 0; i < (uint64_t)(uintptr_t)turns; i++) {
        uint64_t mine = __atomic_fetch_add(&lock.next, 1, __ATOMIC_SEQ_CST);
        for (uint64_t looks = 1, at; (at = __atomic_load_n(&lock.serving, __ATOMIC_ACQUIRE)) != mine; looks++) {
            if (mine - at > 1 || looks % 500 == 0) sched_yield();
            else __builtin_ia32_pause();
        }
        lock.value++;
        __atomic_store_n(&lock.serving, mine + 1, __ATOMIC_SEQ_CST);
    }
    return NULL;
}
static void tickets(int threads, uint64_t turns) {
    pthread_t ids[8];
    double start = now();
    for (int i = 0; i < threads; i++) pthread_create(&ids[i], NULL, adds, (void *)(uintptr_t)turns);
    for (int i = 0; i < threads; i++) pthread_join(ids[i], NULL);
    printf("a ticket lock, %d threads            %.1f\n", threads, (now() - start) / (turns * threads));
}

typedef struct { pthread_mutex_t lock; uint64_t value; } monitor;
static void make(monitor *m) { pthread_mutex_init(&m->lock, NULL); }
static void enter(monitor *m, int me) { (void)me; pthread_mutex_lock(&m->lock); }
static void leave(monitor *m, int me) { (void)me; pthread_mutex_unlock(&m->lock); }
#include "visits_body.c"

int main(int argc, char **argv) {
    int alone = argc > 1 && !strcmp(argv[1], "--mutex");
    if (alone && argc == 5) return show_visits(argv + 2);
    uint64_t turns = argc > 1 + alone ? strtoull(argv[1 + alone], NULL, 10) : 1000000;
    if (alone) {
        printf("enter_leave %.0f ns\n", mutex_pair(turns));
        return 0;
    }
    locked_operations();
    cpu_set_t any;
    sched_getaffinity(0, sizeof any, &any);
    for (int core = 1; core < 4 && CPU_ISSET(core, &any); core++) transfers(core);
    sched_setaffinity(0, sizeof any, &any);
    wakes();
    yields();
    for (int threads = 4; threads <= 8; threads *= 2) tickets(threads, turns / 10);
    return 0;
}
