/* Tests the device of zbuf.c from processes: zbuf_test NAME. `tests` below has the names; init loads zbuf.ko anew for
 * each. */
#define _GNU_SOURCE
#include <errno.h>
#include <fcntl.h>
#include <poll.h>
#include <signal.h>
#include <stdio.h>
#include <stdlib.h>
#include <string.h>
#include <sys/mman.h>
#include <sys/stat.h>
#include <sys/wait.h>
#include <time.h>
#include <unistd.h>

enum { ROOM = 8, MOST = 4096, PROCESSES = 16, WRITERS = 8, RECORDS = 1000 };
enum { SOON = 1000, LONG = 3000 }; /* ms: far more than zbuf's period_ms, and less than that of a test that needs more */
typedef struct { int writer, number; } record;
/* What the processes have found, in memory that they share. */
typedef struct { ssize_t bytes; int error, order; record got; } outcome;
static struct {
    outcome of[PROCESSES];
    int ended; /* how many calls have returned */
    int seen[WRITERS][RECORDS], in_order;
} *shared;
static int device;

static void test(int line, int holds, const char *what) {
    if (holds) return;
    printf("zbuf_test.c, line %d: not so: %s (errno %d)\n", line, what, errno);
    fflush(stdout);
    kill(0, SIGKILL);
}
#define TEST(what) test(__LINE__, (what), #what)
static long now(void) { /* in ms */
    struct timespec t;
    clock_gettime(CLOCK_MONOTONIC, &t);
    return t.tv_sec * 1000 + t.tv_nsec / 1000000;
}
static void pause_ms(long ms) { nanosleep(&(struct timespec){ms / 1000, ms % 1000 * 1000000}, NULL); }
/* Returns the state of a process: I if it waits in a monitor, T if it is stopped. */
static char state_of(pid_t id) {
    char path[64], text[256] = "";
    snprintf(path, sizeof path, "/proc/%d/stat", (int)id);
    int file = open(path, O_RDONLY);
    ssize_t bytes = read(file, text, sizeof text - 1);
    close(file);
    return bytes > 0 ? strrchr(text, ')')[2] : '-';
}
static void until_state(pid_t id, char state) {
    long until = now() + LONG;
    while (state_of(id) != state && now() < until) pause_ms(2);
    TEST(state_of(id) == state);
}

/* Processes that make one call each. */
static void write_record(int writer, int number) {
    record r = {writer, number};
    TEST(write(device, &r, sizeof r) == sizeof r);
}
static void does_read(outcome *o) { o->bytes = read(device, &o->got, sizeof o->got); }
static void does_write(outcome *o) { o->bytes = write(device, &o->got, sizeof o->got); }
static void nothing(int signal) { (void)signal; }
static pid_t starts(int k, void (*does)(outcome *)) {
    outcome *o = &shared->of[k];
    *o = (outcome){0, 0, -1, {k, 0}};
    pid_t id = fork();
    if (id) return id;
    sigaction(SIGUSR1, &(struct sigaction){.sa_handler = nothing}, NULL);
    does(o);
    o->error = o->bytes < 0 ? errno : 0;
    o->order = __atomic_fetch_add(&shared->ended, 1, __ATOMIC_SEQ_CST);
    _exit(0);
}
static void until_waits(pid_t id) { until_state(id, 'I'); }
/* Starts so many, each once the one before waits. */
static void start_waiters(pid_t *ids, int many, void (*does)(outcome *)) {
    shared->ended = 0;
    for (int k = 0; k < many; k++) until_waits(ids[k] = starts(k, does));
}
/* Returns the time until the process has ended. */
static long ends(pid_t id, int by_signal) {
    long begun = now();
    int status = 0;
    TEST(waitpid(id, &status, 0) == id);
    TEST(by_signal ? WIFSIGNALED(status) && WTERMSIG(status) == by_signal : status == 0);
    return now() - begun;
}
static void has_got(int k, int order, int number) {
    outcome *o = &shared->of[k];
    TEST(o->bytes == sizeof(record) && o->order == order && o->got.number == number);
}
static void fill(void) {
    for (int n = 0; n < ROOM; n++) write_record(9, n);
}
static int takes(void) {
    record r;
    TEST(read(device, &r, sizeof r) == sizeof r);
    return r.number;
}

/* Readers get the records in the order in which they came. */
static void order(void) {
    pid_t ids[6];
    start_waiters(ids, 6, does_read);
    for (int n = 0; n < 6; n++) write_record(0, n), ends(ids[n], 0), has_got(n, n, n);
    printf("6 readers, in the order in which they came\n");
}
/* Killed readers are gone soon, and the others get the records in their order. */
static void killed_readers(void) {
    pid_t ids[6];
    long longest = 0;
    start_waiters(ids, 6, does_read);
    for (int k = 0; k < 6; k += 2) {
        kill(ids[k], SIGKILL);
        long time = ends(ids[k], SIGKILL);
        if (time > longest) longest = time;
    }
    TEST(longest < SOON);
    for (int n = 0; n < 3; n++) write_record(0, n), ends(ids[2 * n + 1], 0), has_got(2 * n + 1, n, n);
    printf("3 of 6 readers killed, each gone within %ld ms; the others in order\n", longest);
}
/* A writer resumes a killed reader before the driver does: the next reader gets the record. zbuf.ko has a long period. */
static void killed_first(void) {
    pid_t ids[3];
    start_waiters(ids, 3, does_read);
    kill(ids[0], SIGKILL);
    pause_ms(100);
    TEST(state_of(ids[0]) == 'I');
    write_record(0, 7);
    TEST(ends(ids[0], SIGKILL) < SOON);
    TEST(ends(ids[1], 0) < SOON);
    has_got(1, 0, 7);
    until_waits(ids[2]);
    write_record(0, 8);
    ends(ids[2], 0);
    has_got(2, 1, 8);
    printf("a record for a killed reader went to the next\n");
}
static void killed_writers(void) {
    pid_t ids[3];
    fill();
    start_waiters(ids, 3, does_write);
    kill(ids[1], SIGKILL);
    TEST(ends(ids[1], SIGKILL) < SOON);
    for (int n = 0; n < ROOM; n++) TEST(takes() == n);
    ends(ids[0], 0), ends(ids[2], 0);
    record r[2];
    for (int n = 0; n < 2; n++) TEST(read(device, &r[n], sizeof r[n]) == sizeof r[n]);
    TEST(r[0].writer == 0 && r[1].writer == 2);
    TEST(fcntl(device, F_SETFL, O_NONBLOCK) == 0 && read(device, r, sizeof r) < 0 && errno == EAGAIN);
    printf("a killed writer has written nothing; the others in order\n");
}
/* A signal with a handler ends the call: EINTR. */
static void interrupted(void) {
    pid_t ids[2];
    start_waiters(ids, 2, does_read);
    kill(ids[0], SIGUSR1);
    TEST(ends(ids[0], 0) < SOON);
    TEST(shared->of[0].bytes == -1 && shared->of[0].error == EINTR);
    write_record(0, 1);
    ends(ids[1], 0);
    has_got(1, 1, 1);
    printf("a reader with a signal got EINTR, the next one the record\n");
}
/* A reader that is stopped or frozen lets go of its wait, and begins anew when it continues: it is the last then. */
static void set_aside(void (*halt)(pid_t), void (*resume)(pid_t)) {
    pid_t ids[2];
    start_waiters(ids, 2, does_read);
    halt(ids[0]);
    write_record(0, 1);
    ends(ids[1], 0);
    has_got(1, 0, 1);
    resume(ids[0]);
    until_waits(ids[0]);
    write_record(0, 2);
    ends(ids[0], 0);
    has_got(0, 1, 2);
    printf("a reader was no longer in the way\n");
}
static void stop(pid_t id) { kill(id, SIGSTOP), until_state(id, 'T'); }
static void resume(pid_t id) { kill(id, SIGCONT); }
static void stopped(void) { set_aside(stop, resume); }
/* Processes are frozen before the machine is suspended, for example. */
static void put(const char *path, const char *text) {
    int file = open(path, O_WRONLY);
    TEST(file >= 0 && write(file, text, strlen(text)) == (ssize_t)strlen(text));
    close(file);
}
static void until_frozen(const char *path) {
    char text[7] = "";
    for (long until = now() + LONG; memcmp(text, "FROZEN\n", 7) && now() < until; pause_ms(2)) {
        int file = open(path, O_RDONLY);
        TEST(read(file, text, sizeof text) > 0);
        close(file);
    }
    TEST(!memcmp(text, "FROZEN\n", 7));
}
static void freeze(pid_t id) {
    char text[16];
    snprintf(text, sizeof text, "%d", (int)id);
    TEST(mkdir("/freezer/reader", 0700) == 0);
    put("/freezer/reader/tasks", text);
    put("/freezer/reader/freezer.state", "FROZEN");
    until_frozen("/freezer/reader/freezer.state");
}
static void thaw(pid_t id) { (void)id, put("/freezer/reader/freezer.state", "THAWED"); }
static void frozen(void) { set_aside(freeze, thaw); }

/* poll and O_NONBLOCK */
static short polls(short events, int ms) {
    struct pollfd p = {device, events, 0};
    TEST(poll(&p, 1, ms) >= 0);
    return p.revents;
}
static void polled_soon(short event, void (*does)(outcome *)) { /* what another process does after 200 ms */
    long begun = now();
    pid_t id = fork();
    if (!id) pause_ms(200), does(&shared->of[0]), _exit(0);
    TEST(polls(event, LONG) == event && now() - begun >= 200 && now() - begun < LONG);
    ends(id, 0);
}
static void polled(void) {
    TEST(polls(POLLIN | POLLOUT, 0) == POLLOUT);
    TEST(polls(POLLIN, 100) == 0);
    polled_soon(POLLIN, does_write);
    TEST(polls(POLLIN | POLLOUT, 0) == (POLLIN | POLLOUT));
    for (int n = 1; n < ROOM; n++) write_record(0, n);
    TEST(polls(POLLIN | POLLOUT, 0) == POLLIN);
    TEST(polls(POLLOUT, 100) == 0);
    polled_soon(POLLOUT, does_read);
    for (int n = 1; n < ROOM; n++) takes();
    TEST(polls(POLLIN | POLLOUT, 0) == POLLOUT);
    printf("poll reports both kinds, and returns when another process writes or reads\n");
}
static pid_t start_poller(short events) { /* its status is what poll reports within 300 ms */
    pid_t id = fork();
    if (!id) _exit(polls(events, 300));
    until_state(id, 'S');
    return id;
}
/* A record that a waiting reader takes is never reported, nor room that a waiting writer takes. */
static void polled_beside_waiters(void) {
    pid_t ids[1];
    start_waiters(ids, 1, does_read);
    pid_t poller = start_poller(POLLIN);
    write_record(0, 1);
    ends(ids[0], 0), ends(poller, 0);
    fill();
    start_waiters(ids, 1, does_write);
    poller = start_poller(POLLOUT);
    takes();
    ends(ids[0], 0), ends(poller, 0);
    printf("poll reports no record and no room that another process has waited for\n");
}
static void nonblocking(void) {
    char small[4], big[MOST + 10] = "";
    TEST(write(device, big, sizeof big) == MOST);
    TEST(read(device, small, sizeof small) < 0 && errno == EMSGSIZE);
    TEST(read(device, big, sizeof big) == MOST);
    TEST(write(device, small, 0) == 0);
    TEST(fcntl(device, F_SETFL, O_NONBLOCK) == 0);
    TEST(read(device, small, sizeof small) < 0 && errno == EAGAIN);
    fill();
    TEST(write(device, small, sizeof small) < 0 && errno == EAGAIN);
    for (int n = 0; n < ROOM; n++) TEST(takes() == n);
    printf("EAGAIN and EMSGSIZE, and a record is kept\n");
}

/* Many writers and readers. Each record arrives once, and those of a writer in order at each reader. */
static void writes_all(int writer, int records) {
    for (int n = 0; n < records; n++) write_record(writer, n);
    _exit(0);
}
static void reads_some(int records) {
    int last[WRITERS];
    memset(last, -1, sizeof last);
    for (int n = 0; n < records; n++) {
        record r;
        TEST(read(device, &r, sizeof r) == sizeof r);
        __atomic_fetch_add(&shared->seen[r.writer][r.number], 1, __ATOMIC_SEQ_CST);
        TEST(r.number > last[r.writer]);
        last[r.writer] = r.number;
    }
    _exit(0);
}
static void passes(int writers, int readers, int records) { /* records: of each writer */
    pid_t ids[2 * PROCESSES];
    long begun = now();
    memset(shared->seen, 0, sizeof shared->seen);
    for (int k = 0; k < writers + readers; k++) {
        ids[k] = fork();
        if (!ids[k] && k < writers) writes_all(k, records);
        if (!ids[k]) reads_some(writers * records / readers);
    }
    for (int k = 0; k < writers + readers; k++) ends(ids[k], 0);
    for (int k = 0; k < writers * records; k++) TEST(shared->seen[k / records][k % records] == 1);
    printf("%d writers, %d readers: %d records in %ld ms; ", writers, readers, writers * records, now() - begun);
}
static void traffic(void) {
    passes(1, 1, RECORDS), passes(4, 4, 300), passes(6, 2, 200), passes(2, 6, 600);
    printf("each arrived once\n");
}
/* With few places most processes wait for a place; killed ones are gone soon. */
static void few_places(void) {
    pid_t ids[3];
    passes(8, 8, 100);
    start_waiters(ids, 2, does_read); /* by both places */
    ids[2] = starts(2, does_read);
    until_state(ids[2], 'S'); /* for a place */
    kill(ids[2], SIGKILL);
    TEST(ends(ids[2], SIGKILL) < SOON);
    for (int k = 0; k < 2; k++) kill(ids[k], SIGKILL);
    for (int k = 0; k < 2; k++) TEST(ends(ids[k], SIGKILL) < SOON);
    printf("a killed reader that waited for a place is gone\n");
}

static const struct { const char *name; void (*run)(void); } tests[] = {
    {"order", order}, {"killed_readers", killed_readers}, {"killed_first", killed_first},
    {"killed_writers", killed_writers}, {"interrupted", interrupted}, {"stopped", stopped}, {"frozen", frozen},
    {"polled", polled}, {"polled_beside_waiters", polled_beside_waiters}, {"nonblocking", nonblocking},
    {"traffic", traffic}, {"few_places", few_places},
};
int main(int words, char **word) {
    alarm(300); /* if a process waits for ever */
    setpgid(0, 0);
    shared = mmap(NULL, sizeof *shared, PROT_READ | PROT_WRITE, MAP_SHARED | MAP_ANONYMOUS, -1, 0);
    device = open("/dev/zbuf", O_RDWR);
    TEST(shared != MAP_FAILED && device >= 0);
    for (size_t k = 0; k < sizeof tests / sizeof *tests; k++)
        if (words > 1 && !strcmp(word[1], tests[k].name)) return tests[k].run(), 0;
    return 2;
}
