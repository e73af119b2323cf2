/* The module zaulinte_tests.ko runs one program of ../, unchanged, on kernel threads: `insmod zaulinte_tests.ko
 * program=stress` returns once it has ended. Its status is the parameter `status`. In debugfs, zaulinte/said has what it
 * printed, and zaulinte/log what the judge reads.
 *
 * Here is what the programs ask of a C library (../kernel/libc), and handlers.c of a kernel (programs.h). If a program
 * fails, its other threads may sleep for ever in the code of this module, so the module stays then. */
#include <linux/completion.h>
#include <linux/debugfs.h>
#include <linux/delay.h>
#include <linux/hrtimer.h>
#include <linux/kthread.h>
#include <linux/mm.h>
#include <linux/module.h>
#include <linux/sched.h>
#include <linux/slab.h>
#include <linux/spinlock.h>
#include <linux/vmalloc.h>
#include <pthread.h>
#include <sched.h>
#include <stdio.h>
#include <stdlib.h>
#include <time.h>
#include <unistd.h>
#include "programs.h"
#define ZAULINTE_PORT_CODE
#include "zaulinte_port_linux.h" /* for `caller` */

MODULE_LICENSE("Dual MIT/GPL");
MODULE_DESCRIPTION("The tests of Zaulinte's monitors");

static char *program = "", *calls = "35000", *seed = "1";
static int status = -1; /* until the program has ended */
module_param(program, charp, 0444);
module_param(calls, charp, 0444);
module_param(seed, charp, 0444);
module_param(status, int, 0444);

/* What the program prints. An interrupt handler prints too. */
enum { LOG_BYTES = 64 << 20, SAID_BYTES = 1 << 16 };
static struct debugfs_blob_wrapper log, said;
static DEFINE_SPINLOCK(prints);
static struct debugfs_blob_wrapper *printf_to = &said;
static int print(struct debugfs_blob_wrapper *to, const char *form, va_list with) {
    size_t room = to == &log ? LOG_BYTES : SAID_BYTES;
    unsigned long flags;
    int bytes;
    spin_lock_irqsave(&prints, flags);
    bytes = vsnprintf(to->data + to->size, room - to->size, form, with);
    if (bytes < room - to->size) to->size += bytes;
    else pr_err_once("zaulinte_tests: no room for what the program prints\n");
    spin_unlock_irqrestore(&prints, flags);
    return bytes;
}
#define PRINT(to, form, bytes)               \
    do {                                     \
        va_list with;                        \
        va_start(with, form);                \
        bytes = print(to, form, with);       \
        va_end(with);                        \
    } while (0)
FILE *const stderr;
int printf(const char *form, ...) {
    int bytes;
    PRINT(printf_to, form, bytes);
    return bytes;
}
int fprintf(FILE *to, const char *form, ...) {
    int bytes;
    PRINT(&said, form, bytes);
    return bytes;
}
int puts(const char *text) { return printf("%s\n", text); }
void say(const char *form, ...) {
    int bytes;
    PRINT(&said, form, bytes);
}
void note(const char *form, ...) {
    int bytes;
    PRINT(&log, form, bytes);
}

/* The end of the program: its main thread has returned, or before that a thread or the handler has failed. */
static DECLARE_COMPLETION(has_ended);
static void ends(int with) {
    if (status < 0) status = with;
    complete(&has_ended);
}
static void stop(int with) { /* by the thread, or the handler, that has failed */
    __module_get(THIS_MODULE);
    ends(with);
    while (in_task()) schedule_timeout_idle(MAX_SCHEDULE_TIMEOUT);
}
void exit(int with) { stop(with); }
void abort(void) { stop(134); }
void fail(const char *form, ...) {
    int bytes;
    PRINT(&said, form, bytes);
    stop(1);
}

/* Threads. None may be in the code of the module once it goes: they end in the kernel's. */
struct thread {
    struct completion over;
    void *(*body)(void *);
    void *with;
};
static int begins(void *of) {
    thread *mine = of;
    mine->body(mine->with);
    kthread_complete_and_exit(&mine->over, 0);
}
thread *start_thread(void *(*body)(void *), void *with) {
    thread *new = kzalloc(sizeof *new, GFP_KERNEL | __GFP_NOFAIL);
    new->body = body, new->with = with;
    init_completion(&new->over);
    if (IS_ERR(kthread_run(begins, new, "zaulinte"))) fail("no thread\n");
    return new;
}
void join_thread(thread *t) {
    wait_for_completion_state(&t->over, TASK_IDLE);
    kfree(t);
}
int pthread_create(pthread_t *id, const void *attributes, void *(*body)(void *), void *with) {
    *id = start_thread(body, with);
    return 0;
}
int pthread_join(pthread_t id, void **result) {
    join_thread(id);
    return 0;
}
int pthread_detach(pthread_t id) { return 0; }
int sched_yield(void) {
    yield();
    return 0;
}
int nanosleep(const struct timespec *time, struct timespec *left) {
    fsleep(time->tv_sec * USEC_PER_SEC + time->tv_nsec / NSEC_PER_USEC);
    return 0;
}
unsigned sleep(unsigned seconds) {
    msleep(seconds * MSEC_PER_SEC);
    return 0;
}
void spin(uint32_t times) {
    while (times--) barrier(); /* QEMU takes long for a `pause` */
}
int64_t nanoseconds(void) { return ktime_get_ns(); }
uintptr_t caller(void) { return port_thread(); }

/* Memory. */
void *malloc(size_t bytes) { return kvmalloc(bytes, GFP_KERNEL); }
void *aligned_alloc(size_t align, size_t bytes) { return malloc(roundup_pow_of_two(max(align, bytes))); }
void free(void *at) { kvfree(at); }
unsigned long long strtoull(const char *text, char **end, int base) { return simple_strtoull(text, end, base); }
unsigned long strtoul(const char *text, char **end, int base) { return simple_strtoul(text, end, base); }

/* The context in which the handler of handlers.c is called: in a hard interrupt, on a kernel with PREEMPT_RT too; in a
 * softirq; or by a thread that holds a spinlock, with interrupts off. */
static enum { HARD, SOFT, LOCKED } context;
enum { TICK_US = 100 };
static void (*by_tick)(void);
static struct hrtimer timer;
static struct task_struct *locker;
static enum hrtimer_restart timer_ticks(struct hrtimer *t) {
    if (status >= 0) return HRTIMER_NORESTART;
    by_tick();
    hrtimer_forward_now(t, ns_to_ktime(TICK_US * NSEC_PER_USEC));
    return HRTIMER_RESTART;
}
static int locker_ticks(void *unused) {
    static DEFINE_SPINLOCK(lock);
    while (!kthread_should_stop()) {
        unsigned long flags;
        spin_lock_irqsave(&lock, flags);
        by_tick();
        spin_unlock_irqrestore(&lock, flags);
        fsleep(TICK_US);
    }
    return 0;
}
static void end_ticks(void) {
    if (locker) kthread_stop(locker);
    else hrtimer_cancel(&timer);
    locker = NULL;
}
static void start_ticks(void) {
    enum hrtimer_mode mode = context == HARD ? HRTIMER_MODE_REL_HARD : HRTIMER_MODE_REL_SOFT;
    if (context == LOCKED) {
        locker = kthread_run(locker_ticks, NULL, "zaulinte_locker");
        return;
    }
    hrtimer_init(&timer, CLOCK_MONOTONIC, mode);
    timer.function = timer_ticks;
    hrtimer_start(&timer, ns_to_ktime(TICK_US * NSEC_PER_USEC), mode);
}
void tick_by(void (*handler)(void)) {
    if (by_tick) end_ticks();
    by_tick = handler;
    if (handler) start_ticks();
}
uintptr_t tick_caller(void) {
    if (context == LOCKED) return (uintptr_t)current;
    return 4ul * raw_smp_processor_id() + (context == HARD ? 2 : 1);
}

/* The programs. */
int bounded_buffer_main(void);
int single_resource_main(void);
int alarm_clock_main(void);
int disk_head_main(void);
int stress_main(int words, char **word);
static int in_context(int is) {
    context = is;
    run_handlers();
    return 0;
}
static int handlers(void) { return in_context(HARD); }
static int handlers_soft(void) { return in_context(SOFT); }
static int handlers_locked(void) { return in_context(LOCKED); }
static int stress(void) { /* its log goes to the judge */
    char *words[] = {"stress", calls, seed};
    printf_to = &log;
    return stress_main(ARRAY_SIZE(words), words);
}
static const struct program {
    const char *name;
    int (*main)(void);
} programs[] = {
    {"bounded_buffer", bounded_buffer_main}, {"single_resource", single_resource_main},
    {"alarm_clock", alarm_clock_main},       {"disk_head", disk_head_main},
    {"handlers", handlers},                  {"handlers_soft", handlers_soft},
    {"handlers_locked", handlers_locked},    {"stress", stress},
};
static thread *main_thread;
static struct dentry *folder;
static void *runs(void *of) {
    ends(((const struct program *)of)->main());
    return NULL;
}
static const struct program *program_of(const char *name) {
    for (size_t k = 0; k < ARRAY_SIZE(programs); k++)
        if (!strcmp(name, programs[k].name)) return &programs[k];
    return NULL;
}
static int __init tests_begin(void) {
    const struct program *p = program_of(program);
    if (!p) return -EINVAL;
    log.data = vzalloc(LOG_BYTES);
    said.data = vzalloc(SAID_BYTES);
    if (!log.data || !said.data) {
        vfree(log.data);
        return -ENOMEM;
    }
    folder = debugfs_create_dir("zaulinte", NULL);
    debugfs_create_blob("log", 0400, folder, &log);
    debugfs_create_blob("said", 0400, folder, &said);
    main_thread = start_thread(runs, (void *)p);
    wait_for_completion_state(&has_ended, TASK_IDLE);
    return 0;
}
static void __exit tests_end(void) { /* if the program has failed, it is never called */
    join_thread(main_thread);
    debugfs_remove(folder);
    vfree(log.data);
    vfree(said.data);
}
module_init(tests_begin);
module_exit(tests_end);
