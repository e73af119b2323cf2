/* What runs, in order: the examples and the stress of ../, unchanged; calls from a handler; the registers; the alarm
 * clock. */
#include "kernel.h"

int bounded_buffer_main(void);
int single_resource_main(void);
int alarm_clock_main(void);
int disk_head_main(void);
int stress_main(int words, char **word);
void run_all(void);

static int64_t milliseconds_since(int64_t from) { return (nanoseconds() - from) / 1000000; }
static void run_example(const char *name, int (*main)(void)) {
    int64_t from = nanoseconds();
    say("%s: ", name);
    int status = main();
    if (status) fail("%s has status %d", name, status);
    say("  in %ld ms\n", milliseconds_since(from));
}
static void run_stress(void) { /* its log goes to the judge */
    char *words[] = {"stress", STRESS};
    int64_t from = nanoseconds();
    say("stress: ");
    printf_to = LOG;
    int status = stress_main(2, words);
    printf_to = SERIAL;
    if (status) fail("status %d", status);
    say("calls for %s, with their log in %ld ms\n", STRESS, milliseconds_since(from));
}
static void say_counts(void) {
    for (uint32_t i = 0; i < cores_up; i++)
        say("core %u: %lu threads preempted, %lu switches, %lu calls by other cores\n", i, cores[i].preempted,
            cores[i].switched, cores[i].called);
    say("timer: %lu ticks\n", ticks);
}
void run_all(void) {
    say("cores: %u\n", cores_up);
    run_example("bounded_buffer.c", bounded_buffer_main);
    run_example("single_resource.c", single_resource_main);
    run_example("alarm_clock.c", alarm_clock_main);
    run_example("disk_head.c", disk_head_main);
    run_stress();
    run_handlers();
#ifdef PLAIN
    run_registers();
#else
    say("SSE and the floating point unit: off\n");
#endif
    run_clock();
    say_counts();
    say("all is well, after %ld ms\n", nanoseconds() / 1000000);
    stop(16);
}
