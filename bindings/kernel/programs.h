/* What the tests of this folder ask of a kernel: of this one, or of Linux (../linux/tests.c). */
#ifndef PROGRAMS_H
#define PROGRAMS_H
#include "zaulinte_monitor.h"

typedef struct thread thread;
#define start_thread start_test_thread                    /* Linux has one */
thread *start_thread(void *(*body)(void *), void *with); /* by one thread at a time */
void join_thread(thread *t);
/* Starts so many threads, and puts them into `by`: thread k is started with k. */
static inline void start_threads(thread **by, uint32_t many, void *(*body)(void *)) {
    for (uint32_t k = 0; k < many; k++) by[k] = start_thread(body, (void *)(uintptr_t)k);
}
static inline void join_threads(thread **by, uint32_t many) {
    for (uint32_t k = 0; k < many; k++) join_thread(by[k]);
}
void yield(void);
void spin(uint32_t times);
int64_t nanoseconds(void);
/* Calls this function at each tick, as a handler; with a null pointer it calls none. On return no function that was set
 * earlier is running. */
void tick_by(void (*handler)(void));
uintptr_t caller(void);      /* the number that the port has of the caller */
uintptr_t tick_caller(void); /* the number that it owes to the handler of a tick */

void say(const char *form, ...) __attribute__((format(printf, 1, 2)));
void note(const char *form, ...) __attribute__((format(printf, 1, 2))); /* to the log */
_Noreturn void fail(const char *form, ...) __attribute__((format(printf, 1, 2)));
/* Tests the code of a call of the monitor. */
#define CHECK(call) check((call), #call)
static inline void check(uint64_t code, const char *call) {
    if (code) fail("%s: %s", call, zaulinte_text(code));
}
void run_handlers(void);
#endif
