/* The explored world: its threads are coroutines, on stacks that lie with the monitor and the memory of the door at one
 * fixed address. So a world is kept, put back and compared byte for byte. Nothing of it may be outside. */
#define _GNU_SOURCE
#include "world.h"
#include <stdio.h>
#include <stdlib.h>
#include <string.h>

struct world *w;
const struct x_program *program;
uint32_t me = X_NOBODY;
uint32_t since_stop;
static void *main_sp;

void x_switch(void **from, void *to);
__asm__(".text\n.globl x_switch\nx_switch:\n push %rbp\n push %rbx\n push %r12\n push %r13\n push %r14\n push %r15\n"
        " mov %rsp, (%rdi)\n mov %rsi, %rsp\n pop %r15\n pop %r14\n pop %r13\n pop %r12\n pop %rbx\n pop %rbp\n ret\n");

_Noreturn void die(const char *what) {
    fprintf(stderr, "explore: %s: %s\n", program ? program->name : "", what);
    exit(2);
}
uint32_t x_me(void) { return me; }
uint32_t x_inside(void) { return w->inside; }
void *x_room(size_t bytes, size_t align) {
    size_t from = (w->used + align - 1) / align * align;
    if (me != X_NOBODY || from + bytes > ROOM) die("no room");
    w->used = from + bytes;
    return w->room + from;
}
/* The archive's heap. */
struct tried { bool is; void *at; };
__attribute__((weak)) struct tried rattle_alloc(size_t bytes, size_t align) {
    return (struct tried){true, x_room(bytes, align)};
}
__attribute__((weak)) void rattle_dealloc(void *at) { (void)at; }

_Noreturn static void end_thread(void) {
    w->thread[me].op.kind = DONE;
    x_switch(&w->thread[me].sp, main_sp);
    abort();
}
_Noreturn void x_fail(const char *what) {
    w->failed = what;
    end_thread();
}
uint64_t stop(struct op op) {
    struct thread *t = &w->thread[me];
    t->op = op;
    x_switch(&t->sp, main_sp);
    return t->result;
}
void go(uint32_t thread) {
    me = thread, since_stop = 0;
    x_switch(&main_sp, w->thread[thread].sp);
    me = X_NOBODY;
}
static void run_script(void) {
    const char *script = program->script[me];
    stop((struct op){.kind = NEW});
    x_run(me, (uint32_t)(script[0] - '0'), script + 2);
    end_thread();
}
static void begin(uint32_t k) {
    uint64_t *sp = (uint64_t *)(w->stack[k] + STACK) - 1;
    *sp-- = 0;
    *sp = (uint64_t)(uintptr_t)run_script;
    w->thread[k].sp = sp - 6;
    go(k); /* to its beginning */
    go(k); /* to its first act */
}
/* Static variables of the monitor under test are part of the world if they are in this section. */
extern char __start_explored[] __attribute__((weak)), __stop_explored[] __attribute__((weak));
static size_t size_of_statics(void) { return (size_t)(__stop_explored - __start_explored) / 8 * 8; }
void make_world(void) {
    memset(w, 0, sizeof *w);
    memset(__start_explored, 0, size_of_statics());
    w->inside = w->owner = X_NOBODY;
    w->early = early;
    while (w->threads < X_THREADS && program->script[w->threads]) w->threads++;
    forget_script();
    x_make(program);
    for (uint32_t k = 0; weak && k < w->threads; k++) memset(&w->thread[k].view.of[DATA], 1, VIEWS - DATA);
    if (weak) begin_messages();
    for (uint32_t k = 0; k < w->threads; k++) begin(k);
}

/* What is used of a world: the threads and what is known, the room, the statics, each stack, each word. */
static size_t part(uint32_t number, char **from) {
    uint32_t k = number - 3;
    if (number == 0) return *from = (char *)w, offsetof(struct world, room);
    if (number == 1) return *from = w->room, (w->used + 7) / 8 * 8;
    if (number == 2) return *from = __start_explored, size_of_statics();
    if (k >= w->threads) {
        *from = (char *)&w->word[k - w->threads];
        return offsetof(struct word, message) + w->messages[k - w->threads] * sizeof(struct message);
    }
    *from = w->thread[k].op.kind == DONE ? w->stack[k] + STACK : w->thread[k].sp;
    return (size_t)(w->stack[k] + STACK - *from);
}
static uint32_t parts(void) { return 3 + w->threads + (weak ? words : 0); }
static uint64_t mixed(uint64_t h, uint64_t x) {
    h = (h ^ x) * 0x9FB21C651E98DF25u;
    return h ^ h >> 32;
}
static void hash_bytes(uint64_t h[2], const void *from, size_t bytes) {
    const uint64_t *p = from;
    for (size_t i = 0; i < bytes / 8; i++) {
        h[0] = mixed(h[0], p[i]);
        h[1] = mixed(h[1] + 0x632BE59BD9B4E019u, p[i] ^ h[0] >> 7);
    }
    h[0] = mixed(h[0], bytes);
}
void hash_world(uint64_t hash[2]) {
    char *from;
    hash[0] = 0x243F6A8885A308D3u, hash[1] = 0x13198A2E03707344u;
    for (uint32_t k = 0; k < w->threads; k++) /* nothing is left of a thread that ended */
        if (w->thread[k].op.kind == DONE) w->thread[k] = (struct thread){.op = {.kind = DONE}};
    for (uint32_t i = 0; i < parts(); i++) {
        size_t bytes = part(i, &from);
        hash_bytes(hash, from, bytes);
    }
}
char *keep_world(void) {
    char *from, *kept, *to;
    size_t all = 0;
    for (uint32_t i = 0; i < parts(); i++) all += part(i, &from);
    if (!(kept = to = malloc(all))) die("no memory");
    for (uint32_t i = 0; i < parts(); i++) {
        size_t bytes = part(i, &from);
        memcpy(to, from, bytes), to += bytes;
    }
    return kept;
}
void put_back(const char *kept) {
    char *from;
    memcpy(w, kept, part(0, &from)); /* the sizes of the other parts are in it */
    kept += part(0, &from);
    for (uint32_t i = 1; i < parts(); i++) {
        size_t bytes = part(i, &from);
        memcpy(from, kept, bytes), kept += bytes;
    }
}
