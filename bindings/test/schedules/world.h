/* world.h: the explored world, and what the parts of the explorer call of each other. */
#ifndef WORLD_H
#define WORLD_H
#include "explore.h"

/* WORDS: those that the weak memory keeps. A view knows of each word the latest message, and of the monitor's data and
 * of each place's handle if it knows the latest write. */
enum { STACK = 16384, ROOM = 16384, WORDS = 26, MESSAGES = 14, DATA = WORDS, HANDLE, VIEWS = HANDLE + X_PLACES };
enum kind { NEW, LOAD, STORE, SWAP, ADD, OR, CAS, SLEEP, STEP, SLEEPING, WAKE, LOCK, UNLOCK, C_WAIT, C_SLEEPING,
            RELOCK, C_SIGNAL, AWAIT, TOUCH, FENCE, DONE };
enum order { RELAXED, CONSUME, ACQUIRE, RELEASE, ACQ_REL, SEQ_CST };
/* The choices of an act are 0, 1 and so on: which thread it wakes, which message it reads. EARLY: it returns early. */
enum { EARLY = 100 };

struct view { uint8_t of[VIEWS]; };
struct message {
    uint64_t value;
    struct view view;
    uint8_t by_swap; /* it follows the message before it at once */
};
struct word {
    struct view told; /* what the threads that woke others, or unlocked, here knew */
    struct message message[MESSAGES];
};
/* The act before which a thread has stopped. */
struct op {
    enum kind kind;
    uint8_t order, fails, size, unused;
    void *at, *lock;
    uint64_t value, expected;
    const char *what;
};
struct thread {
    void *sp;
    struct op op;
    uint64_t result;
    const void *lock; /* the lock that it holds */
    struct view view;
};
struct world {
    uint32_t threads, inside, owner, early; /* the place that is inside, its thread, early returns that are left */
    const char *failed;
    void *gone;
    size_t gone_bytes, used;
    struct view door, told; /* what the word of the door knows, and the thread that said that it is inside */
    struct view fenced;     /* what the threads knew that made full fences */
    struct thread thread[X_THREADS];
    uint8_t messages[WORDS], sequential[WORDS]; /* the latest that a sequentially consistent access wrote or read */
    _Alignas(64) char room[ROOM];
    _Alignas(64) char stack[X_THREADS][STACK];
    struct word word[WORDS];
};
extern struct world *w;
extern const struct x_program *program;
extern uint32_t me; /* the running thread, or X_NOBODY */
extern uint32_t since_stop; /* accesses of the running thread before which it didn't stop */
/* The choices of the command line. `sleep_order` is the order of the test by which a thread falls asleep. */
extern bool weak;
extern uint8_t sleep_order;
extern uint32_t early;
extern bool learned; /* what the search knew of the words was too little: it begins again */

/* world.c */
_Noreturn void die(const char *what);
void make_world(void);
void go(uint32_t thread);        /* lets a thread run until it stops before its next act */
uint64_t stop(struct op op);     /* in a thread: stops before an act, and returns its result */
void hash_world(uint64_t hash[2]);
char *keep_world(void);
void put_back(const char *kept);
/* words.c */
struct use {
    void *at;
    uint8_t size, users, writers, readers, loose; /* the threads that access it, write it, read it, in a weaker order */
    bool is_outside;                              /* a thread accesses it that isn't inside */
    const void *lock;                             /* each thread that accesses it holds this lock, if it isn't NULL */
};
struct use *use_of(void *at, uint8_t size);
bool has_conflict(const struct op *op);
void free_words(void *from, size_t bytes);
void forget_words(void);
bool writes(const struct op *op, uint64_t was);          /* an access to a word that was this */
uint64_t written(const struct op *op, uint64_t was);
uint64_t do_strongly(struct op *op);
uint64_t memory(const void *at, uint8_t size);
/* weak.c */
extern uint32_t words;
void forget_numbers(void), begin_messages(void), end_messages(void);
void join(struct view *to, const struct view *from);
struct view *told_at(void *at, uint8_t size);
bool has_message(const struct thread *t, uint32_t choice);
void do_weakly(struct thread *t, uint32_t choice);
void forget_messages(void);
void write_data(uint32_t what, const char *race);
/* acts.c */
bool has(uint32_t thread, uint32_t choice);
uint64_t make(uint32_t thread, uint32_t choice);
bool is_access(enum kind kind);
/* search.c */
struct seen { uint64_t hash[2]; uint32_t first; uint8_t edges, mark; };
struct edge { uint32_t to; uint8_t thread, choice; bool is_stale, is_lock; };
enum { GOES_ON, IS_END, IS_STUCK, IS_FAILED };
#define NOWHERE UINT32_MAX
extern struct seen *seen;
extern struct edge *edge;
extern uint32_t states, edges, most;
extern bool stops_at_fault;
extern const char *fault;
extern uint32_t many[4]; /* the states of each mark */
void make_tables(void);
void search(void);
/* script.c */
void forget_script(void), begin_script(void);
void note_act(const char *step, uint32_t place, uint64_t condition, uint64_t number);
/* cycles.c */
uint32_t fair_cycles(uint32_t *in);
/* fine.c */
bool x_fine(const char *file);
void x_fine_stop(void);
/* what the monitor under test tells */
uint32_t x_place_of(void *handle);
const char *x_name_of(void *at);
#endif
