/* The words that the threads access, as memory that is strong: an access is done at once, and all threads see it.
 *
 * A thread stops before each access whose order with another thread's matters. Which these are is learned: a word that
 * one thread alone accesses, that no thread writes, or that only the thread inside or the holder of one lock accesses
 * needs no stop. If an access shows that this was wrong the search begins again. */
#include "world.h"
#include <string.h>

enum { USES = 4096 };
static struct use use[USES];
static struct { char *from; size_t bytes; uint8_t by; } freed; /* the memory of a monitor that a thread freed */
bool learned;

void forget_words(void) {
    memset(use, 0, sizeof use), memset(&freed, 0, sizeof freed);
    forget_numbers();
}
static bool is_shared(const struct use *u) {
    return u->is_outside && !u->lock && u->writers && (u->users & (u->users - 1));
}
static void add_use(struct use *u, uint8_t by, bool writes, bool is_outside, const void *lock) {
    bool was_shared = is_shared(u);
    if (u->lock != lock) u->lock = u->users ? NULL : lock;
    u->users |= by;
    if (writes) u->writers |= by;
    u->is_outside |= is_outside;
    if (is_shared(u) && !was_shared) learned = true;
}
static bool is_freed(const struct use *u) {
    return (char *)u->at >= freed.from && (char *)u->at < freed.from + freed.bytes;
}
struct use *use_of(void *at, uint8_t size) {
    uint32_t i = (uint32_t)((uintptr_t)at >> 1) % USES, tries = 0;
    for (; use[i].at && use[i].at != at; i = (i + 1) % USES)
        if (++tries == USES) die("too many words");
    struct use *u = &use[i];
    if (u->at) return u;
    u->at = at, u->size = size;
    if (is_freed(u)) add_use(u, freed.by, true, true, NULL);
    return u;
}
/* A thread that frees memory writes all words in it. */
void free_words(void *from, size_t bytes) {
    freed.from = from, freed.bytes = bytes, freed.by |= (uint8_t)(1 << me);
    for (struct use *u = use; u < use + USES; u++)
        if (u->at && is_freed(u)) add_use(u, freed.by, true, true, NULL);
}
/* Notes a thread that reads the word, or does so in a weaker order: by these the weak memory forgets messages. */
static void add_order(struct use *u, const struct op *op, uint8_t by) {
    bool is_loose = op->order != SEQ_CST || (op->kind == CAS && op->fails != SEQ_CST);
    bool reads = op->kind == LOAD || op->kind == SLEEP || op->kind == CAS;
    struct use was = *u;
    if (is_loose) u->loose |= by;
    if (reads) u->readers |= by;
    if (u->loose != was.loose || u->readers != was.readers) learned = true;
}
/* Returns true if the running thread has to stop before this access. */
bool has_conflict(const struct op *op) {
    struct use *u = use_of(op->at, op->size);
    uint8_t by = (uint8_t)(1 << me), others = u->users;
    add_use(u, by, op->kind != LOAD && op->kind != SLEEP, w->owner != me, w->thread[me].lock);
    if (weak && is_shared(u)) {
        add_order(u, op, by);
        if (others != u->users) learned = true;
    }
    if (weak && !u->is_outside && u->users != by) write_data(DATA, "a data race on a word of the place inside");
    return is_shared(u);
}
uint64_t memory(const void *at, uint8_t size) {
    uint64_t value = 0;
    memcpy(&value, at, size);
    return value;
}
bool writes(const struct op *op, uint64_t was) {
    return (op->kind >= STORE && op->kind <= OR) || (op->kind == CAS && was == op->expected);
}
uint64_t written(const struct op *op, uint64_t was) {
    return op->kind == ADD ? was + op->value : op->kind == OR ? was | op->value : op->value;
}
uint64_t do_strongly(struct op *op) {
    uint64_t was = memory(op->at, op->size), is = written(op, was);
    if (op->kind == SLEEP && was == op->expected) op->kind = SLEEPING;
    if (writes(op, was)) memcpy(op->at, &is, op->size);
    return was;
}
