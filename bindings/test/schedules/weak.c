/* A weak memory, as in the operational forms of C11 with release and acquire. A word is its messages, in their order. A
 * thread, and each message, has a view: of each word the latest message of which it knows. A read takes any message
 * from there on; a write may be put before another thread's; a swap follows what it read. All sequentially consistent
 * accesses to one word respect one order. */
#include "world.h"
#include <string.h>

uint32_t words;
static struct use *used[WORDS];
static uint8_t holders[X_PLACES]; /* the threads that use the handle of a place */

void join(struct view *to, const struct view *from) {
    for (int i = 0; i < VIEWS; i++)
        if (from->of[i] > to->of[i]) to->of[i] = from->of[i];
}
void forget_numbers(void) {
    words = 0;
    memset(holders, 0, sizeof holders);
}
/* Each word has one message at first, and is memory again at the end. */
void begin_messages(void) {
    for (uint32_t i = 0; i < words; i++) {
        if (w->messages[i]) continue;
        w->messages[i] = 1;
        w->word[i].message[0] = (struct message){.value = memory(used[i]->at, used[i]->size)};
    }
}
void end_messages(void) {
    for (uint32_t i = 0; i < words; i++)
        memcpy(used[i]->at, &w->word[i].message[w->messages[i] - 1].value, used[i]->size);
}
/* Returns the number of a word. */
static uint32_t number_of(void *at, uint8_t size) {
    struct use *u = use_of(at, size);
    uint32_t i = 0;
    while (i < words && used[i] != u) i++;
    if (i == WORDS) die("too many words in a weak memory");
    if (i == words) used[words++] = u, learned = true, begin_messages();
    return i;
}
struct view *told_at(void *at, uint8_t size) { return &w->word[number_of(at, size)].told; }

/* Changes what each view knows of a word, or of the data. */
typedef uint8_t change(uint8_t known, uint8_t by);
static uint8_t moved(uint8_t known, uint8_t by) { return known >= by ? known + 1 : known; }
static uint8_t less(uint8_t known, uint8_t by) { return known > by ? known - by : 0; }
static uint8_t nothing(uint8_t known, uint8_t by) { return (void)known, by; }
static void change_word(struct word *x, uint32_t messages, uint32_t i, change *to, uint8_t by) {
    x->told.of[i] = to(x->told.of[i], by);
    for (uint32_t m = 0; m < messages; m++) x->message[m].view.of[i] = to(x->message[m].view.of[i], by);
}
static void change_views(uint32_t i, change *to, uint8_t by) {
    for (uint32_t k = 0; k < w->threads; k++) w->thread[k].view.of[i] = to(w->thread[k].view.of[i], by);
    for (uint32_t j = 0; j < words; j++) change_word(&w->word[j], w->messages[j], i, to, by);
    w->door.of[i] = to(w->door.of[i], by);
    w->told.of[i] = to(w->told.of[i], by);
    w->fenced.of[i] = to(w->fenced.of[i], by);
}

static bool acquires(uint8_t order) { return order != RELAXED && order != RELEASE; }
static void be_sequential(uint32_t i, uint32_t m, uint8_t order) {
    if (order == SEQ_CST && w->sequential[i] < m) w->sequential[i] = (uint8_t)m;
}
static void read_message(struct thread *t, uint32_t i, uint32_t m, uint8_t order) {
    if (t->view.of[i] < m) t->view.of[i] = (uint8_t)m;
    if (acquires(order)) join(&t->view, &w->word[i].message[m].view);
    be_sequential(i, m, order);
}
/* Puts a message after message m of word i. A swap has what message m released. */
static void put_after(struct thread *t, uint32_t i, uint32_t m, const struct op *op, uint64_t value) {
    struct message *at = &w->word[i].message[m + 1];
    struct view view = {{0}};
    if (w->messages[i] == MESSAGES) die("too many messages");
    memmove(at + 1, at, (w->messages[i] - m - 1u) * sizeof *at);
    memset(at, 0, sizeof *at);
    w->messages[i]++;
    change_views(i, moved, (uint8_t)(m + 1));
    w->sequential[i] = moved(w->sequential[i], (uint8_t)(m + 1));
    if (op->kind != STORE) view = w->word[i].message[m].view;
    t->view.of[i] = (uint8_t)(m + 1);
    if (op->order >= RELEASE) join(&view, &t->view);
    if (view.of[i] < m + 1) view.of[i] = (uint8_t)(m + 1);
    *at = (struct message){value, view, op->kind != STORE};
    be_sequential(i, m + 1, op->order);
}
/* Returns the message of the word that choice number `choice` of the act takes, from the latest on, or MESSAGES. */
static uint32_t message_of(const struct thread *t, uint32_t i, uint32_t choice) {
    const struct op *op = &t->op;
    const struct message *message = w->word[i].message;
    uint32_t from = t->view.of[i], last = w->messages[i] - 1u;
    if (op->kind == SLEEP && w->word[i].told.of[i] > from) from = w->word[i].told.of[i];
    if (op->order == SEQ_CST && w->sequential[i] > from) from = w->sequential[i];
    for (uint32_t m = last + 1; m-- > from;) {
        if (m < last && message[m + 1].by_swap && writes(op, message[m].value)) continue;
        if (choice-- == 0) return m;
    }
    return MESSAGES;
}
bool has_message(const struct thread *t, uint32_t choice) {
    return message_of(t, number_of(t->op.at, t->op.size), choice) < MESSAGES;
}
void do_weakly(struct thread *t, uint32_t choice) {
    struct op *op = &t->op;
    uint32_t i = number_of(op->at, op->size), m = message_of(t, i, choice);
    uint64_t was = w->word[i].message[m].value;
    t->result = was;
    if (op->kind == SLEEP) {
        join(&t->view, &w->word[i].told);
        read_message(t, i, m, RELAXED);
        if (was == op->expected) op->kind = SLEEPING;
        return;
    }
    if (op->kind != STORE) read_message(t, i, m, op->kind == CAS && !writes(op, was) ? op->fails : op->order);
    if (writes(op, was)) put_after(t, i, m, op, written(op, was));
}

/* Returns the first message of a word that thread k may still take. */
static uint32_t first_for(uint32_t i, uint32_t k) {
    uint32_t from = w->thread[k].view.of[i], last = w->messages[i] - 1u;
    if (w->thread[k].op.kind == DONE || !(used[i]->users >> k & 1)) return last;
    if (!(used[i]->loose >> k & 1) && w->sequential[i] > from) from = w->sequential[i];
    if (used[i]->readers >> k & 1) return from;
    while (from < last && w->word[i].message[from + 1].by_swap) from++; /* it only swaps */
    return from;
}
static void forget_messages_of(uint32_t i) {
    struct word *x = &w->word[i];
    uint32_t least = w->messages[i] - 1u;
    if (!w->messages[i]) return;
    for (uint32_t k = 0; k < w->threads; k++)
        if (first_for(i, k) < least) least = first_for(i, k);
    if (!used[i]->loose) change_views(i, nothing, 0); /* the order of its accesses is enough */
    if (!least) return;
    w->messages[i] -= least;
    memmove(&x->message[0], &x->message[least], w->messages[i] * sizeof x->message[0]);
    change_views(i, less, (uint8_t)least);
    w->sequential[i] = less(w->sequential[i], (uint8_t)least);
    x->message[0].by_swap = 0;
}
void forget_messages(void) {
    for (uint32_t i = 0; i < words; i++) forget_messages_of(i);
}

/* Writes what isn't atomic: a thread that touches it has to know of each write before. */
void write_data(uint32_t what, const char *race) {
    uint8_t by = (uint8_t)(1 << me), *h = what == DATA ? NULL : &holders[what - HANDLE];
    if (!weak) return;
    if (h && !(*h & by)) *h |= by, learned = true;
    if (h && *h == by) return;
    if (!w->thread[me].view.of[what]) x_fail(race);
    change_views(what, nothing, 0);
    w->thread[me].view.of[what] = 1;
}
