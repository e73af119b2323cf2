/* Reads the log of a stress, which the thread inside wrote line by line, and reports if it is a legal history. It uses
 * nothing of the bindings: what is legal is written here once more, over plain lists.
 *
 * The first line is `sizes PLACES CONDITIONS MESA`, the last line `end`. The lines between them have the place K, the
 * condition C, the priority P and the data D of the monitor:
 * - `admit K D`: K enters
 * - `wait K C P D`: K waits
 * - `signal K C D`: K signals, and a place waited
 * - `signalto K C W D`: K signals to the place W, which waited on C
 * - `absent K C W D`: K signals to W, which didn't wait on C
 * - `pass K C D`: K signals as its last act, and a place waited
 * - `leave K D`: K leaves
 * - `notify K C D`: K notifies, and a place waited
 * - `broadcast K C N D`: K notifies all, and N places waited
 * - `empty K C D`: K signals or notifies, and no place waited
 * - `resume K C D`: K is back from a wait
 * - `back K D`: K is back from a signal
 * - `asked K C N P D`: N places wait, and P is the first priority, or 0 */
#include <stdbool.h>
#include <stdio.h>
#include <stdlib.h>
#include <string.h>

enum { MOST = 64, NOBODY = MOST };
typedef unsigned long long number;
typedef struct { unsigned place, condition; number priority; } waiter;
typedef struct { waiter at[MOST]; unsigned many; } list;

static list waiting[8], signallers, called;
static unsigned places, conditions, hoare, inside = NOBODY;
static struct { char what; waiter who; } due = {'a', {0, 0, 0}}; /* a admit, r resume, b back */
static unsigned long line, calls;
static number data;

static void wrong(const char *why) {
    printf("line %lu: %s\n", line, why);
    exit(1);
}
static void must(bool is, const char *why) {
    if (!is) wrong(why);
}
static void put_last(list *l, waiter w) {
    must(l->many < MOST, "too many places wait");
    l->at[l->many++] = w;
}
static waiter take_at(list *l, unsigned i) {
    waiter w = l->at[i];
    memmove(l->at + i, l->at + i + 1, (--l->many - i) * sizeof w);
    return w;
}
static unsigned least(const list *l) { /* the index of the least priority, of equal ones the longest waiting */
    unsigned best = 0;
    for (unsigned i = 1; i < l->many; i++)
        if (l->at[i].priority < l->at[best].priority) best = i;
    return best;
}
static unsigned index_of(const list *l, number place) { /* the place's, or `many` if it isn't in the list */
    unsigned i = 0;
    while (i < l->many && l->at[i].place != place) i++;
    return i;
}
static bool is_in(const list *l, number place) { return index_of(l, place) < l->many; }
static bool waits(unsigned place) {
    bool is = false;
    for (unsigned c = 0; c < conditions; c++) is = is || is_in(&waiting[c], place);
    return is;
}
static void given_up(void) {
    inside = NOBODY;
    due.what = 'a';
    if (signallers.many) {
        due.what = 'b';
        due.who = take_at(&signallers, 0);
    } else if (called.many) {
        due.what = 'r';
        due.who = take_at(&called, 0);
    }
}
static void acts(unsigned k, number d) {
    must(inside == k, "a place acts that isn't inside");
    data = d;
    calls++;
}
static void comes(unsigned k, char what, number d) {
    must(inside == NOBODY, "two places are inside");
    must(due.what == what, what == 'a' ? "a place entered before a place that was due" : "this place wasn't due");
    must(what == 'a' ? !waits(k) : due.who.place == k, "another place was due");
    must(d == data, "the data aren't as they were left");
    inside = k;
}
static list *on(unsigned c, bool mesa) {
    must(c < conditions && (c >= hoare) == mesa, "a condition of the other kind");
    return &waiting[c];
}
static void hands_to(waiter w) {
    due.who = w;
    due.what = 'r';
    inside = NOBODY;
}
static void hands_over(unsigned c) {
    list *l = on(c, false);
    must(l->many > 0, "no place waited");
    hands_to(take_at(l, least(l)));
}
static void signals_to(unsigned k, unsigned c, number w) {
    list *l = on(c, false);
    must(is_in(l, w), "the place doesn't wait there");
    put_last(&signallers, (waiter){k, c, 0});
    hands_to(take_at(l, index_of(l, w)));
}
static void calls_one(unsigned c) {
    list *l = on(c, true);
    must(l->many > 0, "no place waited");
    put_last(&called, take_at(l, least(l)));
}
static void asked(const list *l, number many, number first) {
    must(l->many == many, "the count is wrong");
    must(first == (many ? l->at[least(l)].priority : 0), "the first priority is wrong");
}
static bool reads(const char *text) {
    char kind[16];
    number n[5] = {0};
    int many = sscanf(text, "%15s %llu %llu %llu %llu %llu", kind, n, n + 1, n + 2, n + 3, n + 4) - 1;
    unsigned k = (unsigned)n[0], c = (unsigned)n[1];
    must(many < 1 || k < places, "no such place");
    if (!strcmp(kind, "admit") && many == 2) comes(k, 'a', n[1]), calls++;
    else if (!strcmp(kind, "leave") && many == 2) acts(k, n[1]), given_up();
    else if (!strcmp(kind, "back") && many == 2) comes(k, 'b', n[1]);
    else if (many > 2 && c >= conditions) wrong("no such condition");
    else if (!strcmp(kind, "resume") && many == 3)
        comes(k, 'r', n[2]), must(due.who.condition == c, "another condition");
    else if (!strcmp(kind, "wait") && many == 4) acts(k, n[3]), put_last(&waiting[c], (waiter){k, c, n[2]}), given_up();
    else if (!strcmp(kind, "signal") && many == 3)
        acts(k, n[2]), put_last(&signallers, (waiter){k, c, 0}), hands_over(c);
    else if (!strcmp(kind, "signalto") && many == 4) acts(k, n[3]), signals_to(k, c, n[2]);
    else if (!strcmp(kind, "absent") && many == 4) acts(k, n[3]), must(!is_in(on(c, false), n[2]), "the place waited");
    else if (!strcmp(kind, "pass") && many == 3) acts(k, n[2]), hands_over(c);
    else if (!strcmp(kind, "notify") && many == 3) acts(k, n[2]), calls_one(c);
    else if (!strcmp(kind, "broadcast") && many == 4) {
        acts(k, n[3]), must(on(c, true)->many == n[2], "the number of waiters is wrong");
        while (waiting[c].many) calls_one(c);
    } else if (!strcmp(kind, "empty") && many == 3) acts(k, n[2]), must(!waiting[c].many, "a place waited");
    else if (!strcmp(kind, "asked") && many == 5) acts(k, n[4]), asked(&waiting[c], n[2], n[3]), calls += 2;
    else if (!strcmp(kind, "end")) return false;
    else wrong("no such line");
    return true;
}
int main(void) {
    char text[128];
    unsigned mesa;
    if (!fgets(text, sizeof text, stdin) || sscanf(text, "sizes %u %u %u", &places, &conditions, &mesa) != 3) return 2;
    if (places > MOST || conditions > 8 || mesa > conditions) return 2;
    hoare = conditions - mesa;
    line = 1;
    do {
        line++;
        must(fgets(text, sizeof text, stdin) != NULL, "no end");
    } while (reads(text));
    must(inside == NOBODY && due.what == 'a' && !signallers.many && !called.many, "a place is still due");
    for (unsigned c = 0; c < conditions; c++) must(!waiting[c].many, "a place still waits");
    printf("%lu calls in %lu lines: legal\n", calls, line);
    return 0;
}
