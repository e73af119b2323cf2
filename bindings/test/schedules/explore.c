/* Explores all schedules of small programs on the running monitor; README.md says how.
 *
 *   explore [weak [loose]] [early=N] [fine=SITES] [states=N] [groups=N..] [first] [show] [script=FILE] [PROGRAM..]
 *   explore .. replay=ACTS [script=FILE] PROGRAM
 *   explore names
 *
 * weak: the memory is weak; loose: so is the test by which a thread falls asleep. early: so many sleeps return early;
 * without it any number. fine: stops at the instructions of this file. first: ends at the first fault. show: draws a
 * shortest schedule to a fault, and script writes its acts to FILE. A program is a name, or its threads, as in
 * "0:e l;1:e l", with places of these groups besides. Status 1: there is a fault. */
#define _GNU_SOURCE
#include "world.h"
#include <stdio.h>
#include <stdlib.h>
#include <string.h>
#include <sys/mman.h>

extern const struct x_program x_programs[];
uint32_t early = 255;
static bool is_shown;
static const char *replayed, *script, *groups;
static const char *const said[] = {
    "starts", "loads", "stores", "swaps", "adds", "sets bits", "compares and swaps", "tests and sleeps on",
    "makes a step", "sleeps on", "wakes one at", "locks", "unlocks", "waits and unlocks", "waits", "locks again",
    "signals", "waits for another", "accesses", "makes a full fence", "is done"};

static const char *name_of(const struct op *op) {
    static char text[64];
    const char *name = op->at && op->kind != AWAIT ? x_name_of(op->at) : "";
    if (name) return name;
    snprintf(text, sizeof text, "the word at %zx", (size_t)((char *)op->at - w->room));
    return text;
}
/* Makes an act and prints it. */
static void show_act(uint32_t k, uint32_t choice) {
    struct op op = w->thread[k].op;
    if (!has(k, choice)) die("a thread of the schedule has no such act");
    uint64_t was = make(k, choice);
    printf(choice == EARLY ? "    %de" : choice ? "    %d.%d" : "    %d", k, choice);
    printf("\t%*sthread %d %s %s", 4 * (int)k, "", k, op.what ? op.what : said[op.kind], name_of(&op));
    if (op.kind >= STORE && op.kind <= OR) printf(" <- %d", (int)op.value);
    if (op.kind == CAS) printf(" %d -> %d", (int)op.expected, (int)op.value);
    if (op.kind == SLEEP) printf(" while %d", (int)op.expected);
    if (is_access(op.kind) && op.kind != STORE) printf(": was %d", (int)was);
    printf(choice == EARLY ? ", and returns early\n" : "\n");
}
static void begin_schedule(void) {
    make_world();
    begin_script();
}
static void end_schedule(void) {
    for (uint32_t k = 0; k < w->threads; k++) {
        struct op *op = &w->thread[k].op;
        printf("\tthread %d: %s %s\n", k, op->what ? op->what : said[op->kind], op->kind == DONE ? "" : name_of(op));
    }
    if (w->failed) printf("\t%s\n", w->failed);
    FILE *to = script ? fopen(script, "w") : NULL;
    if (script && (!to || fputs(x_script(), to) < 0 || fclose(to))) die("can't write the script");
    if (to && *x_script()) printf("\t./zaulinte play opens these acts on the monitor: %s\n", script);
    else if (to) printf("\ta script has no line for the signal to a place that isn't the first waiter\n");
}
/* How the breadth-first search from state 0 reached each state: by which edge (plus 1), from which state. */
static uint32_t *by, *from, *queue, queued;
static void reach_from(uint32_t state) {
    for (uint32_t j = seen[state].first; j < seen[state].first + seen[state].edges; j++) {
        uint32_t to = edge[j].to;
        if (to != NOWHERE && to && !by[to]) by[to] = j + 1, from[to] = state, queue[queued++] = to;
    }
}
/* Shows a shortest schedule to a state. */
static void show(uint32_t goal) {
    uint32_t n = 0;
    by = calloc(states, 4), from = calloc(states, 4), queue = calloc(states, 4), queued = 1;
    for (uint32_t i = 0; i < queued; i++) reach_from(queue[i]);
    for (uint32_t s = goal; s; s = from[s]) queue[n++] = by[s] - 1;
    begin_schedule();
    while (n-- > 0) show_act(edge[queue[n]].thread, edge[queue[n]].choice);
    end_schedule();
    free(by), free(from), free(queue);
}
/* Makes the acts of a list: a thread each, with its choice, as `show` prints them ("0,1.2,1e"). */
static void replay(const char *acts) {
    begin_schedule();
    for (char *end; *acts && !w->failed; acts = *end == ',' ? end + 1 : end) {
        uint32_t k = (uint32_t)strtoul(acts, &end, 10), choice = 0;
        if (end == acts || k >= w->threads) die("no list of acts");
        if (*end == 'e') choice = EARLY, end++;
        else if (*end == '.') choice = (uint32_t)strtoul(end + 1, &end, 10);
        show_act(k, choice);
    }
    end_schedule();
}
static uint32_t state_at_fault(uint32_t state_of_cycle) {
    for (uint32_t i = 0; i < states; i++)
        if (seen[i].mark >= IS_STUCK) return i;
    return state_of_cycle;
}
static bool explore(const struct x_program *p) {
    uint32_t at = 0, cycles;
    program = p;
    search();
    if (replayed) return replay(replayed), true;
    cycles = stops_at_fault && many[IS_STUCK] + many[IS_FAILED] ? 0 : fair_cycles(&at);
    printf("%-24s %8u states %9u acts, %u ends", p->name, states, edges, many[IS_END]);
    if (many[IS_STUCK]) printf("; a thread sleeps for ever in %u states", many[IS_STUCK]);
    if (many[IS_FAILED]) printf("; in %u states %s", many[IS_FAILED], fault);
    if (cycles) printf("; threads go round for ever in %u cycles", cycles);
    printf("\n");
    bool is_right = !many[IS_STUCK] && !many[IS_FAILED] && !cycles;
    if (is_shown && !is_right) show(state_at_fault(at));
    fflush(stdout);
    return is_right;
}
/* A program of its own scripts, "0:e l;1:e l". */
static bool explore_own(char *scripts) {
    struct x_program own = {scripts, {NULL}, !groups, 1, 1, groups};
    for (const char *c = groups; c && *c; c++) own.places += (uint32_t)(*c - '0');
    char *script = strdup(scripts);
    for (uint32_t k = 0; script && k < X_THREADS; k++) {
        own.script[k] = script;
        if (script[0] - '0' >= (int)own.places) own.places = (uint32_t)(script[0] - '0' + 1);
        script = strchr(script, ';');
        if (script) *script++ = 0;
    }
    return explore(&own);
}
static bool explore_named(const char *name) {
    bool is_right = true, is_known = !name;
    for (const struct x_program *p = x_programs; p->name; p++) {
        if (name && strcmp(name, p->name)) continue;
        is_known = true;
        is_right = explore(p) && is_right;
    }
    if (!is_known) die(name);
    return is_right;
}
static int print_names(void) {
    for (const struct x_program *p = x_programs; p->name; p++) puts(p->name);
    return 0;
}
/* Takes a choice of the command line; returns false if it is a program. */
static bool takes(const char *word) {
    const char *is = strchr(word, '=');
    if (!strcmp(word, "weak")) return weak = true;
    if (!strcmp(word, "loose")) return sleep_order = RELAXED, true;
    if (!strcmp(word, "show")) return is_shown = true;
    if (!strcmp(word, "first")) return stops_at_fault = true;
    if (!is) return false;
    if (!strncmp(word, "early=", 6)) early = (uint32_t)atoi(is + 1);
    else if (!strncmp(word, "states=", 7)) most = (uint32_t)atoi(is + 1);
    else if (!strncmp(word, "replay=", 7)) replayed = is + 1;
    else if (!strncmp(word, "groups=", 7)) groups = is + 1;
    else if (!strncmp(word, "script=", 7)) script = is + 1, is_shown = true;
    else if (strncmp(word, "fine=", 5) || !x_fine(is + 1)) die(word);
    return true;
}
int main(int argc, char **argv) {
    bool is_right = true;
    int programs = 0;
    w = mmap((void *)0x200000000000, sizeof *w, PROT_READ | PROT_WRITE,
             MAP_PRIVATE | MAP_ANONYMOUS | MAP_FIXED_NOREPLACE, -1, 0);
    if (w == MAP_FAILED) die("no memory");
    for (int i = 1; i < argc; i++)
        if (!takes(argv[i])) argv[programs++] = argv[i];
    if (programs == 1 && !strcmp(argv[0], "names")) return print_names();
    make_tables();
    if (!programs) is_right = explore_named(NULL);
    for (int i = 0; i < programs; i++)
        is_right = (strchr(argv[i], ':') ? explore_own(argv[i]) : explore_named(argv[i])) && is_right;
    return is_right ? 0 : 1;
}
