/* Makes a book of each size, and the calls of book.rows, in order, and compares each result: book FILE. */
#include "zaulinte_book.h"
#include <inttypes.h>
#include <stdbool.h>
#include <stdio.h>
#include <stdlib.h>
#include <string.h>

enum { UNTOUCHED = 77 };
static zaulinte_book book[2];
static uint64_t word; /* what `first` or `count` wrote */

static uint64_t made(const char *call, const uint64_t *n) {
    if (!strcmp(call, "make")) return zaulinte_book_make(book, n[0], n[1], n[2]);
    if (!strcmp(call, "free")) return zaulinte_book_free(book);
    if (!strcmp(call, "enter")) return zaulinte_book_enter(book, n[0]);
    if (!strcmp(call, "leave")) return zaulinte_book_leave(book, n[0]);
    if (!strcmp(call, "wait")) return zaulinte_book_wait(book, n[0], n[1], n[2]);
    if (!strcmp(call, "signal")) return zaulinte_book_signal(book, n[0], n[1]);
    if (!strcmp(call, "signal_to")) return zaulinte_book_signal_to(book, n[0], n[1], n[2]);
    if (!strcmp(call, "pass")) return zaulinte_book_pass(book, n[0], n[1]);
    if (!strcmp(call, "notify")) return zaulinte_book_notify(book, n[0], n[1]);
    if (!strcmp(call, "broadcast")) return zaulinte_book_broadcast(book, n[0], n[1]);
    if (!strcmp(call, "now")) return zaulinte_book_now(book);
    if (!strcmp(call, "places")) return zaulinte_book_places(book);
    if (!strcmp(call, "conditions")) return zaulinte_book_conditions(book);
    if (!strcmp(call, "outside")) return zaulinte_book_outside(book, n[0]);
    if (!strcmp(call, "queue")) return zaulinte_book_queue(book, n[0]);
    if (!strcmp(call, "first")) return zaulinte_book_first(book, n[0], &word);
    if (!strcmp(call, "count")) return zaulinte_book_count(book, n[0], &word);
    return UINT64_MAX;
}
/* Makes the call of a row, and returns true if the results are those of the row. */
static bool is_right(char *row) {
    uint64_t n[3] = {0}, answers[2] = {UINT64_MAX, UNTOUCHED};
    char *wanted = strchr(row, '='), call[16] = "", *at = row + strcspn(row, " =");
    snprintf(call, sizeof call, "%.*s", (int)(at - row), row);
    for (int i = 0; i < 3 && at < wanted - 1; i++) n[i] = strtoull(at, &at, 10);
    sscanf(wanted, "= %" SCNu64 " %" SCNu64, &answers[0], &answers[1]);
    word = UNTOUCHED;
    return made(call, n) == answers[0] && word == answers[1];
}
static int rows(const char *path) {
    FILE *file = fopen(path, "r");
    char row[128];
    int many = 0;
    while (file && fgets(row, sizeof row, file)) {
        char *from = strncmp(row, "c ", 2) ? row : row + 2;
        if (!strchr(row, '=') || *row == '#') continue;
        if (!is_right(from)) printf("book.c: not so: %s", row), exit(1);
        many++;
    }
    if (file) fclose(file);
    return many;
}
/* If there is memory, a book of each size is made, and the handle beside it is left as it was. */
static void each_size(void) {
    for (uint64_t n = 0; n < 64 * 8 * 9; n++) {
        uint64_t places = n % 64 + 1, conditions = n / 64 % 8 + 1, mesa = n / 512;
        if (mesa > conditions) continue;
        bool is_made = zaulinte_book_make(book, places, conditions, mesa) == 0;
        if (is_made && zaulinte_book_now(book + 1) == ZAULINTE_NO_BOOK && zaulinte_book_free(book) == 0) continue;
        printf("book.c: not so: %d places, %d conditions\n", (int)places, (int)conditions), exit(1);
    }
}
int main(int argc, char **argv) {
    each_size();
    return argc < 2 || rows(argv[1]) < 60;
}
