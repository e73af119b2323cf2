/* Does calls of the native book: one a line, NAME and three numbers. Prints the answer of each, and the number that a
 * question wrote. compare.mjs draws the calls. */
#include "zaulinte_book.h"
#include <inttypes.h>
#include <stdio.h>
#include <string.h>

static uint64_t call(zaulinte_book *book, const char *name, uint64_t a, uint64_t b, uint64_t c, uint64_t *wrote) {
    if (!strcmp(name, "make")) return zaulinte_book_make(book, a, b, c);
    if (!strcmp(name, "free")) return zaulinte_book_free(book);
    if (!strcmp(name, "enter")) return zaulinte_book_enter(book, a);
    if (!strcmp(name, "leave")) return zaulinte_book_leave(book, a);
    if (!strcmp(name, "wait")) return zaulinte_book_wait(book, a, b, c);
    if (!strcmp(name, "signal")) return zaulinte_book_signal(book, a, b);
    if (!strcmp(name, "pass")) return zaulinte_book_pass(book, a, b);
    if (!strcmp(name, "notify")) return zaulinte_book_notify(book, a, b);
    if (!strcmp(name, "broadcast")) return zaulinte_book_broadcast(book, a, b);
    if (!strcmp(name, "now")) return zaulinte_book_now(book);
    if (!strcmp(name, "places")) return zaulinte_book_places(book);
    if (!strcmp(name, "conditions")) return zaulinte_book_conditions(book);
    if (!strcmp(name, "outside")) return zaulinte_book_outside(book, a);
    if (!strcmp(name, "queue")) return zaulinte_book_queue(book, a);
    if (!strcmp(name, "first")) return zaulinte_book_first(book, a, wrote);
    return zaulinte_book_count(book, a, wrote);
}

int main(void) {
    zaulinte_book book = {0};
    char name[16];
    uint64_t a, b, c;
    while (scanf("%15s %" SCNu64 " %" SCNu64 " %" SCNu64, name, &a, &b, &c) == 4) {
        uint64_t wrote = 0;
        uint64_t code = call(&book, name, a, b, c, &wrote);
        printf("%" PRIu64 " %" PRIu64 "\n", code, wrote);
    }
}
