/* The queues alone: place 0 waits, place 1 signals, 0 is inside at once, and 1 is back when 0 leaves. */
#include "zaulinte_book.h"
#include <stdio.h>

int main(void) {
    zaulinte_book book = {0};
    zaulinte_book_make(&book, 2, 1, 0); /* 2 places, 1 condition, which isn't a Mesa condition */
    zaulinte_book_enter(&book, 0), zaulinte_book_wait(&book, 0, 0, 7);
    zaulinte_book_enter(&book, 1);
    printf("%d\n", (int)zaulinte_book_signal(&book, 1, 0)); /* 0: the waiter is inside at once */
    printf("%d\n", (int)zaulinte_book_leave(&book, 0));     /* 1: the signaller is back */
    return (int)zaulinte_book_free(&book);
}
