/* table.h: the keys, each with a list. The caller is inside the store. */
#include <search.h>
#include <stdbool.h>
#include <stdint.h>
#include <stdio.h>
#include <stdlib.h>
#include <string.h>
#include <sys/queue.h>

typedef struct word { /* bytes */
    const char *at;
    size_t length;
} word;
typedef struct item {
    TAILQ_ENTRY(item) beside;
    size_t length;
    char bytes[]; /* and a 0 */
} item;
/* A key with its items, and the clients that wait for one, in the order of their arrival: sync_*.h has what such a
 * client is. It is in the table while it has an item, or a client waits. */
typedef struct list {
    word key;
    TAILQ_HEAD(items, item) items;
    TAILQ_HEAD(, waiting) waiting;
    size_t count;
    char bytes[]; /* of the key */
} list;
static void *table; /* of tsearch */

static inline void *memory(size_t size) { /* all zero */
    void *at = calloc(1, size);
    if (!at) perror("kv"), abort();
    return at;
}
static inline int list_order(const void *one, const void *other) {
    const list *a = one, *b = other;
    if (a->key.length != b->key.length) return a->key.length < b->key.length ? -1 : 1;
    return memcmp(a->key.at, b->key.at, a->key.length);
}
/* Returns the list of a key, and makes it if there is none. */
static inline list *list_of(word key) {
    list **found = tfind(&(list){.key = key}, &table, list_order), *l;
    if (found) return *found;
    l = memory(sizeof *l + key.length);
    l->key = (word){memcpy(l->bytes, key.at, key.length), key.length};
    TAILQ_INIT(&l->items);
    TAILQ_INIT(&l->waiting);
    if (!tsearch(l, &table, list_order)) abort();
    return l;
}
/* Frees a list if it isn't needed: it has no item, and no client waits for one. */
static inline void list_drop(list *l) {
    if (l->count || !TAILQ_EMPTY(&l->waiting)) return;
    tdelete(l, &table, list_order);
    free(l);
}
static inline void list_push(list *l, word w, bool left) {
    item *x = memory(sizeof *x + w.length + 1);
    x->length = w.length;
    memcpy(x->bytes, w.at, w.length);
    if (left) TAILQ_INSERT_HEAD(&l->items, x, beside);
    else TAILQ_INSERT_TAIL(&l->items, x, beside);
    l->count++;
}
static inline item *list_pop(list *l, bool left) { /* or NULL */
    item *x = left ? TAILQ_FIRST(&l->items) : TAILQ_LAST(&l->items, items);
    if (!x) return NULL;
    TAILQ_REMOVE(&l->items, x, beside);
    l->count--;
    return x;
}
static inline void list_clear(list *l) {
    for (item *x; (x = list_pop(l, true));) free(x);
}
static inline void list_free(void *l) { list_clear(l), free(l); }
