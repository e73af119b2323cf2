// Counts the requests for memory of a program that runs with it (LD_PRELOAD): each malloc and realloc adds a line with
// its size to the file that REQUESTS names. The request whose number REFUSE says, counted from 1, is refused, and its
// line says so.
#define _GNU_SOURCE
#include <dlfcn.h>
#include <fcntl.h>
#include <stdio.h>
#include <stdlib.h>
#include <unistd.h>

static int is_refused(const char *what, size_t size) {
    static long made;
    const char *number = getenv("REFUSE"), *name = getenv("REQUESTS");
    int refused = __atomic_add_fetch(&made, 1, __ATOMIC_SEQ_CST) == (number ? atol(number) : 0);
    char line[64];
    int length = snprintf(line, sizeof line, "%s%s %zu\n", refused ? "refused " : "", what, size);
    int file = name ? open(name, O_WRONLY | O_CREAT | O_APPEND, 0644) : -1;
    if (file >= 0 && (write(file, line, length) != length || close(file) != 0)) abort();
    return refused;
}

void *malloc(size_t size) {
    void *(*real)(size_t) = (void *(*)(size_t))dlsym(RTLD_NEXT, "malloc");
    return is_refused("malloc", size) ? NULL : real(size);
}

void *realloc(void *old, size_t size) {
    void *(*real)(void *, size_t) = (void *(*)(void *, size_t))dlsym(RTLD_NEXT, "realloc");
    return is_refused("realloc", size) ? NULL : real(old, size);
}
