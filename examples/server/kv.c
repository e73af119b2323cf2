/* kv.c: a key-value server that speaks a part of Redis' protocol, for redis-cli and redis-benchmark. Linux.
 *
 *   cc -O2 -pthread -Ibindings/c examples/server/kv.c bindings/c/zaulinte_m*.c \
 *       bindings/lib/$(uname -m)-linux/libzaulinte.a -o kv
 *   ./kv 6379 8 &    # the port, and the number of workers, 2 to 256
 *
 * The main thread polls, and appends the connections that have input to a bounded queue. A worker takes one, answers
 * what is there, and gives it back to the poll. Queue and table are in the two monitors of sync_zaulinte.h. The same
 * on mutexes and condition variables is in sync_pthread.h: add -DSYNC='"sync_pthread.h"'.
 *
 * A string is a list of one item, so no value has a wrong type. BLPOP blocks a worker, so fewer clients wait than there
 * are workers, and at most 31; others are refused. They may wait for any lists. By Zaulinte an item goes to the client
 * that waits longest for its list, as with Redis. If a client is killed while it waits, the main thread ends its wait:
 * that frees the worker. If an item came before that, the worker finds that the client is gone, and pushes the item
 * back. As with Redis, an item is lost if it was sent before that. SIGTERM and SIGINT end all waits; then the server
 * joins its threads, and frees everything. */
#define _GNU_SOURCE
#include "table.h"
#include <errno.h>
#include <netinet/in.h>
#include <netinet/tcp.h>
#include <poll.h>
#include <pthread.h>
#include <signal.h>
#include <stdio_ext.h>
#include <sys/epoll.h>
#include <sys/resource.h>
#include <sys/signalfd.h>
#include <sys/socket.h>
#include <unistd.h>
#ifndef SYNC
#define SYNC "sync_zaulinte.h"
#endif
#ifndef APPEND
#define APPEND BATCH /* the most connections that a visit appends */
#endif
enum { ROOM = 256, BATCH = 64, MOST_WAITS = 31, MOST_WORKERS = 256, MOST_FILES = 1 << 16, WORDS = 64, IN = 1 << 14 };
typedef struct connection {
    int fd, words;
    bool ends;
    word w[WORDS]; /* of the command */
    FILE *out;     /* with a buffer for the longest reply, so that no thread writes to the client inside the store */
    size_t from, to;
    char in[IN + 1], buffer[4 * IN]; /* in[from .. to) isn't answered yet; a 0 follows */
} connection;

/* The calls of sync_zaulinte.h and sync_pthread.h:
 * - queue_append, queue_close, store_cancel, store_close: by the main thread.
 * - queue_take returns NULL when the queue is closed and empty.
 * - store_enter .. store_leave: the table is the caller's. store_leave takes the list that was used. If it has an item
 *   and a client waits for one, that client continues; if it isn't needed, it is freed.
 * - store_enter_to_wait: the same, for a call that may wait. False: as many as may wait are there.
 * - store_await: waits until the list has an item, the time is over, the store closes, or store_cancel ends the wait of
 *   the connection with this descriptor.
 * - store_close ends all waits. sync_make takes how many may wait. sync_free: after the workers are joined. */
#include SYNC

static struct {
    int epoll, listener, stop;
    bool stops;
    unsigned workers;
    pthread_t thread[MOST_WORKERS];
    _Atomic(connection *) open[MOST_FILES]; /* by their descriptors */
    _Atomic unsigned waiting;               /* clients */
} server;
static void must(bool is_well, const char *what) {
    if (!is_well) perror(what), exit(1);
}
static void poll_for(int fd, int how, uint32_t events) { /* if it isn't for input, the event has ~fd */
    struct epoll_event event = {events, {.fd = events & EPOLLIN ? fd : ~fd}};
    must(!epoll_ctl(server.epoll, how, fd, &event), "epoll_ctl");
}

/* Commands on the list of a key, inside the store. */
static void reply_bulk(connection *c, const char *bytes, size_t length) {
    fprintf(c->out, "$%zu\r\n", length), fwrite(bytes, 1, length, c->out), fputs("\r\n", c->out);
}
static void reply_item(connection *c, const item *x) {
    if (x) reply_bulk(c, x->bytes, x->length);
    else fputs("$-1\r\n", c->out);
}
static void get(connection *c, list *l) { reply_item(c, TAILQ_FIRST(&l->items)); }
static void set(connection *c, list *l) { list_clear(l), list_push(l, c->w[2], true), fputs("+OK\r\n", c->out); }
static void incr(connection *c, list *l) {
    char text[24] = "0", *end;
    const char *old = l->count ? TAILQ_FIRST(&l->items)->bytes : text;
    errno = 0;
    long long n = strtoll(old, &end, 10);
    if (errno || n == INT64_MAX || end == old || *end) {
        fputs("-ERR value is not an integer or out of range\r\n", c->out);
    } else {
        list_clear(l), list_push(l, (word){text, (size_t)snprintf(text, sizeof text, "%lld", n + 1)}, true);
        fprintf(c->out, ":%s\r\n", text);
    }
}
static void del(connection *c, list *l) { fprintf(c->out, ":%d\r\n", l->count > 0), list_clear(l); }
static void llen(connection *c, list *l) { fprintf(c->out, ":%zu\r\n", l->count); }
static bool is_left(const connection *c) { return *c->w->at != 'R' && *c->w->at != 'r'; }
static void push(connection *c, list *l) { /* LPUSH or RPUSH */
    for (int i = 2; i < c->words; i++) list_push(l, c->w[i], is_left(c));
    llen(c, l);
}
static void pop(connection *c, list *l) { /* LPOP or RPOP */
    item *x = list_pop(l, is_left(c));
    reply_item(c, x);
    free(x);
}
static void visit(connection *c, void (*inside)(connection *c, list *l)) {
    uint32_t place = store_enter();
    list *l = list_of(c->w[1]);
    inside(c, l);
    store_leave(place, l);
}

/* Other commands. */
static void flush(connection *c) { c->ends = fflush(c->out) || c->ends; }
static void deliver(connection *c, item *x) { /* to a client that waited for it; or back, if the client is gone */
    c->ends = poll(&(struct pollfd){.fd = c->fd, .events = POLLRDHUP}, 1, 0) == 1;
    if (!c->ends) fputs("*2\r\n", c->out), reply_bulk(c, c->w[1].at, c->w[1].length), reply_item(c, x), flush(c);
    c->w[2] = (word){x->bytes, x->length};
    if (c->ends) visit(c, push);
    free(x);
}
static void blpop(connection *c) {
    char *end;
    uint32_t place;
    double seconds = strtod(c->w[2].at, &end); /* a line's end follows */
    flush(c);                                  /* the replies to earlier commands don't wait */
    if (end != c->w[2].at + c->w[2].length || !(seconds >= 0 && seconds < 1e9)) {
        fputs("-ERR timeout is not a float or out of range\r\n", c->out);
    } else if (!store_enter_to_wait(&place)) {
        fputs("-ERR too many clients wait\r\n", c->out);
    } else {
        server.waiting++;
        list *l = list_of(c->w[1]);
        if (!l->count) {
            poll_for(c->fd, EPOLL_CTL_MOD, EPOLLRDHUP | EPOLLONESHOT); /* inside: a cancel finds that the wait began */
            store_await(place, l, c->fd, seconds > 0 ? (uint64_t)(seconds * 1000) + 1 : UINT64_MAX);
        }
        item *x = list_pop(l, true);
        store_leave(place, l);
        server.waiting--;
        if (x) deliver(c, x);
        else fputs("*-1\r\n", c->out);
    }
}
static void ping(connection *c) { fputs("+PONG\r\n", c->out); }
static void command(connection *c) { fputs("*0\r\n", c->out); }
static void config(connection *c) { fputs("*2\r\n$0\r\n\r\n$0\r\n\r\n", c->out); }
static void info(connection *c) { /* the server's processor time in seconds, and how many clients wait */
    char text[80];
    double used = (double)clock() / CLOCKS_PER_SEC;
    int n = snprintf(text, sizeof text, "used_cpu:%f\r\nblocked_clients:%u\r\n", used, server.waiting);
    reply_bulk(c, text, (size_t)n);
}
static const struct row {
    const char *name;
    int least, most;                         /* how many words */
    void (*inside)(connection *c, list *l); /* on the list of the first key, inside the store; or NULL, and */
    void (*run)(connection *c);
} rows[] = {
    {"GET", 2, 2, get, NULL},       {"SET", 3, 3, set, NULL},   {"INCR", 2, 2, incr, NULL}, {"DEL", 2, 2, del, NULL},
    {"LPUSH", 3, WORDS, push, NULL}, {"LPOP", 2, 2, pop, NULL},  {"LLEN", 2, 2, llen, NULL},
    {"RPUSH", 3, WORDS, push, NULL}, {"RPOP", 2, 2, pop, NULL},  {"BLPOP", 3, 3, NULL, blpop},
    {"PING", 1, 1, NULL, ping},     {"INFO", 1, 2, NULL, info}, {"CONFIG", 3, 3, NULL, config},
    {"COMMAND", 1, WORDS, NULL, command},
};
static void answer(connection *c) {
    size_t k = 0, end = sizeof rows / sizeof *rows;
    while (k < end && (c->w->length != strlen(rows[k].name) || strncasecmp(c->w->at, rows[k].name, c->w->length))) k++;
    if (__fpending(c->out) > IN) flush(c);
    if (k == end || c->words < rows[k].least || c->words > rows[k].most)
        fputs("-ERR unknown command, or wrong number of arguments\r\n", c->out);
    else if (rows[k].run) rows[k].run(c);
    else visit(c, rows[k].inside);
}

/* Requests. A wrong one ends the connection. */
static long read_number(connection *c, const char **at, char kind) { /* of a line, as "$5"; -1: there is none yet */
    char *stop = memchr(*at, '\n', (size_t)(c->in + c->to - *at)), *end;
    if (!stop) return -1;
    long n = strtol(*at + 1, &end, 10);
    c->ends = **at != kind || end + 1 != stop || n < 0 || n > IN;
    *at = stop + 1;
    return n;
}
static bool read_command(connection *c) {
    const char *at = c->in + c->from, *stop = memchr(at, '\n', c->to - c->from);
    if (!stop) return false;
    if (*at != '*') { /* a line with one word, as "PING" */
        c->words = 1, c->w[0] = (word){at, strcspn(at, " \r\n")};
        c->from = (size_t)(stop + 1 - c->in);
        return true;
    }
    long words = read_number(c, &at, '*');
    c->ends = c->ends || words < 1 || words > WORDS;
    for (c->words = 0; c->words < words && !c->ends; c->words++) {
        long length = read_number(c, &at, '$');
        if (c->ends || length < 0 || c->in + c->to - at < length + 2) return false;
        c->w[c->words] = (word){at, (size_t)length};
        at += length + 2;
    }
    c->from = (size_t)(at - c->in);
    return !c->ends;
}
static void serve(connection *c) { /* reads once, and answers the commands that are complete */
    ssize_t n = recv(c->fd, c->in + c->to, IN - c->to, MSG_DONTWAIT); /* 0 if the client ends, or `in` is full */
    c->ends = !n || (n < 0 && errno != EAGAIN && errno != EINTR);
    c->to += n > 0 ? (size_t)n : 0;
    while (!c->ends && read_command(c)) answer(c);
    memmove(c->in, c->in + c->from, c->to -= c->from);
    c->from = 0;
    flush(c);
}

/* Threads. */
static void close_connection(connection *c) {
    if (!c) return;
    server.open[c->fd] = NULL;
    fclose(c->out);
    free(c);
}
static void *work(void *unused) {
    for (connection *c; (c = queue_take());) {
        int fd = c->fd;
        serve(c);
        if (c->ends) {
            close_connection(c);
        } else {
            server.open[fd] = c; /* again: what this worker did comes before the main thread's load, in C's order too */
            poll_for(fd, EPOLL_CTL_MOD, EPOLLIN | EPOLLRDHUP | EPOLLONESHOT);
        }
    }
    return unused;
}
static void accept_connection(void) {
    int fd = accept4(server.listener, NULL, NULL, SOCK_CLOEXEC);
    if (fd < 0) usleep(1000); /* as a rule no descriptor is free */
    if (fd < 0) return;
    connection *c = memory(sizeof *c);
    c->fd = fd, c->out = fdopen(fd, "w");
    must(c->out && !setvbuf(c->out, c->buffer, _IOFBF, sizeof c->buffer), "fdopen");
    setsockopt(fd, IPPROTO_TCP, TCP_NODELAY, &(int){1}, sizeof(int));
    setsockopt(fd, SOL_SOCKET, SO_SNDTIMEO, &(struct timeval){5, 0}, sizeof(struct timeval));
    server.open[fd] = c;
    poll_for(fd, EPOLL_CTL_ADD, EPOLLIN | EPOLLRDHUP | EPOLLONESHOT);
}
static void poll_once(void) {
    struct epoll_event event[BATCH];
    connection *ready[BATCH];
    unsigned count = 0;
    int n = epoll_wait(server.epoll, event, BATCH, -1);
    for (int i = 0; i < n; i++) {
        int fd = event[i].data.fd;
        if (fd == server.stop) server.stops = true;
        else if (fd == server.listener) accept_connection();
        else if (fd >= 0) ready[count++] = server.open[fd];
        else store_cancel(~fd); /* the client is gone, and may still wait */
    }
    for (unsigned i = 0; i < count; i += APPEND)
        queue_append(ready + i, count - i < APPEND ? count - i : APPEND);
}
static void begin(uint16_t port) {
    struct sockaddr_in at = {.sin_family = AF_INET, .sin_port = htons(port), .sin_addr.s_addr = htonl(INADDR_LOOPBACK)};
    sigset_t stops;
    sigemptyset(&stops), sigaddset(&stops, SIGTERM), sigaddset(&stops, SIGINT);
    pthread_sigmask(SIG_BLOCK, &stops, NULL);
    signal(SIGPIPE, SIG_IGN);
    setrlimit(RLIMIT_NOFILE, &(struct rlimit){MOST_FILES, MOST_FILES}); /* refused if there are fewer */
    must((server.epoll = epoll_create1(EPOLL_CLOEXEC)) >= 0, "epoll_create1");
    must((server.stop = signalfd(-1, &stops, SFD_CLOEXEC)) >= 0, "signalfd");
    must((server.listener = socket(AF_INET, SOCK_STREAM | SOCK_CLOEXEC | SOCK_NONBLOCK, 0)) >= 0, "socket");
    setsockopt(server.listener, SOL_SOCKET, SO_REUSEADDR, &(int){1}, sizeof(int));
    must(!bind(server.listener, (struct sockaddr *)&at, sizeof at) && !listen(server.listener, 1024), "bind");
    poll_for(server.listener, EPOLL_CTL_ADD, EPOLLIN), poll_for(server.stop, EPOLL_CTL_ADD, EPOLLIN);
    sync_make(server.workers <= MOST_WAITS ? server.workers - 1 : MOST_WAITS);
    for (unsigned k = 0; k < server.workers; k++)
        must(!pthread_create(&server.thread[k], NULL, work, NULL), "pthread_create");
}
static void end(void) {
    store_close();
    queue_close();
    for (unsigned k = 0; k < server.workers; k++) must(!pthread_join(server.thread[k], NULL), "pthread_join");
    sync_free();
}
static void free_all(void) {
    for (int fd = 0; fd < MOST_FILES; fd++) close_connection(server.open[fd]);
    tdestroy(table, list_free);
    close(server.listener), close(server.stop), close(server.epoll);
}
int main(int count, char **argument) {
    server.workers = count > 2 ? (unsigned)atoi(argument[2]) : 8;
    if (count < 2 || server.workers < 2 || server.workers > MOST_WORKERS)
        return fputs("kv PORT [WORKERS]\n", stderr), 2;
    begin((uint16_t)atoi(argument[1]));
    while (!server.stops) poll_once();
    end();
    free_all();
}
