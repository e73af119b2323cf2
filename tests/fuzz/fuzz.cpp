// Makes the calls of the three headers that an input chooses, with numbers of any size. Compares each result, and each
// word of the caller's, with a model of what the headers' comments promise. Codes are numbers here, as in those.
#include "zaulinte_book.h"
#include "zaulinte_door.h"
#include "zaulinte_head.h"
#include <algorithm>
#include <csignal>
#include <cstdio>
#include <cstdlib>
#include <cstring>
#include <ctime>
#include <fcntl.h>
#include <map>
#include <random>
#include <set>
#include <unistd.h>
#include <vector>
using word = uint64_t;
using list = std::initializer_list<word>;
constexpr word nobody = 64, untouched = 77; // untouched: what a word of the caller's has before a call
enum act { ENTER, LEAVE, WAIT, SIGNAL, PASS, NOTIFY, BROADCAST };
enum state : word { OUTSIDE, INSIDE, AWAY };

struct monitor {
    bool live = false, owed = false; // owed: the holder, a place of a door, hasn't returned
    word places = 0, conditions = 0, mesa = 0, holder = nobody;
    std::set<word> away;
    // Places by priority, of equal ones the oldest first: a queue for each condition, the signallers, the notified.
    std::vector<std::multimap<word, word>> queues;

    word make(word p, word c, word m, bool no_memory) {
        word code = live ? 108 : p < 1 || p > 64 ? 109 : c < 1 || c > 8 || m > c ? 110 : no_memory ? 111 : 0;
        if (code) return code;
        *this = {true, false, p, c, m, nobody, {}, {}};
        queues.resize(c + 2);
        return 0;
    }
    bool is_outside(word place) const { return place != holder && !away.count(place); }
    bool is_mesa(word condition) const { return condition >= conditions - mesa; }
    // Returns the refusal of an act, or 0.
    word refusal(act a, word place, word condition) const {
        if (a == ENTER) return holder != nobody ? 102 : !is_outside(place) ? 103 : 0;
        if (a == LEAVE || place != holder) return place != holder ? 104 : 0;
        return condition >= conditions ? 105 : a != WAIT && is_mesa(condition) != (a >= NOTIFY) ? 106 : 0;
    }
    void park(word place, word queue, word priority) { queues[queue].emplace(priority, place), away.insert(place); }
    word taken(word queue) { return queues[queue].extract(queues[queue].begin()).mapped(); }
    void hand_to(word place) { holder = place, owed = true, away.erase(place); }
    void release() {
        word queue = queues[conditions].empty() ? conditions + 1 : conditions;
        if (queues[queue].empty()) holder = nobody;
        else hand_to(taken(queue));
    }
    // Makes an act that isn't refused. Returns the number of places that it resumes or notifies.
    word step(act a, word place, word condition, word priority) {
        word many = a < SIGNAL ? 0 : queues[condition].size();
        if (a != BROADCAST) many = std::min<word>(many, 1);
        if (a == WAIT) park(place, condition, priority);
        if (a == SIGNAL && many) park(place, conditions, 0);
        if (a == LEAVE || a == WAIT || (a == PASS && !many)) release();
        if (a == ENTER || (a < NOTIFY && many)) hand_to(a == ENTER ? place : taken(condition));
        for (word i = 0; a >= NOTIFY && i < many; i++) park(taken(condition), conditions + 1, 0);
        return many;
    }
};
struct book : monitor { zaulinte_book handle{}; };
struct door : monitor {
    zaulinte_door handle{};
    word value = 0;
    word in_hand = 0;     // the number of places in hand
    bool in_order = true; // give_out returns places - 1, .., 0
    std::set<word> out;
};
static door no_door;
struct place {
    zaulinte_door_place handle{};
    door *of = &no_door;
    word number = 0;
    state is() const { return of->is_outside(number) ? OUTSIDE : of->holder == number && !of->owed ? INSIDE : AWAY; }
    // Returns the refusal of a call that needs the place in a state, or 0.
    word refusal(state s) const { return !of->live ? 107 : is() == s ? 0 : s == AWAY ? 113 : s == INSIDE ? 104 : 103; }
};

static std::set<void *> blocks;
static int until_failure = -1; // so many allocations succeed, then one fails; below 0: none fails
static bool failed;
struct tried { bool is; void *at; };
extern "C" tried rattle_alloc(size_t bytes, size_t align) {
    void *at = until_failure-- == 0 || align > alignof(long double) ? nullptr : std::malloc(bytes);
    if (!at) return failed = true, tried{false, nullptr};
    blocks.insert(at);
    return {true, std::memset(at, 0xcd, bytes)};
}
extern "C" void rattle_dealloc(void *at) {
    if (!blocks.erase(at)) std::fputs("fuzz: a block is freed that isn't there\n", stderr), std::abort();
    std::free(at);
}
static void same(const char *what, list got, list wanted) {
    auto [one, other] = std::mismatch(got.begin(), got.end(), wanted.begin());
    if (one == got.end()) return;
    std::fprintf(stderr, "fuzz: %s, word %td: %ju instead of %ju\n", what, one - got.begin(), *one, *other);
    std::abort();
}
// Compares the results of queue, first and count and the word of first. `code` is their refusal, or 0.
static void same_queue(list got, const monitor &m, word condition, word code) {
    if (code) return same("a refused question on a condition", got, {code, code, untouched, code});
    auto &queue = m.queues[condition];
    word any = !queue.empty();
    same("a question on a condition", got, {any, any, any ? queue.begin()->first : untouched, queue.size()});
}
struct world {
    const uint8_t *at, *end;
    book books[3] = {};
    door doors[2] = {};
    place places[70] = {};
    zaulinte_head heads[2] = {}, model_heads[2] = {};

    uint8_t byte() { return at < end ? *at++ : 0; }
    word number(word below) { // mostly a small one
        word lot = byte(), small = lot % std::max<word>(below, 1), cut = word{1} << 32;
        word wild[] = {below, below + 1, 9, 63, 64, 65, 256, cut - 1, cut, cut + small, word{1} << 63, 0 - word{1}};
        return lot < 232 ? small : wild[lot % std::size(wild)];
    }
    act drawn() { return std::data({LEAVE, WAIT, WAIT, WAIT, SIGNAL, PASS, NOTIFY, BROADCAST})[byte() % 8]; }
    template <class Make, class Handle, class... Value> word make(Make call, Handle &h, monitor &m, Value... value) {
        word p = number(9), c = number(5), mesa = number(3), code = call(&h, p, c, mesa, value...);
        same("make", {code}, {m.make(p, c, mesa, failed)});
        return code;
    }

    void call(book &b) {
        word lot = b.live || byte() % 2 ? byte() : 0, k = number(b.places), c = number(b.conditions), n = number(4);
        act a = lot % 8 < (b.holder == nobody ? 7 : 1) ? ENTER : drawn();
        if (lot < 2) make(zaulinte_book_make, b.handle, b);
        else if (lot < 6) free(b);
        else let(b, a, a != ENTER && byte() % 8 ? b.holder : k, c, n);
        ask(b, lot % 2 ? k : c);
        for (word i = 0; i < std::max(b.places, b.conditions); i++) ask(b, i);
    }
    void free(book &b) {
        same("book free", {zaulinte_book_free(&b.handle)}, {b.live ? 0u : 107});
        static_cast<monitor &>(b) = {};
    }
    void let(book &b, act a, word k, word c, word priority) {
        zaulinte_book *h = &b.handle;
        word code = !b.live ? 107 : k >= b.places ? 101 : b.refusal(a, k, c);
        if (!code) b.step(a, k, c, priority);
        word got = a == ENTER ? zaulinte_book_enter(h, k) : a == LEAVE ? zaulinte_book_leave(h, k)
            : a == WAIT ? zaulinte_book_wait(h, k, c, priority) : a == SIGNAL ? zaulinte_book_signal(h, k, c)
            : a == PASS ? zaulinte_book_pass(h, k, c) : a == NOTIFY ? zaulinte_book_notify(h, k, c)
            : zaulinte_book_broadcast(h, k, c);
        same("a step of a book", {got}, {code ? code : b.holder});
    }
    void ask(book &b, word n) { // all questions, on place n and on condition n
        zaulinte_book *h = &b.handle;
        word many = untouched, least = untouched, code = b.live ? 0 : 107, count = zaulinte_book_count(h, n, &many);
        word outside = code ? code : n >= b.places ? 101 : b.is_outside(n);
        same("a question to a book", {zaulinte_book_now(h), zaulinte_book_places(h), zaulinte_book_conditions(h)},
             {code ? code : b.holder, code ? code : b.places, code ? code : b.conditions});
        same("outside, count's word", {zaulinte_book_outside(h, n), count ? many : untouched}, {outside, untouched});
        same_queue({zaulinte_book_queue(h, n), zaulinte_book_first(h, n, &least), least, count ? count : many},
                   b, n, code ? code : n >= b.conditions ? 105 : 0);
    }

    void call(door &d) {
        place *fit = able(d, byte()), &any = places[byte() % 4 ? byte() % 12 : byte() % std::size(places)];
        place &p = fit && byte() % 8 ? *fit : any;
        word lot = d.live || byte() % 2 ? byte() % 32 : 0, n = number(9), c = number(p.of->conditions);
        state s = byte() % 8 ? p.is() : state(byte() % 3);
        if (lot == 0) make(d, n);
        else if (lot == 1) close(d);
        else if (lot == 2) finish(d);
        else if (lot < 8) give_out(d, any);
        else if (lot == 8) give_back(p);
        else if (s != INSIDE) come_in(p, s);
        else let(p, drawn(), c, n);
        ask(any, n);
        for (place &each : places) ask(each, 0);
        for (word i = 1; fit && i < d.conditions; i++) ask(*fit, i);
    }
    // Returns the place that has the monitor, or if none has, a place outside, or null.
    place *able(const door &d, unsigned from) {
        for (unsigned i = 0; i < std::size(places); i++) {
            place &p = places[(from + i) % std::size(places)];
            if (p.of == &d && (d.holder == nobody ? d.is_outside(p.number) : d.holder == p.number)) return &p;
        }
        return nullptr;
    }
    void make(door &d, word value) {
        if (!make(zaulinte_door_make, d.handle, d, value)) d.value = value, d.in_order = true, d.in_hand = d.places;
    }
    void close(door &d) {
        word value = untouched, code = !d.live ? 107 : d.in_hand < d.places ? 112 : 0;
        same("close", {zaulinte_door_close(&d.handle, &value), value}, {code, code ? untouched : d.value});
        if (!code) d.live = false;
    }
    void give_out(door &d, place &p) {
        word got = zaulinte_door_give_out(&d.handle, &p.handle), code = p.of->live ? 108 : !d.live ? 107 : 0;
        if (!code) code = d.out.size() == d.places ? 114 : failed ? 111 : 0;
        if ((!code || code == 111) && !d.in_hand) d.in_hand = d.places - d.out.size(); // it collects
        if (code) return same("give_out", {got}, {code});
        d.in_hand--;
        if (d.in_order) same("give_out in order", {got}, {d.places - 1 - d.out.size()});
        same("give_out of a place that isn't out", {got < d.places && d.out.insert(got).second}, {true});
        p.of = &d, p.number = got;
    }
    void give_back(place &p) {
        word code = p.refusal(OUTSIDE);
        same("give_back", {zaulinte_door_give_back(&p.handle)}, {code});
        if (!code) p.of->out.erase(p.number), p.of->in_order = false, p.of = &no_door;
    }
    void come_in(place &p, state from) {
        auto *call = from == AWAY ? zaulinte_door_try_return : zaulinte_door_try_enter;
        word code = p.refusal(from);
        if (!code && p.of->holder != (from == AWAY ? p.number : nobody)) code = 102;
        if (!code) p.of->hand_to(p.number), p.of->owed = false, code = 64;
        same("try_enter or try_return", {call(&p.handle)}, {code});
    }
    void let(place &p, act a, word c, word n) { // n: the word that is kept, and the priority
        zaulinte_door_place *h = &p.handle;
        word resumed = untouched, code = p.refusal(INSIDE);
        same("set", {zaulinte_door_set(h, n)}, {code});
        if (!code) p.of->value = n, code = p.of->refusal(a, p.number, c);
        word many = code ? untouched : p.of->step(a, p.number, c, n);
        word got = a == LEAVE ? zaulinte_door_leave(h) : a == WAIT ? zaulinte_door_wait(h, c, n)
            : a == SIGNAL ? zaulinte_door_signal(h, c) : a == PASS ? zaulinte_door_signal_leave(h, c, &resumed)
            : a == NOTIFY ? zaulinte_door_notify(h, c) : zaulinte_door_broadcast(h, c);
        word wanted = code ? code : a >= NOTIFY ? many : p.of->owed ? p.of->holder : nobody;
        same("an act of a place", {got, resumed}, {wanted, a == PASS ? many : untouched});
    }
    void ask(place &p, word c) { // all questions, on condition c
        zaulinte_door_place *h = &p.handle;
        word code = p.refusal(INSIDE), value = untouched, least = untouched;
        same("a question to a place", {zaulinte_door_state(h), zaulinte_door_get(h, &value), value},
             {p.of->live ? word{p.is()} : 107, code, code ? untouched : p.of->value});
        same_queue({zaulinte_door_queue(h, c), zaulinte_door_first(h, c, &least), least, zaulinte_door_count(h, c)},
                   *p.of, c, code ? code : c >= p.of->conditions ? 105 : 0);
    }
    // Lets all places leave and gives them back, as long as a place can act. Then closes the door, if none waits.
    void finish(door &d) {
        while (place *p = able(d, 0)) {
            auto waits = [](auto &queue) { return !queue.empty(); };
            word c = word(std::find_if(d.queues.begin(), d.queues.end(), waits) - d.queues.begin());
            if (p->is() == OUTSIDE && d.away.empty()) give_back(*p);
            else if (p->is() != INSIDE) come_in(*p, p->is());
            else let(*p, c >= d.conditions ? LEAVE : d.is_mesa(c) ? BROADCAST : PASS, c, 0);
        }
        same("collect", {zaulinte_door_collect(&d.handle)}, {d.live ? 0u : 107});
        d.in_hand = d.places - d.out.size();
        close(d);
    }
    void call(zaulinte_head &h, zaulinte_head &m) {
        word lot = byte() % 4, c = number(lot ? m.last + 2 : 12), x = untouched, y = untouched, got, wanted;
        if (lot == 0) got = zaulinte_head_make(&h, c), wanted = c > 65535 ? 116 : 0;
        else if (lot == 1) got = zaulinte_head_ask(&h, c, &x, &y), wanted = c > m.last ? 116 : m.out;
        else if (lot == 2) got = zaulinte_head_grant(&h, c), wanted = c > m.last ? 116 : m.out ? 117 : 0;
        else got = zaulinte_head_give_back(&h, c, &x), wanted = c > 1 ? 119 : m.out ? 0 : 118;
        bool waits = lot == 1 && wanted == 1, up = c == m.at ? m.sweep : c > m.at;
        word condition = waits ? !up : untouched, priority = !waits ? untouched : up ? c : m.last - c;
        if (lot == 0 && !wanted) m = {0, c, 0, 0};
        if (lot == 2 && !wanted) m.at = c, m.out = 1;
        if (lot == 3 && !wanted) m.out = 0, m.sweep ^= 1 - c, condition = m.sweep;
        same("a call of a head", {got, x, y}, {wanted, condition, priority});
        same("a head", {zaulinte_head_sweep(&h), std::memcmp(&h, &m, sizeof h) != 0}, {m.sweep, false});
    }
    void call(unsigned kind) {
        unsigned lot = byte(), now = kind == 3 ? lot / 8 % 3 : kind;
        until_failure = byte() % 4 == 1 ? byte() % 8 : -1, failed = false;
        if (now == 0) call(books[lot % 3]);
        else if (now == 1) call(doors[lot % 2]);
        else call(heads[lot % 2], model_heads[lot % 2]);
    }
};
extern "C" int LLVMFuzzerTestOneInput(const uint8_t *data, size_t size) {
    world all{data, data + size};
    for (unsigned kind = all.byte() % 4; all.at < all.end;) all.call(kind);
    for (book &b : all.books) all.free(b);
    for (door &d : all.doors) all.finish(d);
    if (!all.doors[0].live && !all.doors[1].live) same("the number of blocks left", {blocks.size()}, {0});
    for (void *block : blocks) std::free(block); // of a door all of whose places wait
    return blocks.clear(), 0;
}

#ifdef WALKS // walks FILE replays FILE; walks FILE SEED SECONDS makes random walks, and FILE gets one that fails
static const char *file;
static std::vector<uint8_t> bytes;
static void keep(int) {
    std::_Exit(write(open(file, O_WRONLY | O_CREAT | O_TRUNC, 0666), bytes.data(), bytes.size()) < 0 ? 2 : 1);
}
int main(int many, char **words) {
    file = words[1];
    bytes.resize(1 << 20);
    if (many == 2) bytes.resize(size_t(read(open(file, O_RDONLY), bytes.data(), bytes.size())));
    if (many == 2) return LLVMFuzzerTestOneInput(bytes.data(), bytes.size());
    for (int signal : {SIGABRT, SIGBUS, SIGFPE, SIGILL, SIGSEGV, SIGTERM}) std::signal(signal, keep);
    std::mt19937_64 draw(std::strtoull(words[2], nullptr, 10));
    unsigned long walks = 0;
    for (std::time_t end = std::time(nullptr) + std::atoi(words[3]); std::time(nullptr) < end; walks++) {
        bytes.resize(500 + draw() % 5501);
        std::generate(bytes.begin(), bytes.end(), [&] { return uint8_t(draw()); });
        LLVMFuzzerTestOneInput(bytes.data(), bytes.size());
    }
    std::printf("fuzz: %lu random walks of seed %s: no fault\n", walks, words[2]);
}
#endif
