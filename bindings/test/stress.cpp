// The stress of stress.c once more, by zaulinte.hpp. Its output is for judge.c: stress_cpp CALLS [SEED] | judge.
#include "zaulinte.hpp"
#include <cstdio>
#include <cstdlib>
#include <string>
#include <thread>
#include <vector>

ZAULINTE_CONDITIONS(on, a, b, c);
ZAULINTE_CONDITIONS(called_on, mesa);
constexpr unsigned workers = 8, places = workers + 1, spare = places, all_conditions = 4, hoare = 3;
struct event {
    const char *kind;
    int many; // numbers after the place
    std::uint64_t number[5];
};
struct log {
    std::vector<event> events;
    std::optional<unsigned> waits_on[places + 1]; // the condition on which a place waits, or was notified
    std::uint64_t data = 0;
    unsigned finished = 0;
};
using monitor = zaulinte::monitor<log, on, called_on>;

static std::uint64_t draw(std::uint64_t &seed) {
    seed = seed * 6364136223846793005u + 1442695040888963407u;
    return seed >> 33;
}
template <class... N> static void put(monitor::inside &in, const char *kind, unsigned place, N... n) {
    constexpr int many = 2 + static_cast<int>(sizeof...(n));
    in->events.push_back({kind, many, {place, static_cast<std::uint64_t>(n)..., in->data}});
}
static void is(bool held) {
    if (!held) std::fputs("stress: wrong\n", stderr), std::exit(1);
}
template <class F> static void is_refused(std::uint64_t code, F f) {
    std::uint64_t was = 0;
    try {
        f();
    } catch (const zaulinte::refused &r) {
        was = r.code();
    }
    is(was == code);
}
static unsigned at(on c) { return static_cast<unsigned>(c); }
static unsigned at(called_on c) { return hoare + static_cast<unsigned>(c); }
template <class C> static std::uint64_t asks(monitor::inside &in, unsigned me, C c) {
    std::uint64_t many = in.count(c);
    auto first = in.first(c);
    is(first.has_value() == (many > 0) && in.queue(c) == (many > 0));
    put(in, "asked", me, at(c), many, first.value_or(0));
    return many;
}
template <class C> static void waits(monitor::inside &in, unsigned me, C c, std::uint64_t priority) {
    put(in, "wait", me, at(c), priority);
    in->waits_on[in.place_number()] = at(c);
    in.wait(c, priority);
    put(in, "resume", me, at(c));
    in->waits_on[me].reset();
}
static void signals(monitor::inside &in, unsigned me, on c) {
    bool was = in.queue(c);
    put(in, was ? "signal" : "empty", me, at(c));
    is(in.signal(c) == was);
    if (was) put(in, "back", me);
}
// Draws a place, or the number after the last; of two draws one is of a place that waits on the condition, if any does.
static unsigned drawn_place(monitor::inside &in, on c, std::uint64_t lot) {
    auto any = static_cast<unsigned>(lot / 2 % (spare + 2));
    for (unsigned k = any; lot % 2 && k <= any + spare; k++)
        if (in->waits_on[k % (spare + 1)] == at(c)) return k % (spare + 1);
    return any;
}
static void signals_to(monitor::inside &in, unsigned me, on c, unsigned waiter) {
    bool was = waiter <= spare && in->waits_on[waiter] == at(c);
    put(in, was ? "signalto" : "absent", me, at(c), waiter);
    is(in.signal_to(c, waiter) == was);
    if (was) put(in, "back", me);
}
static void calls(monitor::inside &in, unsigned me, bool all) {
    std::uint64_t many = in.count(called_on::mesa);
    if (all && many) put(in, "broadcast", me, at(called_on::mesa), many);
    else put(in, many ? "notify" : "empty", me, at(called_on::mesa));
    is(all ? in.broadcast(called_on::mesa) == many : in.notify(called_on::mesa) == (many > 0));
}
static void misuses(monitor &m, monitor::inside &in, unsigned me, std::uint64_t lot) {
    switch (lot % 6) {
    case 0: is_refused(ZAULINTE_NO_CONDITION, [&] { in.wait(static_cast<on>(hoare)); }); break;
    case 1: is_refused(ZAULINTE_NO_CONDITION, [&] { in.signal(static_cast<on>(hoare)); }); break;
    case 2: is_refused(ZAULINTE_NO_CONDITION, [&] { in.broadcast(static_cast<called_on>(UINT32_MAX)); }); break;
    case 3: is_refused(ZAULINTE_NO_CONDITION, [&] { in.signal_to(static_cast<on>(hoare), me); }); break;
    case 4: is_refused(ZAULINTE_NOT_OUTSIDE, [&] { (void)m.enter(me); }); break;
    default: is(!m.try_enter(spare)); // a place that no thread has
    }
}
static void step(monitor &m, monitor::inside &in, unsigned me, std::uint64_t lot) {
    std::uint64_t waiting = 0;
    for (unsigned c = 0; c < hoare; c++) waiting += asks(in, me, static_cast<on>(c));
    waiting += asks(in, me, called_on::mesa);
    unsigned c = static_cast<unsigned>(lot / 8 % all_conditions);
    if (lot % 8 < 4 && waiting < workers / 2) {
        if (c == hoare) waits(in, me, called_on::mesa, lot / 64 % 4);
        else waits(in, me, static_cast<on>(c), lot / 64 % 4);
    } else if (c == hoare) calls(in, me, lot / 64 % 2);
    else if (lot / 64 % 2) signals(in, me, static_cast<on>(c));
    else signals_to(in, me, static_cast<on>(c), drawn_place(in, static_cast<on>(c), lot / 128));
    in->data++;
    if (lot / 1024 % 4 == 0) misuses(m, in, me, lot / 4096);
}
static void passes(monitor::inside &in, unsigned me, on c) {
    bool was = in.queue(c);
    if (was) put(in, "pass", me, at(c));
    else put(in, "leave", me);
    is(in.signal_leave(c) == was);
    is_refused(ZAULINTE_NOT_INSIDE, [&] { in.leave(); });
}
static void acts(monitor &m, monitor::inside &in, unsigned me, std::uint64_t &seed) {
    put(in, "admit", me);
    in->data++;
    for (std::uint64_t steps = draw(seed) % 3; steps; steps--) step(m, in, me, draw(seed));
    std::uint64_t lot = draw(seed);
    if (lot % 2) return passes(in, me, static_cast<on>(lot / 2 % hoare));
    put(in, "leave", me);
    if (lot % 4) throw lot; // the place leaves all the same
}
static void visit(monitor &m, unsigned me, std::uint64_t &seed) {
    if (auto in = m.try_enter(me)) return acts(m, *in, me, seed);
    auto in = m.enter(me);
    acts(m, in, me, seed);
}
static void works(monitor &m, unsigned me, std::uint64_t visits, std::uint64_t seed) {
    for (std::uint64_t i = 0; i < visits; i++) {
        try {
            visit(m, me, seed);
        } catch (std::uint64_t) {
        }
    }
    auto in = m.enter(me);
    put(in, "admit", me);
    in->finished++;
    put(in, "leave", me);
}
static void sweeps(monitor &m, unsigned me) {
    for (unsigned turn = 0;; turn++) {
        auto in = m.enter(me);
        put(in, "admit", me);
        if (in->finished == workers) return put(in, "leave", me);
        if (turn % 2) calls(in, me, true);
        passes(in, me, static_cast<on>(turn % hoare));
        std::this_thread::yield();
    }
}
int main(int argc, char **argv) {
    std::uint64_t wanted = argc > 1 ? std::stoull(argv[1]) : 10000, seed = argc > 2 ? std::stoull(argv[2]) : 1;
    monitor m(places + 1); // and the spare one
    std::vector<std::thread> threads;
    for (unsigned k = 0; k < workers; k++)
        threads.emplace_back([&, k] { works(m, k, wanted / (workers * 10), seed * 1000 + k); });
    threads.emplace_back([&] { sweeps(m, workers); });
    for (auto &t : threads) t.join();
    auto in = m.enter(0);
    std::printf("sizes %u %u 1\n", places, all_conditions);
    for (const event &e : in->events) {
        std::printf("%s", e.kind);
        for (int i = 0; i < e.many; i++) std::printf(" %llu", static_cast<unsigned long long>(e.number[i]));
        std::puts("");
    }
    std::puts("end");
}
