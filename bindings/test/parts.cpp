// Tests the groups of zaulinte.hpp and the parts of bindings/cpp/parts, with many more threads than places: parts
// [FAULT]. Without a fault each thread has to end, within two minutes.
#include "../cpp/parts/barrier.hpp"
#include "../cpp/parts/latch.hpp"
#include "../cpp/parts/limit_clock.hpp"
#include "../cpp/parts/readers_writers.hpp"
#include "../cpp/parts/work_queue.hpp"
#include <atomic>
#include <cstdlib>
#include <cstring>
#include <thread>
#include <unistd.h>
#include <vector>

static void is_on(int line, bool held) {
    if (!held) std::fprintf(stderr, "parts.cpp:%d: wrong\n", line), std::_Exit(1);
}
#define is(held) is_on(__LINE__, held)
// Threads that are joined at the end of the scope.
class threads {
    std::vector<std::thread> all;

  public:
    template <class F> threads(unsigned many, F f) { add(many, f); }
    template <class F> void add(unsigned many, F f) {
        for (unsigned k = 0; k < many; k++) all.emplace_back(f, k);
    }
    ~threads() {
        for (auto &t : all) t.join();
    }
};
static void await(const std::atomic<unsigned> &count, unsigned many) {
    while (count < many) std::this_thread::yield();
}
static void sleep_for(int milliseconds) { std::this_thread::sleep_for(std::chrono::milliseconds(milliseconds)); }

struct store {
    long items = 0;
    bool is_over = false;
};
ZAULINTE_CONDITIONS(may, take);
using monitor = zaulinte::monitor<store, may>;
using group = zaulinte::group<monitor>;
template <class F> static void is_refused(std::uint64_t code, F f) {
    std::uint64_t was = 0;
    try {
        f();
    } catch (const zaulinte::refused &r) {
        was = r.code();
    }
    is(was == code);
}

// Guards of a group of one place, so a place that isn't given back is missed at once.
static group::inside entered(group &g) {
    auto in = g.enter();
    in->items++;
    return in;
}
static void moved() {
    monitor m(2);
    zaulinte::group only{m, 1, 1};
    is_refused(ZAULINTE_BAD_PLACES, [&] { group none(m, 1, 2); });
    std::vector<group::inside> in;
    in.push_back(entered(only));
    in.reserve(9);
    is(in[0]->items == 1 && in[0].place_number() == 1 && !only.try_enter() && !m.try_enter(0));
    in.clear();
    auto other = m.enter(0);
    is(!only.try_enter()); // the place is given back: the next one gets it
    other.leave();
    std::optional<group::inside> last = only.try_enter();
    is(last && !only.try_enter());
    group::inside source = std::move(*last);
    is_refused(ZAULINTE_NOT_INSIDE, [&] { last->leave(); });
    last.reset();
    is(!only.try_enter());
    source.leave();
    is(!only.try_enter() && m.try_enter(0)); // it is outside, and not given back
}
// A guard is assigned to one of another monitor: that one's place leaves, and is given back.
static void assigned() {
    monitor one(1), two(1);
    group of_one(one, 0, 1), of_two(two, 0, 1);
    auto in = of_one.enter();
    {
        auto other = of_two.enter();
        other->items = 2;
        other = std::move(in);
        is(other->items == 0 && of_two.try_enter() && !of_one.try_enter());
    }
    is(of_one.try_enter().has_value());
}
static void attached() {
    monitor m(2);
    group only(m, 0, 1);
    {
        auto mine = only.attach();
        auto same = std::move(mine);
        for (int i = 0; i < 2; i++) same.enter()->items++;
        is(same.try_enter() && !only.try_enter());
        is_refused(ZAULINTE_NO_PLACE, [&] { (void)mine.enter(); });
        auto in = m.enter(1);
        is(!same.try_enter());
    }
    is(only.enter()->items == 2);
}

// All items arrive, each once. At the end threads wait to take, or to submit, until it is closed.
static void queues() {
    constexpr long takers = 300, submitters = 20, each = 100;
    parts::work_queue<std::unique_ptr<long>> q(4);
    std::vector<std::atomic<int>> taken(submitters * each);
    {
        std::atomic<unsigned> left{submitters};
        threads all(takers, [&](unsigned) {
            while (auto item = q.take()) taken[static_cast<std::size_t>(**item)]++;
        });
        all.add(submitters, [&](unsigned k) {
            for (long i = 0; i < each; i++) is(q.submit(std::make_unique<long>(k * each + i)));
            if (--left == 0) q.close();
        });
    }
    for (auto &n : taken) is(n == 1);
    is(!q.submit(nullptr) && !q.take());
    parts::work_queue<long> full(1);
    is(full.submit(7));
    std::atomic<unsigned> began{0};
    {
        threads all(100, [&](unsigned) { began++, is(!full.submit(8)); });
        await(began, 100);
        sleep_for(20); // most wait now
        threads closing(3, [&](unsigned) { full.close(); });
    }
    is(full.take() == 7 && !full.take());
}
static void latches() {
    constexpr unsigned count = 5;
    parts::latch ready(count);
    long done = 0;
    std::atomic<unsigned> counted{0};
    threads all(100, [&](unsigned) {
        ready.wait();
        is(counted == count && done == 1);
    });
    sleep_for(20);
    done = 1;
    all.add(count, [&](unsigned) { counted++, ready.count_down(); });
    ready.wait();
    ready.count_down();
    ready.wait();
}
static void barriers(unsigned parties, long rounds) {
    parts::barrier round(parties);
    std::vector<long> arrived(parties);
    std::atomic<long> lasts{0};
    {
        threads all(parties, [&](unsigned k) {
            for (long i = 1; i <= rounds; i++) {
                arrived[k] = i;
                lasts += round.wait();
                for (long n : arrived) is(n == i);
                lasts += round.wait();
            }
        });
    }
    is(lasts == 2 * rounds);
}
static void locks() {
    constexpr long rounds = 20, writers = 30, readers = 100;
    parts::readers_writers lock;
    long left = 0, right = 0;
    std::atomic<int> reading{0};
    {
        threads all(writers, [&](unsigned) {
            for (long i = 0; i < rounds; i++) {
                auto writes = lock.write();
                is(reading == 0);
                left++, std::this_thread::yield(), right++;
            }
        });
        all.add(readers, [&](unsigned) {
            for (long i = 0; i < rounds; i++) {
                auto reads = lock.read();
                auto moved = std::move(reads);
                reading++, std::this_thread::yield();
                is(left == right);
                reading--;
            }
        });
    }
    auto one = lock.read(), other = lock.read();
    is(left == writers * rounds);
}
// Threads that read all the time, together, don't keep out a writer; nor do writers keep out a reader.
static void turns() {
    parts::readers_writers lock;
    std::atomic<bool> is_written{false}, is_read{false};
    {
        threads all(20, [&](unsigned) {
            while (!is_written) {
                auto reads = lock.read();
                sleep_for(2);
            }
        });
        sleep_for(10);
        auto writes = lock.write();
        is_written = true;
    }
    threads all(5, [&](unsigned) {
        while (!is_read) {
            auto writes = lock.write();
            sleep_for(2);
        }
    });
    sleep_for(10);
    auto reads = lock.read();
    is_read = true;
}

using clock_time = parts::limit_clock::time;
static clock_time in_ms(int ms) { return std::chrono::steady_clock::now() + std::chrono::milliseconds(ms); }
// A store whose takers wait with a limit.
class limited {
    monitor m{64};
    group takers{m, 0, 60}, givers{m, 60, 3};
    parts::limit<monitor> limit;

    static bool rest(const store &s, const monitor::waiting &w) {
        return !s.is_over && (s.items == 0 || w.count(may::take) == 0);
    }
    static bool ready(const store &s, may, std::uint64_t, const monitor::waiting &) {
        return (s.items > 0) != s.is_over;
    }

  public:
    explicit limited(parts::limit_clock &clock) : limit(clock, m, may::take, 63, &store::is_over) {
        m.check({nullptr, rest, ready});
    }
    // Takes an item, if it comes before the deadline. Writes the number of its place before it waits.
    bool take(clock_time deadline, std::uint64_t priority = 0, unsigned *place = nullptr) {
        auto in = takers.enter();
        if (place) *place = in.place_number();
        if (in->items == 0 && !limit.wait(in, deadline, priority)) return false;
        in->items--;
        return true;
    }
    // Takes an item without a limit, by a wait of the monitor.
    void take_at_last() {
        auto in = takers.enter();
        if (in->items == 0) in.wait(may::take);
        in->items--;
    }
    bool cancel(unsigned place) {
        auto in = givers.enter();
        return limit.cancel(in, place);
    }
    void give() {
        auto in = givers.enter();
        in->items++;
        in.signal_leave(may::take);
    }
    void await(unsigned waiters) {
        while (givers.enter().count(may::take) != waiters) std::this_thread::yield();
    }
};
constexpr int hour = 3600000;
// The waiters get items in the order of their arrival, or by their priorities, whichever is due first. Meanwhile limits
// end in their time, with or without waiters that are due later, before them or after them.
static void limits_in_order(std::vector<std::uint64_t> priorities, std::vector<unsigned> turns) {
    parts::limit_clock clock;
    limited s(clock);
    std::atomic<unsigned> taken{0};
    auto takes = [&](unsigned k, clock_time deadline) {
        return [&, k, deadline](unsigned) { is(s.take(deadline, priorities[k]) && taken++ == turns[k]); };
    };
    auto ends = [&](unsigned k) {
        auto deadline = in_ms(static_cast<int>(50 * k));
        is(!s.take(deadline, 5));
        is(std::chrono::steady_clock::now() >= deadline);
        is(std::chrono::steady_clock::now() < deadline + std::chrono::seconds(30));
    };
    threads all(1, takes(0, parts::limit_clock::never));
    s.await(1);
    all.add(1, takes(1, in_ms(hour)));
    s.await(2);
    all.add(1, takes(2, in_ms(2 * hour)));
    s.await(3);
    {
        threads due(4, ends);
        sleep_for(20);
        all.add(1, takes(3, in_ms(3 * hour)));
    }
    s.await(4);
    for (unsigned k = 0; k < 4; k++) s.give(), await(taken, k + 1);
}
// The wait of a place is ended, of three that wait with and without a limit; the others keep their order.
static void limits_cancelled() {
    parts::limit_clock clock;
    limited s(clock);
    std::atomic<unsigned> taken{0};
    unsigned gone = 64;
    threads all(1, [&](unsigned) { s.take_at_last(), is(taken++ == 0); });
    s.await(1);
    {
        threads cancelled(1, [&](unsigned) { is(!s.take(parts::limit_clock::never, 0, &gone)); });
        s.await(2);
        all.add(1, [&](unsigned) { is(s.take(in_ms(hour)) && taken++ == 1); });
        s.await(3);
        is(gone < 64 && s.cancel(gone));
    }
    s.await(2);
    is(!s.cancel(gone) && !s.cancel(63) && !s.cancel(64));
    for (unsigned k = 0; k < 2; k++) s.give(), await(taken, k + 1);
}
// Two stores with one clock: each item is taken once, and waits end all the time.
static void limits() {
    constexpr unsigned takers = 100, givers = 4, each = 100;
    parts::limit_clock clock;
    limited one(clock);
    {
        limited gone(clock);
        is(!gone.take(in_ms(1)));
    }
    limited two(clock);
    std::atomic<long> taken{0}, late{0};
    {
        threads all(2 * takers, [&](unsigned k) {
            limited &s = k % 2 ? one : two;
            while (taken < 2 * givers * each) (s.take(in_ms(1 + static_cast<int>(k % 9))) ? taken : late)++;
        });
        all.add(2 * givers, [&](unsigned k) {
            for (unsigned i = 0; i < each; i++) {
                (k % 2 ? one : two).give();
                if (i % 4 == 0) sleep_for(1);
            }
        });
    }
    is(taken == 2 * givers * each && late > 0 && !one.take(in_ms(1)) && !two.take(in_ms(1)));
}

// A group for all: once all places wait, no thread that would signal gets one.
static void all_wait() {
    monitor m(8);
    m.name("shared");
    group shared(m, 0, 8);
    threads all(9, [&](unsigned) { shared.enter().wait(may::take); });
}
static void ends_by(const char *fault) {
    monitor m(1);
    m.name("named");
    std::optional<group> g(std::in_place, m, 0u, 1u);
    if (!std::strcmp(fault, "all_wait")) all_wait();
    if (!std::strcmp(fault, "group")) {
        auto mine = g->attach();
        g.reset();
    }
    std::optional<group::attached> mine = g->attach();
    auto in = mine->enter();
    if (!std::strcmp(fault, "place")) mine.reset();
}
int main(int argc, char **argv) {
    alarm(120);
    if (argc > 1) return ends_by(argv[1]), 0;
    moved(), assigned(), attached();
    queues();
    latches();
    barriers(1, 10), barriers(5, 200), barriers(64, 5);
    is_refused(ZAULINTE_BAD_PLACES, [] { parts::barrier none(65); });
    locks(), turns();
    limits_in_order({7, 7, 7, 7}, {0, 1, 2, 3});
    limits_in_order({5, 3, 9, 0}, {2, 1, 3, 0});
    limits_cancelled();
    limits();
}
