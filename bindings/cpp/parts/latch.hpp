// latch.hpp: threads wait until a count is zero. It isn't counted up again. A part to copy. NOT PROVED, tested.
//
//     parts::latch ready{3};
//     ready.count_down();    // by each of three threads
//     ready.wait();          // returns after that
//
// Any number of threads may call it at once. It has 64 places in two groups: 60 for threads that wait, so more of them
// wait for a place.
#pragma once
#include "zaulinte.hpp"

namespace parts {
ZAULINTE_CONDITIONS(latch_is, open);

class latch {
    using monitor = zaulinte::monitor<std::uint64_t, latch_is>; // the count
    monitor m;
    zaulinte::group<monitor> waiters{m, 0, 60}, counters{m, 60, 4};

    static bool rest(const std::uint64_t &count, const monitor::waiting &w) {
        return count > 0 || w.count(latch_is::open) == 0;
    }
    static bool ready(const std::uint64_t &count, latch_is, std::uint64_t, const monitor::waiting &) {
        return count == 0;
    }

  public:
    explicit latch(std::uint64_t count) : m(64, count) {
        m.name("latch");
        m.check({nullptr, rest, ready});
    }
    // Counts down by 1, if the count isn't zero. Never waits for the count.
    void count_down() {
        auto in = counters.enter();
        if (*in > 0 && --*in == 0) in.signal_leave(latch_is::open);
    }
    // Blocks until the count is zero.
    void wait() {
        auto in = waiters.enter();
        if (*in > 0) in.wait(latch_is::open);
        in.signal_leave(latch_is::open); // the next thread that waits
    }
};
} // namespace parts
