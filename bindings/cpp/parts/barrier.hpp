// barrier.hpp: threads meet, again and again. A part to copy. NOT PROVED, tested.
//
//     parts::barrier round{4};
//     if (round.wait()) print();   // by four threads; true for the last that arrives
//
// It has 1 to 64 parties, since all but one wait at once, each with a place. Threads aren't bound to it: any `parties`
// calls meet.
#pragma once
#include "zaulinte.hpp"

namespace parts {
ZAULINTE_CONDITIONS(all, have_arrived);

class barrier {
    struct state {
        unsigned parties, arrived = 0;
        explicit state(unsigned all_parties) : parties(all_parties) {}
    };
    using monitor = zaulinte::monitor<state, all>;
    monitor m;
    zaulinte::group<monitor> threads;

    static bool inv(const state &s) { return s.arrived < s.parties; }
    static bool rest(const state &s, const monitor::waiting &w) { return w.count(all::have_arrived) == s.arrived; }
    static bool ready(const state &s, all, std::uint64_t, const monitor::waiting &) { return s.arrived == 0; }

  public:
    // Throws `zaulinte::refused` if there aren't 1 to 64 parties: 109.
    explicit barrier(unsigned parties) : m(parties, parties), threads(m, 0, parties) {
        m.name("barrier");
        m.check({inv, rest, ready});
    }
    // Blocks until `parties` threads have called it since the last time that it let threads go. Returns true for the
    // thread that called last.
    bool wait() {
        auto in = threads.enter();
        bool is_last = ++in->arrived == in->parties;
        if (is_last) in->arrived = 0;
        else in.wait(all::have_arrived);
        in.signal_leave(all::have_arrived); // the next thread that waits
        return is_last;
    }
};
} // namespace parts
