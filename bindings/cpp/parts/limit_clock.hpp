// limit_clock.hpp: waits with a time limit. A part to copy. NOT PROVED, tested.
//
//     struct store { long items = 0; bool is_over = false; };
//     ZAULINTE_CONDITIONS(may, take);
//     zaulinte::monitor<store, may> m{8};
//     parts::limit_clock timer;                                            // one, for any number of monitors
//     parts::limit taking{timer, m, may::take, 7, &store::is_over};        // place 7 is the clock's
// and in a function:
//     auto in = m.enter(k);
//     if (in->items == 0 && !taking.wait(in, deadline)) return false;      // the time is over, or:
//     taking.cancel(in, waiter);            // by another guard: ends the wait of the place `waiter`
//
// The clock has a thread, which sleeps until the first deadline of all. Then it enters the monitor by its place, and
// signals to each waiter that is due, whichever waits before it, after it has set `is_over` in the data. `cancel` does
// the same for one place before its deadline: a client is gone, for example.
//
// A limit changes no order. A waiter has the priority that its thread passes, and a signal resumes the waiter of least
// priority, of equal ones the longest waiting, whichever is due first. A thread may also wait on the condition by
// `in.wait`: the clock never resumes it.
//
// A waiter is inside as soon as it is resumed, and no other signal goes to it. So no item is lost: a wait that returns
// true finds what its signaller made true, and one that returns false was ended by the clock, or by a cancel. In
// `ready`, expect what the waiter waits for, or `is_over`; in `rest`, that `is_over` is false.
#pragma once
#include "zaulinte.hpp"
#include <algorithm>
#include <array>
#include <chrono>
#include <condition_variable>
#include <mutex>
#include <optional>
#include <thread>
#include <vector>

namespace parts {
// The thread that ends waits. It outlives the limits that use it.
class limit_clock {
  public:
    using time = std::chrono::steady_clock::time_point;
    // The deadline of a wait without a limit.
    static constexpr time never = time::max();
    // A condition with limits, as the clock sees it.
    class client {
        friend class limit_clock;
        time due = never; // under the clock's mutex
        // Resumes each waiter that is due, and calls `arm` with the deadline of the first that isn't.
        virtual void resume_due(time now) = 0;

      protected:
        ~client() = default;
    };

    limit_clock() : thread([this] { run(); }) {}
    ~limit_clock() {
        {
            std::lock_guard in(mutex);
            is_ended = true;
        }
        earlier.notify_one();
        thread.join();
    }
    // Adds a client, which isn't due before its first `arm`.
    void add(client &c) {
        std::lock_guard in(mutex);
        clients.push_back(&c);
    }
    // Removes a client, once the clock's thread isn't in its monitor. Call it outside of that monitor.
    void remove(client &c) {
        std::unique_lock in(mutex);
        idle.wait(in, [&] { return visited != &c; });
        clients.erase(std::find(clients.begin(), clients.end(), &c));
    }
    // Makes the clock call `resume_due` of the client at the deadline, or before. The caller is inside of its monitor.
    void arm(client &c, time deadline) {
        std::lock_guard in(mutex);
        c.due = std::min(c.due, deadline);
        if (deadline < sleeps_until) earlier.notify_one();
    }

  private:
    std::mutex mutex; // no thread enters a monitor while it has this
    std::condition_variable earlier, idle;
    std::vector<client *> clients;
    client *visited = nullptr;
    time sleeps_until = never;
    bool is_ended = false;
    std::thread thread; // the last: it uses the others

    void run() {
        std::unique_lock lock(mutex);
        while (!is_ended) {
            auto is_due_before = [](client *a, client *b) { return a->due < b->due; };
            auto first = std::min_element(clients.begin(), clients.end(), is_due_before);
            time now = std::chrono::steady_clock::now();
            sleeps_until = first == clients.end() ? never : (*first)->due;
            if (sleeps_until <= now) visit(**first, now, lock);
            else if (sleeps_until == never) earlier.wait(lock);
            else earlier.wait_until(lock, sleeps_until);
        }
    }
    void visit(client &c, time now, std::unique_lock<std::mutex> &lock) {
        c.due = never, visited = &c;
        lock.unlock();
        c.resume_due(now);
        lock.lock();
        visited = nullptr;
        idle.notify_all();
    }
};

// The limits of the waits on one of Hoare's conditions of a monitor. Destroy it before the monitor, once no thread
// waits.
template <class M> class limit : limit_clock::client {
    using time = limit_clock::time;
    limit_clock &clock;
    M &of;
    typename M::condition_type condition;
    unsigned place;
    bool M::data_type::*is_over;
    std::array<std::optional<time>, 64> deadlines; // of the places that are in `wait`; only a place inside uses them

    void resume_due(time now) override {
        auto in = of.enter(place);
        time first = limit_clock::never;
        for (unsigned k = 0; k < deadlines.size(); k++) {
            if (deadlines[k] <= now) cancel(in, k); // nothing happens if it isn't in `wait`
            else first = std::min(first, *deadlines[k]);
        }
        if (first != limit_clock::never) clock.arm(*this, first);
    }

  public:
    // `clock_place` is a place of the monitor by which only the clock enters; all limits of a clock may share it.
    // `over` is the flag in the data.
    limit(limit_clock &by, M &m, typename M::condition_type c, unsigned clock_place, bool M::data_type::*over)
        : clock(by), of(m), condition(c), place(clock_place), is_over(over) {
        clock.add(*this);
    }
    limit(const limit &) = delete;
    limit &operator=(const limit &) = delete;
    ~limit() { clock.remove(*this); }
    // Waits on the condition with a priority, by a guard of the monitor. Returns true if a signal of another thread
    // resumed it, and false if the clock did, at the deadline or later, or a `cancel`.
    bool wait(typename M::inside &in, time deadline, std::uint64_t priority = 0,
              zaulinte::from where = zaulinte::from::here()) {
        in.queue(condition, where); // what would be refused is refused before the deadline is kept
        auto &mine = deadlines[in.place_number(where)];
        mine = deadline;
        if (deadline != limit_clock::never) clock.arm(*this, deadline);
        in.wait(condition, priority, where);
        mine.reset();
        return !std::exchange((*in).*is_over, false);
    }
    // Ends the wait of the place with the number `waiter`, by another guard of the monitor. Returns true if that place
    // was in `wait`; else nothing happens, also if there is no such place.
    bool cancel(typename M::inside &in, unsigned waiter, zaulinte::from where = zaulinte::from::here()) {
        if (waiter >= deadlines.size() || !deadlines[waiter]) return false;
        (*in).*is_over = true;
        return in.signal_to(condition, waiter, where);
    }
};
} // namespace parts
