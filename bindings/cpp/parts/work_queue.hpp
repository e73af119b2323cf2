// work_queue.hpp: a bounded queue between threads that submit and that take. A part to copy. NOT PROVED, tested.
//
//     parts::work_queue<job> jobs{100};            // at most 100 jobs are in it
//     if (!jobs.submit(std::move(one))) return;    // it is closed, and `one` is as it was
//     while (auto next = jobs.take()) next->run(); // until it is closed, and empty
//
// Any number of threads may call it at once. It has 64 places in three groups, so at most 31 threads wait to take and
// 32 to submit. More threads wait for a place, in no order; the order of the items stays.
#pragma once
#include "zaulinte.hpp"
#include <cstddef>
#include <list>

namespace parts {
ZAULINTE_CONDITIONS(queue_is, nonempty, nonfull);

template <class T> class work_queue {
    struct state {
        std::size_t room;
        std::list<T> items = {};
        bool is_closed = false;
        explicit state(std::size_t most) : room(most) {}
    };
    using monitor = zaulinte::monitor<state, queue_is>;
    monitor m;
    zaulinte::group<monitor> takers{m, 0, 31}, submitters{m, 31, 32}, closers{m, 63, 1};

    static bool inv(const state &s) { return s.items.size() <= s.room; }
    static bool rest(const state &s, const typename monitor::waiting &w) {
        return (w.count(queue_is::nonempty) == 0 || (s.items.empty() && !s.is_closed)) &&
               (w.count(queue_is::nonfull) == 0 || (s.items.size() == s.room && !s.is_closed));
    }
    static bool ready(const state &s, queue_is c, std::uint64_t, const typename monitor::waiting &) {
        return s.is_closed || (c == queue_is::nonempty ? !s.items.empty() : s.items.size() < s.room);
    }

  public:
    // Makes a queue of at most `most` items, 1 or more.
    explicit work_queue(std::size_t most) : m(64, most) {
        if (most == 0) throw std::invalid_argument("a work queue has room for 1 item or more");
        m.name("work queue");
        m.check({inv, rest, ready});
    }

    // Puts an item at the end, and returns true. Blocks while the queue is full and open. Returns false if it is
    // closed: the item is as it was. Allocates, and moves the item, before it enters: if that throws, nothing happened.
    [[nodiscard]] bool submit(T &&item) {
        std::list<T> one;
        one.push_back(std::move(item));
        auto in = submitters.enter();
        if (in->items.size() == in->room && !in->is_closed) in.wait(queue_is::nonfull);
        bool is_open = !in->is_closed;
        if (is_open) in->items.splice(in->items.end(), one);
        in.signal_leave(is_open ? queue_is::nonempty : queue_is::nonfull); // closed: the next submitter that waits
        if (!is_open) item = std::move(one.front());
        return is_open;
    }
    // Removes the first item and returns it. Blocks while the queue is empty and open. Returns nothing if it is empty
    // and closed.
    std::optional<T> take() {
        std::list<T> one = first();
        if (one.empty()) return std::nullopt;
        return std::move(one.front());
    }
    // Closes the queue: each thread that waits resumes, and no other waits. The items that are in it can be taken.
    void close() {
        auto in = closers.enter();
        in->is_closed = true;
        in.signal_leave(in.queue(queue_is::nonempty) ? queue_is::nonempty : queue_is::nonfull);
    }

  private:
    std::list<T> first() {
        std::list<T> one;
        auto in = takers.enter();
        if (in->items.empty() && !in->is_closed) in.wait(queue_is::nonempty);
        if (!in->items.empty()) one.splice(one.end(), in->items, in->items.begin());
        in.signal_leave(in->is_closed ? queue_is::nonempty : queue_is::nonfull); // closed: the next taker that waits
        return one;
    }
};
} // namespace parts
