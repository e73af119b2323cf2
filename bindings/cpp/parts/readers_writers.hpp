// readers_writers.hpp: a lock for readers and writers, after Hoare. A part to copy. NOT PROVED, tested.
//
//     parts::readers_writers lock;
//     { auto reading = lock.read(); .. }    // with other readers
//     { auto writing = lock.write(); .. }   // alone
//
// A waiting writer goes before new readers; after a writer all waiting readers go before the next writer. Any number of
// threads may read at once, and any number may call. It has 64 places, which threads keep only while they wait: 40 for
// readers that begin, and 20 for writers. More threads wait for a place, and the order above doesn't bind them.
//
// For a short read keep the data in the monitor instead: a read by two visits, as here, costs two (docs/BINDINGS.md).
#pragma once
#include "zaulinte.hpp"

namespace parts {
ZAULINTE_CONDITIONS(thread_may, read, write);

class readers_writers {
    struct counts {
        unsigned readers = 0;
        bool writes = false;
    };
    using monitor = zaulinte::monitor<counts, thread_may>;
    monitor m{64};
    zaulinte::group<monitor> readers{m, 0, 40}, writers{m, 40, 20}, enders{m, 60, 4};

    static bool inv(const counts &s) { return s.readers == 0 || !s.writes; }
    static bool rest(const counts &s, const monitor::waiting &w) {
        bool writer_waits = w.count(thread_may::write) > 0;
        return (w.count(thread_may::read) == 0 || s.writes || writer_waits) &&
               (!writer_waits || s.writes || s.readers > 0);
    }
    static bool ready(const counts &s, thread_may c, std::uint64_t, const monitor::waiting &) {
        return !s.writes && (c == thread_may::read || s.readers == 0);
    }
    void end_read() {
        auto in = enders.enter();
        if (--in->readers == 0) in.signal_leave(thread_may::write);
    }
    void end_write() {
        auto in = enders.enter();
        in->writes = false;
        in.signal_leave(in.queue(thread_may::read) ? thread_may::read : thread_may::write);
    }
    // A thread that reads or writes, until the end of the scope. It can be moved.
    template <void (readers_writers::*end)()> class guard {
        readers_writers *of;
        friend class readers_writers;
        explicit guard(readers_writers *lock) noexcept : of(lock) {}

      public:
        guard(guard &&g) noexcept : of(std::exchange(g.of, nullptr)) {}
        ~guard() {
            if (of) (of->*end)();
        }
    };

  public:
    using reading = guard<&readers_writers::end_read>;
    using writing = guard<&readers_writers::end_write>;
    readers_writers() {
        m.name("readers and writers");
        m.check({inv, rest, ready});
    }
    // Blocks until the thread may read.
    [[nodiscard]] reading read() {
        auto in = readers.enter();
        if (in->writes || in.queue(thread_may::write)) in.wait(thread_may::read);
        in->readers++;
        in.signal_leave(thread_may::read); // the next waiting reader
        return reading(this);
    }
    // Blocks until the thread may write.
    [[nodiscard]] writing write() {
        auto in = writers.enter();
        if (in->readers > 0 || in->writes) in.wait(thread_may::write);
        in->writes = true;
        in.leave();
        return writing(this);
    }
};
} // namespace parts
