// Readers and writers, after Hoare: readers use the data together, a writer alone. A waiting writer goes before new
// readers; after a writer all waiting readers go before the next writer. For a short read keep the data in the monitor
// instead: a read by two visits, as here, costs two (docs/BINDINGS.md).
#include "zaulinte.hpp"
#include <cstdio>
#include <cstdlib>
#include <thread>
#include <vector>

ZAULINTE_CONDITIONS(may, read, write);

class readers_writers {
    struct counts {
        unsigned readers = 0;
        bool writes = false;
    };
    zaulinte::monitor<counts, may> m;

  public:
    explicit readers_writers(unsigned places) : m(places) {}

    void start_read(unsigned place) {
        auto in = m.enter(place);
        if (in->writes || in.queue(may::write)) in.wait(may::read);
        in->readers++;
        in.signal_leave(may::read); // the next waiting reader
    }
    void end_read(unsigned place) {
        auto in = m.enter(place);
        if (--in->readers == 0) in.signal_leave(may::write);
    }
    void start_write(unsigned place) {
        auto in = m.enter(place);
        if (in->readers > 0 || in->writes) in.wait(may::write);
        in->writes = true;
    }
    void end_write(unsigned place) {
        auto in = m.enter(place);
        in->writes = false;
        in.signal_leave(in.queue(may::read) ? may::read : may::write);
    }
};

int main() {
    constexpr unsigned places = 6;
    constexpr long turns = 2000;
    readers_writers lock(places);
    long left = 0, right = 0; // written together, so always the same
    std::vector<std::thread> threads;
    for (unsigned k = 0; k < places; k++) {
        threads.emplace_back([&, k] {
            for (long i = 0; i < turns; i++) {
                if (k < 2) {
                    lock.start_write(k);
                    left++, right++;
                    lock.end_write(k);
                } else {
                    lock.start_read(k);
                    bool differ = left != right;
                    lock.end_read(k);
                    if (differ) std::puts("torn"), std::exit(1);
                }
            }
        });
    }
    for (auto &t : threads) t.join();
    std::printf("%ld written, none torn\n", left);
    return left != 2 * turns;
}
