// Tests what zaulinte.hpp refuses, and the texts; and its checks in a build with ZAULINTE_CHECKS: refusals [FAULT].
// -DMUST_NOT_BUILD=1, 2 ..: no such case compiles, and the compiler prints what the line of the case says.
#include "zaulinte.hpp"
#include <cstdio>
#include <cstdlib>
#include <cstring>
#include <fstream>
#include <new>
#include <sstream>
#include <thread>
#include <type_traits>

class store {
  public:
    ZAULINTE_CONDITIONS_IN_CLASS(may, put,take, look); // a name after a comma, and after a space
    ZAULINTE_CONDITIONS_IN_CLASS(is, full, changed);
    long items = 0;
};
using monitor = zaulinte::monitor<store, store::may, store::is>;
using inside = monitor::inside;
using place = zaulinte::place<monitor>;
ZAULINTE_CONDITIONS(eight, a, b, c, d, e, f, g, h);

#if MUST_NOT_BUILD == 1 // says: a condition has a value of its own
ZAULINTE_CONDITIONS(wrong, one = 1);
#elif MUST_NOT_BUILD == 2 // says: a condition has a value of its own
ZAULINTE_CONDITIONS(wrong, one, );
#elif MUST_NOT_BUILD == 3 // says: call to.*zaulinte_names
enum class wrong { one };
zaulinte::monitor<int, wrong> none{1};
#elif MUST_NOT_BUILD == 4 // says: C and M are two enums
zaulinte::monitor<int, store::may, store::may> none{1};
#elif MUST_NOT_BUILD == 5 // says: at most 8 conditions
zaulinte::monitor<int, eight, store::is> none{1};
#elif MUST_NOT_BUILD == 6 // says: ignoring return value
void ignores(monitor &m) { m.enter(0); }
#elif MUST_NOT_BUILD == 7 // says: ignoring return value
void ignores(monitor &m) { m.try_enter(0); }
#elif MUST_NOT_BUILD == 8 // says: ignoring return value
void ignores(place &p) { p.enter(); }
#elif MUST_NOT_BUILD == 9 // says: ignoring return value
void ignores(place &p) { p.try_enter(); }
#elif MUST_NOT_BUILD == 10 // says: cannot \(convert\|initialize\)
void exchanges(monitor &m) { (void)m.enter(store::may::put); }
#elif MUST_NOT_BUILD == 11 // says: no matching function for call to.*at
void exchanges(inside &in) { in.wait(3); }
#elif MUST_NOT_BUILD == 12 // says: no matching function for call to.*at
void waits(zaulinte::monitor<int>::inside &in) { in.wait(store::may::put); }
#elif MUST_NOT_BUILD == 13 // says: cannot \(convert\|initialize\)
void exchanges(inside &in) { in.signal_to(3, store::may::put); }
#elif MUST_NOT_BUILD == 14 // says: cannot \(convert\|initialize\)
void exchanges(inside &in) { in.signal_to(store::may::put, store::may::take); }
#endif

template <class E, class = void> struct can_signal : std::false_type {};
template <class E>
struct can_signal<E, std::void_t<decltype(std::declval<inside &>().signal(E{}))>> : std::true_type {};
template <class E, class W, class = void> struct can_signal_to : std::false_type {};
template <class E, class W>
struct can_signal_to<E, W, std::void_t<decltype(std::declval<inside &>().signal_to(E{}, W{}))>> : std::true_type {};
template <class E, class = void> struct can_notify : std::false_type {};
template <class E>
struct can_notify<E, std::void_t<decltype(std::declval<inside &>().notify(E{}))>> : std::true_type {};
using hoare = monitor::condition_type;
using mesa = monitor::mesa_condition_type;
static_assert(can_signal<hoare>::value && !can_signal<mesa>::value && !can_signal<int>::value);
static_assert(can_signal_to<hoare, unsigned>::value && !can_signal_to<mesa, unsigned>::value);
static_assert(!can_signal_to<unsigned, hoare>::value && !can_signal_to<hoare, hoare>::value);
static_assert(can_notify<mesa>::value && !can_notify<hoare>::value && std::is_same_v<monitor::data_type, store>);
using group = zaulinte::group<monitor>;
template <class T> constexpr bool copies = std::is_copy_constructible_v<T> || std::is_copy_assignable_v<T>;
template <class T> constexpr bool is_made_by_move = std::is_nothrow_move_constructible_v<T> && !copies<T>;
template <class T> constexpr bool moves = is_made_by_move<T> && std::is_nothrow_move_assignable_v<T>;
static_assert(!std::is_move_constructible_v<monitor> && !std::is_move_constructible_v<group>);
static_assert(!std::is_move_assignable_v<monitor> && !std::is_move_assignable_v<group>);
static_assert(moves<inside> && moves<group::inside> && is_made_by_move<place> && is_made_by_move<group::attached>);
static_assert(!std::is_move_assignable_v<place> && !std::is_convertible_v<unsigned, monitor>);
static_assert(std::is_base_of_v<std::logic_error, zaulinte::refused>);
static_assert(zaulinte_names(zaulinte::no_conditions{}).count() == 0);

// If this is true, the next allocation fails.
static thread_local bool fails_once = false;
void *operator new(std::size_t size) {
    void *at = std::exchange(fails_once, false) ? nullptr : std::malloc(size);
    if (!at) throw std::bad_alloc();
    return at;
}
void operator delete(void *at) noexcept { std::free(at); }
void operator delete(void *at, std::size_t) noexcept { std::free(at); }

static void is(bool held) {
    if (!held) std::fputs("refusals: wrong\n", stderr), std::exit(1);
}
struct reason {
    std::uint64_t code;
    const char *text;
};
constexpr reason bad_places{ZAULINTE_BAD_PLACES, "a monitor has 1 to 64 places"},
    no_place{ZAULINTE_NO_PLACE, "there is no such place"},
    not_outside{ZAULINTE_NOT_OUTSIDE, "the place isn't outside, or another thread has it"},
    not_inside{ZAULINTE_NOT_INSIDE, "the place isn't inside"},
    no_condition{ZAULINTE_NO_CONDITION, "there is no such condition"};
template <class F> static void is_refused(const std::string &call, reason why, F f) {
    std::string text = "zaulinte: " + call + ": " + why.text;
    try {
        f();
    } catch (const zaulinte::refused &r) {
        if (r.what() == text && r.code() == why.code) return;
        std::fprintf(stderr, "\"%s\", %d\n", r.what(), static_cast<int>(r.code()));
    }
    std::fprintf(stderr, "and not \"%s\"\n", text.c_str()), std::exit(1);
}
// The calls of a place inside. If a call has a condition, it is one that does not exist.
constexpr auto no_may = static_cast<store::may>(3);
constexpr auto no_is = static_cast<store::is>(3);
struct call {
    std::string name;
    bool has_condition;
    void (*on)(inside &);
};
static const call calls[] = {
    {"signal", true, [](inside &in) { in.signal(no_may); }},
    {"signal_to", true, [](inside &in) { in.signal_to(no_may, 0); }},
    {"wait", true, [](inside &in) { in.wait(no_may); }},
    {"signal_leave", true, [](inside &in) { in.signal_leave(no_may); }},
    {"notify", true, [](inside &in) { in.notify(no_is); }},
    {"broadcast", true, [](inside &in) { in.broadcast(no_is); }},
    {"queue", true, [](inside &in) { in.queue(no_may); }},
    {"count", true, [](inside &in) { in.count(no_may); }},
    {"first", true, [](inside &in) { in.first(no_may); }},
    {"place_number", false, [](inside &in) { in.place_number(); }},
    {"->", false, [](inside &in) { in->items++; }},
    {"*", false, [](inside &in) { (*in).items++; }},
    {"leave", false, [](inside &in) { in.leave(); }},
};
static void refusals() {
    is_refused("a monitor of 65 places", bad_places, [] { monitor m(65); });
    monitor m(2);
    place moved(m, 1), mine(std::move(moved));
    is_refused("a place that was moved from", no_place, [&] { (void)moved.enter(); });
    is_refused("enter by place 2", no_place, [&] { (void)m.enter(2); });
    fails_once = true;
    std::optional<inside> in = mine.try_enter();
    is(in && !m.try_enter(0) && std::exchange(fails_once, false)); // neither has allocated
    is_refused("try_enter by place 1", not_outside, [&] { (void)m.try_enter(1); });
    std::thread([&] {
        is_refused("signal by place 1 on condition take", not_outside, [&] { in->signal(store::may::take); });
        is_refused("-> by place 1", not_outside, [&] { (*in)->items++; }); // a build with ZAULINTE_CHECKS
    }).join();
    for (const call &c : calls)
        if (c.has_condition) is_refused(c.name + " by place 1 on condition 3", no_condition, [&] { c.on(*in); });
    inside other = std::move(*in); // it was inside after each refusal
    for (const call &c : calls) is_refused(c.name + " by place 1", not_inside, [&] { c.on(*in); });
    in.reset();
    is(other->items == 0 && !m.try_enter(0));
    other.leave();
    is_refused("leave by place 1", not_inside, [&] { other.leave(); });
}
// A guard of one of two monitors is assigned to one of the other, of which the place leaves.
static void assigned() {
    monitor one(2), two(2);
    auto in = one.enter(0);
    in->items = 1;
    {
        auto other = two.enter(0);
        other->items = 2;
        inside &same = other = std::move(in);
        is(other->items == 1 && two.try_enter(0) && !one.try_enter(1));
        other = std::move(same);
        is(other->items == 1);
    }
    is(one.try_enter(0).has_value());
}
// Returns the recording of a monitor, by way of the file `path`.
template <class M> static std::string saved(M &m, const std::string &path) {
    is(m.save(path.c_str()));
    std::stringstream text;
    text << std::ifstream(path).rdbuf();
    return text.str();
}
// A recording, in the file `path`, is the acts since `record`.
static void recorded(const std::string &path) {
    monitor m(2);
    is(!m.save(path.c_str()));
    {
        auto in = m.enter(0);
        is_refused("record", {ZAULINTE_IN_USE, "a thread has a place: it is inside, or in a call"}, [&] { m.record(9); });
    }
    m.record(9);
    m.enter(1).notify(store::is::changed);
    is(saved(m, path) == "monitor 2 5 2\nenter 1\nnotify 1 4\nleave 1\n");
}
// Monitors of eight conditions of one kind, one with data that can't be copied; and the names of conditions.
static void limits() {
    zaulinte::monitor<int, eight> of_hoare(1, 2);
    zaulinte::monitor<std::unique_ptr<int>, zaulinte::no_conditions, eight> of_mesa(1, std::make_unique<int>(3));
    auto in = of_mesa.enter(0);
    is(*of_hoare.enter(0) == 2 && **in == 3 && in.notify(eight::h) == 0);
    auto names = zaulinte_names(store::may{});
    is(names.name(0) == "put" && names.name(1) == "take" && names.name(2) == "look");
}
// A monitor for data alone. A value that a cast made names no condition, also that of its door.
static void data_alone(const std::string &path) {
    zaulinte::monitor<int> sum(2, 5);
    constexpr zaulinte::no_conditions nothing{};
    sum.record(9);
    *sum.enter(1) += 3;
    {
        auto in = sum.enter(0);
        is(*in == 8 && !sum.try_enter(1));
        is_refused("wait by place 0 on condition 0", no_condition, [&] { in.wait(nothing); });
        is_refused("signal by place 0 on condition 0", no_condition, [&] { in.signal(nothing); });
        is_refused("notify by place 0 on condition 0", no_condition, [&] { in.notify(nothing); });
    }
    is(saved(sum, path) == "monitor 2 1 0\nenter 1\nleave 1\nenter 0\nleave 0\n");
}
// Returns once `many` places wait on `take`.
static void await(monitor &m, unsigned many) {
    while (m.enter(0).count(store::may::take) < many) std::this_thread::yield();
}
// Two places wait, the second without a priority, so it is first. Checks that are null hold.
static void by_priority() {
    constexpr auto take = store::may::take;
    monitor m(3);
    m.check({});
    std::thread last([&] { m.enter(1).wait(take, UINT64_MAX); });
    await(m, 1);
    std::thread first([&] { m.enter(2).wait(take); });
    await(m, 2);
    auto in = m.enter(0);
    is(in.first(take) == 0u && in.signal(take) && in.first(take) == UINT64_MAX && in.signal_leave(take));
    first.join(), last.join();
}
// Two places wait. A signal to the second resumes it, and is true; one to a number that no waiter has is false.
static void to_a_place() {
    constexpr auto take = store::may::take;
    monitor m(3);
    auto waits = [&](unsigned number) {
        auto in = m.enter(number);
        in.wait(take);
        in->items = in.place_number();
    };
    std::thread first(waits, 1);
    await(m, 1);
    std::thread second(waits, 2);
    await(m, 2);
    auto in = m.enter(0);
    for (unsigned none : {0u, 3u, 64u, 256u + 2, 65536u + 2, UINT32_MAX}) is(!in.signal_to(take, none));
    is(!in.signal_to(store::may::put, 2) && in.signal_to(take, 2) && in->items == 2 && in.place_number() == 0);
    is(in.queue(take) && in.signal_to(take, 1) && in->items == 1 && !in.queue(take));
    first.join(), second.join();
}

static bool inv(const store &s) { return s.items >= 0; }
static bool rest(const store &s, const monitor::waiting &w) {
    bool waits = w.count(store::may::take) > 0;
    return (s.items == 0 || !waits) && w.first(store::may::take).value_or(3) == 3 && w.count(store::is::changed) == 0;
}
static bool ready(const store &s, store::may c, std::uint64_t priority, const monitor::waiting &w) {
    return s.items > 0 && c == store::may::take && priority == 3 && !w.first(c);
}
// A consumer waits, and the producer makes a fault, if there is one. Then only the check that finds it isn't null.
static void tested(const char *fault) {
    auto has = [&](const char *check) { return !std::strcmp(fault, "none") || !std::strcmp(fault, check); };
    monitor m(2);
    m.check({has("inv") ? inv : nullptr, has("rest") ? rest : nullptr, has("ready") ? ready : nullptr});
    bool waits = false;
    std::thread consumer([&] {
        auto in = m.enter(1);
        waits = true;
        in.wait(store::may::take, 3);
        in->items--;
    });
    for (;;) {
        auto in = m.enter(0);
        if (!waits) continue;
        in->items = !std::strcmp(fault, "inv") ? -1 : std::strcmp(fault, "ready") != 0;
        if (!std::strcmp(fault, "rest")) in.leave();
        else if (!std::strcmp(fault, "inv")) in.signal_to(store::may::take, 1);
        else in.signal_leave(store::may::take);
        break;
    }
    consumer.join();
}
int main(int argc, char **argv) {
    const char *fault = argc > 1 ? argv[1] : "none";
    refusals();
    assigned();
    limits();
    by_priority();
    to_a_place();
    recorded(argv[0] + std::string(".script"));
    data_alone(argv[0] + std::string(".script"));
    tested(fault);
    std::optional<monitor> m(std::in_place, 1u);
    m->name("named");
    auto in = m->try_enter(0);
    // Both terminate the program: the monitor is destroyed with a place inside; another thread lets that place leave.
    if (!std::strcmp(fault, "destroyed")) m.reset();
    if (!std::strcmp(fault, "elsewhere")) std::thread([&] { in.reset(); }).join(), std::_Exit(0);
}
