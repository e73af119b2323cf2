//! What is refused, the state that a panic leaves, what a check reports, and whom a signal to a given place resumes.
use std::panic::{catch_unwind, AssertUnwindSafe};
use std::sync::PoisonError;
use std::thread::{self, JoinHandle};
use zaulinte::{conditions, Checks, Inside, Monitor, Place, Refused};

conditions! { enum When { Ever, Never } }
conditions! { enum Mesa { Other } }
conditions! { enum Five { A, B, C, D, E } }

fn is_send<X: Send>() {}
fn is_sync<X: Sync>() {}

#[test]
fn send_and_sync_are_as_they_must_be() {
    is_send::<Monitor<u32, When>>();
    is_sync::<Monitor<u32, When>>();
    is_send::<Place<std::cell::Cell<u32>, When>>();
    is_sync::<Place<std::cell::Cell<u32>, When>>();
    is_sync::<Inside<'static, u32, When>>();
}

#[test]
fn sizes_are_refused() {
    assert_eq!(Monitor::<(), When>::new((), 0).err(), Some(Refused::BadPlaces));
    assert_eq!(Monitor::<(), When>::new((), 65).err(), Some(Refused::BadPlaces));
    assert_eq!(Monitor::<(), Five, Five>::new((), 1).err(), Some(Refused::BadConditions));
    assert!(Monitor::<(), When, Five>::new((), 64).is_ok());
}

#[derive(Clone, Copy, Debug)]
struct Bad;

impl zaulinte::Condition for Bad {
    const COUNT: usize = 1;
    fn index(self) -> usize {
        1
    }
}

#[test]
fn a_condition_past_its_count_is_refused() {
    fn panics<C: zaulinte::Condition, M: zaulinte::Condition>(act: fn(Inside<'_, (), C, M>)) -> bool {
        let (_monitor, mut places) = Monitor::<(), C, M>::new((), 1).unwrap();
        catch_unwind(move || act(places[0].enter().unwrap())).is_err()
    }
    assert!(panics::<Bad, When>(|mut inside| assert!(!inside.queue(Bad))));
    assert!(panics::<Bad, When>(|mut inside| drop(inside.signal(Bad))));
    assert!(panics::<Bad, When>(|mut inside| drop(inside.signal_to(Bad, 0))));
    assert!(panics::<Bad, When>(|inside| assert!(!inside.signal_leave(Bad))));
    assert!(panics::<Bad, When>(|mut inside| drop(inside.wait(Bad, 0))));
    assert!(panics::<When, Bad>(|mut inside| assert!(!inside.notify(Bad))));
    assert!(panics::<When, Bad>(|mut inside| assert_eq!(inside.broadcast(Bad), 0)));
    assert!(panics::<When, Bad>(|mut inside| drop(inside.wait_mesa(Bad, 0))));
    assert!(!panics::<When, When>(|mut inside| assert!(!inside.notify(When::Never) && !inside.queue(When::Ever))));
}

#[test]
fn a_panic_inside_poisons_and_leaves() {
    let (monitor, mut places) = Monitor::<u32, When>::new(1, 2).unwrap();
    let (mut there, mut here) = (places.pop().unwrap(), places.pop().unwrap());
    let panics = move || {
        let mut inside = here.enter().unwrap();
        *inside = 2;
        panic!("inside");
    };
    assert!(catch_unwind(panics).is_err() && monitor.is_poisoned());
    assert_eq!(there.enter().map(|inside| *inside).unwrap_err().into_inner().to_owned(), 2);
    monitor.clear_poison();
    assert_eq!(*there.enter().unwrap(), 2);
    drop(there);
    assert_eq!(monitor.into_inner().unwrap().unwrap(), 2);
}

#[test]
fn a_guard_that_is_made_while_its_thread_unwinds_does_not_poison() {
    struct Enters(Place<u32, When>);
    impl Drop for Enters {
        fn drop(&mut self) {
            *self.0.enter().unwrap() += 1;
        }
    }
    let (monitor, mut places) = Monitor::<u32, When>::new(0, 1).unwrap();
    let enters = Enters(places.remove(0));
    let panics = move || {
        let _enters = enters;
        panic!("outside");
    };
    assert!(catch_unwind(panics).is_err());
    assert_eq!(monitor.into_inner().unwrap().unwrap(), 1);
}

#[test]
fn a_last_signal_while_its_thread_unwinds_poisons() {
    struct Signals<'a>(Option<Inside<'a, (), When>>);
    impl Drop for Signals<'_> {
        fn drop(&mut self) {
            self.0.take().unwrap().signal_leave(When::Ever);
        }
    }
    let (_monitor, places) = Monitor::<(), When>::new((), 2).unwrap();
    let [mut waits, mut panics] = <[_; 2]>::try_from(places).ok().unwrap();
    let waiter = thread::spawn(move || waits.enter().unwrap().wait(When::Ever, 0).is_err());
    while !panics.enter().unwrap().queue(When::Ever) {
        thread::yield_now();
    }
    let panics = move || {
        let _signals = Signals(Some(panics.enter().unwrap()));
        panic!("inside");
    };
    assert!(catch_unwind(panics).is_err() && waiter.join().unwrap());
}

// A place waits by `act`, another panics inside, and a third signals and notifies. Returns what `act` returned.
fn hears_of_a_panic(act: fn(&mut Inside<'_, bool, When, Mesa>) -> bool) -> bool {
    let (_monitor, places) = Monitor::<bool, When, Mesa>::new(false, 3).unwrap();
    let [mut waits, mut panics, mut signals] = <[_; 3]>::try_from(places).ok().unwrap();
    let waiter = thread::spawn(move || {
        let mut inside = waits.enter().unwrap();
        *inside = true;
        act(&mut inside)
    });
    while !*panics.enter().unwrap() {
        thread::yield_now();
    }
    let panics = move || {
        let _inside = panics.enter().unwrap();
        panic!("inside");
    };
    assert!(catch_unwind(panics).is_err());
    let mut inside = signals.enter().unwrap_or_else(PoisonError::into_inner);
    inside.notify(Mesa::Other);
    assert!(inside.signal_to(When::Never, 0).is_err_and(|has_waited| !has_waited.into_inner()));
    let waits = inside.queue(When::Ever);
    assert!(inside.signal_to(When::Ever, 0).is_err_and(|has_waited| has_waited.into_inner() == waits));
    assert!(inside.signal(When::Ever).is_err());
    drop(inside);
    waiter.join().unwrap()
}

#[test]
fn a_waiter_and_a_signaller_hear_of_a_panic() {
    assert!(hears_of_a_panic(|inside| inside.wait(When::Ever, 0).is_err()));
    assert!(hears_of_a_panic(|inside| inside.wait_mesa(Mesa::Other, 0).is_err()));
}

/// What waiters leave as they resume.
#[derive(Default)]
struct Served {
    /// The places that resumed, in order.
    places: Vec<usize>,
    /// What a waiter may take.
    items: usize,
    /// The waiter whose wait is ended without an item.
    ended: Option<usize>,
}

type Waiter = JoinHandle<bool>;

/// Makes places 1, 2 .. wait on Ever in this order, one for each priority. A waiter that is resumed takes an item and
/// returns true, unless its wait was ended. Returns place 0, which is outside.
fn waiters(priorities: &[u64]) -> (Place<Served, When>, Vec<Waiter>) {
    let checks = Checks {
        inv: |_: &Served| true,
        rest: |served, all| served.ended.is_none() && (served.items == 0 || all.count(When::Ever) == 0),
        ready: |_, _, served, _| served.items > 0 || served.ended.is_some(),
    };
    let (_monitor, places) = Monitor::checked(Served::default(), priorities.len() + 1, checks).unwrap();
    let mut places = places.into_iter();
    let mut here = places.next().unwrap();
    let wait = |(mut place, priority): (Place<Served, When>, u64)| {
        let number = place.number();
        let waiter = thread::spawn(move || {
            let mut inside = place.enter().unwrap();
            inside.wait(When::Ever, priority).unwrap();
            inside.places.push(number);
            let has_item = inside.ended.take().is_none_or(|ended| ended != number);
            inside.items -= usize::from(has_item);
            has_item
        });
        while here.enter().unwrap().count(When::Ever) < number {
            thread::yield_now();
        }
        waiter
    };
    let waiters = places.zip(priorities.iter().copied()).map(wait).collect();
    (here, waiters)
}

/// Gives an item to each place that waits, in the order in which a signal resumes them.
fn serve_all(inside: &mut Inside<'_, Served, When>) {
    while inside.queue(When::Ever) {
        inside.items += 1;
        assert!(inside.signal(When::Ever).unwrap());
    }
}

#[test]
fn a_signal_to_a_place_resumes_that_one_and_the_others_keep_their_order() {
    let rows =
        [([5, 5, 5], 2, [2, 1, 3]), ([5, 5, 5], 3, [3, 1, 2]), ([7, 6, 5], 1, [1, 3, 2]), ([9, 5, 7], 2, [2, 3, 1])];
    for (priorities, waiter, order) in rows {
        let (mut place, waiters) = waiters(&priorities);
        let mut inside = place.enter().unwrap();
        assert_eq!(inside.place_number(), 0);
        inside.items = 1;
        assert!(inside.signal_to(When::Ever, waiter).unwrap());
        let left = inside.count(When::Ever);
        assert_eq!((&*inside.places, left), (&[waiter][..], 2)); // it resumed before this place was back
        serve_all(&mut inside);
        assert_eq!(inside.places, order);
        drop(inside);
        assert!(waiters.into_iter().all(|waiter| waiter.join().unwrap()));
    }
}

#[test]
fn a_signal_to_a_place_that_does_not_wait_there_changes_nothing() {
    let (mut place, waiters) = waiters(&[5, 5]);
    let mut inside = place.enter().unwrap();
    inside.items = 1;
    assert!(inside.signal_to(When::Ever, 2).unwrap());
    // it no longer waits; itself; no such place; another condition
    for (condition, waiter) in [(When::Ever, 2), (When::Ever, 0), (When::Never, 1)] {
        assert!(!inside.signal_to(condition, waiter).unwrap());
    }
    for none in [3, 63, 64, 255, 256, 257, 1 << 32, (1 << 32) + 1, usize::MAX] {
        assert!(!inside.signal_to(When::Ever, none).unwrap());
    }
    let left = inside.count(When::Ever);
    assert_eq!((&*inside.places, left), (&[2][..], 1));
    serve_all(&mut inside);
    assert_eq!(inside.places, [2, 1]);
    drop(inside);
    waiters.into_iter().for_each(|waiter| assert!(waiter.join().unwrap()));
    assert!(!place.enter().unwrap().signal_to(When::Ever, 1).unwrap()); // it is outside
}

// The waiters come in order of arrival, and the limit of the second ends first.
#[test]
fn a_limit_ends_a_wait_and_keeps_the_order_of_arrival() {
    let (mut place, waiters) = waiters(&[0, 0, 0]);
    let mut inside = place.enter().unwrap();
    inside.ended = Some(2);
    assert!(inside.signal_to(When::Ever, 2).unwrap());
    assert_eq!((&*inside.places, inside.ended), (&[2][..], None));
    serve_all(&mut inside);
    assert_eq!(inside.places, [2, 1, 3]);
    drop(inside);
    let has_item: Vec<bool> = waiters.into_iter().map(|waiter| waiter.join().unwrap()).collect();
    assert_eq!(has_item, [true, false, true]);
}

#[test]
#[cfg(debug_assertions)]
fn a_thread_that_is_inside_enters_by_no_other_place() {
    let (_monitor, mut places) = Monitor::<(), When>::new((), 2).unwrap();
    let [first, second] = &mut places[..] else { unreachable!() };
    let guard = first.enter().unwrap();
    let panics = catch_unwind(AssertUnwindSafe(|| drop(second.enter())));
    let wanted = "place 1 enters, but its thread is inside by place 0";
    assert_eq!(panics.unwrap_err().downcast_ref::<String>().unwrap(), wanted);
    assert!(second.try_enter().is_none());
    drop(guard);
    assert!(second.enter().is_ok());
}

#[test]
fn a_forgotten_guard_is_refused() {
    let (monitor, mut places) = Monitor::<u32, When>::new(0, 2).unwrap();
    std::mem::forget(places[0].enter().unwrap());
    assert!(catch_unwind(AssertUnwindSafe(|| drop(places[0].enter()))).is_err());
    assert!(places[1].try_enter().is_none());
    let forgotten = places.remove(0);
    thread::spawn(move || drop(forgotten)).join().unwrap();
    assert_eq!(*places[0].enter().unwrap(), 0);
    assert!(monitor.into_inner().is_none());
}

#[test]
fn a_place_may_be_in_the_data_of_its_own_monitor() {
    struct Own(Option<Place<Own, When>>);
    let (monitor, mut places) = Monitor::<Own, When>::new(Own(None), 2).unwrap();
    let second = places.pop();
    let mut inside = places[0].enter().unwrap();
    inside.0 = second;
    assert!(inside.0.as_mut().unwrap().try_enter().is_none());
    inside.0 = None; // it goes back to its monitor while the first place is inside
    drop(inside);
    drop(places);
    assert!(monitor.into_inner().unwrap().unwrap().0.is_none());
}

#[test]
fn guards_that_are_swapped_leave_their_own_monitors() {
    let (_one, mut ones) = Monitor::<u32, When>::new(1, 1).unwrap();
    let (_two, mut twos) = Monitor::<u32, When>::new(2, 2).unwrap();
    let (mut third, mut second) = (twos.pop().unwrap(), twos.pop().unwrap());
    let (mut one, mut two) = (ones[0].enter().unwrap(), second.enter().unwrap());
    std::mem::swap(&mut one, &mut two);
    assert_eq!((*one, *two), (2, 1));
    assert!(!one.signal_leave(When::Ever));
    assert_eq!(*third.enter().unwrap(), 2);
}

#[test]
fn what_is_shown_names_the_place_and_the_data() {
    let (monitor, mut places) = Monitor::<u32, When>::new(7, 2).unwrap();
    assert_eq!(
        format!("{monitor:?}"),
        "Monitor { data: u32, is_poisoned: false, places: {place 0: outside, place 1: outside} }"
    );
    assert_eq!(format!("{:?}", places[1]), "Place { number: 1, is_inside: false, .. }");
    assert_eq!(format!("{:?}", places[1].enter().unwrap()), "Inside { place: 1, data: 7 }");
}

// The file and the line where a thread panics.
fn place_of_panic(act: impl FnOnce()) -> String {
    thread_local!(static PLACE: std::cell::Cell<String> = const { std::cell::Cell::new(String::new()) });
    static HOOK: std::sync::Once = std::sync::Once::new();
    HOOK.call_once(|| {
        let before = std::panic::take_hook();
        std::panic::set_hook(Box::new(move |of| {
            PLACE.set(of.location().map(|at| format!("{}:{}", at.file(), at.line())).unwrap_or_default());
            before(of);
        }));
    });
    assert!(catch_unwind(AssertUnwindSafe(act)).is_err());
    PLACE.take()
}

#[test]
fn a_panic_names_the_line_of_the_caller() {
    fn line_of(act: impl FnOnce(Inside<'_, (), Bad, Bad>)) -> String {
        let (_monitor, mut places) = Monitor::<(), Bad, Bad>::new((), 1).unwrap();
        place_of_panic(|| act(places[0].enter().unwrap()))
    }
    let here = |line: u32| format!("{}:{line}", file!());
    assert_eq!(line_of(|mut inside| _ = inside.queue(Bad)), here(line!()));
    assert_eq!(line_of(|mut inside| _ = inside.signal(Bad)), here(line!()));
    assert_eq!(line_of(|mut inside| _ = inside.signal_to(Bad, 0)), here(line!()));
    assert_eq!(line_of(|inside| _ = inside.signal_leave(Bad)), here(line!()));
    assert_eq!(line_of(|mut inside| _ = inside.wait(Bad, 0)), here(line!()));
    assert_eq!(line_of(|mut inside| _ = inside.notify(Bad)), here(line!()));
    assert_eq!(line_of(|mut inside| _ = inside.broadcast(Bad)), here(line!()));
    assert_eq!(line_of(|mut inside| _ = inside.wait_mesa(Bad, 0)), here(line!()));
    let (_monitor, mut places) = Monitor::<u32, When>::new(0, 1).unwrap();
    std::mem::forget(places[0].enter().unwrap());
    assert_eq!(place_of_panic(|| drop(places[0].enter())), here(line!()));
    assert_eq!(place_of_panic(|| drop(places[0].try_enter())), here(line!()));
}

#[cfg(debug_assertions)]
const CHECKS: zaulinte::Checks<u32, When, Mesa> = zaulinte::Checks {
    inv: |&data| data != 1,
    rest: |&data, all| {
        let (count, first, mesa) = (all.count(When::Ever), all.first(When::Ever), all.count_mesa(Mesa::Other));
        assert!(data != 3, "{count} {first:?} {mesa}, {all:?}");
        data != 2
    },
    ready: |condition, priority, &data, all| {
        assert!(data != 5, "{condition:?} {priority}, {all:?}");
        data != 4
    },
};
#[cfg(debug_assertions)]
type Act = fn(Inside<'_, u32, When, Mesa>);

#[cfg(debug_assertions)]
#[test]
fn a_check_names_the_line_of_the_caller() {
    let (_monitor, mut places) = Monitor::checked(1, 1, CHECKS).unwrap();
    let waits = place_of_panic(|| drop(places[0].enter().unwrap().wait(When::Ever, 0)));
    assert_eq!(waits, format!("{}:{}", file!(), line!() - 1));
}

// Place 0 waits on Ever and place 2 on Other; then place 1 acts, which a check finds wrong. Returns the message.
#[cfg(debug_assertions)]
fn message_of(data: u32, act: Act) -> String {
    let (monitor, places) = Monitor::checked(0, 3, CHECKS).unwrap();
    let [mut waits, mut acts, mut waits_too] = <[_; 3]>::try_from(places).ok().unwrap();
    let waiter = thread::spawn(move || drop(waits.enter().unwrap().wait(When::Ever, 7)));
    let mesa_waiter = thread::spawn(move || drop(waits_too.enter().unwrap().wait_mesa(Mesa::Other, 5)));
    while acts.enter().is_ok_and(|mut inside| !inside.queue(When::Ever) || inside.count_mesa(Mesa::Other) == 0) {
        thread::yield_now();
    }
    let acted = catch_unwind(AssertUnwindSafe(|| {
        let mut inside = acts.enter().unwrap();
        *inside = data;
        act(inside);
    }));
    let mut inside = acts.enter().unwrap_or_else(PoisonError::into_inner);
    inside.notify(Mesa::Other);
    inside.signal_leave(When::Ever);
    let waited = waiter.join(); // `ready` is tested in its thread
    mesa_waiter.join().unwrap();
    assert!(monitor.is_poisoned());
    acted.and(waited).unwrap_err().downcast_ref::<String>().cloned().unwrap()
}

#[cfg(debug_assertions)]
#[test]
fn a_check_names_the_act_and_poisons() {
    let rows: [(u32, Act, &str); 18] = [
        (1, |i| drop(i), "`inv` doesn't hold when place 1 leaves"),
        (1, |mut i| drop(i.wait(When::Ever, 0)), "`inv` doesn't hold when place 1 waits on Ever"),
        (1, |mut i| drop(i.wait_mesa(Mesa::Other, 0)), "`inv` doesn't hold when place 1 waits on Other"),
        (1, |mut i| drop(i.signal(When::Ever)), "`inv` doesn't hold when place 1 signals Ever"),
        (1, |i| assert!(i.signal_leave(When::Ever)), "`inv` doesn't hold when place 1 signals Ever"),
        (1, |mut i| drop(i.signal_to(When::Ever, 0)), "`inv` doesn't hold when place 1 signals Ever"),
        (1, |mut i| drop(i.signal(When::Never)), "`inv` doesn't hold when place 1 leaves"), // a signal to no place
        (1, |mut i| drop(i.signal_to(When::Ever, 2)), "`inv` doesn't hold when place 1 leaves"), // the same
        (2, |i| drop(i), "`rest` doesn't hold when place 1 leaves, and there wait: {Ever: 1 of 7, Other: 1 of 5}"),
        (2, |mut i| drop(i.wait(When::Never, 0)), "`rest` doesn't hold when place 1 waits on Never"),
        (3, |mut i| drop(i.wait(When::Never, 4)), "1 Some(7) 1, {Ever: 1 of 7, Never: 1 of 4, Other: 1 of 5}"),
        (3, |mut i| drop(i.wait(When::Ever, 9)), "2 Some(7) 1, {Ever: 2 of 7, Other: 1 of 5}"),
        (3, |mut i| drop(i.wait_mesa(Mesa::Other, 3)), "1 Some(7) 2, {Ever: 1 of 7, Other: 2 of 3}"),
        (4, |mut i| drop(i.signal(When::Ever)), "`ready` of Ever doesn't hold at the signal of place 1"),
        (4, |mut i| drop(i.signal_to(When::Ever, 0)), "`ready` of Ever doesn't hold at the signal of place 1"),
        (4, |i| assert!(i.signal_leave(When::Ever)), "`ready` of Ever doesn't hold at the signal of place 1"),
        (5, |mut i| drop(i.signal_to(When::Ever, 0)), "Ever 7, {Other: 1 of 5}"),
        (5, |i| assert!(i.signal_leave(When::Ever)), "Ever 7, {Other: 1 of 5}"),
    ];
    for (data, act, message) in rows {
        assert_eq!(message_of(data, act).replace(" of least priority ", " of "), message);
    }
}

#[cfg(debug_assertions)]
#[test]
fn a_check_shows_a_condition_without_a_name_by_its_index() {
    #[derive(Clone, Copy, Debug)]
    struct Plain;
    impl zaulinte::Condition for Plain {
        const COUNT: usize = 1;
        fn index(self) -> usize {
            0
        }
    }
    let checks = zaulinte::Checks { rest: |_, all| panic!("{all:?}"), ..zaulinte::Checks::default() };
    let (_monitor, mut places) = Monitor::<(), When, Plain>::checked((), 1, checks).unwrap();
    let panics = catch_unwind(move || drop(places[0].enter().unwrap().wait_mesa(Plain, 7)));
    assert_eq!(panics.unwrap_err().downcast_ref::<String>().unwrap(), "{2: 1 of least priority 7}");
}
