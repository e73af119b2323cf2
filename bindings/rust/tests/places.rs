//! More threads than places. A program of its own, without a test harness, so that it runs under the sanitizers.
use std::mem::forget;
use std::panic::{catch_unwind, AssertUnwindSafe};
use std::sync::atomic::{AtomicBool, AtomicU32, Ordering::SeqCst};
use std::sync::{Arc, Barrier, Condvar, Mutex};
use std::thread::{self, JoinHandle};
use std::time::Duration;
use zaulinte::{conditions, Borrowed, Checks, Monitor, NoConditions, Places, Port, Refused};

conditions! { enum When { NonEmpty, Never } }

type Mine<P> = Monitor<Vec<u32>, When, NoConditions, P>;
type Group<P> = Places<Vec<u32>, When, NoConditions, P>;
type Place<P> = zaulinte::Place<Vec<u32>, When, NoConditions, P>;

const TAKERS: usize = 300;
const GIVERS: usize = 20;
const EACH: usize = 2;

// Sleeps by std, and counts the threads that fell asleep.
#[derive(Clone, Default)]
struct Sleeper {
    lock: Arc<(Mutex<()>, Condvar)>,
    asleep: Arc<AtomicU32>,
}

// SAFETY: no code of the caller runs in it
unsafe impl Port for Sleeper {
    const POLLS: u32 = 0;

    fn sleep_while(&self, word: &AtomicU32, is: u32) {
        let mut lock = self.lock.0.lock().unwrap();
        while word.load(SeqCst) == is {
            self.asleep.fetch_add(1, SeqCst);
            lock = self.lock.1.wait(lock).unwrap();
        }
    }

    fn wake_one(&self, _: &AtomicU32) {
        drop(self.lock.0.lock());
        self.lock.1.notify_one();
    }

    fn panicking() -> bool {
        thread::panicking()
    }
}

fn monitor_of<P: Port + Default>(places: usize) -> (Mine<P>, Vec<Place<P>>) {
    Monitor::with_port(vec![], places, Checks::default(), P::default).unwrap()
}

fn group_of<P: Port + Default>(places: Vec<Place<P>>) -> Group<P> {
    Places::with_port(places, P::default()).unwrap()
}

// Runs `act` in so many threads, and `meanwhile` in this one. ThreadSanitizer reports false races of std's scope.
fn in_threads(many: usize, act: impl Fn(usize) + Sync, meanwhile: impl FnOnce()) {
    let act = &act;
    // SAFETY: all threads are joined before `act` is dropped, unless `meanwhile` panics, which ends the program
    let spawn = |k| unsafe { thread::Builder::new().spawn_unchecked(move || act(k)).unwrap() };
    let threads: Vec<_> = (0..many).map(spawn).collect();
    meanwhile();
    let has_panicked = threads.into_iter().map(JoinHandle::join).filter(Result::is_err).count() > 0;
    assert!(!has_panicked);
}

// Which places are borrowed: each by one thread.
struct Held([AtomicBool; 64]);

impl Held {
    fn hold<P: Port>(&self, place: &Place<P>) {
        assert!(!self.0[place.number()].swap(true, SeqCst), "two threads borrowed a place");
    }

    fn release<P: Port>(&self, place: Borrowed<'_, Vec<u32>, When, NoConditions, P>) {
        self.0[place.number()].store(false, SeqCst);
        drop(place);
    }
}

fn take<P: Port>(place: &mut Place<P>) -> u32 {
    let mut items = place.enter().unwrap();
    if items.is_empty() {
        items.wait(When::NonEmpty, 0).unwrap();
    }
    items.pop().unwrap()
}

fn give<P: Port>(place: &mut Place<P>, item: u32) {
    let mut items = place.enter().unwrap();
    items.push(item);
    items.signal_leave(When::NonEmpty);
}

// Each taker borrows for one visit; a giver keeps its place for ten.
fn many_threads_share_few_places<P: Port + Default>(for_takers: usize, for_givers: usize) {
    let (monitor, mut places) = monitor_of::<P>(for_takers + for_givers);
    let givers = group_of(places.split_off(for_takers));
    let takers = group_of(places);
    let (sum, held) = (AtomicU32::new(0), Held([const { AtomicBool::new(false) }; 64]));
    let takes = || {
        let mut place = takers.borrow();
        held.hold(&place);
        sum.fetch_add(take(&mut place), SeqCst);
        held.release(place);
    };
    let gives = || {
        let mut place = givers.borrow();
        held.hold(&place);
        (0..10).for_each(|item| give(&mut place, item));
        held.release(place);
    };
    let works = |thread| match thread {
        0..GIVERS => (0..TAKERS * EACH / GIVERS / 10).for_each(|_| gives()),
        _ => (0..EACH).for_each(|_| takes()),
    };
    in_threads(GIVERS + TAKERS, works, || ());
    assert_eq!(sum.into_inner(), (TAKERS * EACH / 10 * 45) as u32);
    assert_eq!(format!("{givers:?}"), format!("Places {{ places: {for_givers}, free: {for_givers}, sleepers: 0 }}"));
    drop((takers, givers));
    assert_eq!(monitor.into_inner().unwrap().unwrap(), []);
}

// As many places as sleepers are given back, mostly before a sleeper runs. Each sleeper keeps its place until all have
// one.
fn sleepers_wake_each_other() {
    const SLEEPERS: usize = 5;
    let port = Sleeper::default();
    let group = Places::with_port(monitor_of::<Sleeper>(SLEEPERS).1, port.clone()).unwrap();
    let all: Vec<_> = (0..SLEEPERS).map(|_| group.borrow()).collect();
    assert!(group.try_borrow().is_none());
    let all_have_one = Barrier::new(SLEEPERS);
    let sleeps = |_| {
        let _place = group.borrow();
        all_have_one.wait();
    };
    in_threads(SLEEPERS, sleeps, || {
        while (port.asleep.load(SeqCst) as usize) < SLEEPERS {
            thread::yield_now();
        }
        drop(all);
    });
    assert_eq!(group.into_inner().iter().map(Place::number).collect::<Vec<_>>(), [0, 1, 2, 3, 4]);
}

fn a_place_is_given_back_by_a_panic_and_leaves() {
    let (_monitor, places) = monitor_of::<Sleeper>(2);
    let group = group_of(places);
    let panics = || {
        let _place = group.borrow();
        panic!("outside");
    };
    assert!(catch_unwind(panics).is_err());
    let (mut first, second) = (group.try_borrow().unwrap(), group.try_borrow().unwrap());
    assert!(group.try_borrow().is_none());
    forget(first.enter().unwrap());
    drop((first, second));
    let mut place = group.borrow();
    assert!(place.try_enter().is_some_and(|entered| entered.is_ok()));
    forget(place);
    assert!(group.try_borrow().is_some());
    assert_eq!(format!("{:?}", group), "Places { places: 2, free: 1, sleepers: 0 }");
    assert_eq!(group.into_inner().len(), 2);
}

fn groups_are_refused() {
    let refused = |places| Places::with_port(places, Sleeper::default()).err();
    assert_eq!(refused(vec![]), Some(Refused::BadPlaces));
    let (one, two) = (monitor_of(1), monitor_of(1));
    assert_eq!(refused(one.1.into_iter().chain(two.1).collect()), Some(Refused::BadPlaces));
    assert_eq!(refused(monitor_of(64).1), None);
}

// All places wait, and a debug build says so. Then this thread resumes the others.
fn a_group_that_signallers_share_with_waiters_is_found() {
    let (monitor, places) = monitor_of::<Sleeper>(3);
    let group = group_of(places);
    let said = Mutex::new(vec![]);
    let waits = |_| {
        let mut place = group.borrow();
        let waited = catch_unwind(AssertUnwindSafe(|| drop(place.enter().unwrap().wait(When::NonEmpty, 0))));
        if let Err(text) = waited {
            said.lock().unwrap().push((place.number(), text.downcast::<String>().unwrap()));
        }
    };
    in_threads(3, waits, || {
        while !monitor.is_poisoned() {
            thread::yield_now();
        }
        for _ in 0..2 {
            let mut place = group.borrow();
            assert!(place.enter().unwrap_err().into_inner().signal_leave(When::NonEmpty));
        }
    });
    let said = said.into_inner().unwrap();
    let [(number, text)] = &said[..] else { panic!("{said:?}") };
    assert_eq!(**text, format!("all 3 places wait when place {number} waits on NonEmpty: none is left to signal"));
}

fn main() {
    thread::spawn(|| {
        thread::sleep(Duration::from_secs(200));
        eprintln!("a thread sleeps for ever");
        std::process::exit(1);
    });
    many_threads_share_few_places::<Sleeper>(60, 4);
    many_threads_share_few_places::<Sleeper>(2, 2);
    #[cfg(feature = "std")]
    {
        many_threads_share_few_places::<zaulinte::StdPort>(60, 4);
        many_threads_share_few_places::<zaulinte::StdPort>(1, 1);
    }
    sleepers_wake_each_other();
    a_place_is_given_back_by_a_panic_and_leaves();
    groups_are_refused();
    if cfg!(debug_assertions) {
        a_group_that_signallers_share_with_waiters_is_found();
    }
}
