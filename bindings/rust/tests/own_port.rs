//! Ports of a user, with std in the crate or without it. One spins, one returns early, one wakes no thread, and one
//! panics. `cargo test` and `cargo test --no-default-features` run them.
use std::cell::Cell;
use std::panic::{catch_unwind, resume_unwind, AssertUnwindSafe};
use std::sync::atomic::{AtomicU32, Ordering::SeqCst};
use std::sync::{mpsc, Arc, Barrier, Condvar, Mutex};
use std::thread;
use std::time::Duration;
use zaulinte::{conditions, Checks, Monitor, NoConditions, Port};

conditions! { enum When { NotFull, NotEmpty } }
type Place<P> = zaulinte::Place<Vec<u32>, When, NoConditions, P>;

const ITEMS: u32 = 2_000;
const ROOM: usize = 3;

fn monitor_of<P: Port>(places: usize, port: impl Fn() -> P) -> Vec<Place<P>> {
    Monitor::<Vec<u32>, When, NoConditions, P>::with_port(vec![], places, Checks::default(), port).unwrap().1
}

struct Spin;

// SAFETY: no code of the caller runs in it
unsafe impl Port for Spin {
    const POLLS: u32 = 0;

    fn sleep_while(&self, word: &AtomicU32, is: u32) {
        while word.load(SeqCst) == is {
            thread::yield_now();
        }
    }

    fn wake_one(&self, _: &AtomicU32) {}

    fn panicking() -> bool {
        thread::panicking()
    }
}

// Never sleeps: each `sleep_while` returns early.
struct Early;

// SAFETY: no code of the caller runs in it
unsafe impl Port for Early {
    const POLLS: u32 = 64;

    fn sleep_while(&self, _: &AtomicU32, _: u32) {
        thread::yield_now();
    }

    fn wake_one(&self, _: &AtomicU32) {}
}

// Sleeps by std, counts the threads that fell asleep, and wakes a thread only if `wakes` is true.
#[derive(Default)]
struct Sleeper {
    lock: Mutex<()>,
    changed: Condvar,
    asleep: Arc<AtomicU32>,
    wakes: bool,
}

// SAFETY: no code of the caller runs in it
unsafe impl Port for Sleeper {
    const POLLS: u32 = 0;

    fn sleep_while(&self, word: &AtomicU32, is: u32) {
        let mut lock = self.lock.lock().unwrap();
        while word.load(SeqCst) == is {
            self.asleep.fetch_add(1, SeqCst);
            lock = self.changed.wait(lock).unwrap();
        }
    }

    fn wake_one(&self, _: &AtomicU32) {
        drop(self.lock.lock());
        if self.wakes {
            self.changed.notify_one();
        }
    }
}

fn append<P: Port>(place: &mut Place<P>, item: u32) {
    let mut items = place.enter().unwrap();
    if items.len() == ROOM {
        items.wait(When::NotFull, 0).unwrap();
    }
    items.push(item);
    items.signal_leave(When::NotEmpty);
}

fn take<P: Port>(place: &mut Place<P>) -> u32 {
    let mut items = place.enter().unwrap();
    if items.is_empty() {
        items.wait(When::NotEmpty, 0).unwrap();
    }
    let item = items.remove(0);
    items.signal(When::NotFull).unwrap();
    item
}

fn buffer_is_in_order<P: Port>(port: fn() -> P) {
    let mut places = monitor_of(2, port);
    let (mut there, mut here) = (places.pop().unwrap(), places.pop().unwrap());
    thread::scope(|s| {
        s.spawn(move || (0..ITEMS).for_each(|item| append(&mut there, item)));
        assert!((0..ITEMS).all(|item| take(&mut here) == item));
    });
}

#[test]
fn a_port_that_spins_serves() {
    buffer_is_in_order(|| Spin);
}

#[test]
fn a_port_that_returns_early_serves() {
    buffer_is_in_order(|| Early);
}

#[test]
fn a_port_that_never_polls_serves() {
    buffer_is_in_order(|| Sleeper { wakes: true, ..Sleeper::default() });
}

// Runs `act` in a thread until it falls asleep, then `wake`. Returns true if `act` ends within `time`. If it doesn't,
// its thread sleeps until the program ends.
fn ends(asleep: &AtomicU32, time: Duration, act: impl FnOnce() + Send + 'static, wake: impl FnOnce()) -> bool {
    let (tells, is_told) = mpsc::channel();
    thread::spawn(move || {
        act();
        let _ = tells.send(());
    });
    while asleep.load(SeqCst) == 0 {
        thread::yield_now();
    }
    wake();
    is_told.recv_timeout(time).is_ok()
}

// The second place waits and the first resumes it, or the second enters and the first leaves. Returns true if the
// second continues within `time`, by a port that wakes a thread if `wakes` is true.
fn gets_on(waits: bool, wakes: bool, time: Duration) -> bool {
    let asleep = Arc::new(AtomicU32::new(0));
    let mut places = monitor_of(2, || Sleeper { asleep: asleep.clone(), wakes, ..Sleeper::default() });
    let (mut there, mut here) = (places.pop().unwrap(), places.pop().unwrap());
    if waits {
        let act = move || there.enter().unwrap().wait(When::NotEmpty, 0).unwrap();
        return ends(&asleep, time, act, || assert!(here.enter().unwrap().signal_leave(When::NotEmpty)));
    }
    let inside = here.enter().unwrap();
    ends(&asleep, time, move || drop(there.enter().unwrap()), || drop(inside))
}

const SOON: Duration = Duration::from_secs(1);
const LATE: Duration = Duration::from_secs(60);

#[test]
fn a_lost_wake_up_of_a_waiter_hangs() {
    assert!(gets_on(true, true, LATE));
    assert!(!gets_on(true, false, SOON));
}

#[test]
fn a_lost_wake_up_of_an_entering_thread_hangs() {
    assert!(gets_on(false, true, LATE));
    assert!(!gets_on(false, false, SOON));
}

#[test]
fn threads_that_sleep_at_the_entrance_wake_each_other() {
    const SLEEPERS: usize = 5;
    let asleep = Arc::new(AtomicU32::new(0));
    let mut places = monitor_of(SLEEPERS + 1, || Sleeper { asleep: asleep.clone(), wakes: true, ..Sleeper::default() });
    let mut here = places.pop().unwrap();
    for _ in 0..5 {
        asleep.store(0, SeqCst);
        let inside = here.enter().unwrap();
        let (tells, is_told) = mpsc::channel();
        for mut there in places.drain(..) {
            let tells = tells.clone();
            thread::spawn(move || {
                drop(there.enter().unwrap());
                let _ = tells.send(there);
            });
        }
        while (asleep.load(SeqCst) as usize) < SLEEPERS {
            thread::yield_now();
        }
        drop(inside); // the one leave that wakes a thread from here
        places.extend((0..SLEEPERS).map(|_| is_told.recv_timeout(LATE).expect("a thread sleeps for ever")));
    }
}

// Each thread enters and leaves once a round: if a wake-up is lost, no later leave makes up for it.
#[test]
fn threads_that_meet_at_the_entrance_all_enter() {
    for threads in [2, 5] {
        let (start, (tells, is_told)) = (Arc::new(Barrier::new(threads)), mpsc::channel());
        for mut place in monitor_of(threads, || Sleeper { wakes: true, ..Sleeper::default() }) {
            let (start, tells) = (start.clone(), tells.clone());
            thread::spawn(move || {
                for _ in 0..50 {
                    start.wait();
                    drop(place.enter().unwrap());
                }
                let _ = tells.send(());
            });
        }
        (0..threads).for_each(|_| is_told.recv_timeout(LATE).expect("a thread sleeps for ever"));
    }
}

#[test]
fn a_panic_inside_poisons_if_the_port_says_so() {
    let (monitor, mut places) =
        Monitor::<u32, When, NoConditions, Spin>::with_port(0, 2, Checks::default(), || Spin).unwrap();
    let mut there = places.pop().unwrap();
    let panics = move || {
        let _inside = there.enter().unwrap();
        panic!("inside");
    };
    assert!(thread::spawn(panics).join().is_err() && monitor.is_poisoned());
    let mut error = places[0].enter().unwrap_err();
    assert_eq!((format!("{error:?}"), **error.get_ref()), ("PoisonError { .. }".into(), 0));
    assert!(cfg!(feature = "std") || error.to_string() == "poisoned: a thread panicked inside of the monitor");
    **error.get_mut() = 1;
    assert_eq!(*error.into_inner(), 1);
    drop(places);
    assert_eq!(monitor.into_inner().unwrap().unwrap_err().into_inner(), 1);
}

#[cfg(debug_assertions)]
#[test]
fn a_check_that_fails_or_panics_poisons_whatever_the_port_says() {
    let invs: [fn(&u32) -> bool; 2] = [|_| false, |_| panic!("in the check")];
    for inv in invs {
        let checks = Checks { inv, ..Checks::default() };
        let (monitor, mut places) =
            Monitor::<u32, When, NoConditions, Early>::with_port(0, 1, checks, || Early).unwrap();
        assert!(catch_unwind(move || drop(places[0].enter())).is_err() && monitor.is_poisoned());
    }
}

static ASLEEP: AtomicU32 = AtomicU32::new(0); // how many threads fell asleep by the next port
thread_local!(static PANICS_IN: Cell<&'static str> = const { Cell::new("neither") });

struct Panics;

// SAFETY: it breaks its duty, so the program has to end
unsafe impl Port for Panics {
    const POLLS: u32 = 0;

    fn sleep_while(&self, word: &AtomicU32, is: u32) {
        assert!(PANICS_IN.get() != "sleep_while");
        ASLEEP.fetch_add(1, SeqCst);
        while word.load(SeqCst) == is {
            thread::yield_now();
        }
    }

    fn wake_one(&self, _: &AtomicU32) {
        if PANICS_IN.get() == "wake_one" {
            resume_unwind(Box::new("the port"));
        }
    }
}

// Lets place 1 fall asleep: if place 0 is to signal, by a wait, else as it enters. Then place 0 acts, and the port
// panics. Returns place 0 if the panic was caught.
fn acts_by_a_port_that_panics(act: &str) -> Place<Panics> {
    let mut places = monitor_of(2, || Panics);
    let (mut there, mut here) = (places.pop().unwrap(), places.pop().unwrap());
    let falls_asleep = move || {
        thread::spawn(move || drop(there.enter().unwrap().wait(When::NotEmpty, 0)));
        while ASLEEP.load(SeqCst) == 0 {
            thread::yield_now();
        }
    };
    let mut inside = Some(if act == "signal" {
        falls_asleep();
        here.enter().unwrap()
    } else {
        let inside = here.enter().unwrap();
        falls_asleep();
        inside
    });
    PANICS_IN.set(if act == "sleep" { "sleep_while" } else { "wake_one" });
    let caught = catch_unwind(AssertUnwindSafe(|| match (act, &mut inside) {
        ("signal", Some(inside)) => drop(inside.signal(When::NotEmpty)),
        ("sleep" | "wait", Some(inside)) => drop(inside.wait(When::NotFull, 0)),
        (_, inside) => *inside = None,
    }));
    PANICS_IN.set("neither");
    assert!(caught.is_err());
    std::mem::forget(inside);
    here
}

// A child of the test below: it must not live to see its data while its place is away.
#[test]
#[ignore = "ends the program"]
fn acts_while_its_place_is_away() {
    let _place = acts_by_a_port_that_panics(&std::env::var("ZAULINTE_ACT").unwrap());
    std::process::exit(0);
}

#[cfg(unix)]
#[test]
fn a_port_that_panics_while_its_place_is_away_ends_the_program() {
    use std::os::unix::process::ExitStatusExt;
    for act in ["sleep", "wait", "signal"] {
        let mut child = std::process::Command::new(std::env::current_exe().unwrap());
        child.args(["--ignored", "--exact", "acts_while_its_place_is_away"]).env("ZAULINTE_ACT", act);
        let output = child.output().unwrap();
        assert_eq!(output.status.signal(), Some(6), "{act}: {output:?}"); // SIGABRT
    }
}

#[test]
fn a_place_that_left_by_a_port_that_panics_is_outside() {
    let mut here = acts_by_a_port_that_panics("leave");
    assert_eq!(format!("{here:?}"), "Place { number: 0, is_inside: false, .. }");
    while !here.enter().unwrap().queue(When::NotEmpty) {
        thread::yield_now();
    }
    assert!(here.enter().unwrap().signal_leave(When::NotEmpty));
}
