//! The loads of bench/peers/hoare.rs over this crate, in the same form: bench/run compares them. `loads TURNS`.
#[path = "loads/visits.rs"]
mod visits;

use std::sync::Mutex;
use std::thread;
use std::time::Instant;
use visits::Visits;
use zaulinte::{conditions, Inside, Monitor, Place};

conditions! { enum On { A, B, C, D, E, F, G, H } }

const ON: [On; 8] = [On::A, On::B, On::C, On::D, On::E, On::F, On::G, On::H];
const RING: usize = 16;
const WORKERS: usize = 8;

#[derive(Default)]
struct Data {
    value: u64,
    cells: [u64; RING],
    last: usize,
    count: usize,
    finished: usize,
}

type User = Place<Data, On>;

// Gives each body a place. Returns the time per visit, in nanoseconds, and the data.
fn run(all: u64, bodies: Vec<Box<dyn FnOnce(User) + Send>>) -> (f64, Data) {
    let (monitor, places) = Monitor::<Data, On>::new(Data::default(), bodies.len()).unwrap();
    let start = Instant::now();
    thread::scope(|s| {
        for (body, place) in bodies.into_iter().zip(places) {
            s.spawn(move || body(place));
        }
    });
    (start.elapsed().as_nanos() as f64 / all as f64, monitor.into_inner().unwrap().unwrap())
}

fn contended(threads: u64, turns: u64) -> f64 {
    let adds = move |mut user: User| (0..turns).for_each(|_| user.enter().unwrap().value += 1);
    let (ns, data) = run(turns * threads, (0..threads).map(|_| Box::new(adds) as _).collect());
    assert_eq!(data.value, turns * threads);
    ns
}

fn hand_over(turns: u64) -> f64 {
    let waits = move |mut user: User| {
        let mut inside = user.enter().unwrap();
        (0..turns).for_each(|_| inside.wait(On::A, 0).unwrap());
    };
    let signals = move |mut user: User| {
        let mut done = 0;
        while done < turns {
            done += u64::from(user.enter().unwrap().signal(On::A).unwrap());
        }
    };
    run(turns, vec![Box::new(waits), Box::new(signals)]).0
}

// Enters and waits. The value counts the threads that have arrived: the last of them signals the driver, and waits
// before the driver can enter again. The driver's condition is H, on which the last link of a chain waits too.
fn rest(user: &mut User, waiters: u64, on: On, priority: u64) -> Inside<'_, Data, On> {
    let mut inside = user.enter().unwrap();
    inside.value += 1;
    if inside.value > waiters {
        inside.signal(On::H).unwrap();
    }
    inside.wait(on, priority).unwrap();
    inside
}

// Waits until all others wait, and resumes those on condition A.
fn drive(user: &mut User, waiters: u64) {
    let mut inside = user.enter().unwrap();
    inside.value += 1;
    if inside.value <= waiters {
        inside.wait(On::H, 0).unwrap();
    }
    inside.value = 0;
    drop(inside);
    let mut inside = user.enter().unwrap();
    while inside.signal(On::A).unwrap() {}
}

// So many threads make a visit in each turn, in which they wait, and a driver resumes them.
fn driven(waiters: u64, turns: u64, visit: fn(&mut User, u64)) -> f64 {
    let waits = move |mut user: User| (0..turns).for_each(|_| visit(&mut user, waiters));
    let mut bodies: Vec<Box<dyn FnOnce(User) + Send>> = (0..waiters).map(|_| Box::new(waits) as _).collect();
    bodies.push(Box::new(move |mut user| (0..turns).for_each(|_| drive(&mut user, waiters))));
    run(turns * waiters, bodies).0
}

fn waiting(user: &mut User, waiters: u64) {
    let priority = user.number() as u64 + 1;
    drop(rest(user, waiters, On::A, priority));
}

fn link(user: &mut User, waiters: u64) {
    let me = user.number();
    let mut inside = rest(user, waiters, ON[me], 1);
    if me + 1 < ON.len() {
        inside.signal(ON[me + 1]).unwrap();
    }
}

fn append(user: &mut User, item: u64) {
    let mut ring = user.enter().unwrap();
    if ring.count == RING {
        ring.wait(On::B, 0).unwrap();
    }
    let last = ring.last;
    ring.cells[last] = item;
    ring.last = (last + 1) % RING;
    ring.count += 1;
    ring.signal_leave(On::A);
}

fn take(user: &mut User) -> u64 {
    let mut ring = user.enter().unwrap();
    if ring.count == 0 {
        ring.wait(On::A, 0).unwrap();
    }
    let item = ring.cells[(ring.last + RING - ring.count) % RING];
    ring.count -= 1;
    ring.signal_leave(On::B);
    item
}

fn buffer(pairs: u64, turns: u64) -> f64 {
    static SUM: Mutex<u64> = Mutex::new(0);
    *SUM.lock().unwrap() = 0;
    let mut bodies: Vec<Box<dyn FnOnce(User) + Send>> = vec![];
    for _ in 0..pairs {
        bodies.push(Box::new(move |mut user| (0..turns).for_each(|i| append(&mut user, i))));
        bodies.push(Box::new(move |mut user| {
            let sum: u64 = (0..turns).map(|_| take(&mut user)).sum();
            *SUM.lock().unwrap() += sum;
        }));
    }
    let (ns, _) = run(turns * pairs, bodies);
    assert_eq!(*SUM.lock().unwrap(), pairs * (turns * (turns - 1) / 2));
    ns
}

fn draw(seed: u64) -> u64 {
    seed.wrapping_mul(6364136223846793005).wrapping_add(1442695040888963407)
}

fn visit(user: &mut User, lot: u64) {
    let (on, mut inside) = (ON[lot as usize / 8 % 3], user.enter().unwrap());
    inside.value += 1;
    if lot % 8 < 3 && ON.iter().map(|&on| inside.count(on)).sum::<usize>() < WORKERS / 2 {
        inside.wait(on, lot / 32 % 4).unwrap();
    } else if lot % 8 < 6 && inside.queue(on) {
        inside.signal(on).unwrap();
    } else {
        inside.signal_leave(on);
        return;
    }
    inside.value += 1;
}

fn mixed(turns: u64) -> f64 {
    let works = move |mut user: User| {
        let mut lot = draw(user.number() as u64);
        for _ in 0..turns {
            lot = draw(lot);
            visit(&mut user, lot / 65536);
        }
        user.enter().unwrap().finished += 1;
    };
    let mut bodies: Vec<Box<dyn FnOnce(User) + Send>> = (0..WORKERS).map(|_| Box::new(works) as _).collect();
    bodies.push(Box::new(|mut user| {
        for turn in 0.. {
            let inside = user.enter().unwrap();
            if inside.finished == WORKERS {
                return;
            }
            inside.signal_leave(ON[turn % 3]);
            thread::yield_now();
        }
    }));
    run(turns * WORKERS as u64, bodies).0
}

fn main() {
    if let Some(visits) = Visits::asked() {
        let (_monitor, places) = Monitor::<Data, On>::new(Data::default(), visits.threads).unwrap();
        return visits
            .show(places.into_iter().collect(), |user: &mut User, inside| inside(&mut user.enter().unwrap().value));
    }
    let turns: u64 = std::env::args().nth(1).and_then(|a| a.parse().ok()).unwrap_or(1_000_000);
    println!("enter_leave {:.0} ns", contended(1, turns));
    for threads in [2, 4, 8] {
        println!("enter_leave_{threads} {:.0} ns", contended(threads, turns / 10));
    }
    println!("hand_over {:.0} ns", hand_over(turns / 100));
    for pairs in [1, 4] {
        println!("buffer_{pairs}_{pairs} {:.0} ns", buffer(pairs, turns / 100));
    }
    println!("waiting_16 {:.0} ns", driven(16, turns / 1000, waiting));
    println!("chain_8 {:.0} ns", driven(8, turns / 1000, link));
    println!("mixed_9 {:.0} ns", mixed(turns / 1000));
}
