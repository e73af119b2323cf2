//! Parts to copy into a program of your own. Each is a monitor with groups of its places, so any number of threads call
//! it, and no thread has a place of its own. A debug build tests what holds of their data.
//!
//! This program runs each part with more threads than it has places. If a part uses no other, its file is enough.
mod barrier;
mod latch;
mod limit_clock;
mod readers_writers;
mod work_queue;

use barrier::Barrier;
use latch::Latch;
use limit_clock::{Limit, LimitClock, Limited};
use readers_writers::ReadersWriters;
use std::fmt::Debug;
use std::sync::atomic::{AtomicU64, Ordering::Relaxed, Ordering::SeqCst};
use std::thread;
use std::time::{Duration, Instant};
use work_queue::WorkQueue;
use zaulinte::{conditions, Checks, Monitor, Places};

/// Returns once so many places of a monitor wait on a condition.
fn until_wait(monitor: &impl Debug, many: usize, condition: &str) {
    while format!("{monitor:?}").matches(&format!(": waits on {condition}")).count() < many {
        thread::yield_now();
    }
}

/// 300 takers and 20 submitters; then takers and submitters that a close resumes.
fn queue_loses_no_item() {
    let queue = WorkQueue::new(8).unwrap();
    let sum = AtomicU64::new(0);
    thread::scope(|s| {
        for _ in 0..300 {
            s.spawn(|| {
                while let Some(item) = queue.take() {
                    sum.fetch_add(item, Relaxed);
                }
            });
        }
        let submits = || (1..=500).for_each(|item| queue.submit(item).unwrap());
        let submitters: Vec<_> = (0..20).map(|_| s.spawn(submits)).collect();
        submitters.into_iter().for_each(|submitter| submitter.join().unwrap());
        until_wait(&queue.monitor, 48, "NotEmpty");
        queue.close();
    });
    assert_eq!((sum.into_inner(), queue.submit(7)), (20 * 500 * 501 / 2, Err(7)));
    let full = &WorkQueue::new(1).unwrap();
    full.submit(0).unwrap();
    thread::scope(|s| {
        let submitters: Vec<_> = (1..=20).map(|item| (item, s.spawn(move || full.submit(item)))).collect();
        until_wait(&full.monitor, 15, "NotFull");
        full.close();
        submitters.into_iter().for_each(|(item, submitter)| assert_eq!(submitter.join().unwrap(), Err(item)));
    });
    assert_eq!((full.take(), full.take()), (Some(0), None));
}

/// More waiters than places.
fn latch_opens_to_all() {
    let latch = Latch::new(5).unwrap();
    let counted = AtomicU64::new(0);
    thread::scope(|s| {
        for _ in 0..100 {
            s.spawn(|| {
                latch.wait();
                assert_eq!(counted.load(SeqCst), 5);
            });
        }
        until_wait(&latch.monitor, latch::WAITERS, "Open");
        for _ in 0..5 {
            counted.fetch_add(1, SeqCst);
            latch.count_down();
        }
    });
    latch.wait();
}

/// Each round has one last thread, and no thread leaves it before all have arrived.
fn barrier_keeps_rounds_apart() {
    const PARTIES: u64 = 64;
    let barrier = Barrier::new(PARTIES as usize).unwrap();
    let (arrived, lasts) = (AtomicU64::new(0), AtomicU64::new(0));
    thread::scope(|s| {
        for _ in 0..PARTIES {
            s.spawn(|| {
                for round in 1..=100 {
                    arrived.fetch_add(1, SeqCst);
                    lasts.fetch_add(barrier.wait().into(), SeqCst);
                    assert!((PARTIES * round..PARTIES * (round + 1)).contains(&arrived.load(SeqCst)));
                }
            });
        }
    });
    assert_eq!(lasts.into_inner(), 100);
    thread::scope(|s| {
        (1..PARTIES).for_each(|_| _ = s.spawn(|| assert!(!barrier.wait())));
        until_wait(&barrier.monitor, PARTIES as usize - 1, "AllArrived");
        assert!(barrier.wait());
    });
}

/// 90 readers and 10 writers. What is read is written in two steps, so that a read beside a write finds it torn.
fn nobody_reads_while_another_writes() {
    let lock = ReadersWriters::new().unwrap();
    let (left, right) = (AtomicU64::new(0), AtomicU64::new(0));
    let reads = || {
        let _reading = lock.read();
        assert_eq!(left.load(Relaxed), right.load(Relaxed));
    };
    let writes = || {
        let _writing = lock.write();
        left.store(left.load(Relaxed) + 1, Relaxed);
        thread::yield_now();
        right.store(right.load(Relaxed) + 1, Relaxed);
    };
    thread::scope(|s| {
        let writing = lock.write();
        (0..90).for_each(|_| _ = s.spawn(|| (0..20).for_each(|_| reads())));
        (0..10).for_each(|_| _ = s.spawn(|| (0..20).for_each(|_| writes())));
        until_wait(&lock.monitor, readers_writers::STARTERS, "");
        drop(writing);
    });
    assert_eq!((left.into_inner(), right.into_inner()), (200, 200));
}

conditions! { enum When { NotEmpty } }

#[derive(Default)]
struct Items {
    items: u32,
    is_over: bool,
    /// The names of the takers, or `-` if no item came.
    order: String,
    /// The place that began to wait last.
    last: usize,
}

impl Limited for Items {
    fn is_over(&mut self) -> &mut bool {
        &mut self.is_over
    }
}

/// Items that are taken with a time limit.
struct Store {
    takers: Places<Items, When>,
    givers: Places<Items, When>,
    limit: Limit<When>,
}

impl Store {
    fn new(clock: &LimitClock) -> Store {
        let checks = Checks {
            inv: |store: &Items| !store.is_over || store.items == 0,
            rest: |store, waiting| !store.is_over && (waiting.count(When::NotEmpty) == 0 || store.items == 0),
            ready: |_, _, store, _| store.is_over != (store.items > 0),
        };
        let (_, mut places) = Monitor::checked(Items::default(), 64, checks).unwrap();
        let limit = clock.watch(places.pop().unwrap(), When::NotEmpty);
        let givers = Places::new(places.split_off(60)).unwrap();
        Store { takers: Places::new(places).unwrap(), givers, limit }
    }

    fn give(&self) {
        let mut place = self.givers.borrow();
        let mut store = place.enter().unwrap();
        store.items += 1;
        store.signal_leave(When::NotEmpty);
    }

    /// Returns false if there is no item until the deadline.
    fn take(&self, deadline: Option<Instant>) -> bool {
        self.take_by('t', 0, deadline)
    }

    fn take_by(&self, name: char, priority: u64, deadline: Option<Instant>) -> bool {
        let mut place = self.takers.borrow();
        let mut store = place.enter().unwrap();
        store.last = store.place_number();
        let is_there = store.items > 0 || self.limit.wait(&mut store, priority, deadline).unwrap();
        store.items -= u32::from(is_there);
        store.order.push(if is_there { name } else { '-' });
        is_there
    }

    /// Takes an item by a wait that has no limit, and that no cancel ends.
    fn take_at_last(&self, name: char) {
        let mut place = self.takers.borrow();
        let mut store = place.enter().unwrap();
        store.last = store.place_number();
        store.wait(When::NotEmpty, 0).unwrap();
        store.items -= 1;
        store.order.push(name);
    }

    fn cancel(&self, waiter: usize) -> bool {
        let mut place = self.givers.borrow();
        let mut store = place.enter().unwrap();
        self.limit.cancel(&mut store, waiter).unwrap()
    }

    fn last(&self) -> usize {
        self.givers.borrow().enter().unwrap().last
    }

    /// Returns once so many takers wait.
    fn until_wait(&self, many: usize) {
        while self.givers.borrow().enter().unwrap().count(When::NotEmpty) != many {
            thread::yield_now();
        }
    }
}

/// Three takers wait, in the order of their priorities or of their arrival, whichever is due first. Then each item goes
/// to the next. If the deadline of `b` is 0, a cancel ends its wait.
fn limits_keep_order(priorities: [u64; 3], minutes: [Option<u64>; 3], order: &str) {
    let clock = LimitClock::new();
    let store = &Store::new(&clock);
    let mut places = [0; 3];
    thread::scope(|s| {
        for k in 0..3 {
            let deadline = minutes[k].map(|minutes| Instant::now() + Duration::from_secs(60 * minutes.max(1)));
            s.spawn(move || store.take_by(['a', 'b', 'c'][k], priorities[k], deadline));
            store.until_wait(k + 1);
            places[k] = store.last();
        }
        if minutes[1] == Some(0) {
            assert!(store.cancel(places[1]));
            assert!(!(0..=64).any(|k| k != places[0] && k != places[2] && store.cancel(k)));
        }
        (0..order.matches(char::is_alphabetic).count()).for_each(|_| store.give());
    });
    assert_eq!(store.givers.borrow().enter().unwrap().order, order);
}

/// A limit ends between two waiters; the first of them waits without the clock, and no cancel ends its wait.
fn limits_end_between_others() {
    let clock = LimitClock::new();
    let store = &Store::new(&clock);
    thread::scope(|s| {
        s.spawn(|| store.take_at_last('a'));
        store.until_wait(1);
        let first = store.last();
        let second = s.spawn(|| store.take(Some(Instant::now() + Duration::from_millis(30))));
        while store.last() == first {
            thread::yield_now();
        }
        s.spawn(|| store.take_by('c', 0, None));
        assert!(!second.join().unwrap() && !store.cancel(first));
        store.until_wait(2);
        (0..2).for_each(|_| store.give());
    });
    assert_eq!(store.givers.borrow().enter().unwrap().order, "-ac");
}

/// Waits on two monitors for items that don't come, beside a wait with a limit that is far. Returns how late the last
/// wait ended.
fn waits_end_at_their_limit() -> Duration {
    let clock = LimitClock::new();
    let stores = [Store::new(&clock), Store::new(&clock)];
    let waits = |store: &Store, limit| {
        let deadline = Instant::now() + limit;
        assert!(!store.take(Some(deadline)));
        Instant::now().checked_duration_since(deadline).expect("it ended too early")
    };
    thread::scope(|s| {
        let limits = (0..100).map(|k| (&stores[k % 2], Duration::from_millis(200 - k as u64)));
        let waiters: Vec<_> = limits.map(|(store, limit)| s.spawn(move || waits(store, limit))).collect();
        thread::sleep(Duration::from_millis(50));
        s.spawn(|| assert!(stores[0].take(Some(Instant::now() + Duration::from_secs(60)))));
        let late = waiters.into_iter().map(|waiter| waiter.join().unwrap()).max();
        stores[0].give();
        late.unwrap()
    })
}

/// Takers with short limits, and some with none, take what is given while limits end.
fn limits_lose_no_item() -> u64 {
    let clock = LimitClock::new();
    let (store, over) = (Store::new(&clock), AtomicU64::new(0));
    let takes = &|micros: Option<u64>| {
        let mut took = 0;
        while took < 20 {
            let is_there = store.take(micros.map(|micros| Instant::now() + Duration::from_micros(micros)));
            took += u32::from(is_there);
            over.fetch_add(u64::from(!is_there), Relaxed);
        }
    };
    thread::scope(|s| {
        (0..100).for_each(|k| _ = s.spawn(move || takes((k % 10 > 0).then_some(200 * k))));
        for _ in 0..100 * 20 / 10 {
            (0..10).for_each(|_| store.give());
            thread::sleep(Duration::from_micros(500));
        }
    });
    assert!(!store.take(Some(Instant::now())));
    over.into_inner()
}

fn main() {
    queue_loses_no_item();
    latch_opens_to_all();
    barrier_keeps_rounds_apart();
    nobody_reads_while_another_writes();
    limits_keep_order([7, 7, 7], [Some(2), Some(1), None], "abc");
    limits_keep_order([5, 1, 3], [Some(1), None, Some(2)], "bca");
    limits_keep_order([7, 7, 7], [Some(2), Some(0), None], "-ac");
    limits_keep_order([5, 9, 3], [None, Some(0), Some(2)], "-ca");
    limits_end_between_others();
    let late = waits_end_at_their_limit();
    assert!(late < Duration::from_secs(10), "a wait ended {late:?} after its limit");
    let over = limits_lose_no_item();
    println!("queue, latch, barrier, readers and writers: right; a wait ended {late:?} late at most, {over} were over");
}
