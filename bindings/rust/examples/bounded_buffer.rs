//! A bounded buffer, after Hoare: `append` waits if it is full, `take` if it is empty.
use std::collections::VecDeque;
use std::thread;
use zaulinte::{conditions, Checks, Monitor, Place};

conditions! { enum When { NotFull, NotEmpty } }

const ROOM: usize = 8;

type User = Place<VecDeque<u64>, When>;

fn append(user: &mut User, item: u64) {
    let mut items = user.enter().unwrap();
    if items.len() == ROOM {
        items.wait(When::NotFull, 0).unwrap();
    }
    items.push_back(item);
    items.signal_leave(When::NotEmpty);
}

fn take(user: &mut User) -> u64 {
    let mut items = user.enter().unwrap();
    if items.is_empty() {
        items.wait(When::NotEmpty, 0).unwrap();
    }
    let item = items.pop_front().unwrap();
    items.signal_leave(When::NotFull);
    item
}

fn main() {
    let checks = Checks {
        inv: |items: &VecDeque<u64>| items.len() <= ROOM,
        rest: |items, waiting| {
            (items.len() == ROOM || waiting.count(When::NotFull) == 0)
                && (items.is_empty() || waiting.count(When::NotEmpty) == 0)
        },
        ready: |condition, _, items, _| match condition {
            When::NotFull => items.len() < ROOM,
            When::NotEmpty => !items.is_empty(),
        },
    };
    let (monitor, mut users) = Monitor::checked(VecDeque::with_capacity(ROOM), 2, checks).unwrap();
    let mut consumer = users.pop().unwrap();
    let mut producer = users.pop().unwrap();
    let producing = thread::spawn(move || (1..=10_000).for_each(|item| append(&mut producer, item)));
    assert!((1..=10_000).all(|item| take(&mut consumer) == item));
    producing.join().unwrap();
    drop(consumer);
    assert!(monitor.into_inner().unwrap().unwrap().is_empty());
    println!("10000 items, in order");
}
