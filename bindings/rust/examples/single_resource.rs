//! A single resource, after Hoare: `acquire` waits, by priority, if it is busy, and `release` hands it to the next
//! waiter.
use std::thread;
use zaulinte::{conditions, Checks, Monitor, Place};

conditions! { enum When { NotBusy } }

type User = Place<bool, When>; // the data: true if the resource is busy

fn acquire(user: &mut User, priority: u64) {
    let mut busy = user.enter().unwrap();
    if *busy {
        busy.wait(When::NotBusy, priority).unwrap();
    }
    *busy = true;
}

fn release(user: &mut User) {
    let mut busy = user.enter().unwrap();
    *busy = false;
    busy.signal_leave(When::NotBusy);
}

fn main() {
    let checks = Checks {
        inv: |_| true,
        rest: |&busy, waiting| busy || waiting.count(When::NotBusy) == 0,
        ready: |_, _, &busy, _| !busy,
    };
    let (monitor, users) = Monitor::checked(false, 4, checks).unwrap();
    let uses = |mut user: User| {
        for _ in 0..2000 {
            let priority = user.number() as u64;
            acquire(&mut user, priority);
            release(&mut user);
        }
    };
    let threads: Vec<_> = users.into_iter().map(|user| thread::spawn(move || uses(user))).collect();
    threads.into_iter().for_each(|thread| thread.join().unwrap());
    assert!(!monitor.into_inner().unwrap().unwrap());
    println!("used 8000 times");
}
