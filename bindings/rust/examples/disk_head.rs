//! A disk head that sweeps, after Hoare: requests ahead of it wait for this sweep, the others for the way back. A
//! request for the cylinder under the head waits for the way back: so such requests can't keep the head there.
use std::thread;
use zaulinte::{conditions, Checks, Monitor, Place};

conditions! { enum Sweep { Up, Down } }

const LAST: u64 = 399;

struct Head {
    at: u64,
    up: bool,
    busy: bool,
}

type User = Place<Head, Sweep>;

fn request(user: &mut User, cylinder: u64) {
    let mut head = user.enter().unwrap();
    if head.busy {
        if head.at < cylinder || (head.at == cylinder && !head.up) {
            head.wait(Sweep::Up, cylinder).unwrap();
        } else {
            head.wait(Sweep::Down, LAST - cylinder).unwrap();
        }
    }
    head.busy = true;
    head.at = cylinder;
}

fn release(user: &mut User) {
    let mut head = user.enter().unwrap();
    head.busy = false;
    let (ahead, back) = if head.up { (Sweep::Up, Sweep::Down) } else { (Sweep::Down, Sweep::Up) };
    if head.queue(ahead) {
        head.signal_leave(ahead);
    } else {
        head.up = !head.up;
        head.signal_leave(back);
    }
}

fn main() {
    let checks = Checks {
        inv: |head: &Head| head.at <= LAST,
        rest: |head, waiting| head.busy || waiting.count(Sweep::Up) + waiting.count(Sweep::Down) == 0,
        ready: |_, _, head, _| !head.busy,
    };
    let head = Head { at: 0, up: true, busy: false };
    let (monitor, users) = Monitor::checked(head, 5, checks).unwrap();
    let works = |mut user: User| {
        for turn in 0..1000 {
            request(&mut user, (turn * 97) % (LAST + 1));
            release(&mut user);
        }
    };
    let threads: Vec<_> = users.into_iter().map(|user| thread::spawn(move || works(user))).collect();
    threads.into_iter().for_each(|thread| thread.join().unwrap());
    assert!(!monitor.into_inner().unwrap().unwrap().busy);
    println!("5000 requests");
}
