//! Buffers for several streams, after Hoare: a stream waits if no buffer is free. Of the waiting streams, the
//! stream that holds the fewest buffers gets the next.
use std::thread;
use zaulinte::{conditions, Checks, Monitor, Place};

conditions! { enum When { OneIsFree } }

const BUFFERS: usize = 5;
const STREAMS: usize = 4;

struct Pool {
    free: usize,
    held: [usize; STREAMS],
}

type User = Place<Pool, When>;

fn acquire(user: &mut User) {
    let stream = user.number();
    let mut pool = user.enter().unwrap();
    if pool.free == 0 {
        let fewest_first = pool.held[stream] as u64;
        pool.wait(When::OneIsFree, fewest_first).unwrap();
    }
    pool.free -= 1;
    pool.held[stream] += 1;
}

fn release(user: &mut User) {
    let stream = user.number();
    let mut pool = user.enter().unwrap();
    pool.free += 1;
    pool.held[stream] -= 1;
    pool.signal_leave(When::OneIsFree);
}

fn main() {
    let checks = Checks {
        inv: |pool: &Pool| pool.free + pool.held.iter().sum::<usize>() == BUFFERS,
        rest: |pool, waiting| pool.free == 0 || waiting.count(When::OneIsFree) == 0,
        ready: |_, _, pool, _| pool.free > 0,
    };
    let pool = Pool { free: BUFFERS, held: [0; STREAMS] };
    let (monitor, users) = Monitor::checked(pool, STREAMS, checks).unwrap();
    let works = |mut user: User| {
        for turn in 0..1000 {
            let wanted = 1 + (turn + user.number()) % 2; // if each of the 4 streams holds one, one is free
            (0..wanted).for_each(|_| acquire(&mut user));
            (0..wanted).for_each(|_| release(&mut user));
        }
    };
    let threads: Vec<_> = users.into_iter().map(|user| thread::spawn(move || works(user))).collect();
    threads.into_iter().for_each(|thread| thread.join().unwrap());
    assert_eq!(monitor.into_inner().unwrap().unwrap().free, BUFFERS);
    println!("{BUFFERS} buffers, all given back");
}
