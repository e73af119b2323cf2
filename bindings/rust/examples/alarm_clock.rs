//! An alarm clock, after Hoare: a sleeper waits, with its time of waking for a priority. A tick resumes the first
//! sleeper whose time has come, and each resumed sleeper resumes the next.
use std::thread;
use zaulinte::{conditions, Checks, Inside, Monitor, Place};

conditions! { enum When { WakeUp } }

#[derive(Default)]
struct Clock {
    now: u64,
    asked: usize,
}

type User = Place<Clock, When>;

fn wake_next(mut clock: Inside<'_, Clock, When>) {
    if clock.first(When::WakeUp).is_some_and(|at| at <= clock.now) {
        clock.signal_leave(When::WakeUp);
    }
}

// Returns how late it was resumed, in ticks.
fn wake_me(user: &mut User, ticks: u64) -> u64 {
    let mut clock = user.enter().unwrap();
    let at = clock.now + ticks;
    clock.asked += 1;
    if clock.now < at {
        clock.wait(When::WakeUp, at).unwrap();
    }
    let late = clock.now - at;
    wake_next(clock);
    late
}

// Never waits. Returns how many sleepers have begun so far.
fn tick(user: &mut User) -> usize {
    let mut clock = user.enter().unwrap();
    clock.now += 1;
    let asked = clock.asked;
    wake_next(clock);
    asked
}

fn main() {
    let checks = Checks {
        inv: |_: &Clock| true,
        rest: |clock, waiting| waiting.first(When::WakeUp).is_none_or(|at| clock.now < at),
        ready: |_, at, clock, _| at <= clock.now,
    };
    let (monitor, mut users) = Monitor::checked(Clock::default(), 6, checks).unwrap();
    let mut ticker = users.pop().unwrap();
    let sleepers: Vec<_> = users.into_iter().map(|mut user| thread::spawn(move || wake_me(&mut user, 10))).collect();
    while tick(&mut ticker) < 5 {
        thread::yield_now();
    }
    for _ in 0..10 {
        tick(&mut ticker);
    }
    let late: u64 = sleepers.into_iter().map(|sleeper| sleeper.join().unwrap()).sum();
    drop(ticker);
    assert_eq!((late, monitor.into_inner().unwrap().unwrap().asked), (0, 5));
    println!("5 woke at their time");
}
