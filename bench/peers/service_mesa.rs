// The disk service on a Mesa monitor: a lock, and a condition variable for each place, so that a signal wakes the
// thread that it names. The signaller continues, and the woken thread tests again. `service_mesa < JOBS` writes the
// report.
use std::collections::BTreeMap;
use std::ops::{Deref, DerefMut};
use std::sync::{Condvar, Mutex, MutexGuard};

const CONDITIONS: usize = 2;

// The data, and the waiters on each condition: by priority, then by time.
struct State<D> {
    data: D,
    waiting: [BTreeMap<(u64, u64), usize>; CONDITIONS],
    next_number: u64,
    called: Vec<bool>,
}

struct Monitor<D> {
    lock: Mutex<State<D>>,
    bells: Vec<Condvar>,
}

impl<D> Monitor<D> {
    fn new(data: D, places: usize) -> Self {
        let state = State { data, waiting: Default::default(), next_number: 0, called: vec![false; places] };
        Monitor { lock: Mutex::new(state), bells: (0..places).map(|_| Condvar::new()).collect() }
    }
}

// A place inside.
struct Inside<'a, D> {
    monitor: &'a Monitor<D>,
    state: MutexGuard<'a, State<D>>,
}

impl<D> Deref for Inside<'_, D> {
    type Target = D;

    fn deref(&self) -> &D {
        &self.state.data
    }
}

impl<D> DerefMut for Inside<'_, D> {
    fn deref_mut(&mut self) -> &mut D {
        &mut self.state.data
    }
}

impl<'a, D> Inside<'a, D> {
    fn enter(monitor: &'a Monitor<D>) -> Self {
        Inside { monitor, state: monitor.lock.lock().unwrap() }
    }

    fn wait(self, me: usize, cond: usize, priority: u64) -> Self {
        let Inside { monitor, mut state } = self;
        let number = state.next_number;
        state.next_number += 1;
        state.waiting[cond].insert((priority, number), me);
        state = monitor.bells[me].wait_while(state, |state| !state.called[me]).unwrap();
        state.called[me] = false;
        Inside { monitor, state }
    }

    fn queue(&self, cond: usize) -> bool {
        !self.state.waiting[cond].is_empty()
    }

    fn leave(self) {}

    // (the bell rings after the lock is free, so that the woken thread finds it free)
    fn signal_leave(mut self, cond: usize) {
        let Some((_, first)) = self.state.waiting[cond].pop_first() else { return };
        self.state.called[first] = true;
        let monitor = self.monitor;
        self.leave();
        monitor.bells[first].notify_one();
    }
}

include!("service_body.rs");
