// A Hoare monitor over std's Mutex and Condvar: one control lock, a condition variable for each place. The signaller
// hands the monitor to the waiter and joins the urgent queue. Waiters are ordered by priority, then by time. The order
// among entering threads isn't specified.
use std::cell::UnsafeCell;
use std::collections::VecDeque;
use std::sync::{Condvar, Mutex, MutexGuard};

const CONDITIONS: usize = 8;

type Lists = [Vec<(u64, u64, usize)>; CONDITIONS];

struct Control {
    busy: bool,
    asking: usize,
    next_number: u64,
    waiting: Lists,
    urgent: VecDeque<usize>,
    go: Vec<bool>,
}

struct Monitor<D> {
    control: Mutex<Control>,
    newcomers: Condvar,
    bells: Vec<Condvar>,
    data: UnsafeCell<D>,
}

unsafe impl<D: Send> Sync for Monitor<D> {}

impl<D> Monitor<D> {
    fn new(data: D, places: usize) -> Self {
        let control = Control { busy: false, asking: 0, next_number: 0, waiting: Default::default(), urgent: VecDeque::new(), go: vec![false; places] };
        Monitor { control: Mutex::new(control), newcomers: Condvar::new(), bells: (0..places).map(|_| Condvar::new()).collect(), data: UnsafeCell::new(data) }
    }

    #[allow(clippy::mut_from_ref)]
    fn data(&self) -> &mut D {
        unsafe { &mut *self.data.get() }
    }

    fn enter(&self) {
        let mut c = self.control.lock().unwrap();
        c.asking += 1;
        while c.busy {
            c = self.newcomers.wait(c).unwrap();
        }
        c.asking -= 1;
        c.busy = true;
    }

    fn give_up(&self, mut c: MutexGuard<'_, Control>) {
        match c.urgent.pop_front() {
            Some(place) => {
                c.go[place] = true;
                self.bells[place].notify_one();
            }
            None => {
                c.busy = false;
                // (std's notify_one is a system call, even if no thread waits)
                if c.asking > 0 {
                    self.newcomers.notify_one();
                }
            }
        }
    }

    fn leave(&self) {
        self.give_up(self.control.lock().unwrap());
    }

    fn sleep(&self, me: usize, mut c: MutexGuard<'_, Control>) {
        while !c.go[me] {
            c = self.bells[me].wait(c).unwrap();
        }
        c.go[me] = false;
    }

    fn wait(&self, me: usize, cond: usize, priority: u64) {
        let mut c = self.control.lock().unwrap();
        let number = c.next_number;
        c.next_number += 1;
        c.go[me] = false;
        let at = c.waiting[cond].partition_point(|w| (w.0, w.1) <= (priority, number));
        c.waiting[cond].insert(at, (priority, number, me));
        self.give_up(c);
        self.sleep(me, self.control.lock().unwrap());
    }

    fn signal(&self, me: usize, cond: usize) -> bool {
        let mut c = self.control.lock().unwrap();
        if c.waiting[cond].is_empty() {
            return false;
        }
        let (_, _, w) = c.waiting[cond].remove(0);
        c.urgent.push_back(me);
        c.go[w] = true;
        self.bells[w].notify_one();
        self.sleep(me, c);
        true
    }

    fn signal_leave(&self, cond: usize) {
        let mut c = self.control.lock().unwrap();
        if c.waiting[cond].is_empty() {
            return self.give_up(c);
        }
        let (_, _, w) = c.waiting[cond].remove(0);
        c.go[w] = true;
        self.bells[w].notify_one();
    }

    fn lists<T>(&self, see: impl FnOnce(&Lists) -> T) -> T {
        see(&self.control.lock().unwrap().waiting)
    }

    fn queue(&self, cond: usize) -> bool {
        self.lists(|lists| !lists[cond].is_empty())
    }
}
