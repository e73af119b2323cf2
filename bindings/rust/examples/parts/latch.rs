//! A latch: threads wait until it was counted down so many times. Then it is open, and stays so. Any number of threads
//! count down and wait.
//!
//! A file to copy, not proved, tested.
use zaulinte::{conditions, Checks, Monitor, Places, Refused};

conditions! { pub enum When { Open } }

/// How many threads may wait at once. More sleep until the latch is open.
pub const WAITERS: usize = 60;
/// A thread that counts down doesn't wait, so a few places serve any number.
const COUNTERS: usize = 4;

pub struct Count {
    left: u64,
    from: u64,
}

pub struct Latch {
    /// Shows what each thread does, by `{:#?}`.
    #[allow(dead_code)] // to show what each thread does: `{:#?}`
    pub monitor: Monitor<Count, When>,
    counters: Places<Count, When>,
    waiters: Places<Count, When>,
}

impl Latch {
    /// Makes a latch that opens after so many calls of `count_down`. Refused: `NoMemory`.
    pub fn new(count: u64) -> Result<Self, Refused> {
        let checks = Checks {
            inv: |count: &Count| count.left <= count.from,
            rest: |count, waiting| count.left > 0 || waiting.count(When::Open) == 0,
            ready: |_, _, count, _| count.left == 0,
        };
        let count = Count { left: count, from: count };
        let (monitor, mut places) = Monitor::checked(count, WAITERS + COUNTERS, checks)?;
        let counters = Places::new(places.split_off(WAITERS))?;
        Ok(Latch { monitor, counters, waiters: Places::new(places)? })
    }

    /// Counts down by one. Does nothing if the latch is open.
    pub fn count_down(&self) {
        let mut place = self.counters.borrow();
        let mut count = place.enter().unwrap();
        count.left = count.left.saturating_sub(1);
        if count.left == 0 {
            count.signal_leave(When::Open);
        }
    }

    /// Waits until the latch is open.
    pub fn wait(&self) {
        let mut place = self.waiters.borrow();
        let mut count = place.enter().unwrap();
        if count.left > 0 {
            count.wait(When::Open, 0).unwrap();
        }
        count.signal_leave(When::Open); // the next waiter
    }
}
