//! A wait with a time limit. One thread keeps the time for any number of monitors: it sleeps until the first deadline
//! of all that wait with one, and then resumes each waiter that is due.
//!
//! A limit changes no order: a waiter has the priority that its thread passes, and a signal resumes the waiter of least
//! priority, of equal ones the longest waiting, whichever is due first. The clock thread signals to each waiter that is
//! due, whichever waits before it, and the others keep their order. `Limit::cancel` does the same for one waiter before
//! its deadline: a client is gone, for example. A thread may also wait on the condition by `Inside::wait`: the clock
//! thread never resumes it.
//!
//! The clock thread enters a monitor by a place of its own, which never waits. Before it resumes a waiter it tells it,
//! in the data, that its time is over. It hands the monitor off, so nothing happens in between: a waiter that another
//! thread resumed finds what it waited for, even if its time is over too. A limit isn't kept to the moment: the clock
//! thread waits until the monitor is free, and visits one monitor after the other.
use std::array::from_fn;
use std::mem::take;
use std::sync::atomic::{AtomicU64, Ordering::Relaxed};
use std::sync::{Arc, Condvar, Mutex, MutexGuard, PoisonError};
use std::thread::{spawn, JoinHandle};
use std::time::{Duration, Instant};
use zaulinte::{Condition, Inside, LockResult, Place};

/// The deadline of a waiter without a limit.
const NEVER: u64 = u64::MAX;

/// Data of a monitor whose threads wait with a limit.
pub trait Limited {
    /// Returns a flag that only the clock, a cancel and the waiter write: the first two set it before they resume a
    /// waiter whose time is over, and the waiter clears it. At a leave and at a wait it is false.
    fn is_over(&mut self) -> &mut bool;
}

/// The deadlines of the places that wait with a limit on one condition, by the places' numbers. 0: the place doesn't
/// wait so. Only a place inside uses them, so the monitor orders these accesses.
type Kept = Arc<[AtomicU64; 64]>;

/// Ends the wait of a place. Returns true if that place waited with a limit on the condition, in an error if a thread
/// panicked inside; else nothing happens.
fn end<T, C, M>(inside: &mut Inside<'_, T, C, M>, condition: C, kept: &Kept, waiter: usize) -> LockResult<bool>
where
    T: Limited + Send,
    C: Condition,
    M: Condition,
{
    if kept.get(waiter).is_none_or(|deadline| deadline.load(Relaxed) == 0) {
        return Ok(false);
    }
    *inside.is_over() = true;
    inside.signal_to(condition, waiter)
}

/// Resumes the waiters of one condition that are due at a time. Returns the first deadline of those that still wait.
type Watch = Box<dyn FnMut(u64) -> u64 + Send>;

#[derive(Default)]
struct Deadlines {
    /// For each watch no later than the first deadline of its waiters.
    first: Vec<u64>,
    /// The watches that the thread doesn't know yet.
    new: Vec<Watch>,
    is_ended: bool,
}

struct Shared {
    began: Instant,
    deadlines: Mutex<Deadlines>,
    changed: Condvar,
}

impl Shared {
    fn locked(&self) -> MutexGuard<'_, Deadlines> {
        self.deadlines.lock().unwrap_or_else(PoisonError::into_inner)
    }

    /// Returns the time in nanoseconds since the clock began.
    fn now(&self) -> u64 {
        self.began.elapsed().as_nanos() as u64
    }

    fn nanos_of(&self, deadline: Option<Instant>) -> u64 {
        let nanos = |at: Instant| at.saturating_duration_since(self.began).as_nanos();
        deadline.map_or(NEVER, |at| nanos(at).clamp(1, u128::from(NEVER - 1)) as u64)
    }

    /// Lets the thread get up at this time, or before.
    fn announce(&self, watch: usize, deadline: u64) {
        let mut deadlines = self.locked();
        let is_first = deadlines.first.iter().all(|&first| deadline < first);
        let first = &mut deadlines.first[watch];
        *first = deadline.min(*first);
        if is_first {
            self.changed.notify_one();
        }
    }

    /// Sleeps until a watch is due, and returns it, with the time; or nothing once the clock ends.
    fn next_due(&self, watches: &mut Vec<Watch>) -> Option<(usize, u64)> {
        let mut deadlines = self.locked();
        loop {
            watches.append(&mut deadlines.new);
            if deadlines.is_ended {
                return None;
            }
            let (now, first) = (self.now(), deadlines.first.iter().copied().min().unwrap_or(NEVER));
            if let Some(due) = deadlines.first.iter().position(|&first| first <= now) {
                deadlines.first[due] = NEVER; // a waiter that announces an earlier one meanwhile writes it again
                return Some((due, now));
            }
            let left = Duration::from_nanos(first - now); // over 500 years if there is no deadline
            let woken = self.changed.wait_timeout(deadlines, left);
            deadlines = woken.unwrap_or_else(PoisonError::into_inner).0;
        }
    }
}

/// The clock, with its thread. Keep it for as long as a thread may wait with a limit.
pub struct LimitClock {
    shared: Arc<Shared>,
    thread: Option<JoinHandle<()>>,
}

/// By this threads wait with a limit on one condition.
pub struct Limit<C> {
    shared: Arc<Shared>,
    watch: usize,
    condition: C,
    kept: Kept,
}

impl LimitClock {
    /// Begins a thread that keeps the time.
    pub fn new() -> LimitClock {
        let (deadlines, changed) = (Mutex::default(), Condvar::new());
        let shared = Arc::new(Shared { began: Instant::now(), deadlines, changed });
        let of_thread = shared.clone();
        let runs = move || {
            let mut watches = vec![];
            while let Some((due, now)) = of_thread.next_due(&mut watches) {
                let next = watches[due](now);
                of_thread.announce(due, next);
            }
        };
        LimitClock { shared, thread: Some(spawn(runs)) }
    }

    /// Watches the waiters of a condition. The clock keeps the place, until it is dropped.
    pub fn watch<T, C, M>(&self, mut place: Place<T, C, M>, condition: C) -> Limit<C>
    where
        T: Limited + Send + 'static,
        C: Condition + Send + 'static,
        M: Condition + 'static,
    {
        let kept: Kept = Arc::new(from_fn(|_| AtomicU64::new(0)));
        let of_thread = kept.clone();
        let watch = move |now| {
            let mut inside = place.enter().unwrap_or_else(PoisonError::into_inner);
            let mut first = NEVER;
            for (waiter, deadline) in of_thread.iter().enumerate() {
                let deadline = deadline.load(Relaxed);
                if deadline <= now {
                    _ = end(&mut inside, condition, &of_thread, waiter); // the waiter hears of a panic inside
                } else {
                    first = deadline.min(first);
                }
            }
            first
        };
        let mut deadlines = self.shared.locked();
        deadlines.new.push(Box::new(watch));
        deadlines.first.push(NEVER);
        Limit { shared: self.shared.clone(), watch: deadlines.first.len() - 1, condition, kept }
    }
}

impl Drop for LimitClock {
    fn drop(&mut self) {
        self.shared.locked().is_ended = true;
        self.shared.changed.notify_one();
        self.thread.take().map(JoinHandle::join);
    }
}

impl<C: Condition> Limit<C> {
    /// Waits on the condition with a priority, until a signal or until the deadline. Returns true if a thread
    /// signalled, and false if the time is over or a cancel ended the wait, in an error if a thread panicked inside. If
    /// a signal and the deadline come at once, either is returned; a signal is never lost by that, since it resumes
    /// another waiter then.
    pub fn wait<T, M>(
        &self,
        inside: &mut Inside<'_, T, C, M>,
        priority: u64,
        deadline: Option<Instant>,
    ) -> LockResult<bool>
    where
        T: Limited + Send,
        M: Condition,
    {
        let (mine, deadline) = (&self.kept[inside.place_number()], self.shared.nanos_of(deadline));
        mine.store(deadline, Relaxed);
        self.shared.announce(self.watch, deadline);
        let waited = inside.wait(self.condition, priority);
        mine.store(0, Relaxed);
        let is_over = take(inside.is_over());
        waited.map(|()| !is_over).map_err(|_| PoisonError::new(!is_over))
    }

    /// Ends the wait of the place with the number `waiter`, by another place that is inside. Returns true if that place
    /// was in `wait`, in an error if a thread panicked inside; else nothing happens, also if there is no such place.
    pub fn cancel<T, M>(&self, inside: &mut Inside<'_, T, C, M>, waiter: usize) -> LockResult<bool>
    where
        T: Limited + Send,
        M: Condition,
    {
        end(inside, self.condition, &self.kept, waiter)
    }
}
