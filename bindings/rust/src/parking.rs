//! How threads sleep until the monitor is theirs.
//!
//! The proved door says which place is inside; here its threads are put to sleep and woken, on a word for each place
//! and one for the entrance. Threads that borrow a place sleep at an entrance of their group. Why no wake-up is lost,
//! here and in C: `docs/WAKING.md` of the repository.
use crate::door::{Next, Seat};
use crate::refused::room_for;
use crate::sync::AtomicU32;
use crate::{Port, Refused};
use alloc::vec::Vec;
use core::hint::spin_loop;
use core::iter::successors;
use core::sync::atomic::{Ordering::Acquire, Ordering::SeqCst};

// The word of a place is AWAKE, ASLEEP, or rung: with RUNG by a thread that waits or signals, with LEFT by a thread
// that left the monitor. The word of an entrance is AWAKE or ASLEEP.
const AWAKE: u32 = 0;
const ASLEEP: u32 = 1;
const RUNG: u32 = 2;
const LEFT: u32 = 3;

/// The length of a back-off, in spin hints.
const BACK_OFF: u32 = 128;
/// The most polls that a place leaves out after one that missed.
const MOST: u32 = 255;

/// How a place released the monitor.
#[derive(Clone, Copy, PartialEq)]
pub(crate) enum Departure {
    /// It waits or has signalled, and returns.
    GoesAway,
    /// It left.
    Leaves,
}

/// A word on which threads sleep, on a cache line of its own.
#[repr(align(64))]
struct Bell<P> {
    word: AtomicU32,
    port: P,
}

impl<P: Port> Bell<P> {
    fn new(port: P) -> Self {
        Bell { word: AtomicU32::new(AWAKE), port }
    }

    fn sleep_while(&self, is: u32) {
        self.port.sleep_while(&self.word, is);
    }

    fn wake_one(&self) {
        self.port.wake_one(&self.word);
    }

    /// Returns true if the monitor is owed to the place.
    fn is_rung(&self) -> bool {
        // a hint, for which any order would do: the swap in `go_away` acquires the ring
        matches!(self.word.load(Acquire), RUNG | LEFT)
    }

    /// Polls the word at most `most` times, until it is rung. Returns true if it is.
    fn polls(&self, most: u32) -> bool {
        (0..most).any(|_| {
            spin_loop();
            self.is_rung()
        })
    }

    /// Sleeps until the word is rung.
    fn sleep_until_rung(&self) {
        if self.word.compare_exchange(AWAKE, ASLEEP, SeqCst, SeqCst).is_ok() {
            while self.word.load(SeqCst) == ASLEEP {
                self.sleep_while(ASLEEP);
            }
        }
    }
}

/// The polls of a place, to enter or to resume. After polls that missed, a place leaves out its next 1, 3, 7 .. at most
/// `MOST` polls: if the thread for which it waits has no processor, or sleeps, polls only take time.
#[derive(Default)]
pub(crate) struct Patience {
    /// The polls that missed since the last hit, at most 8: then `skips` is `MOST`.
    misses: u32,
    /// How many of the next polls are left out.
    skips: u32,
}

impl Patience {
    /// Polls by `poll`, unless that is left out. Returns true if `poll` did.
    fn polls(&mut self, poll: impl FnOnce() -> bool) -> bool {
        if self.skips > 0 {
            self.skips -= 1;
            return false;
        }
        let is_hit = poll();
        if is_hit {
            self.misses = 0;
        } else if 1 << self.misses <= MOST {
            self.misses += 1;
        }
        self.skips = (1 << self.misses) - 1;
        is_hit
    }
}

/// Tries to enter after 1, 2, 4 .. spin hints, up to `most`. Returns true if the place entered.
fn tries(seat: &mut Seat, most: u32) -> bool {
    let hints = successors(Some(1_u32), |hints| hints.checked_mul(2));
    hints.take_while(|&hints| hints <= most).any(|hints| {
        (0..hints).for_each(|_| spin_loop());
        seat.try_enter()
    })
}

/// Ends the program if a thread unwinds while its place is away: the caller still has the guard, and the data are
/// another place's.
struct EndsIfUnwound;

impl Drop for EndsIfUnwound {
    fn drop(&mut self) {
        panic!("a thread can't unwind while its place is away"); // the second panic at once ends the program
    }
}

/// Where threads sleep until they get what only so many may have at once: the monitor, or a place of a group.
pub(crate) struct Entrance<P> {
    bell: Bell<P>,
    /// The threads that sleep here, or are about to, or have been woken and haven't got it yet.
    sleepers: AtomicU32,
}

impl<P: Port> Entrance<P> {
    pub(crate) fn new(port: P) -> Self {
        Entrance { bell: Bell::new(port), sleepers: AtomicU32::new(0) }
    }

    /// Wakes a thread if one sleeps. The caller has made free what threads sleep for.
    #[inline]
    pub(crate) fn wake(&self) {
        // SeqCst, since the caller's step comes before it; in `sleep_until` the attempt comes after the write
        if self.bell.word.load(SeqCst) == ASLEEP {
            self.wake_sleeper();
        }
    }

    #[cold]
    fn wake_sleeper(&self) {
        if self.bell.word.swap(AWAKE, SeqCst) == ASLEEP {
            self.bell.wake_one();
        }
    }

    /// Sleeps until an attempt gets what the thread wants. `attempt(true)` may poll. `is_more_free` returns true if
    /// another thread could get it too at this moment.
    pub(crate) fn sleep_until(&self, mut attempt: impl FnMut(bool) -> bool, is_more_free: impl FnOnce() -> bool) {
        self.sleepers.fetch_add(1, SeqCst);
        loop {
            // SeqCst, since the attempt comes after it; in `wake` the read comes after the caller's step
            self.bell.word.swap(ASLEEP, SeqCst);
            if attempt(false) {
                break;
            }
            self.bell.sleep_while(ASLEEP);
            if attempt(true) {
                break;
            }
        }
        if self.sleepers.fetch_sub(1, SeqCst) > 1 {
            self.bell.word.swap(ASLEEP, SeqCst);
            if is_more_free() {
                self.wake_sleeper(); // those that made it free may have found AWAKE
            }
        }
    }

    /// Returns how many threads sleep here or are about to.
    pub(crate) fn sleepers(&self) -> u32 {
        self.sleepers.load(SeqCst)
    }
}

/// The words of a monitor's threads.
pub(crate) struct Parking<P> {
    entrance: Entrance<P>,
    bells: Vec<Bell<P>>,
}

impl<P: Port> Parking<P> {
    /// Creates the words of so many places. Refused: `NoMemory`.
    pub(crate) fn new(places: usize, mut ports: impl FnMut() -> P) -> Result<Self, Refused> {
        let mut bells = room_for(places)?;
        bells.extend((0..places).map(|_| Bell::new(ports())));
        Ok(Parking { entrance: Entrance::new(ports()), bells })
    }

    /// Returns the number of places.
    pub(crate) fn places(&self) -> usize {
        self.bells.len()
    }

    /// Wakes the place that a step returned. If it returned none the monitor is free, and an entering thread is woken
    /// if one sleeps. `departure` is the way in which the place of that step released the monitor.
    #[inline]
    pub(crate) fn wake(&self, next: Next, departure: Departure) {
        let Some(place) = next else { return self.entrance.wake() };
        let bell = &self.bells[place];
        let how = if departure == Departure::Leaves { LEFT } else { RUNG };
        // at least Release: the place that sees the ring has to see the step
        if bell.word.swap(how, SeqCst) == ASLEEP {
            bell.wake_one();
        }
    }

    /// Enters, after an attempt that failed: polls, then sleeps while the monitor isn't free.
    #[cold]
    pub(crate) fn enter_later(&self, seat: &mut Seat, patience: &mut Patience) {
        if patience.polls(|| tries(seat, P::POLLS)) {
            return;
        }
        let attempt = |polls| seat.try_enter() || (polls && patience.polls(|| tries(seat, P::POLLS)));
        self.entrance.sleep_until(attempt, || false); // inside it has the monitor alone
    }

    /// Wakes the next thread after a step by which `seat` went away, and returns inside once the monitor is owed to it.
    /// Returns true if a place that left handed it off.
    pub(crate) fn go_away(&self, seat: &mut Seat, patience: &mut Patience, next: Next) -> bool {
        let ends = EndsIfUnwound;
        self.wake(next, Departure::GoesAway);
        let bell = &self.bells[seat.number()];
        if !bell.is_rung() && !patience.polls(|| bell.polls(P::POLLS)) {
            bell.sleep_until_rung();
        }
        // at least Acquire: what is seen of the door afterwards is no older than the ring
        let has_left = bell.word.swap(AWAKE, SeqCst) == LEFT;
        assert!(seat.try_return(), "place {} was woken and the monitor isn't owed to it", seat.number());
        core::mem::forget(ends);
        has_left
    }
}

/// Lets others enter first. If place P leaves and hands off the monitor to Q, then Q would mostly enter again before P
/// does, find its condition false again and wait: each visit would cost a hand-off.
#[cold]
pub(crate) fn back_off() {
    (0..BACK_OFF).for_each(|_| spin_loop());
}

#[cfg(test)]
mod tests {
    use super::Patience;

    /// Returns how many polls `patience` leaves out before the next one, which hits or misses.
    fn left_out_before(is_hit: bool, patience: &mut Patience) -> usize {
        let mut has_polled = false;
        let mut polls_once = || {
            patience.polls(|| {
                has_polled = true;
                is_hit
            });
            has_polled
        };
        (0..5000).take_while(|_| !polls_once()).count()
    }

    #[test]
    fn a_place_leaves_out_more_polls_after_each_miss_and_none_after_a_hit() {
        let mut patience = Patience::default();
        let misses = [0, 1, 3, 7, 15, 31, 63, 127, 255, 255];
        assert_eq!(misses.map(|_| left_out_before(false, &mut patience)), misses);
        let then = [true, true, false, true, false];
        assert_eq!(then.map(|is_hit| left_out_before(is_hit, &mut patience)), [255, 0, 0, 1, 0]);
    }
}
