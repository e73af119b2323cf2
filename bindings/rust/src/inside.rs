//! A place inside, with its acts.
use crate::checks::Fault;
use crate::conditions::{Condition, NoConditions};
use crate::door::{Next, Seat};
use crate::monitor::Own;
use crate::notes::Does;
use crate::poison::LockResult;
use crate::recording::Kind;
use crate::{DefaultPort, Place, Port};
use core::fmt::{self, Debug};
use core::marker::PhantomData;
use core::ops::{Deref, DerefMut};
use core::sync::atomic::Ordering::Relaxed;

/// A place inside the monitor: the guard by which the data are used. The place leaves when it is dropped; if the thread
/// is unwinding from a panic that began inside, that also poisons the monitor.
///
/// A guard doesn't move to another thread. An act needs the guard alone: so two acts at once don't compile, nor does a
/// reference to the data that is kept over a wait.
///
/// # Panics
/// An act panics if a condition's index isn't below its enum's `COUNT`, and in a debug build if a check of
/// [`Checks`](crate::Checks) fails.
#[must_use = "the place leaves at once if the guard is unused"]
pub struct Inside<'a, T, C: Condition = NoConditions, M: Condition = NoConditions, P: Port = DefaultPort> {
    pub(crate) place: &'a mut Place<T, C, M, P>,
    panicked: bool, // before it entered
    stays: PhantomData<*const ()>,
}

// SAFETY: a shared guard lends the data shared, and nothing else
unsafe impl<T: Send + Sync, C: Condition, M: Condition, P: Port> Sync for Inside<'_, T, C, M, P> {}

/// Returns the number of a condition, below its enum's `COUNT`.
#[track_caller]
fn number_of<X: Condition>(condition: X) -> usize {
    let index = condition.index();
    assert!(index < X::COUNT, "there is no condition {condition:?}");
    index
}

/// Returns the number of a Mesa condition among all: they come after Hoare's.
#[track_caller]
fn number_of_mesa<C: Condition, M: Condition>(condition: M) -> usize {
    C::COUNT + number_of(condition)
}

impl<'a, T, C: Condition, M: Condition, P: Port> Inside<'a, T, C, M, P> {
    pub(crate) fn new(place: &'a mut Place<T, C, M, P>) -> Self {
        place.is_inside = true;
        Inside { place, panicked: P::panicking(), stays: PhantomData }
    }

    /// Returns the number of the place that is inside, as [`Place::number`] does. A thread puts it into the data before
    /// it waits, if a [`signal_to`](Inside::signal_to) is to resume it.
    pub fn place_number(&self) -> usize {
        self.place.seat.number()
    }

    /// Waits on one of Hoare's conditions: releases the monitor until a signal resumes this place. A signal resumes the
    /// waiter of least priority, of equal ones the longest waiting; [`signal_to`](Inside::signal_to) the one that it
    /// names. The data are then as the signaller left them. Returns an error if a thread panicked inside.
    #[track_caller]
    pub fn wait(&mut self, condition: C, priority: u64) -> LockResult<()> {
        let number = number_of(condition);
        self.check_wait(number, priority, &condition);
        self.wait_at(number, priority);
        self.check_ready(condition, priority);
        self.place.inner.or_poisoned(())
    }

    /// Waits on a Mesa condition: releases the monitor until a notify or a broadcast notified this place and its turn
    /// has come. The caller has to test again what it waited for. Returns an error if a thread panicked inside.
    #[track_caller]
    pub fn wait_mesa(&mut self, condition: M, priority: u64) -> LockResult<()> {
        let number = number_of_mesa::<C, M>(condition);
        self.check_wait(number, priority, &condition);
        self.wait_at(number, priority);
        self.place.inner.or_poisoned(())
    }

    /// Signals one of Hoare's conditions. If a place waits on it, hands off the monitor to the place that the signal
    /// resumes, and returns before any place enters. Returns true if a place waited, in an error if a thread panicked
    /// inside.
    #[track_caller]
    pub fn signal(&mut self, condition: C) -> LockResult<bool> {
        let number = number_of(condition);
        self.check_signal(condition, |inside| inside.queue(condition));
        self.place.record(Kind::Signal, number, 0);
        self.signal_by(number, |seat| seat.signal(number))
    }

    /// Signals one of Hoare's conditions to the place with the number `waiter`. If that place waits on the condition,
    /// hands off the monitor to it, whoever else waits, and returns before any place enters. Returns true if it waited
    /// there; else nothing happens, also if there is no such place. Returns an error if a thread panicked inside.
    ///
    /// Use it to end a wait early, since its time is over or a client is gone, or to resume one of many waiters by a
    /// key: each waiter puts its [`place_number`](Inside::place_number) into the data. The resumed thread finds out by
    /// the data why it resumes. What `ready` of [`Checks`](crate::Checks) says has to hold for that waiter, which may
    /// be another than the one that a signal would resume. The other waiters keep their order. Hoare's paper has no
    /// such call.
    #[track_caller]
    pub fn signal_to(&mut self, condition: C, waiter: usize) -> LockResult<bool> {
        let number = number_of(condition);
        let waits = self.place.inner.notes.waits(waiter, number);
        self.check_signal(condition, |_| waits);
        if waits {
            self.place.record_signal_to(number, waiter);
        }
        self.signal_by(number, |seat| seat.signal_to(number, waiter))
    }

    /// Signals one of Hoare's conditions as the last act. Returns true if a place waited on it.
    #[track_caller]
    pub fn signal_leave(mut self, condition: C) -> bool {
        let (number, mut has_waited) = (number_of(condition), false);
        if self.is_tested() && !self.place.seat.queue(number) {
            return false; // it leaves as it is dropped, with the tests of a leave
        }
        self.check_signal(condition, |_| true);
        if self.unwinds() {
            self.poison();
        }
        self.own().signaller = self.place.seat.number();
        self.place.record(Kind::Pass, number, 0);
        self.place.go_outside(|seat| seat.signal_leave(number, &mut has_waited));
        has_waited
    }

    /// Notifies the waiter on a Mesa condition that a signal would resume, and stays inside. Returns true if a place
    /// waited on it.
    #[track_caller]
    pub fn notify(&mut self, condition: M) -> bool {
        let number = number_of_mesa::<C, M>(condition);
        self.place.record(Kind::Notify, number, 0);
        let many = self.place.seat.notify(number);
        self.place.inner.notes.note_notified(number, many);
        many > 0
    }

    /// Notifies all waiters on a Mesa condition, and stays inside. Returns how many there were.
    #[track_caller]
    pub fn broadcast(&mut self, condition: M) -> usize {
        let number = number_of_mesa::<C, M>(condition);
        self.place.record(Kind::Broadcast, number, 0);
        let many = self.place.seat.broadcast(number);
        self.place.inner.notes.note_notified(number, many);
        many
    }

    /// Returns true if a place waits on one of Hoare's conditions (Hoare's `queue`).
    #[track_caller]
    pub fn queue(&mut self, condition: C) -> bool {
        self.place.seat.queue(number_of(condition))
    }

    /// Returns how many places wait on one of Hoare's conditions.
    #[track_caller]
    pub fn count(&mut self, condition: C) -> usize {
        self.place.seat.count(number_of(condition))
    }

    /// Returns the priority of the place that a signal would resume, if any waits on the condition.
    #[track_caller]
    pub fn first(&mut self, condition: C) -> Option<u64> {
        self.place.seat.first(number_of(condition))
    }

    /// Returns how many places wait on a Mesa condition; a notified place doesn't.
    #[track_caller]
    pub fn count_mesa(&mut self, condition: M) -> usize {
        self.place.seat.count(number_of_mesa::<C, M>(condition))
    }

    /// Returns the priority of the place that a notify would notify, if any waits on the condition.
    #[track_caller]
    pub fn first_mesa(&mut self, condition: M) -> Option<u64> {
        self.place.seat.first(number_of_mesa::<C, M>(condition))
    }
}

/// How the acts release the monitor.
impl<T, C: Condition, M: Condition, P: Port> Inside<'_, T, C, M, P> {
    pub(crate) fn own(&mut self) -> &mut Own<T> {
        // SAFETY: this place is inside, and no other is: a port reaches no guard whose place is away
        unsafe { &mut *self.place.inner.own.get() }
    }

    /// Returns true if the thread unwinds from a panic that began inside.
    fn unwinds(&self) -> bool {
        P::panicking() && !self.panicked
    }

    /// Poisons the monitor; the step that follows releases that.
    fn poison(&self) {
        self.place.inner.poisoned.store(true, Relaxed);
    }

    fn wait_at(&mut self, number: usize, priority: u64) {
        let place = self.place.seat.number();
        self.place.record(Kind::Wait, number, priority);
        self.place.inner.notes.note_away(place, Does::Waits, number, priority);
        self.place.inner.vacate();
        let next = self.place.seat.wait(number, priority);
        self.go_away(next);
        self.place.inner.occupy();
        self.place.inner.notes.note_back(place);
    }

    /// Signals by `step`, which returns the place that it resumes, if any. Returns true if it resumed one, in an error
    /// if a thread panicked inside.
    fn signal_by(&mut self, number: usize, step: impl FnOnce(&mut Seat) -> Next) -> LockResult<bool> {
        let place = self.place.seat.number();
        self.own().signaller = place;
        self.place.inner.notes.note_away(place, Does::HasSignalled, number, 0);
        self.place.inner.vacate();
        let next = step(&mut self.place.seat);
        if next.is_some() {
            self.go_away(next);
        }
        self.place.inner.occupy();
        self.place.inner.notes.note_back(place);
        self.place.inner.or_poisoned(next.is_some())
    }

    /// Blocks, after a step by which this place went away, until the place is inside again.
    fn go_away(&mut self, next: Next) {
        let Place { inner, seat, backs_off, to_resume, .. } = &mut *self.place;
        *backs_off = inner.parking.go_away(seat, to_resume, next);
    }
}

impl<T, C: Condition, M: Condition, P: Port> Deref for Inside<'_, T, C, M, P> {
    type Target = T;
    fn deref(&self) -> &T {
        // SAFETY: as in `own`
        unsafe { &(*self.place.inner.own.get()).data }
    }
}

impl<T, C: Condition, M: Condition, P: Port> DerefMut for Inside<'_, T, C, M, P> {
    fn deref_mut(&mut self) -> &mut T {
        &mut self.own().data
    }
}

impl<T: Debug, C: Condition, M: Condition, P: Port> Debug for Inside<'_, T, C, M, P> {
    fn fmt(&self, f: &mut fmt::Formatter<'_>) -> fmt::Result {
        f.debug_struct("Inside").field("place", &self.place.seat.number()).field("data", &**self).finish()
    }
}

/// Leaves when it is dropped, so also if a check panics; `is_at_fault` then is still true, and poisons.
struct Leaving<'b, 'a, T, C: Condition, M: Condition, P: Port> {
    inside: &'b mut Inside<'a, T, C, M, P>,
    is_at_fault: bool,
}

impl<T, C: Condition, M: Condition, P: Port> Drop for Leaving<'_, '_, T, C, M, P> {
    fn drop(&mut self) {
        if self.is_at_fault || self.inside.unwinds() {
            self.inside.poison();
        }
        self.inside.place.leave();
    }
}

impl<T, C: Condition, M: Condition, P: Port> Drop for Inside<'_, T, C, M, P> {
    fn drop(&mut self) {
        if !self.place.is_inside {
            return; // it signalled and left
        }
        let place = self.place.seat.number();
        let mut leaving = Leaving { inside: self, is_at_fault: true };
        let fault = leaving.inside.fault_at_leave();
        leaving.is_at_fault = fault.is_some();
        drop(leaving);
        match fault {
            None => {}
            Some(Fault::Inv) => panic!("`inv` doesn't hold when place {place} leaves"),
            Some(Fault::Rest(waiting)) => {
                panic!("`rest` doesn't hold when place {place} leaves, and there wait: {waiting:?}")
            }
        }
    }
}
