//! What holds of a monitor's data, and the tests of that. In Rattle a proof shows it; a debug build tests it here.
use crate::conditions::{Condition, NoConditions};
use crate::{Inside, Port};
use core::fmt;
use core::marker::PhantomData;

/// Which conditions have waiters, at the moment of a check.
pub struct Waiting<C = NoConditions, M = NoConditions> {
    pub(crate) counts: [usize; 8],
    pub(crate) firsts: [Option<u64>; 8],
    pub(crate) of: PhantomData<(C, M)>,
}

impl<C: Condition, M: Condition> Waiting<C, M> {
    /// Returns how many places wait on one of Hoare's conditions.
    pub fn count(&self, condition: C) -> usize {
        self.counts[condition.index()]
    }

    /// Returns the priority of the place that a signal would resume.
    pub fn first(&self, condition: C) -> Option<u64> {
        self.firsts[condition.index()]
    }

    /// Returns how many places wait on a Mesa condition.
    pub fn count_mesa(&self, condition: M) -> usize {
        self.counts[C::COUNT + condition.index()]
    }
}

/// Shows each condition on which places wait, with their number and the least of their priorities.
impl<C: Condition, M: Condition> fmt::Debug for Waiting<C, M> {
    fn fmt(&self, f: &mut fmt::Formatter<'_>) -> fmt::Result {
        let mut map = f.debug_map();
        for (index, (count, first)) in self.counts.iter().zip(self.firsts).enumerate() {
            let Some(first) = first else { continue };
            let names = if index < C::COUNT { C::NAMES.get(index) } else { M::NAMES.get(index - C::COUNT) };
            match names {
                Some(name) => map.key(&format_args!("{name}")),
                None => map.key(&index),
            };
            map.value(&format_args!("{count} of least priority {first}"));
        }
        map.finish()
    }
}

/// What holds of a monitor's data. In a debug build each is tested as Hoare's rules ask; a panic names the condition or
/// the act by which it fails, and poisons the monitor. Nothing is tested in a release build, in a poisoned monitor, or
/// by a thread that panics. A check that panics itself poisons as well.
///
/// A debug build also panics at the wait by which all places of a monitor would wait: no place is left to signal or
/// notify, so all would sleep for ever. It does so with any checks, and for a monitor without any; but not if a place
/// was dropped, or its [`Borrowed`](crate::Borrowed) forgotten.
///
/// - `inv` holds always; tested whenever the monitor is released.
/// - `rest` holds if no place waits without a cause; tested at a leave and at a wait, with the places that wait (the
///   place that begins to wait included).
/// - `ready` holds for a place that a signal resumes; tested with its condition and priority, and the places that still
///   wait.
///
/// Only `rest` finds a forgotten signal, or one on the wrong condition. The functions capture nothing: what they
/// compare with, a limit say, is kept in the data.
pub struct Checks<T, C = NoConditions, M = NoConditions> {
    /// Holds always.
    pub inv: fn(data: &T) -> bool,
    /// Holds at a leave and at a wait.
    pub rest: fn(data: &T, waiting: &Waiting<C, M>) -> bool,
    /// Holds at a signal, for the place that it resumes.
    pub ready: fn(condition: C, priority: u64, data: &T, waiting: &Waiting<C, M>) -> bool,
}

impl<T, C, M> Default for Checks<T, C, M> {
    /// Returns checks that hold always, and find nothing. With this `rest` a forgotten signal isn't found: the waiter
    /// sleeps for ever, and no check reports it.
    fn default() -> Self {
        Checks { inv: |_| true, rest: |_, _| true, ready: |_, _, _, _| true }
    }
}

impl<T, C, M> Clone for Checks<T, C, M> {
    fn clone(&self) -> Self {
        *self
    }
}

impl<T, C, M> Copy for Checks<T, C, M> {}

/// What a debug build tests as the place leaves, and finds false.
pub(crate) enum Fault<C, M> {
    Inv,
    Rest(Waiting<C, M>),
}

/// The tests of a debug build.
impl<T, C: Condition, M: Condition, P: Port> Inside<'_, T, C, M, P> {
    fn waiting(&mut self) -> Waiting<C, M> {
        let mut waiting = Waiting { counts: [0; 8], firsts: [None; 8], of: PhantomData };
        for number in 0..C::COUNT + M::COUNT {
            waiting.counts[number] = self.place.seat.count(number);
            waiting.firsts[number] = self.place.seat.first(number);
        }
        waiting
    }

    pub(crate) fn is_tested(&self) -> bool {
        cfg!(debug_assertions) && !self.place.inner.is_poisoned() && !P::panicking()
    }

    #[track_caller]
    pub(crate) fn check_wait(&mut self, number: usize, priority: u64, condition: &dyn fmt::Debug) {
        if !self.is_tested() {
            return;
        }
        let (checks, place, mut waiting) = (self.place.inner.checks, self.place.seat.number(), self.waiting());
        waiting.counts[number] += 1;
        waiting.firsts[number] = Some(waiting.firsts[number].map_or(priority, |first| first.min(priority)));
        assert!((checks.inv)(self), "`inv` doesn't hold when place {place} waits on {condition:?}");
        assert!((checks.rest)(self, &waiting), "`rest` doesn't hold when place {place} waits on {condition:?}");
        let (waiters, all) = (waiting.counts.iter().sum::<usize>(), self.place.inner.parking.places());
        let is_left = waiters < all;
        assert!(is_left, "all {all} places wait when place {place} waits on {condition:?}: none is left to signal");
    }

    /// Tests `inv` before a signal, if that resumes a place, as `resumes` returns.
    #[track_caller]
    pub(crate) fn check_signal(&mut self, condition: C, resumes: impl FnOnce(&mut Self) -> bool) {
        if self.is_tested() && resumes(self) {
            let (checks, place) = (self.place.inner.checks, self.place.seat.number());
            assert!((checks.inv)(self), "`inv` doesn't hold when place {place} signals {condition:?}");
        }
    }

    /// Tests `ready` in the resumed thread: the queues are then as the signal left them.
    #[track_caller]
    pub(crate) fn check_ready(&mut self, condition: C, priority: u64) {
        if !self.is_tested() {
            return;
        }
        let (checks, waiting, signaller) = (self.place.inner.checks, self.waiting(), self.own().signaller);
        let is_ready = (checks.ready)(condition, priority, self, &waiting);
        assert!(is_ready, "`ready` of {condition:?} doesn't hold at the signal of place {signaller}");
    }

    pub(crate) fn fault_at_leave(&mut self) -> Option<Fault<C, M>> {
        if !self.is_tested() {
            return None;
        }
        let (checks, waiting) = (self.place.inner.checks, self.waiting());
        if !(checks.inv)(self) {
            return Some(Fault::Inv);
        }
        (!(checks.rest)(self, &waiting)).then_some(Fault::Rest(waiting))
    }
}
