//! A monitor and its places.
use crate::conditions::{count_of_door, Condition, NoConditions};
use crate::door::{Door, Next, Seat};
use crate::notes::{Does, Notes, Shown};
use crate::parking::{back_off, Departure, Parking, Patience};
use crate::poison::{LockResult, PoisonError};
use crate::recording::{Act, Kind, Recorder, Recording};
use crate::refused::room_for;
use crate::{Checks, DefaultPort, Inside, Port, Refused};
use alloc::format;
use alloc::string::String;
use alloc::sync::Arc;
use alloc::vec::Vec;
use core::any::type_name;
use core::cell::UnsafeCell;
use core::fmt;
use core::marker::PhantomData;
use core::sync::atomic::{AtomicBool, Ordering::Acquire, Ordering::Relaxed, Ordering::Release};

/// What only the place inside uses.
pub(crate) struct Own<T> {
    pub(crate) data: T,
    /// The last place that signalled.
    pub(crate) signaller: usize,
}

/// What a monitor and its places share.
pub(crate) struct Inner<T, C, M, P> {
    _door: Door, // closes with its last owner
    pub(crate) parking: Parking<P>,
    pub(crate) notes: Notes,
    recorder: Recorder,
    pub(crate) poisoned: AtomicBool,
    /// True while a place is inside, in a debug build.
    occupied: AtomicBool,
    pub(crate) checks: Checks<T, C, M>,
    pub(crate) own: UnsafeCell<Own<T>>,
}

// SAFETY: only the place inside touches `own`, so `own` only moves between threads. No thread touches `_door` until it
// is dropped, and its last owner drops it
unsafe impl<T: Send, C, M, P: Sync> Sync for Inner<T, C, M, P> {}

impl<T, C, M, P> Inner<T, C, M, P> {
    /// Tests, in a debug build, that the door let in only one place. This also shows the order of the visits to
    /// ThreadSanitizer, which doesn't see into the archive.
    pub(crate) fn occupy(&self) {
        if cfg!(debug_assertions) {
            assert!(!self.occupied.swap(true, Acquire), "two places are inside");
        }
    }

    /// Undoes `occupy`, before a step that may release the monitor.
    pub(crate) fn vacate(&self) {
        if cfg!(debug_assertions) {
            assert!(self.occupied.swap(false, Release), "the place inside isn't known");
        }
    }

    pub(crate) fn is_poisoned(&self) -> bool {
        self.poisoned.load(Relaxed) // inside it is ordered by the steps of the door, as the data are
    }

    /// Returns `answer`, in an error if a thread panicked inside.
    pub(crate) fn or_poisoned<X>(&self, answer: X) -> LockResult<X> {
        if self.is_poisoned() {
            Err(PoisonError::new(answer))
        } else {
            Ok(answer)
        }
    }
}

/// A monitor of data `T`, with Hoare's conditions `C` and Mesa conditions `M`, at most 8 in all. Threads use it by its
/// [`Place`]s. They sleep and wake by the port `P`.
///
/// `Monitor<T>` is for data alone: a place enters and leaves, and can't wait. Its door and its recordings have one
/// condition, since a door has 1 to 8.
///
/// If the monitor is dropped while places are left, they keep what they share, and continue to work.
///
/// A monitor of data that mustn't move to another thread, an `Rc` say, doesn't compile.
pub struct Monitor<T, C = NoConditions, M = NoConditions, P = DefaultPort>(Arc<Inner<T, C, M, P>>);

/// A place of a monitor: the thread that owns the place may enter. A place moves between threads, and can't be copied.
/// Each act borrows it as `&mut`, so two threads can't act by one place.
///
/// If there are more threads than places, threads borrow them from a group [`Places`](crate::Places).
///
/// A place that is dropped goes back to its monitor. If it is still inside then, since a guard was forgotten
/// (`mem::forget`), it leaves first. Until then no other place enters.
pub struct Place<T, C = NoConditions, M = NoConditions, P: Port = DefaultPort> {
    pub(crate) seat: Seat, // before `inner`, whose door closes only after the place was given back
    pub(crate) inner: Arc<Inner<T, C, M, P>>,
    pub(crate) is_inside: bool,
    /// True if the place was handed the monitor by a place that left.
    pub(crate) backs_off: bool,
    to_enter: Patience,
    pub(crate) to_resume: Patience,
}

#[cfg(feature = "std")]
impl<T: Send, C: Condition, M: Condition> Monitor<T, C, M> {
    /// Makes a monitor with its 1 to 64 places, each at the index of its number. Refused: `BadPlaces`, `BadConditions`,
    /// `NoMemory`.
    #[allow(clippy::type_complexity)]
    pub fn new(data: T, places: usize) -> Result<(Self, Vec<Place<T, C, M>>), Refused> {
        Monitor::checked(data, places, Checks::default())
    }

    /// Makes a monitor as [`Monitor::new`] does; a debug build tests `checks`. Refused: `BadPlaces`,
    /// `BadConditions`, `NoMemory`.
    #[allow(clippy::type_complexity)]
    pub fn checked(data: T, places: usize, checks: Checks<T, C, M>) -> Result<(Self, Vec<Place<T, C, M>>), Refused> {
        Monitor::with_port(data, places, checks, crate::StdPort::default)
    }
}

impl<T: Send, C: Condition, M: Condition, P: Port> Monitor<T, C, M, P> {
    /// Makes a monitor whose threads sleep and wake by the caller's port `P`, with its 1 to 64 places, each at the
    /// index of its number. `ports` is called once for each place and once more. A debug build tests `checks`. Refused:
    /// `BadPlaces`, `BadConditions`, `NoMemory`; then the data are dropped. The last allocation is that of an `Arc`,
    /// for what the monitor and its places share: if it fails the program ends, as elsewhere in Rust.
    #[allow(clippy::type_complexity)]
    pub fn with_port(
        data: T,
        places: usize,
        checks: Checks<T, C, M>,
        ports: impl FnMut() -> P,
    ) -> Result<(Self, Vec<Place<T, C, M, P>>), Refused> {
        let mut door = Door::new(places, count_of_door::<C, M>(), M::COUNT)?;
        let parking = Parking::new(places, ports)?;
        let (notes, recorder) = (Notes::new(places)?, Recorder::default());
        let mut all = room_for(places)?;
        let mut seats = room_for(places)?;
        for _ in 0..places {
            seats.push(door.give_out()?);
        }
        let (poisoned, occupied) = (AtomicBool::new(false), AtomicBool::new(false));
        let own = UnsafeCell::new(Own { data, signaller: 0 });
        let inner = Arc::new(Inner { _door: door, parking, notes, recorder, poisoned, occupied, checks, own });
        seats.reverse(); // the door gave the last place out first
        let place = |seat| Place {
            seat,
            inner: Arc::clone(&inner),
            is_inside: false,
            backs_off: false,
            to_enter: Patience::default(),
            to_resume: Patience::default(),
        };
        all.extend(seats.into_iter().map(place));
        Ok((Monitor(inner), all))
    }

    /// Returns true if a thread panicked inside.
    pub fn is_poisoned(&self) -> bool {
        self.0.is_poisoned()
    }

    /// Forgets that a thread panicked inside.
    pub fn clear_poison(&self) {
        self.0.poisoned.store(false, Relaxed); // no data depend on it
    }

    /// Records the acts of all places from now on, and keeps the last of them, so many. `places` are all places of the
    /// monitor: so none is in a call. Refused: `NotOutside` a place isn't among them, or is inside since its guard was
    /// forgotten; `NoMemory`.
    ///
    /// # Panics
    /// If the monitor records already.
    #[track_caller]
    pub fn record(&self, places: &mut [Place<T, C, M, P>], acts: usize) -> Result<(), Refused> {
        let is_mine = |place: &Place<T, C, M, P>| Arc::ptr_eq(&place.inner, &self.0) && !place.is_inside;
        if places.len() != self.0.parking.places() || !places.iter().all(is_mine) {
            return Err(Refused::NotOutside);
        }
        self.0.recorder.set(Recording::new(acts)?);
        Ok(())
    }

    /// Returns the recording as a script, which the script program replays and the page draws. If the ring overflowed
    /// it begins with acts that bring a new monitor into the state in which the ring begins. Returns nothing if the
    /// monitor doesn't record, or if acts are recorded all the time while it reads. Any thread may call it at any time.
    ///
    /// A script has no line for [`Inside::signal_to`]. If that resumes the place that a signal would resume, it is
    /// recorded as a signal. If it resumes another place, the recording begins anew, in the state after that act, and
    /// the acts before it are lost. If it resumes none, it isn't recorded.
    pub fn recording(&self) -> Option<String> {
        let lines = self.0.recorder.get()?.lines(self.0.notes.inside())?;
        let (places, conditions) = (self.0.parking.places(), count_of_door::<C, M>());
        Some(format!("monitor {places} {conditions} {}\n{lines}", M::COUNT))
    }

    /// Returns the data, if each place was dropped, in an error if a thread panicked inside. Else returns nothing, and
    /// the places keep the data.
    pub fn into_inner(self) -> Option<LockResult<T>> {
        let Inner { poisoned, own, .. } = Arc::into_inner(self.0)?;
        let data = own.into_inner().data;
        Some(if poisoned.into_inner() { Err(PoisonError::new(data)) } else { Ok(data) })
    }
}

impl<T: Send, C: Condition, M: Condition, P: Port> Place<T, C, M, P> {
    /// Returns the number of the place, from 0.
    pub fn number(&self) -> usize {
        self.seat.number()
    }

    /// Enters once the monitor is free: no place is inside, is resumed or notified, or has signalled and is yet to
    /// return. The thread sleeps until then. Returns the guard, in an error if a thread panicked inside, as
    /// `Mutex::lock` does.
    ///
    /// # Panics
    /// If the place is inside, since an earlier guard was forgotten (`mem::forget`). In a debug build also if the thread
    /// is inside by another place: it would sleep for ever.
    #[track_caller]
    pub fn enter(&mut self) -> LockResult<Inside<'_, T, C, M, P>> {
        self.must_be_outside();
        if cfg!(debug_assertions) {
            if let Some(other) = self.inner.notes.inside_by(P::thread()) {
                panic!("place {} enters, but its thread is inside by place {other}", self.number());
            }
        }
        if core::mem::take(&mut self.backs_off) {
            back_off();
        }
        if !self.seat.try_enter() {
            self.inner.notes.note(self.number(), Does::Enters, P::thread());
            self.inner.parking.enter_later(&mut self.seat, &mut self.to_enter);
        }
        self.entered()
    }

    /// Enters if the monitor is free at this moment, and returns as [`Place::enter`] does; else returns nothing.
    ///
    /// # Panics
    /// If the place is inside, since an earlier guard was forgotten (`mem::forget`).
    #[must_use = "the place leaves at once if the guard is unused"]
    #[track_caller]
    pub fn try_enter(&mut self) -> Option<LockResult<Inside<'_, T, C, M, P>>> {
        self.must_be_outside();
        self.seat.try_enter().then(|| self.entered())
    }

    #[track_caller]
    fn must_be_outside(&self) {
        assert!(!self.is_inside, "place {} is inside: its guard was forgotten", self.number());
    }

    fn entered(&mut self) -> LockResult<Inside<'_, T, C, M, P>> {
        self.inner.occupy();
        self.inner.notes.note(self.seat.number(), Does::IsInside, P::thread());
        let is_poisoned = self.inner.is_poisoned();
        let inside = Inside::new(self);
        if is_poisoned {
            Err(PoisonError::new(inside))
        } else {
            Ok(inside)
        }
    }
}

/// Shows what each place does, by which thread, and in which order the places that are away resume. Any
/// thread may do that at any time; if threads are running, its parts may be of different moments.
impl<T, C: Condition, M: Condition, P: Port> fmt::Debug for Monitor<T, C, M, P> {
    fn fmt(&self, f: &mut fmt::Formatter<'_>) -> fmt::Result {
        let mut this = f.debug_struct("Monitor");
        this.field("data", &format_args!("{}", type_name::<T>())).field("is_poisoned", &self.0.is_poisoned());
        this.field("places", &Shown::<C, M> { notes: &self.0.notes, of: PhantomData }).finish()
    }
}

impl<T, C, M, P: Port> Place<T, C, M, P> {
    /// Records an act of this place, which is inside, before its step.
    #[inline]
    pub(crate) fn record(&self, kind: Kind, condition: usize, priority: u64) {
        if let Some(recording) = self.inner.recorder.get() {
            recording.note(Act { kind, place: self.seat.number(), condition, priority });
        }
    }

    /// Records a signal of this place, which is inside, to a place that waits on the condition, before its step.
    pub(crate) fn record_signal_to(&self, condition: usize, waiter: usize) {
        let Some(recording) = self.inner.recorder.get() else { return };
        let act = Act { kind: Kind::Signal, place: self.seat.number(), condition, priority: 0 };
        if self.inner.notes.is_first(waiter, condition) {
            recording.note(act);
        } else {
            recording.begin_anew(act, waiter);
        }
    }

    /// Leaves, and wakes the next thread.
    pub(crate) fn leave(&mut self) {
        self.record(Kind::Leave, 0, 0);
        self.go_outside(Seat::leave);
    }

    /// Leaves if the place is inside, since its guard was forgotten.
    pub(crate) fn leave_if_inside(&mut self) {
        if self.is_inside {
            self.leave();
        }
    }

    /// Makes a step by which this place leaves, and wakes the next thread.
    pub(crate) fn go_outside(&mut self, step: impl FnOnce(&mut Seat) -> Next) {
        self.inner.notes.note(self.seat.number(), Does::IsOutside, 0);
        self.inner.vacate();
        let next = step(&mut self.seat);
        self.is_inside = false;
        self.inner.parking.wake(next, Departure::Leaves);
    }
}

impl<T, C, M, P: Port> Drop for Place<T, C, M, P> {
    fn drop(&mut self) {
        self.leave_if_inside();
    }
}

impl<T, C, M, P: Port> fmt::Debug for Place<T, C, M, P> {
    fn fmt(&self, f: &mut fmt::Formatter<'_>) -> fmt::Result {
        let mut this = f.debug_struct("Place");
        this.field("number", &self.seat.number()).field("is_inside", &self.is_inside);
        this.finish_non_exhaustive()
    }
}
