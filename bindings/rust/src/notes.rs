//! What each place does, as it notes it for `Debug` of its monitor.
//!
//! A place notes what it does before the step that sends it away, while it is inside; a place that notifies others notes
//! that of them. So one thread at a time writes a note. Any thread may read it at any time. All accesses are relaxed: a
//! place inside sees the notes before it by the steps of the door, and what others read may be of different moments.
use crate::conditions::Condition;
use crate::refused::room_for;
use crate::Refused;
use alloc::vec::Vec;
use core::fmt;
use core::iter::successors;
use core::marker::PhantomData;
use core::sync::atomic::{AtomicU64, AtomicU8, AtomicUsize, Ordering::Relaxed};

/// What a place does.
#[derive(Clone, Copy, PartialEq)]
#[repr(u8)]
pub(crate) enum Does {
    IsOutside,
    Enters,
    IsInside,
    Waits,
    HasSignalled,
    WasNotified,
}

const ALL: [Does; 6] =
    [Does::IsOutside, Does::Enters, Does::IsInside, Does::Waits, Does::HasSignalled, Does::WasNotified];

/// The note of a place, on a cache line of its own.
#[derive(Default)]
#[repr(align(64))]
struct Note {
    does: AtomicU8,
    condition: AtomicU8,
    /// How many places were sent away, or notified, before it was.
    order: AtomicU64,
    priority: AtomicU64,
    thread: AtomicUsize,
}

impl Note {
    fn does(&self) -> Does {
        ALL[usize::from(self.does.load(Relaxed))]
    }

    fn is_on(&self, condition: Option<usize>) -> bool {
        condition.is_none_or(|number| usize::from(self.condition.load(Relaxed)) == number)
    }

    /// Returns true if its place resumes before that of `other`, which is away for the same reason.
    fn is_before(&self, other: &Note) -> bool {
        let turn = |note: &Note| (note.priority.load(Relaxed), note.order.load(Relaxed));
        turn(self) < turn(other)
    }
}

/// The notes of a monitor's places.
pub(crate) struct Notes {
    all: Vec<Note>,
    /// The order of the next place that is sent away or notified.
    order: AtomicU64,
}

impl Notes {
    pub(crate) fn new(places: usize) -> Result<Notes, Refused> {
        let mut all = room_for(places)?;
        all.resize_with(places, Note::default);
        Ok(Notes { all, order: AtomicU64::new(0) })
    }

    /// Notes that a place enters, is inside or is outside, by the calling thread with this number.
    #[inline]
    pub(crate) fn note(&self, place: usize, does: Does, thread: usize) {
        self.all[place].does.store(does as u8, Relaxed);
        self.all[place].thread.store(thread, Relaxed);
    }

    /// Notes, by the place inside, why a place will be away.
    pub(crate) fn note_away(&self, place: usize, does: Does, condition: usize, priority: u64) {
        let (note, order) = (&self.all[place], self.order.load(Relaxed));
        self.order.store(order + 1, Relaxed);
        note.condition.store(condition as u8, Relaxed);
        note.priority.store(priority, Relaxed);
        note.order.store(order, Relaxed);
        note.does.store(does as u8, Relaxed);
    }

    /// Notes that a place is inside again.
    pub(crate) fn note_back(&self, place: usize) {
        self.all[place].does.store(Does::IsInside as u8, Relaxed);
    }

    /// Notes, by the place inside, that so many waiters on a condition were notified.
    pub(crate) fn note_notified(&self, condition: usize, many: usize) {
        for _ in 0..many {
            if let Some(place) = self.next_away(Does::Waits, Some(condition), None) {
                self.note_away(place, Does::WasNotified, condition, 0);
            }
        }
    }

    /// Returns the place that resumes first of those that do so, on this condition or on any, and resume after `last`.
    fn next_away(&self, does: Does, condition: Option<usize>, last: Option<usize>) -> Option<usize> {
        let is_later = |note: &Note| last.is_none_or(|last| self.all[last].is_before(note));
        let is_one = |note: &Note| note.does() == does && note.is_on(condition) && is_later(note);
        let numbers = (0..self.all.len()).filter(|&place| is_one(&self.all[place]));
        numbers.reduce(|first, place| if self.all[place].is_before(&self.all[first]) { place } else { first })
    }

    /// Returns true if the place waits on one of Hoare's conditions. Exact for a caller that is inside: only the waiter
    /// itself writes the note of such a wait, and once it is resumed it does so before it acts.
    pub(crate) fn waits(&self, place: usize, condition: usize) -> bool {
        self.all.get(place).is_some_and(|note| note.does() == Does::Waits && note.is_on(Some(condition)))
    }

    /// Returns true if a signal would resume the place, which waits on one of Hoare's conditions. Exact, as `waits`.
    pub(crate) fn is_first(&self, place: usize, condition: usize) -> bool {
        self.next_away(Does::Waits, Some(condition), None) == Some(place)
    }

    /// Returns the place that is inside, if there is one.
    pub(crate) fn inside(&self) -> Option<usize> {
        self.all.iter().position(|note| note.does() == Does::IsInside)
    }

    /// Returns the place by which the thread with this number, if it isn't 0, is inside.
    pub(crate) fn inside_by(&self, thread: usize) -> Option<usize> {
        let is_its = |note: &Note| note.does() == Does::IsInside && note.thread.load(Relaxed) == thread;
        self.all.iter().position(|note| thread != 0 && is_its(note))
    }

    /// Returns the places that do so, the first to resume first.
    fn away(&self, does: Does, condition: Option<usize>) -> impl Iterator<Item = usize> + '_ {
        let first = self.next_away(does, condition, None);
        successors(first, move |&last| self.next_away(does, condition, Some(last))).take(self.all.len())
    }
}

/// Shows what each place does, and in which order the places that are away resume.
pub(crate) struct Shown<'a, C, M> {
    pub(crate) notes: &'a Notes,
    pub(crate) of: PhantomData<(C, M)>,
}

/// A condition, by its number among all.
struct Named<C, M>(usize, PhantomData<(C, M)>);

impl<C: Condition, M: Condition> fmt::Debug for Named<C, M> {
    fn fmt(&self, f: &mut fmt::Formatter<'_>) -> fmt::Result {
        let name = if self.0 < C::COUNT { C::NAMES.get(self.0) } else { M::NAMES.get(self.0 - C::COUNT) };
        match name {
            Some(name) => f.write_str(name),
            None => write!(f, "condition {}", self.0),
        }
    }
}

/// Shows what one place does.
struct OfPlace<'a, C, M>(&'a Note, PhantomData<(C, M)>);

impl<C: Condition, M: Condition> fmt::Debug for OfPlace<'_, C, M> {
    fn fmt(&self, f: &mut fmt::Formatter<'_>) -> fmt::Result {
        let OfPlace(note, of) = self;
        let on = Named::<C, M>(usize::from(note.condition.load(Relaxed)), *of);
        match note.does() {
            Does::IsOutside => return f.write_str("outside"),
            Does::Enters => f.write_str("enters")?,
            Does::IsInside => f.write_str("inside")?,
            Does::Waits => write!(f, "waits on {on:?} with priority {}", note.priority.load(Relaxed))?,
            Does::HasSignalled => write!(f, "has signalled {on:?}")?,
            Does::WasNotified => write!(f, "was notified on {on:?}")?,
        }
        match note.thread.load(Relaxed) {
            0 => Ok(()),
            thread => write!(f, ", thread {thread:#x}"),
        }
    }
}

impl<C: Condition, M: Condition> fmt::Debug for Shown<'_, C, M> {
    fn fmt(&self, f: &mut fmt::Formatter<'_>) -> fmt::Result {
        let mut map = f.debug_map();
        for (place, note) in self.notes.all.iter().enumerate() {
            map.entry(&format_args!("place {place}"), &OfPlace::<C, M>(note, PhantomData));
        }
        let mut show = |words: fmt::Arguments<'_>, does, condition| {
            let places: Vec<usize> = self.notes.away(does, condition).collect();
            if !places.is_empty() {
                map.entry(&words, &places);
            }
        };
        show(format_args!("to return from a signal"), Does::HasSignalled, None);
        show(format_args!("to resume as notified"), Does::WasNotified, None);
        for number in 0..C::COUNT + M::COUNT {
            let on = Named::<C, M>(number, PhantomData);
            show(format_args!("waiting on {on:?}"), Does::Waits, Some(number));
        }
        map.finish()
    }
}
