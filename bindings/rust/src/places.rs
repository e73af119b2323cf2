//! Places that threads borrow.
//!
//! Which places are free is one word, a bit a place: the thread that clears a bit has the place, until it sets the bit
//! again. If none is free the thread sleeps at the group's entrance, as entering threads do at the monitor's.
use crate::conditions::NoConditions;
use crate::parking::Entrance;
use crate::refused::room_for;
use crate::sync::AtomicU64;
use crate::{DefaultPort, Place, Port, Refused};
use alloc::sync::Arc;
use alloc::vec::Vec;
use core::cell::UnsafeCell;
use core::fmt;
use core::marker::PhantomData;
use core::ops::{Deref, DerefMut};
use core::sync::atomic::Ordering::SeqCst;

const MOST_PLACES: usize = 64;

/// Which places are free, on a cache line of its own.
#[repr(align(64))]
struct Free(AtomicU64);

impl Free {
    /// Creates the word of so many places, which are free: 1 to 64.
    fn new(places: usize) -> Free {
        Free(AtomicU64::new(u64::MAX >> (MOST_PLACES - places)))
    }

    /// Takes a free place. Returns its index, or nothing if none is free.
    fn take(&self) -> Option<usize> {
        let mut free = self.0.load(SeqCst);
        while free != 0 {
            let others = free & (free - 1);
            match self.0.compare_exchange(free, others, SeqCst, SeqCst) {
                Ok(_) => return Some(free.trailing_zeros() as usize),
                Err(now) => free = now,
            }
        }
        None
    }

    fn give_back(&self, index: usize) {
        self.0.fetch_add(1 << index, SeqCst); // its bit is clear
    }

    fn count(&self) -> u32 {
        self.0.load(SeqCst).count_ones()
    }
}

/// A group: places of one monitor that any number of threads share, by `&Places`. A thread borrows a place for a visit,
/// `let mut place = takers.borrow(); let mut inside = place.enter()?;`; or it keeps the place for as long as it likes,
/// and is attached.
///
/// **A thread that waits keeps its place.** So the threads that signal need a group of their own. If they share one
/// with the threads that wait, all places may wait, and then no thread that would signal gets a place: all sleep for
/// ever. A debug build panics at the wait by which all places of the monitor wait.
///
/// Not specified: which of several threads that want a place gets it first. `{group:?}` shows how many places are free,
/// and how many threads sleep until one is.
pub struct Places<T, C = NoConditions, M = NoConditions, P: Port = DefaultPort> {
    places: Vec<UnsafeCell<Place<T, C, M, P>>>,
    free: Free,
    entrance: Entrance<P>,
}

// SAFETY: a shared group moves places between threads, each of which is used by one thread at a time
unsafe impl<T, C, M, P: Port> Sync for Places<T, C, M, P> where Place<T, C, M, P>: Send {}

/// A place that was borrowed from its group [`Places`]: it derefs to the [`Place`]. It is given back when it is
/// dropped, so also if the thread panics. If the place is still inside then, since a guard was forgotten
/// (`mem::forget`), it leaves first. If a `Borrowed` is forgotten itself, no other thread gets its place, until
/// [`Places::into_inner`].
#[must_use = "the place is given back at once if it is unused"]
pub struct Borrowed<'a, T, C = NoConditions, M = NoConditions, P: Port = DefaultPort> {
    group: &'a Places<T, C, M, P>,
    index: usize,
    is: PhantomData<&'a mut Place<T, C, M, P>>,
}

#[cfg(feature = "std")]
impl<T, C, M> Places<T, C, M> {
    /// Makes a group of these places. Refused: `BadPlaces` there is no place, over 64, or places of several monitors;
    /// `NoMemory`. Then the places are dropped.
    pub fn new(places: Vec<Place<T, C, M>>) -> Result<Self, Refused> {
        Places::with_port(places, crate::StdPort::default())
    }
}

impl<T, C, M, P: Port> Places<T, C, M, P> {
    /// Makes a group of these places, as [`Monitor::with_port`](crate::Monitor::with_port) made them. Threads that
    /// borrow sleep and wake by `port`. Refused: `BadPlaces` there is no place, over 64, or places of several monitors;
    /// `NoMemory`. Then the places are dropped.
    pub fn with_port(places: Vec<Place<T, C, M, P>>, port: P) -> Result<Self, Refused> {
        let is_same = |pair: &[Place<T, C, M, P>]| Arc::ptr_eq(&pair[0].inner, &pair[1].inner);
        let count = places.len();
        if count == 0 || count > MOST_PLACES || !places.windows(2).all(is_same) {
            return Err(Refused::BadPlaces);
        }
        let mut cells = room_for(count)?;
        cells.extend(places.into_iter().map(UnsafeCell::new));
        Ok(Places { places: cells, free: Free::new(count), entrance: Entrance::new(port) })
    }

    /// Borrows a place. The thread sleeps until one is free.
    pub fn borrow(&self) -> Borrowed<'_, T, C, M, P> {
        let index = self.free.take().unwrap_or_else(|| self.borrow_later());
        self.lend(index)
    }

    /// Borrows a place if one is free at this moment, else returns nothing.
    pub fn try_borrow(&self) -> Option<Borrowed<'_, T, C, M, P>> {
        Some(self.lend(self.free.take()?))
    }

    /// Returns the places, in the order in which the group was made of them. None is borrowed.
    pub fn into_inner(self) -> Vec<Place<T, C, M, P>> {
        self.places.into_iter().map(UnsafeCell::into_inner).collect()
    }

    #[cold]
    fn borrow_later(&self) -> usize {
        let mut taken = None;
        let attempt = |_| {
            taken = self.free.take();
            taken.is_some()
        };
        self.entrance.sleep_until(attempt, || self.free.count() > 0);
        taken.unwrap()
    }

    fn lend(&self, index: usize) -> Borrowed<'_, T, C, M, P> {
        Borrowed { group: self, index, is: PhantomData }
    }
}

impl<T, C, M, P: Port> Deref for Borrowed<'_, T, C, M, P> {
    type Target = Place<T, C, M, P>;
    fn deref(&self) -> &Self::Target {
        // SAFETY: this thread cleared the place's bit, and it stays so until this is dropped
        unsafe { &*self.group.places[self.index].get() }
    }
}

impl<T, C, M, P: Port> DerefMut for Borrowed<'_, T, C, M, P> {
    fn deref_mut(&mut self) -> &mut Self::Target {
        // SAFETY: as above, and `&mut` has this alone
        unsafe { &mut *self.group.places[self.index].get() }
    }
}

impl<T, C, M, P: Port> Drop for Borrowed<'_, T, C, M, P> {
    fn drop(&mut self) {
        self.leave_if_inside();
        self.group.free.give_back(self.index);
        self.group.entrance.wake();
    }
}

impl<T, C, M, P: Port> fmt::Debug for Borrowed<'_, T, C, M, P> {
    fn fmt(&self, f: &mut fmt::Formatter<'_>) -> fmt::Result {
        f.debug_tuple("Borrowed").field(&**self).finish()
    }
}

/// Shows how many places there are, how many of them are free, and how many threads sleep until one is. Any thread may
/// do that at any time; if threads are running, the numbers may be of different moments.
impl<T, C, M, P: Port> fmt::Debug for Places<T, C, M, P> {
    fn fmt(&self, f: &mut fmt::Formatter<'_>) -> fmt::Result {
        let mut this = f.debug_struct("Places");
        this.field("places", &self.places.len()).field("free", &self.free.count());
        this.field("sleepers", &self.entrance.sleepers()).finish()
    }
}
