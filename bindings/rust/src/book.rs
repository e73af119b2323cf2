//! The proved queue book: which place is inside after each step, for one thread at a time, as
//! `bindings/c/zaulinte_book.h` has it. [`Monitor`](crate::Monitor) doesn't need it.
use crate::handle::Handle;

pub use crate::Refused;

extern "C" {
    fn zaulinte_book_make(book: &mut Handle, places: u64, conditions: u64, mesa: u64) -> u64;
    fn zaulinte_book_free(book: &mut Handle) -> u64;
    fn zaulinte_book_enter(book: &mut Handle, place: u64) -> u64;
    fn zaulinte_book_leave(book: &mut Handle, place: u64) -> u64;
    fn zaulinte_book_wait(book: &mut Handle, place: u64, condition: u64, priority: u64) -> u64;
    fn zaulinte_book_signal(book: &mut Handle, place: u64, condition: u64) -> u64;
    fn zaulinte_book_signal_to(book: &mut Handle, place: u64, condition: u64, waiter: u64) -> u64;
    fn zaulinte_book_pass(book: &mut Handle, place: u64, condition: u64) -> u64;
    fn zaulinte_book_notify(book: &mut Handle, place: u64, condition: u64) -> u64;
    fn zaulinte_book_broadcast(book: &mut Handle, place: u64, condition: u64) -> u64;
    fn zaulinte_book_now(book: &mut Handle) -> u64;
    fn zaulinte_book_places(book: &mut Handle) -> u64;
    fn zaulinte_book_conditions(book: &mut Handle) -> u64;
    fn zaulinte_book_outside(book: &mut Handle, place: u64) -> u64;
    fn zaulinte_book_first(book: &mut Handle, condition: u64, priority: &mut u64) -> u64;
    fn zaulinte_book_count(book: &mut Handle, condition: u64, count: &mut u64) -> u64;
}

/// Returns the place that is inside after a step.
fn inside(code: u64) -> Result<Option<usize>, Refused> {
    match code {
        0..=63 => Ok(Some(code as usize)),
        64 => Ok(None),
        code => Err(Refused::of(code)),
    }
}

/// The queues of one monitor. Each step returns the place that is inside after it, if any is.
///
/// ```
/// let mut book = zaulinte::book::Book::new(2, 1, 0)?; // 2 places, 1 condition, no Mesa condition
/// book.enter(0)?;
/// assert_eq!(book.wait(0, 0, 7)?, None);
/// book.enter(1)?;
/// assert_eq!(book.signal(1, 0)?, Some(0)); // place 0 resumes at once
/// assert_eq!(book.leave(0)?, Some(1)); // and the signaller is back
/// # Ok::<(), zaulinte::Refused>(())
/// ```
pub struct Book(Handle);

macro_rules! steps {
    ($($(#[$doc:meta])* $name:ident($($arg:ident: $of:ty),+) by $call:ident;)+) => {
        $($(#[$doc])*
        pub fn $name(&mut self, $($arg: $of),+) -> Result<Option<usize>, Refused> {
            // SAFETY: the book was made, and the archive alone writes it
            inside(unsafe { $call(&mut self.0, $($arg as u64),+) })
        })+
    };
}

impl Book {
    /// Makes a book of 1 to 64 places and 1 to 8 conditions, of which the last `mesa` are Mesa conditions. Refused:
    /// `BadPlaces`, `BadConditions`, `NoMemory`.
    pub fn new(places: usize, conditions: usize, mesa: usize) -> Result<Book, Refused> {
        let mut handle = Handle::EMPTY;
        // SAFETY: the handle is empty
        match unsafe { zaulinte_book_make(&mut handle, places as u64, conditions as u64, mesa as u64) } {
            0 => Ok(Book(handle)),
            code => Err(Refused::of(code)),
        }
    }

    steps! {
        /// Lets the place enter. Refused: `NoPlace`, `NotFree`, `NotOutside`.
        enter(place: usize) by zaulinte_book_enter;
        /// Lets the place inside leave. Refused: `NoPlace`, `NotInside`.
        leave(place: usize) by zaulinte_book_leave;
        /// Lets the place inside wait. Refused: `NoPlace`, `NotInside`, `NoCondition`.
        wait(place: usize, condition: usize, priority: u64) by zaulinte_book_wait;
        /// Lets the place inside signal one of Hoare's conditions. Refused: `NoPlace`, `NotInside`, `NoCondition`,
        /// `WrongKind`.
        signal(place: usize, condition: usize) by zaulinte_book_signal;
        /// Lets the place inside signal one of Hoare's conditions to the place `waiter`. If that place waits on the
        /// condition, it resumes at once, whoever else waits; else nothing happens, also if there is no such place.
        /// Refused: `NoPlace`, `NotInside`, `NoCondition`, `WrongKind`.
        signal_to(place: usize, condition: usize, waiter: usize) by zaulinte_book_signal_to;
        /// Lets the place inside signal one of Hoare's conditions, and leave. Refused: `NoPlace`, `NotInside`,
        /// `NoCondition`, `WrongKind`.
        pass(place: usize, condition: usize) by zaulinte_book_pass;
        /// Lets the place inside notify the place that a signal would resume. Refused: `NoPlace`, `NotInside`,
        /// `NoCondition`, `WrongKind`.
        notify(place: usize, condition: usize) by zaulinte_book_notify;
        /// Lets the place inside notify all places that wait on a Mesa condition. Refused: `NoPlace`, `NotInside`,
        /// `NoCondition`, `WrongKind`.
        broadcast(place: usize, condition: usize) by zaulinte_book_broadcast;
    }

    /// Returns the place that is inside, if any is.
    pub fn now(&mut self) -> Option<usize> {
        // SAFETY: the book was made, and the archive alone writes it
        let code = unsafe { zaulinte_book_now(&mut self.0) };
        (code < 64).then_some(code as usize)
    }

    /// Returns the number of places.
    pub fn places(&mut self) -> usize {
        // SAFETY: the book was made, and the archive alone writes it
        unsafe { zaulinte_book_places(&mut self.0) as usize }
    }

    /// Returns the number of conditions.
    pub fn conditions(&mut self) -> usize {
        // SAFETY: the book was made, and the archive alone writes it
        unsafe { zaulinte_book_conditions(&mut self.0) as usize }
    }

    /// Returns true if the place is outside. Refused: `NoPlace`.
    pub fn outside(&mut self, place: usize) -> Result<bool, Refused> {
        // SAFETY: the book was made, and the archive alone writes it
        match unsafe { zaulinte_book_outside(&mut self.0, place as u64) } {
            code @ (0 | 1) => Ok(code == 1),
            code => Err(Refused::of(code)),
        }
    }

    /// Returns the priority of the place that a signal would resume, if any waits on the condition. Refused:
    /// `NoCondition`.
    pub fn first(&mut self, condition: usize) -> Result<Option<u64>, Refused> {
        let mut priority = 0;
        // SAFETY: the book was made, and the archive alone writes it
        match unsafe { zaulinte_book_first(&mut self.0, condition as u64, &mut priority) } {
            0 => Ok(None),
            1 => Ok(Some(priority)),
            code => Err(Refused::of(code)),
        }
    }

    /// Returns how many places wait on a condition. Refused: `NoCondition`.
    pub fn count(&mut self, condition: usize) -> Result<usize, Refused> {
        let mut count = 0;
        // SAFETY: the book was made, and the archive alone writes it
        match unsafe { zaulinte_book_count(&mut self.0, condition as u64, &mut count) } {
            0 => Ok(count as usize),
            code => Err(Refused::of(code)),
        }
    }
}

impl Drop for Book {
    fn drop(&mut self) {
        // SAFETY: the book was made, and the archive alone writes it
        unsafe { zaulinte_book_free(&mut self.0) };
    }
}
