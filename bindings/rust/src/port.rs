//! What a monitor asks of its platform.
use core::sync::atomic::AtomicU32;

/// How threads sleep on a word and are woken: all that a monitor asks of its platform. `StdPort` is the one
/// of std, with the feature `std`. For another platform, a kernel say, write your own, and make the monitor by
/// [`Monitor::with_port`](crate::Monitor::with_port).
///
/// Each word on which threads sleep has a value of the port beside it: one word for each place, one for the threads
/// that wait to enter, and one for those that wait to borrow from a group [`Places`](crate::Places). The value has what
/// the platform needs there: std's has a mutex and a condition variable; one over futexes needs nothing.
///
/// A port that spins, for threads that each have a processor of their own:
///
/// ```
/// use std::sync::atomic::{AtomicU32, Ordering::SeqCst};
/// use zaulinte::{conditions, Checks, Monitor, NoConditions, Port};
/// conditions! { enum When { Ever } }
///
/// struct Spin;
/// // SAFETY: the functions spin and read the word, and do nothing else
/// unsafe impl Port for Spin {
///     const POLLS: u32 = 0; // `sleep_while` polls itself
///     fn sleep_while(&self, word: &AtomicU32, is: u32) {
///         while word.load(SeqCst) == is {
///             std::hint::spin_loop();
///         }
///     }
///     fn wake_one(&self, _: &AtomicU32) {}
/// }
///
/// let ports = || Spin;
/// let (_monitor, mut places) = Monitor::<u32, When, NoConditions, Spin>::with_port(0, 2, Checks::default(), ports)?;
/// *places[0].enter().unwrap() += 1;
/// assert_eq!(*places[1].enter().unwrap(), 1);
/// # Ok::<(), zaulinte::Refused>(())
/// ```
///
/// # Safety
/// While [`sleep_while`](Port::sleep_while) or [`wake_one`](Port::wake_one) runs, the calling thread's place may be
/// away and another place inside, and the calling thread's guard [`Inside`](crate::Inside) is still alive. So neither
/// function runs code that could reach that guard:
///
/// - It doesn't panic: a panic runs the panic hook, and then the caller's destructors. (If it unwinds while the place
///   is away, the monitor ends the program.)
/// - It ends neither the thread nor the program in a way that runs destructors: `std::process::exit` runs those of
///   thread locals, `std::process::abort` doesn't.
/// - It doesn't write the word: a thread that finds a wrong value there panics while its place is away.
///
/// When a port lets a thread sleep, and which thread it wakes, isn't a matter of safety but of progress: if it doesn't
/// wake a thread, that thread sleeps for ever.
pub unsafe trait Port: Send + Sync {
    /// For how many spin hints a thread polls before it sleeps: its place's own word if the place is away; an entering
    /// thread tries again after 1, 2, 4 .. hints, up to so many in one pause. More than a wake-up takes. After polls
    /// that missed, a place leaves out its next ones: first 1, at most 255. 0: no thread polls.
    const POLLS: u32 = 2000;

    /// Blocks the calling thread while `word` has the value `is`. For [`wake_one`](Port::wake_one) the test and the
    /// falling asleep are one step: a thread doesn't sleep through a change of the word that came before a wake-up.
    /// May return early.
    fn sleep_while(&self, word: &AtomicU32, is: u32);

    /// Wakes one of the threads that sleep on `word`, if any does, after the word was changed. Never blocks for long.
    fn wake_one(&self, word: &AtomicU32);

    /// Returns true if the calling thread is unwinding from a panic: a place that leaves then poisons the monitor, and
    /// its [`Checks`](crate::Checks) aren't tested. By default false: right if panics end the program.
    fn panicking() -> bool {
        false
    }

    /// Returns a number of the calling thread, by which `Debug` of a monitor names it. By default 0: it names none.
    fn thread() -> usize {
        0
    }
}

/// The port of a monitor that names none: that of std.
#[cfg(feature = "std")]
pub type DefaultPort = crate::StdPort;

/// The port of a monitor that names none: no such monitor can be made without the feature `std`.
#[cfg(not(feature = "std"))]
#[derive(Clone, Copy, Debug)]
pub enum DefaultPort {}

// SAFETY: there is no value of it
#[cfg(not(feature = "std"))]
unsafe impl Port for DefaultPort {
    fn sleep_while(&self, _: &AtomicU32, _: u32) {
        match *self {}
    }

    fn wake_one(&self, _: &AtomicU32) {
        match *self {}
    }
}
