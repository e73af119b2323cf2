//! The error of a poisoned monitor: std's, or the same without std. And what may be used after a caught panic.
use crate::{Borrowed, Condition, Inside, Monitor, Place, Places, Port};
use core::panic::{RefUnwindSafe, UnwindSafe};

#[cfg(feature = "std")]
pub use std::sync::{LockResult, PoisonError};

#[cfg(not(feature = "std"))]
pub use own::{LockResult, PoisonError};

// as with std's mutex: a thread that uses the data after a panic hears of the panic first
impl<T, C, M, P> UnwindSafe for Monitor<T, C, M, P> {}
impl<T, C, M, P> RefUnwindSafe for Monitor<T, C, M, P> {}
impl<T, C, M, P: Port> UnwindSafe for Place<T, C, M, P> {}
impl<T, C, M, P: Port> RefUnwindSafe for Place<T, C, M, P> {}
impl<T, C, M, P: Port> UnwindSafe for Places<T, C, M, P> {}
impl<T, C, M, P: Port> RefUnwindSafe for Places<T, C, M, P> {}
impl<T, C, M, P: Port> UnwindSafe for Borrowed<'_, T, C, M, P> {}
impl<T, C, M, P: Port> RefUnwindSafe for Borrowed<'_, T, C, M, P> {}
impl<T, C: Condition, M: Condition, P: Port> UnwindSafe for Inside<'_, T, C, M, P> {}
impl<T, C: Condition, M: Condition, P: Port> RefUnwindSafe for Inside<'_, T, C, M, P> {}

#[cfg(not(feature = "std"))]
mod own {
    use core::fmt;

    /// The error of a monitor inside of which a thread panicked, with what the call would have returned. With the
    /// feature `std` this is `std::sync::PoisonError`.
    pub struct PoisonError<X> {
        returned: X,
    }

    /// What a call returns that may find the monitor poisoned.
    pub type LockResult<X> = Result<X, PoisonError<X>>;

    impl<X> PoisonError<X> {
        /// Creates the error.
        pub fn new(returned: X) -> Self {
            PoisonError { returned }
        }

        /// Returns what the call would have returned.
        pub fn into_inner(self) -> X {
            self.returned
        }

        /// Returns a reference to what the call would have returned.
        pub fn get_ref(&self) -> &X {
            &self.returned
        }

        /// Returns a mutable reference to what the call would have returned.
        pub fn get_mut(&mut self) -> &mut X {
            &mut self.returned
        }
    }

    impl<X> fmt::Debug for PoisonError<X> {
        fn fmt(&self, f: &mut fmt::Formatter<'_>) -> fmt::Result {
            f.debug_struct("PoisonError").finish_non_exhaustive()
        }
    }

    impl<X> fmt::Display for PoisonError<X> {
        fn fmt(&self, f: &mut fmt::Formatter<'_>) -> fmt::Result {
            f.write_str("poisoned: a thread panicked inside of the monitor")
        }
    }

    impl<X> core::error::Error for PoisonError<X> {}
}
