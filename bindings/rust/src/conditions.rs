//! Conditions by name.
use core::fmt::Debug;

/// The conditions of a monitor: an enum of yours, whose values have the indices from 0 to below `COUNT`. The macro
/// [`conditions!`](crate::conditions!) writes it.
pub trait Condition: Copy + Debug {
    /// The number of conditions.
    const COUNT: usize;
    /// The names, by index, for the messages of [`Checks`](crate::Checks). A condition without a name is shown by its
    /// index.
    const NAMES: &'static [&'static str] = &[];
    /// Returns the index of this condition.
    fn index(self) -> usize;
}

/// The conditions of a monitor without Mesa conditions, or without Hoare's, or without both: one for data alone.
#[derive(Clone, Copy, Debug)]
pub enum NoConditions {}

impl Condition for NoConditions {
    const COUNT: usize = 0;
    fn index(self) -> usize {
        match self {}
    }
}

/// Returns the number of conditions of a monitor's door: at least 1, as a door needs. If the monitor has none, no call
/// can name that one.
pub(crate) const fn count_of_door<C: Condition, M: Condition>() -> usize {
    match C::COUNT.saturating_add(M::COUNT) {
        0 => 1,
        count => count,
    }
}

/// Writes an enum of conditions.
///
/// ```
/// use zaulinte::{conditions, Condition};
/// conditions! {
///     /// Of a bounded buffer.
///     pub enum Buffer { NotFull, NotEmpty }
/// }
/// assert_eq!((Buffer::COUNT, Buffer::NotEmpty.index()), (2, 1));
/// ```
#[macro_export]
macro_rules! conditions {
    ($(#[$of_enum:meta])* $sees:vis enum $name:ident { $($(#[$of_one:meta])* $one:ident),+ $(,)? }) => {
        $(#[$of_enum])*
        #[derive(Clone, Copy, Debug, PartialEq, Eq)]
        $sees enum $name { $($(#[$of_one])* #[allow(missing_docs)] $one),+ }

        impl $crate::Condition for $name {
            const COUNT: usize = Self::NAMES.len();
            const NAMES: &'static [&'static str] = &[$(stringify!($one)),+];
            fn index(self) -> usize {
                self as usize
            }
        }
    };
}
