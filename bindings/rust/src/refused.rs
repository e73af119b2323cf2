//! Refusals.
use alloc::vec::Vec;
use core::fmt;

/// Why a call was refused. The call changed nothing then. If several refusals apply, a call returns the one that its
/// documentation names first.
#[derive(Clone, Copy, Debug, PartialEq, Eq)]
pub enum Refused {
    /// No place has this number.
    NoPlace,
    /// The place is to enter while another place is inside.
    NotFree,
    /// The place is to enter while it waits, was notified or has signalled.
    NotOutside,
    /// The place is to act, but isn't inside.
    NotInside,
    /// No condition has this number.
    NoCondition,
    /// A signal or a pass on a Mesa condition, or a notify or a broadcast on one of Hoare's.
    WrongKind,
    /// No place, or over 64.
    BadPlaces,
    /// No condition, over 8, or more Mesa conditions than conditions.
    BadConditions,
    /// An allocation failed.
    NoMemory,
}

impl Refused {
    /// Returns the refusal with this code, of those in `zaulinte_book.h` and `zaulinte_door.h`.
    ///
    /// # Panics
    /// If the code is of a fault that this crate doesn't make, as of an empty handle.
    pub(crate) fn of(code: u64) -> Refused {
        match code {
            101 => Refused::NoPlace,
            102 => Refused::NotFree,
            103 => Refused::NotOutside,
            104 => Refused::NotInside,
            105 => Refused::NoCondition,
            106 => Refused::WrongKind,
            109 => Refused::BadPlaces,
            110 => Refused::BadConditions,
            111 => Refused::NoMemory,
            code => unreachable!("the archive returned {code}"),
        }
    }
}

/// Returns an empty vector with room for `count`. Refused: `NoMemory`.
pub(crate) fn room_for<X>(count: usize) -> Result<Vec<X>, Refused> {
    let mut room = Vec::new();
    room.try_reserve_exact(count).map_err(|_| Refused::NoMemory)?;
    Ok(room)
}

impl fmt::Display for Refused {
    fn fmt(&self, f: &mut fmt::Formatter<'_>) -> fmt::Result {
        f.write_str(match self {
            Refused::NoPlace => "there is no such place",
            Refused::NotFree => "the monitor isn't free",
            Refused::NotOutside => "the place isn't outside, or another thread has it",
            Refused::NotInside => "the place isn't inside",
            Refused::NoCondition => "there is no such condition",
            Refused::WrongKind => "the condition is of the other kind",
            Refused::BadPlaces => "a monitor has 1 to 64 places",
            Refused::BadConditions => "a monitor has 1 to 8 conditions",
            Refused::NoMemory => "out of memory",
        })
    }
}

impl core::error::Error for Refused {}
