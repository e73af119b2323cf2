//! The proved door: its steps, as Rust calls them (`bindings/c/zaulinte_door.h`). No step blocks, and none wakes a
//! thread: a step that releases the monitor returns the place whose thread the caller has to wake.
use crate::handle::Handle;
use crate::Refused;

extern "C" {
    fn zaulinte_door_make(door: &mut Handle, places: u64, conditions: u64, mesa: u64, value: u64) -> u64;
    fn zaulinte_door_give_out(door: &mut Handle, place: &mut Handle) -> u64;
    fn zaulinte_door_give_back(place: &mut Handle) -> u64;
    fn zaulinte_door_collect(door: &mut Handle) -> u64;
    fn zaulinte_door_close(door: &mut Handle, value: &mut u64) -> u64;
    fn zaulinte_door_try_enter(place: &mut Handle) -> u64;
    fn zaulinte_door_leave(place: &mut Handle) -> u64;
    fn zaulinte_door_wait(place: &mut Handle, condition: u64, priority: u64) -> u64;
    fn zaulinte_door_signal(place: &mut Handle, condition: u64) -> u64;
    fn zaulinte_door_signal_to(place: &mut Handle, condition: u64, waiter: u64) -> u64;
    fn zaulinte_door_signal_leave(place: &mut Handle, condition: u64, resumed: &mut u64) -> u64;
    fn zaulinte_door_notify(place: &mut Handle, condition: u64) -> u64;
    fn zaulinte_door_broadcast(place: &mut Handle, condition: u64) -> u64;
    fn zaulinte_door_try_return(place: &mut Handle) -> u64;
    fn zaulinte_door_queue(place: &mut Handle, condition: u64) -> u64;
    fn zaulinte_door_first(place: &mut Handle, condition: u64, priority: &mut u64) -> u64;
    fn zaulinte_door_count(place: &mut Handle, condition: u64) -> u64;
}

/// `ZAULINTE_DOOR_NOBODY`, and `ZAULINTE_DOOR_ENTERED`.
const NOBODY: u64 = 64;
/// `ZAULINTE_DOOR_NOT_NOW`.
const NOT_NOW: u64 = 102;

/// The place that a step returned, whose thread is to be woken.
pub(crate) type Next = Option<usize>;

/// Returns the number that a step returned.
///
/// # Panics
/// If the step was refused: this crate makes no such call.
fn done(code: u64) -> u64 {
    assert!(code <= NOBODY, "the door refused a step: {code}");
    code
}

fn next(code: u64) -> Next {
    (done(code) < NOBODY).then_some(code as usize)
}

fn has_entered(code: u64) -> bool {
    code != NOT_NOW && done(code) == NOBODY
}

/// A door. It closes when it is dropped, if each place was given back; else its memory is lost.
pub(crate) struct Door(Handle);

impl Door {
    /// Makes a door of 1 to 64 places and 1 to 8 conditions, the last `mesa` of which are Mesa conditions. Refused:
    /// `BadPlaces`, `BadConditions`, `NoMemory`.
    pub(crate) fn new(places: usize, conditions: usize, mesa: usize) -> Result<Door, Refused> {
        let mut door = Door(Handle::EMPTY);
        // SAFETY: the handle is empty
        match unsafe { zaulinte_door_make(&mut door.0, places as u64, conditions as u64, mesa as u64, 0) } {
            0 => Ok(door),
            code => Err(Refused::of(code)),
        }
    }

    /// Gives a place out. A new door gives its last place out first. Refused: `NoMemory`.
    ///
    /// # Panics
    /// If all places are out.
    pub(crate) fn give_out(&mut self) -> Result<Seat, Refused> {
        let mut handle = Handle::EMPTY;
        // SAFETY: the door was made, and the place's handle is empty
        match unsafe { zaulinte_door_give_out(&mut self.0, &mut handle) } {
            code if code < NOBODY => Ok(Seat { handle, number: code as usize }),
            code => Err(Refused::of(code)),
        }
    }
}

impl Drop for Door {
    fn drop(&mut self) {
        // SAFETY: the archive alone wrote the handle. A refusal leaves the door as it is, and lost
        unsafe { zaulinte_door_collect(&mut self.0) };
        // SAFETY: as above
        unsafe { zaulinte_door_close(&mut self.0, &mut 0) };
    }
}

/// A place of a door. It is given back when it is dropped, if it is outside; else it is lost, with its memory.
pub(crate) struct Seat {
    handle: Handle,
    number: usize,
}

// SAFETY, of each call: `give_out` filled the handle, which the archive alone wrote since, and `&mut` has it alone
impl Seat {
    /// Returns the number by which a step returns this place, below the number of places.
    pub(crate) fn number(&self) -> usize {
        self.number
    }

    /// Enters if the monitor is free at this moment; returns true if so.
    pub(crate) fn try_enter(&mut self) -> bool {
        has_entered(unsafe { zaulinte_door_try_enter(&mut self.handle) })
    }

    /// Returns from a wait or a signal if the monitor is owed to this place at this moment; returns true if so.
    pub(crate) fn try_return(&mut self) -> bool {
        has_entered(unsafe { zaulinte_door_try_return(&mut self.handle) })
    }

    /// Leaves the monitor.
    pub(crate) fn leave(&mut self) -> Next {
        next(unsafe { zaulinte_door_leave(&mut self.handle) })
    }

    /// Waits on the condition: the place is away then, until `try_return` succeeds.
    pub(crate) fn wait(&mut self, condition: usize, priority: u64) -> Next {
        next(unsafe { zaulinte_door_wait(&mut self.handle, condition as u64, priority) })
    }

    /// Signals the condition. If a place waits on it, that place is next, and this place is away; else this place is
    /// still inside.
    pub(crate) fn signal(&mut self, condition: usize) -> Next {
        next(unsafe { zaulinte_door_signal(&mut self.handle, condition as u64) })
    }

    /// Signals the condition to the place `waiter`. If that place waits on it, it is next, whoever else waits, and this
    /// place is away; else this place is still inside.
    pub(crate) fn signal_to(&mut self, condition: usize, waiter: usize) -> Next {
        next(unsafe { zaulinte_door_signal_to(&mut self.handle, condition as u64, waiter as u64) })
    }

    /// Signals the condition and leaves, in one step. Sets `has_waited` to true if a place waited on the condition: then
    /// that place is next.
    pub(crate) fn signal_leave(&mut self, condition: usize, has_waited: &mut bool) -> Next {
        let mut resumed = 0;
        let next = next(unsafe { zaulinte_door_signal_leave(&mut self.handle, condition as u64, &mut resumed) });
        *has_waited = resumed == 1;
        next
    }

    /// Notifies the place that a signal would resume. Returns how many were notified, 1 or 0.
    pub(crate) fn notify(&mut self, condition: usize) -> usize {
        done(unsafe { zaulinte_door_notify(&mut self.handle, condition as u64) }) as usize
    }

    /// Notifies all places that wait on the condition. Returns how many were notified.
    pub(crate) fn broadcast(&mut self, condition: usize) -> usize {
        done(unsafe { zaulinte_door_broadcast(&mut self.handle, condition as u64) }) as usize
    }

    /// Returns true if a place waits on the condition.
    pub(crate) fn queue(&mut self, condition: usize) -> bool {
        done(unsafe { zaulinte_door_queue(&mut self.handle, condition as u64) }) == 1
    }

    /// Returns how many places wait on the condition.
    pub(crate) fn count(&mut self, condition: usize) -> usize {
        done(unsafe { zaulinte_door_count(&mut self.handle, condition as u64) }) as usize
    }

    /// Returns the priority of the place that a signal would resume, if any waits on the condition.
    pub(crate) fn first(&mut self, condition: usize) -> Option<u64> {
        let mut priority = 0;
        let code = unsafe { zaulinte_door_first(&mut self.handle, condition as u64, &mut priority) };
        (done(code) == 1).then_some(priority)
    }
}

impl Drop for Seat {
    fn drop(&mut self) {
        unsafe { zaulinte_door_give_back(&mut self.handle) };
    }
}
