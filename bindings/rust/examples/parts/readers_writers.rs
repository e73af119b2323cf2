//! Readers and writers, after Hoare: several readers read at once, a writer writes alone. A waiting writer goes before
//! new readers, and after a writer all waiting readers go before the next writer. Any number of threads read and write.
//!
//! What they read is outside of the monitor, which guards the counts alone. That pays if a read is long. For a short
//! read keep the data in the monitor: two visits for each read cost much more than the read.
//!
//! A file to copy, not proved, tested.
use std::sync::PoisonError;
use zaulinte::{conditions, Checks, Inside, Monitor, Places, Refused};

conditions! { pub enum May { Read, Write } }

/// How many threads may wait at once to read or to write. More sleep until one of them begins.
pub const STARTERS: usize = 60;
/// A thread that ends doesn't wait, so a few places serve any number.
const ENDERS: usize = 4;

#[derive(Default)]
pub struct Counts {
    readers: usize,
    writes: bool,
}

pub struct ReadersWriters {
    /// Shows what each thread does, by `{:#?}`.
    #[allow(dead_code)] // to show what each thread does: `{:#?}`
    pub monitor: Monitor<Counts, May>,
    starters: Places<Counts, May>,
    enders: Places<Counts, May>,
}

/// A read, which ends when this is dropped.
#[must_use = "the read ends at once if this is unused"]
pub struct Reading<'a>(&'a ReadersWriters);

/// A write, which ends when this is dropped.
#[must_use = "the write ends at once if this is unused"]
pub struct Writing<'a>(&'a ReadersWriters);

impl ReadersWriters {
    /// Makes the counts of no reader and no writer. Refused: `NoMemory`.
    pub fn new() -> Result<Self, Refused> {
        let checks = Checks {
            inv: |counts: &Counts| !counts.writes || counts.readers == 0,
            rest: |counts, waiting| {
                (counts.readers > 0 || counts.writes || waiting.count(May::Write) == 0)
                    && (counts.writes || waiting.count(May::Write) > 0 || waiting.count(May::Read) == 0)
            },
            ready: |may, _, counts, _| !counts.writes && (may == May::Read || counts.readers == 0),
        };
        let (monitor, mut places) = Monitor::checked(Counts::default(), STARTERS + ENDERS, checks)?;
        let enders = Places::new(places.split_off(STARTERS))?;
        Ok(ReadersWriters { monitor, starters: Places::new(places)?, enders })
    }

    /// Begins to read, once no thread writes or waits to write.
    pub fn read(&self) -> Reading<'_> {
        let mut place = self.starters.borrow();
        let mut counts = place.enter().unwrap();
        if counts.writes || counts.queue(May::Write) {
            counts.wait(May::Read, 0).unwrap();
        }
        counts.readers += 1;
        counts.signal_leave(May::Read); // the next reader that waits
        Reading(self)
    }

    /// Begins to write, once no thread reads or writes.
    pub fn write(&self) -> Writing<'_> {
        let mut place = self.starters.borrow();
        let mut counts = place.enter().unwrap();
        if counts.readers > 0 || counts.writes {
            counts.wait(May::Write, 0).unwrap();
        }
        counts.writes = true;
        Writing(self)
    }

    fn end(&self, end: impl FnOnce(Inside<'_, Counts, May>)) {
        let mut place = self.enders.borrow();
        end(place.enter().unwrap_or_else(PoisonError::into_inner)); // so that no panic is raised in a drop
    }
}

impl Drop for Reading<'_> {
    fn drop(&mut self) {
        self.0.end(|mut counts| {
            counts.readers -= 1;
            if counts.readers == 0 {
                counts.signal_leave(May::Write);
            }
        });
    }
}

impl Drop for Writing<'_> {
    fn drop(&mut self) {
        self.0.end(|mut counts| {
            counts.writes = false;
            let next = if counts.queue(May::Read) { May::Read } else { May::Write };
            counts.signal_leave(next);
        });
    }
}
