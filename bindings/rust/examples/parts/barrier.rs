//! A barrier: so many threads wait until all of them have arrived, round after round.
//!
//! It needs no number of the round. The last thread to arrive resumes a waiter, and each resumed thread the next. No
//! thread enters in between, so none of the next round meets a waiter of this one.
//!
//! A file to copy, not proved, tested.
use zaulinte::{conditions, Checks, Monitor, Places, Refused};

conditions! { pub enum When { AllArrived } }

pub struct Round {
    waiting: usize,
    parties: usize,
}

pub struct Barrier {
    /// Shows what each thread does, by `{:#?}`.
    #[allow(dead_code)] // to show what each thread does: `{:#?}`
    pub monitor: Monitor<Round, When>,
    parties: Places<Round, When>,
}

impl Barrier {
    /// Makes a barrier for 1 to 64 threads. If more threads use it, the first `parties` of them make a round. Refused:
    /// `BadPlaces`, `NoMemory`.
    pub fn new(parties: usize) -> Result<Self, Refused> {
        let checks = Checks {
            inv: |round: &Round| round.waiting < round.parties,
            rest: |round, waiting| waiting.count(When::AllArrived) == round.waiting,
            ready: |_, _, round, _| round.waiting == 0,
        };
        let (monitor, places) = Monitor::checked(Round { waiting: 0, parties }, parties, checks)?;
        Ok(Barrier { monitor, parties: Places::new(places)? })
    }

    /// Waits until all have arrived. Returns true to the thread that arrived last.
    pub fn wait(&self) -> bool {
        let mut place = self.parties.borrow();
        let mut round = place.enter().unwrap();
        let is_last = round.waiting + 1 == round.parties;
        if is_last {
            round.waiting = 0;
        } else {
            round.waiting += 1;
            round.wait(When::AllArrived, 0).unwrap();
        }
        round.signal_leave(When::AllArrived); // the next waiter
        is_last
    }
}
