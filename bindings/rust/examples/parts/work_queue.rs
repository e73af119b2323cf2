//! A bounded queue of work: a submitter waits if it is full, a taker if it is empty. Any number of threads submit, take
//! and close.
//!
//! A file to copy, not proved, tested.
use std::collections::VecDeque;
use zaulinte::{conditions, Checks, Inside, Monitor, Places, Refused};

conditions! { pub enum When { NotEmpty, NotFull } }

/// How many takers, and how many submitters, may wait at once. More threads of a kind sleep until one of them is done.
const TAKERS: usize = 48;
const SUBMITTERS: usize = 15;

pub struct Items<T> {
    items: VecDeque<T>,
    room: usize,
    is_closed: bool,
}

type Group<T> = Places<Items<T>, When>;

pub struct WorkQueue<T: Send> {
    /// Shows what each thread does, by `{:#?}`.
    #[allow(dead_code)] // to show what each thread does: `{:#?}`
    pub monitor: Monitor<Items<T>, When>,
    takers: Group<T>,
    submitters: Group<T>,
    closers: Group<T>, // one place, since a thread that closes doesn't wait
}

impl<T: Send> WorkQueue<T> {
    /// Makes a queue for so many items. Refused: `NoMemory`.
    ///
    /// # Panics
    /// If `room` is 0.
    pub fn new(room: usize) -> Result<Self, Refused> {
        assert!(room > 0, "a queue has room for an item");
        let checks = Checks {
            inv: |queue: &Items<T>| queue.items.len() <= queue.room,
            rest: |queue, waiting| {
                (waiting.count(When::NotEmpty) == 0 || (queue.items.is_empty() && !queue.is_closed))
                    && (waiting.count(When::NotFull) == 0 || (queue.items.len() == queue.room && !queue.is_closed))
            },
            ready: |when, _, queue, _| match when {
                When::NotEmpty => queue.is_closed || !queue.items.is_empty(),
                When::NotFull => queue.is_closed || queue.items.len() < queue.room,
            },
        };
        let items = Items { items: VecDeque::with_capacity(room), room, is_closed: false };
        let (monitor, mut places) = Monitor::checked(items, TAKERS + SUBMITTERS + 1, checks)?;
        let closers = Places::new(places.split_off(TAKERS + SUBMITTERS))?;
        let submitters = Places::new(places.split_off(TAKERS))?;
        Ok(WorkQueue { monitor, takers: Places::new(places)?, submitters, closers })
    }

    /// Appends an item once there is room. Returns the item in an error if the queue is closed.
    pub fn submit(&self, item: T) -> Result<(), T> {
        let mut place = self.submitters.borrow();
        let mut queue = place.enter().unwrap();
        if queue.items.len() == queue.room && !queue.is_closed {
            queue.wait(When::NotFull, 0).unwrap();
        }
        if queue.is_closed {
            leave(queue, When::NotFull);
            return Err(item);
        }
        queue.items.push_back(item);
        leave(queue, When::NotEmpty);
        Ok(())
    }

    /// Takes the first item once there is one. Returns nothing if the queue is closed, and is empty.
    pub fn take(&self) -> Option<T> {
        let mut place = self.takers.borrow();
        let mut queue = place.enter().unwrap();
        if queue.items.is_empty() && !queue.is_closed {
            queue.wait(When::NotEmpty, 0).unwrap();
        }
        let item = queue.items.pop_front();
        leave(queue, When::NotFull);
        item
    }

    /// Closes the queue: no more items are submitted, and all threads that wait resume.
    pub fn close(&self) {
        let mut place = self.closers.borrow();
        let mut queue = place.enter().unwrap();
        queue.is_closed = true;
        leave(queue, When::NotEmpty);
    }
}

/// Signals and leaves. In a closed queue the resumed thread signals the next, until none waits.
fn leave<T: Send>(mut queue: Inside<'_, Items<T>, When>, when: When) {
    let next = match when {
        _ if !queue.is_closed => when,
        _ if queue.queue(When::NotEmpty) => When::NotEmpty,
        _ => When::NotFull,
    };
    queue.signal_leave(next);
}
