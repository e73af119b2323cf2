//! What the server's threads share, on this crate: two monitors, whose places the threads borrow.
use crate::{Queue, Shared, ROOM};
use std::net::TcpStream;
use zaulinte::{conditions, Checks, Monitor, Places};

conditions! { enum When { NotFull, NotEmpty } }

pub struct Monitors {
    takers: Places<Queue, When>,
    appender: Places<Queue, When>, // one place
    count: Places<u64>,            // of a monitor for data alone
}

impl Monitors {
    pub fn new() -> Monitors {
        let checks = Checks {
            inv: |queue: &Queue| queue.connections.len() <= ROOM,
            rest: |queue, waiting| {
                (waiting.count(When::NotFull) == 0 || queue.connections.len() == ROOM)
                    && (waiting.count(When::NotEmpty) == 0 || (queue.connections.is_empty() && !queue.is_closed))
            },
            ready: |when, _, queue, _| match when {
                When::NotFull => queue.connections.len() < ROOM,
                When::NotEmpty => !queue.connections.is_empty() || queue.is_closed,
            },
        };
        let mut takers = Monitor::checked(Queue::default(), 64, checks).unwrap().1;
        let appender = Places::new(vec![takers.pop().unwrap()]).unwrap();
        let count = Places::new(Monitor::<u64>::new(0, 64).unwrap().1).unwrap();
        Monitors { takers: Places::new(takers).unwrap(), appender, count }
    }
}

impl Shared for Monitors {
    fn append(&self, connection: TcpStream) {
        let mut place = self.appender.borrow();
        let mut queue = place.enter().unwrap();
        if queue.connections.len() == ROOM {
            queue.wait(When::NotFull, 0).unwrap();
        }
        queue.connections.push_back(connection);
        queue.signal_leave(When::NotEmpty);
    }

    fn take(&self) -> Option<TcpStream> {
        let mut place = self.takers.borrow();
        let mut queue = place.enter().unwrap();
        if queue.connections.is_empty() && !queue.is_closed {
            queue.wait(When::NotEmpty, 0).unwrap();
        }
        let connection = queue.connections.pop_front();
        let next = if queue.is_closed { When::NotEmpty } else { When::NotFull };
        queue.signal_leave(next);
        connection
    }

    fn close(&self) {
        let mut place = self.appender.borrow();
        let mut queue = place.enter().unwrap();
        queue.is_closed = true;
        queue.signal_leave(When::NotEmpty); // each taker signals the next
    }

    fn count(&self, answers: u64) -> u64 {
        let mut place = self.count.borrow();
        let mut count = place.enter().unwrap();
        *count += answers;
        *count
    }
}
