//! What the server's threads share, on mutexes and condition variables of std.
use crate::{Queue, Shared, ROOM};
use std::net::TcpStream;
use std::sync::{Condvar, Mutex};

#[derive(Default)]
pub struct Monitors {
    queue: Mutex<Queue>,
    not_full: Condvar,
    not_empty: Condvar,
    count: Mutex<u64>,
}

impl Shared for Monitors {
    fn append(&self, connection: TcpStream) {
        let mut queue = self.queue.lock().unwrap();
        while queue.connections.len() == ROOM {
            queue = self.not_full.wait(queue).unwrap();
        }
        queue.connections.push_back(connection);
        self.not_empty.notify_one();
    }

    fn take(&self) -> Option<TcpStream> {
        let mut queue = self.queue.lock().unwrap();
        while queue.connections.is_empty() && !queue.is_closed {
            queue = self.not_empty.wait(queue).unwrap();
        }
        let connection = queue.connections.pop_front();
        self.not_full.notify_one();
        connection
    }

    fn close(&self) {
        self.queue.lock().unwrap().is_closed = true;
        self.not_empty.notify_all();
    }

    fn count(&self, answers: u64) -> u64 {
        let mut count = self.count.lock().unwrap();
        *count += answers;
        *count
    }
}
