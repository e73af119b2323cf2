// The disk service on the Hoare monitor of hoare_monitor.rs. `service_hoare < JOBS` writes the report.
#![allow(dead_code)]
use std::ops::{Deref, DerefMut};

// A place inside.
struct Inside<'a, D> {
    monitor: &'a Monitor<D>,
}

impl<D> Deref for Inside<'_, D> {
    type Target = D;

    fn deref(&self) -> &D {
        self.monitor.data()
    }
}

impl<D> DerefMut for Inside<'_, D> {
    fn deref_mut(&mut self) -> &mut D {
        self.monitor.data()
    }
}

impl<'a, D> Inside<'a, D> {
    fn enter(monitor: &'a Monitor<D>) -> Self {
        monitor.enter();
        Inside { monitor }
    }

    fn wait(self, me: usize, cond: usize, priority: u64) -> Self {
        self.monitor.wait(me, cond, priority);
        self
    }

    fn queue(&self, cond: usize) -> bool {
        self.monitor.queue(cond)
    }

    fn leave(self) {
        self.monitor.leave();
    }

    fn signal_leave(self, cond: usize) {
        self.monitor.signal_leave(cond);
    }
}

include!("hoare_monitor.rs");
include!("service_body.rs");
