//! Sleeping by std's mutex and condition variable.
use crate::sync::Condvar;
use crate::Port;
use core::sync::atomic::{AtomicU32, Ordering::SeqCst};
use std::sync::{Mutex, MutexGuard, PoisonError};
use std::thread;

/// The port of std: threads sleep on a condition variable.
#[derive(Debug, Default)]
pub struct StdPort {
    lock: Mutex<()>,
    changed: Condvar,
}

impl StdPort {
    fn locked(&self) -> MutexGuard<'_, ()> {
        self.lock.lock().unwrap_or_else(PoisonError::into_inner)
    }
}

// SAFETY: std's mutex and condition variable run no code of the caller, and neither function panics: a poisoned lock is
// taken too, and the condition variable always has the same mutex
unsafe impl Port for StdPort {
    #[cfg(zaulinte_races)]
    const POLLS: u32 = 0;

    fn sleep_while(&self, word: &AtomicU32, is: u32) {
        let mut lock = self.locked();
        while word.load(SeqCst) == is {
            lock = self.changed.wait(lock).unwrap_or_else(PoisonError::into_inner);
        }
    }

    fn wake_one(&self, _: &AtomicU32) {
        drop(self.locked()); // a thread that tested the word before it was changed is asleep now
        self.changed.notify_one();
    }

    fn panicking() -> bool {
        thread::panicking()
    }

    /// Returns the thread's `pthread_t`, which debuggers show, or the address of a variable of its own.
    fn thread() -> usize {
        #[cfg(all(target_os = "linux", target_arch = "x86_64"))]
        {
            let number: usize;
            // SAFETY: it reads the word that the C library keeps at this address, which is the thread's `pthread_t`
            unsafe { core::arch::asm!("mov {}, fs:0", out(reg) number, options(nostack, readonly, preserves_flags)) };
            number
        }
        #[cfg(not(all(target_os = "linux", target_arch = "x86_64")))]
        {
            std::thread_local!(static MINE: u8 = const { 0 });
            MINE.with(|mine| mine as *const u8 as usize)
        }
    }
}
