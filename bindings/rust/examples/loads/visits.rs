//! Visits of some length: each thread works inside, leaves, and works outside as long; work polls the clock. The data
//! are the time of the last leave. `PROGRAM MICROS THREADS VISITS` prints the time of a visit, and how late threads
//! entered that had to wait, in the median: the time since the place before left.
use std::thread;
use std::time::{Duration, Instant};

pub struct Visits {
    length: Duration,
    pub threads: usize,
    each: u64,
    start: Instant,
}

impl Visits {
    /// Returns the visits that the program's arguments ask for, if there are three.
    pub fn asked() -> Option<Visits> {
        let words: Vec<u64> = std::env::args().skip(1).map(|word| word.parse().expect("a number")).collect();
        let [micros, threads, each] = words[..] else { return None };
        Some(Visits { length: Duration::from_micros(micros), threads: threads as usize, each, start: Instant::now() })
    }

    fn now(&self) -> u64 {
        self.start.elapsed().as_nanos() as u64
    }

    fn work(&self) {
        let start = Instant::now();
        while start.elapsed() < self.length {}
    }

    // Makes the visits of one thread. `visit` enters, calls its argument with the data and leaves. Returns how late each
    // entry was that had to wait, in nanoseconds.
    fn make(&self, mut visit: impl FnMut(&mut dyn FnMut(&mut u64))) -> Vec<u64> {
        let mut lates = vec![];
        for _ in 0..self.each {
            let (asked, mut entered, mut before) = (self.now(), 0, 0);
            visit(&mut |left| {
                (entered, before) = (self.now(), *left);
                self.work();
                *left = self.now();
            });
            if before > asked {
                lates.push(entered.saturating_sub(before));
            }
            self.work();
        }
        lates
    }

    /// Makes the visits, with a thread for each place, and prints the figures.
    pub fn show<P: Send>(&self, places: Vec<P>, visit: impl Fn(&mut P, &mut dyn FnMut(&mut u64)) + Sync) {
        let (began, visit) = (self.now(), &visit);
        let mut lates: Vec<u64> = thread::scope(|s| {
            let run = |mut place: P| s.spawn(move || self.make(|inside| visit(&mut place, inside)));
            let threads: Vec<_> = places.into_iter().map(run).collect();
            threads.into_iter().flat_map(|thread| thread.join().unwrap()).collect()
        });
        println!("visit {:.0} ns", (self.now() - began) as f64 / (self.threads as u64 * self.each) as f64);
        lates.sort_unstable();
        println!("late_median {} ns", lates.get(lates.len().saturating_sub(1) / 2).unwrap_or(&0));
    }
}
