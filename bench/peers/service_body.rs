// The disk service in plain Rust, by the steps of crates/disk_service: a clock thread, workers, and six monitors. It
// leaves out the refusals that such a service never meets. Each procedure tests again after a wait: on Hoare's monitor
// the second test never finds a cause to wait, on Mesa's it is needed. A file that includes this one has
// `Monitor<D>` with `new(data, places)`, and `Inside<D>` with `enter`, `wait`, `queue`, `leave` and `signal_leave`.
use std::fmt::Write as _;
use std::io::{Read, Write as _};
use std::thread;

const CELLS: usize = 4;

// Conditions 0 nonempty, 1 nonfull.
#[derive(Default)]
struct Buffer {
    cells: [Option<usize>; CELLS],
    last: usize,
    count: usize,
}

impl Monitor<Buffer> {
    fn append(&self, me: usize, item: Option<usize>) {
        let mut d = Inside::enter(self);
        while d.count == CELLS {
            d = d.wait(me, 1, 0);
        }
        let at = d.last;
        d.cells[at] = item;
        d.last = (at + 1) % CELLS;
        d.count += 1;
        d.signal_leave(0);
    }

    fn remove(&self, me: usize) -> Option<usize> {
        let mut d = Inside::enter(self);
        while d.count == 0 {
            d = d.wait(me, 0, 0);
        }
        let item = d.cells[(d.last + CELLS - d.count) % CELLS];
        d.count -= 1;
        d.signal_leave(1);
        item
    }
}

// Condition 0 wakeup.
struct Alarm {
    now: u64,
}

impl Monitor<Alarm> {
    fn wakeme(&self, me: usize, n: u64) {
        let mut d = Inside::enter(self);
        let setting = d.now + n;
        while d.now < setting {
            d = d.wait(me, 0, setting);
        }
        d.signal_leave(0);
    }

    fn tick(&self) {
        let mut d = Inside::enter(self);
        d.now += 1;
        d.signal_leave(0);
    }
}

// Condition 0 nonfree.
struct Pool {
    owners: Vec<Option<usize>>,
    held: Vec<u64>,
}

impl Monitor<Pool> {
    fn take(&self, stream: usize) -> usize {
        let mut d = Inside::enter(self);
        loop {
            if let Some(buffer) = d.owners.iter().position(|owner| owner.is_none()) {
                d.owners[buffer] = Some(stream);
                d.held[stream] += 1;
                d.leave();
                return buffer;
            }
            let held = d.held[stream];
            d = d.wait(stream, 0, held);
        }
    }

    fn give(&self, stream: usize, buffer: usize) {
        let mut d = Inside::enter(self);
        d.owners[buffer] = None;
        d.held[stream] -= 1;
        d.signal_leave(0);
    }
}

struct Drive;

impl Drive {
    fn read(&mut self, cylinder: u16) -> u16 {
        let wide = u32::from(cylinder);
        wide.wrapping_mul(wide).wrapping_add(17) as u16
    }
}

// Conditions 0 upsweep, 1 downsweep.
struct Head {
    drive: Option<Drive>,
    headpos: u16,
    up: bool,
    cylmax: u16,
}

impl Monitor<Head> {
    fn request(&self, me: usize, dest: u16) -> Drive {
        let mut d = Inside::enter(self);
        loop {
            if let Some(drive) = d.drive.take() {
                d.headpos = dest;
                d.leave();
                return drive;
            }
            let up = d.headpos < dest || (d.headpos == dest && d.up);
            let (sweep, priority) = if up { (0, dest) } else { (1, d.cylmax - dest) };
            d = d.wait(me, sweep, u64::from(priority));
        }
    }

    fn release(&self, drive: Drive) {
        let mut d = Inside::enter(self);
        d.drive = Some(drive);
        if !d.queue(usize::from(!d.up)) {
            d.up = !d.up;
        }
        let sweep = usize::from(!d.up);
        d.signal_leave(sweep);
    }
}

// Condition 0 nonbusy.
struct Single<T> {
    item: Option<T>,
}

impl<T> Monitor<Single<T>> {
    fn acquire(&self, me: usize) -> T {
        let mut d = Inside::enter(self);
        loop {
            if let Some(item) = d.item.take() {
                d.leave();
                return item;
            }
            d = d.wait(me, 0, 0);
        }
    }

    fn release(&self, item: T) {
        let mut d = Inside::enter(self);
        d.item = Some(item);
        d.signal_leave(0);
    }
}

// Conditions 0 oktoread, 1 oktowrite.
struct ReadersWriters<T> {
    value: T,
    readers: u32,
    busy: bool,
}

impl<T: Copy> Monitor<ReadersWriters<T>> {
    fn start_read(&self, me: usize) -> T {
        let mut d = Inside::enter(self);
        if d.busy || d.queue(1) {
            d = d.wait(me, 0, 0);
        }
        // (tests for a writer that entered since then; waiting writers let the readers go first that waited before)
        while d.busy {
            d = d.wait(me, 0, 0);
        }
        d.readers += 1;
        let value = d.value;
        d.signal_leave(0);
        value
    }

    fn end_read(&self) {
        let mut d = Inside::enter(self);
        d.readers -= 1;
        if d.readers == 0 { d.signal_leave(1) } else { d.leave() }
    }

    fn start_write(&self, me: usize) -> T {
        let mut d = Inside::enter(self);
        while d.readers > 0 || d.busy {
            d = d.wait(me, 1, 0);
        }
        d.busy = true;
        let value = d.value;
        d.leave();
        value
    }

    fn end_write(&self, value: T) {
        let mut d = Inside::enter(self);
        d.value = value;
        d.busy = false;
        let next = usize::from(!d.queue(0));
        d.signal_leave(next);
    }
}

struct Totals {
    jobs: u64,
    sum: u64,
}

#[derive(Clone, Copy)]
struct Board {
    done: u32,
    closed: bool,
}

struct Done {
    job: usize,
    block: u16,
}

// The six monitors. Worker k has place k in each monitor in which it has a place. The places after the workers' are
// those of the caller and the clock thread.
struct Service {
    items: Monitor<Buffer>,
    clock: Monitor<Alarm>,
    pool: Monitor<Pool>,
    head: Monitor<Head>,
    totals: Monitor<Single<Totals>>,
    board: Monitor<ReadersWriters<Board>>,
}

impl Service {
    fn new(jobs: &Jobs) -> Service {
        let workers = jobs.workers;
        let pool = Pool { owners: vec![None; (workers + 1) / 2], held: vec![0; workers] };
        let head = Head { drive: Some(Drive), headpos: 0, up: true, cylmax: jobs.cylmax };
        let board = Board { done: 0, closed: false };
        Service {
            items: Monitor::new(Buffer::default(), workers + 1),
            clock: Monitor::new(Alarm { now: 0 }, workers + 1),
            pool: Monitor::new(pool, workers),
            head: Monitor::new(head, workers),
            totals: Monitor::new(Single { item: Some(Totals { jobs: 0, sum: 0 }) }, workers),
            board: Monitor::new(ReadersWriters { value: board, readers: 0, busy: false }, workers + 2),
        }
    }

    fn keep_time(&self, me: usize) {
        loop {
            let closed = self.board.start_read(me).closed;
            self.board.end_read();
            if closed {
                return;
            }
            self.clock.tick();
        }
    }

    // Ten visits of a monitor for each job. The caller's append is the eleventh, the tick that the job waits for the
    // twelfth.
    fn work(&self, me: usize, cylinders: &[u16], mut results: Vec<Done>) -> Vec<Done> {
        while let Some(job) = self.items.remove(me) {
            let buffer = self.pool.take(me);
            let mut drive = self.head.request(me, cylinders[job]);
            let block = drive.read(cylinders[job]);
            self.clock.wakeme(me, 1);
            self.head.release(drive);
            self.pool.give(me, buffer);
            let mut totals = self.totals.acquire(me);
            totals.jobs += 1;
            totals.sum += u64::from(block);
            self.totals.release(totals);
            let mut board = self.board.start_write(me);
            board.done += 1;
            self.board.end_write(board);
            results.push(Done { job, block });
        }
        results
    }

    fn hand_out(&self, jobs: &Jobs) {
        let me = jobs.workers;
        (0..jobs.cylinders.len()).for_each(|job| self.items.append(me, Some(job)));
        (0..jobs.workers).for_each(|_| self.items.append(me, None));
    }

    fn close_board(&self, me: usize) -> u32 {
        let mut board = self.board.start_write(me);
        board.closed = true;
        self.board.end_write(board);
        board.done
    }
}

struct Jobs {
    cylmax: u16,
    workers: usize,
    cylinders: Vec<u16>,
}

fn read_jobs() -> Jobs {
    let mut text = String::new();
    std::io::stdin().read_to_string(&mut text).unwrap();
    let mut numbers = text.split_whitespace().filter_map(|word| word.parse::<u16>().ok());
    let (cylmax, workers) = (numbers.next().unwrap(), numbers.next().unwrap());
    Jobs { cylmax, workers: usize::from(workers), cylinders: numbers.collect() }
}

fn serve(jobs: &Jobs) -> (Vec<Done>, Totals) {
    let service = &Service::new(jobs);
    let room = || Vec::with_capacity(jobs.cylinders.len());
    let (mut results, done) = thread::scope(|s| {
        let clock = s.spawn(|| service.keep_time(jobs.workers + 1));
        let work = |me| { let results = room(); s.spawn(move || service.work(me, &jobs.cylinders, results)) };
        let workers: Vec<_> = (0..jobs.workers).map(work).collect();
        service.hand_out(jobs);
        let results: Vec<Done> = workers.into_iter().flat_map(|worker| worker.join().unwrap()).collect();
        let done = service.close_board(jobs.workers);
        clock.join().unwrap();
        (results, done)
    });
    results.sort_unstable_by_key(|done| done.job);
    let totals = service.totals.acquire(0);
    assert!(results.iter().enumerate().all(|(i, done)| done.job == i) && results.len() == jobs.cylinders.len());
    assert_eq!(totals.sum, results.iter().map(|done| u64::from(done.block)).sum::<u64>());
    assert_eq!((totals.jobs, u64::from(done)), (results.len() as u64, results.len() as u64));
    (results, totals)
}

fn main() {
    let jobs = read_jobs();
    let (results, totals) = serve(&jobs);
    let mut report = String::new();
    for done in results {
        writeln!(report, "job {} cylinder {} block {}", done.job, jobs.cylinders[done.job], done.block).unwrap();
    }
    writeln!(report, "total jobs {} sum {}", totals.jobs, totals.sum).unwrap();
    std::io::stdout().write_all(report.as_bytes()).unwrap();
}
