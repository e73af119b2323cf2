//! A recording of the acts of a monitor, as a script.
//!
//! The place inside notes its act before its step, so the order of the notes is that of the history. That it entered is
//! noted with the first act of its visit: no other place acts in between. If the ring is full, its oldest act is first
//! taken into `start`, the state in which the ring begins. A reader copies all of it, and does so again if an act was
//! noted meanwhile: `version` is odd while one is.
//!
//! A script has no line for a signal to a given place. If the waiter is the one that a signal would resume, the act is
//! noted as a signal. Else all acts of the ring and then this one are taken into `start`, and the ring begins after it.
use crate::refused::room_for;
use crate::Refused;
use alloc::boxed::Box;
use alloc::string::String;
use alloc::vec::Vec;
use core::fmt::{self, Write};
use core::ops::Range;
use core::ptr;
use core::sync::atomic::{fence, AtomicPtr, AtomicU64, Ordering::Acquire, Ordering::Relaxed, Ordering::Release};

const MOST_PLACES: usize = 64;
/// How often a reader copies the recording at most, if acts are noted meanwhile.
const COPIES: usize = 1000;

/// The kind of an act, by the word that a script has for it.
#[derive(Clone, Copy, PartialEq)]
#[repr(u8)]
pub(crate) enum Kind {
    Enter,
    Leave,
    Wait,
    Signal,
    Pass,
    Notify,
    Broadcast,
}

const KINDS: [(Kind, &str); 7] = [
    (Kind::Enter, "enter"),
    (Kind::Leave, "leave"),
    (Kind::Wait, "wait"),
    (Kind::Signal, "signal"),
    (Kind::Pass, "pass"),
    (Kind::Notify, "notify"),
    (Kind::Broadcast, "broadcast"),
];

#[derive(Clone, Copy)]
pub(crate) struct Act {
    pub(crate) kind: Kind,
    pub(crate) place: usize,
    pub(crate) condition: usize,
    pub(crate) priority: u64,
}

impl Act {
    fn on(kind: Kind, place: usize, condition: usize) -> Act {
        Act { kind, place, condition, priority: 0 }
    }

    fn words(self) -> [u64; 2] {
        [self.kind as u64 | (self.place as u64) << 8 | (self.condition as u64) << 16, self.priority]
    }

    fn of([word, priority]: [u64; 2]) -> Act {
        let byte = |at: u32| (word >> at) as usize & 0xff;
        Act { kind: KINDS[byte(0)].0, place: byte(8), condition: byte(16), priority }
    }
}

/// An act as a line of a script.
impl fmt::Display for Act {
    fn fmt(&self, f: &mut fmt::Formatter<'_>) -> fmt::Result {
        write!(f, "{} {}", KINDS[self.kind as usize].1, self.place)?;
        match self.kind {
            Kind::Enter | Kind::Leave => Ok(()),
            Kind::Wait => write!(f, " {} {}", self.condition, self.priority),
            _ => write!(f, " {}", self.condition),
        }
    }
}

#[derive(Clone, Copy, Default, PartialEq)]
#[repr(u8)]
enum Is {
    #[default]
    Outside,
    Inside,
    Waiting,
    Signaller,
    Notified,
}

const STATES: [Is; 5] = [Is::Outside, Is::Inside, Is::Waiting, Is::Signaller, Is::Notified];

/// Where a place is, and the act that brought it there, times 64, since a broadcast brings several.
#[derive(Clone, Copy, Default)]
struct Standing {
    is: Is,
    condition: usize,
    since: u64,
    priority: u64,
}

impl Standing {
    fn words(self) -> [u64; 3] {
        [self.is as u64 | (self.condition as u64) << 8, self.since, self.priority]
    }

    fn of([word, since, priority]: [u64; 3]) -> Standing {
        Standing { is: STATES[(word & 0xff) as usize], condition: (word >> 8) as usize, since, priority }
    }
}

/// Where each place is.
#[derive(Clone, Copy)]
struct State([Standing; MOST_PLACES]);

impl State {
    /// Returns the place that is so, on this condition or on any, and is the first of these to resume.
    fn first(&self, is: Is, condition: Option<usize>) -> Option<usize> {
        let is_one = |one: &Standing| one.is == is && condition.is_none_or(|number| one.condition == number);
        let places = (0..MOST_PLACES).filter(|&place| is_one(&self.0[place]));
        places.min_by_key(|&place| (self.0[place].priority, self.0[place].since))
    }

    fn stands(&mut self, place: usize, is: Is, act: Act, since: u64) {
        let priority = if is == Is::Waiting { act.priority } else { 0 };
        self.0[place] = Standing { is, condition: act.condition, since, priority };
    }

    /// Takes the state through an act, as a book does.
    fn take(&mut self, act: Act, number: u64) {
        let since = number * MOST_PLACES as u64;
        let next = self.first(Is::Waiting, Some(act.condition));
        match act.kind {
            Kind::Enter => self.stands(act.place, Is::Inside, act, since),
            Kind::Notify | Kind::Broadcast => self.notify(act, since),
            Kind::Signal if next.is_none() => {}
            Kind::Signal => self.hand(act, Is::Signaller, since, next),
            Kind::Wait => self.hand(act, Is::Waiting, since, None),
            Kind::Pass => self.hand(act, Is::Outside, since, next),
            Kind::Leave => self.hand(act, Is::Outside, since, None),
        }
    }

    fn notify(&mut self, act: Act, since: u64) {
        let most = if act.kind == Kind::Notify { 1 } else { MOST_PLACES as u64 };
        for since in since..since + most {
            let Some(place) = self.first(Is::Waiting, Some(act.condition)) else { return };
            self.stands(place, Is::Notified, act, since);
        }
    }

    /// Lets the place of an act be `is`, and `next` be inside, or the place whose turn it is.
    fn hand(&mut self, act: Act, is: Is, since: u64, next: Option<usize>) {
        self.stands(act.place, is, act, since);
        let next = next.or_else(|| self.first(Is::Signaller, None)).or_else(|| self.first(Is::Notified, None));
        if let Some(next) = next {
            self.0[next].is = Is::Inside;
        }
    }

    /// Takes all places that are so out of the state, the longest waiting first.
    fn taken(&mut self, is: Is) -> Vec<usize> {
        core::iter::from_fn(|| {
            let place = self.first(is, None)?;
            self.0[place].is = Is::Outside;
            Some(place)
        })
        .collect()
    }

    /// Returns acts that bring a new monitor into this state. The signallers are made by a chain of signals, each of
    /// which resumes the next signaller, and the last the place inside. So these wait before all others.
    fn acts(&self) -> Vec<Act> {
        let mut left = *self;
        left.0.iter_mut().for_each(|one| one.priority = 0); // in the order in which they came
        let mut chain = left.taken(Is::Signaller);
        let signallers = chain.len();
        chain.extend(left.taken(Is::Inside));
        let (notified, waiting) = (left.taken(Is::Notified), left.taken(Is::Waiting));
        let condition = |&place: &usize| self.0[place].condition;
        let wait = |place, condition, priority| {
            [Act::on(Kind::Enter, place, 0), Act { kind: Kind::Wait, place, condition, priority }]
        };
        let mut acts = Vec::new();
        acts.extend(chain.iter().skip(1).flat_map(|&place| wait(place, 0, 0)));
        acts.extend(notified.iter().flat_map(|place| wait(*place, condition(place), 0)));
        acts.extend(waiting.iter().flat_map(|place| wait(*place, condition(place), self.0[*place].priority)));
        acts.extend(chain.first().map(|&place| Act::on(Kind::Enter, place, 0)));
        acts.extend(chain[..signallers].iter().map(|&place| Act::on(Kind::Signal, place, 0)));
        if let Some(&inside) = chain.last() {
            acts.extend(notified.iter().map(|place| Act::on(Kind::Notify, inside, condition(place))));
        }
        acts
    }
}

/// The last acts of a monitor.
pub(crate) struct Recording {
    version: AtomicU64,
    /// The number of acts that were noted.
    end: AtomicU64,
    /// The number of acts when the recording last began anew: the ring has none of these.
    anew: AtomicU64,
    /// The places whose entry was noted, and that haven't left since.
    entered: AtomicU64,
    start: [[AtomicU64; 3]; MOST_PLACES],
    ring: Vec<[AtomicU64; 2]>,
}

// Relaxed, as all words of a recording are: the steps of the door order its writers, `version` its readers.
fn load<const N: usize>(words: &[AtomicU64; N]) -> [u64; N] {
    core::array::from_fn(|i| words[i].load(Relaxed))
}

fn store<const N: usize>(words: &[AtomicU64; N], values: [u64; N]) {
    words.iter().zip(values).for_each(|(word, value)| word.store(value, Relaxed));
}

impl Recording {
    /// Makes a recording of at least one act.
    pub(crate) fn new(acts: usize) -> Result<Recording, Refused> {
        let mut ring = room_for(acts.max(1))?;
        ring.resize_with(acts.max(1), Default::default);
        Ok(Recording {
            version: AtomicU64::new(0),
            end: AtomicU64::new(0),
            anew: AtomicU64::new(0),
            entered: AtomicU64::new(0),
            start: core::array::from_fn(|_| Default::default()),
            ring,
        })
    }

    /// Notes an act of the place inside.
    #[cold]
    pub(crate) fn note(&self, act: Act) {
        self.note_by(act, || self.add(act));
    }

    /// Begins anew, after an act of the place inside: a signal to the place `waiter`, which waits on the condition.
    #[cold]
    pub(crate) fn begin_anew(&self, act: Act, waiter: usize) {
        self.note_by(act, || self.take_all(act, waiter));
    }

    fn note_by(&self, act: Act, add: impl FnOnce()) {
        let version = self.version.load(Relaxed);
        self.version.store(version + 1, Relaxed);
        fence(Release); // a reader that sees what is noted below sees that the version is odd, at its second read
        let (mine, entered) = (1 << act.place, self.entered.load(Relaxed));
        if entered & mine == 0 {
            self.add(Act::on(Kind::Enter, act.place, 0));
        }
        add();
        let leaves = matches!(act.kind, Kind::Leave | Kind::Pass);
        self.entered.store(if leaves { entered & !mine } else { entered | mine }, Relaxed);
        self.version.store(version + 2, Release); // a reader that sees this version sees all that was noted before
    }

    fn add(&self, act: Act) {
        let (kept, size) = (self.kept(), self.ring.len() as u64);
        if kept.end - kept.start == size {
            let mut state = self.state();
            state.take(Act::of(load(self.at(kept.start))), kept.start);
            self.begin_in(state);
        }
        store(self.at(kept.end), act.words());
        self.end.store(kept.end + 1, Relaxed);
    }

    /// Takes all acts of the ring into the state in which it begins, then the act, a signal to the place `waiter`.
    fn take_all(&self, act: Act, waiter: usize) {
        let (kept, mut state) = (self.kept(), self.state());
        kept.clone().for_each(|number| state.take(Act::of(load(self.at(number))), number));
        state.hand(act, Is::Signaller, kept.end * MOST_PLACES as u64, Some(waiter));
        self.begin_in(state);
        self.end.store(kept.end + 1, Relaxed);
        self.anew.store(kept.end + 1, Relaxed);
    }

    /// Returns the numbers of the acts that the ring has.
    fn kept(&self) -> Range<u64> {
        let end = self.end.load(Relaxed);
        self.anew.load(Relaxed).max(end.saturating_sub(self.ring.len() as u64))..end
    }

    /// Returns where the ring has the act with this number.
    fn at(&self, number: u64) -> &[AtomicU64; 2] {
        &self.ring[(number % self.ring.len() as u64) as usize]
    }

    fn state(&self) -> State {
        State(core::array::from_fn(|place| Standing::of(load(&self.start[place]))))
    }

    /// Lets the ring begin in this state.
    fn begin_in(&self, state: State) {
        self.start.iter().zip(state.0).for_each(|(words, one)| store(words, one.words()));
    }

    /// Returns the acts as lines, after those by which a new monitor comes into the state in which the ring begins, and
    /// before the entry of the place `inside`, if it hasn't acted since. Returns nothing if acts were noted all the time.
    pub(crate) fn lines(&self, inside: Option<usize>) -> Option<String> {
        let (mut acts, entered) = (0..COPIES).find_map(|_| self.copy())?;
        let silent = inside.filter(|place| entered >> place & 1 == 0);
        acts.extend(silent.map(|place| Act::on(Kind::Enter, place, 0)));
        let mut lines = String::new();
        acts.iter().for_each(|act| writeln!(lines, "{act}").expect("a text takes what is written"));
        Some(lines)
    }

    /// Returns the acts, and `entered`, unless an act was noted meanwhile.
    fn copy(&self) -> Option<(Vec<Act>, u64)> {
        let (version, entered) = (self.version.load(Acquire), self.entered.load(Relaxed));
        let state = self.state();
        let words: Vec<_> = self.kept().map(|number| load(self.at(number))).collect();
        fence(Acquire); // the version is read once more after all that was read above
        let is_whole = version % 2 == 0 && self.version.load(Relaxed) == version;
        is_whole.then(|| (state.acts().into_iter().chain(words.into_iter().map(Act::of)).collect(), entered))
    }
}

/// The recording of a monitor, if it has one.
#[derive(Default)]
pub(crate) struct Recorder(AtomicPtr<Recording>);

impl Recorder {
    #[inline]
    pub(crate) fn get(&self) -> Option<&Recording> {
        // SAFETY: a pointer that isn't null is of a box that lives as long as `self`; it is acquired as `set` released it
        unsafe { self.0.load(Acquire).as_ref() }
    }

    /// Begins to record.
    ///
    /// # Panics
    /// If it records already.
    #[track_caller]
    pub(crate) fn set(&self, recording: Recording) {
        let new = Box::into_raw(Box::new(recording));
        // if it fails, what it read isn't used
        let is_set = self.0.compare_exchange(ptr::null_mut(), new, Release, Relaxed).is_ok();
        if !is_set {
            // SAFETY: nobody else has the pointer
            drop(unsafe { Box::from_raw(new) });
        }
        assert!(is_set, "the monitor records already");
    }
}

impl Drop for Recorder {
    fn drop(&mut self) {
        let recording = *self.0.get_mut();
        if !recording.is_null() {
            // SAFETY: `set` made it of a box
            drop(unsafe { Box::from_raw(recording) });
        }
    }
}
