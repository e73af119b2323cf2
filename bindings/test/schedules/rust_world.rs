//! What the explored world (explore.h) is to the crate: its memory, its port, and the names of its words.
use crate::{Group, Place};
use alloc::vec::Vec;
use core::alloc::{GlobalAlloc, Layout};
use core::ffi::{c_char, c_void, CStr};
use core::mem::size_of;
use core::ptr::{addr_of_mut, null, null_mut};
use core::sync::atomic::AtomicU32;
use zaulinte::Port;

const THREADS: usize = 4;
/// A cache line, which each word that threads sleep on, and each note, has for itself.
const LINE: usize = 64;
/// An `Arc` begins with its two counts.
const OWNERS: usize = 16;
/// The number of no place.
pub const NOBODY: u32 = 64;

extern "C" {
    fn x_room(bytes: usize, align: usize) -> *mut c_void;
    fn x_own(from: *mut c_void, bytes: usize);
    fn x_gone(from: *mut c_void, bytes: usize);
    fn x_fail(what: *const c_char) -> !;
    pub fn x_me() -> u32;
    pub fn x_touch(place: u32);
    pub fn x_tell(word: *mut u32, is: u32);
    pub fn x_await(word: *const u32, is: u32);
    pub fn x_inside() -> u32;
}

pub fn fail(what: &CStr) -> ! {
    unsafe { x_fail(what.as_ptr()) }
}

#[panic_handler]
fn panics(_: &core::panic::PanicInfo<'_>) -> ! {
    fail(c"a thread panics")
}

/// The compiled core and alloc name it. Nothing unwinds here.
#[no_mangle]
extern "C" fn rust_eh_personality() {}

/// What changes with the world beside the monitor: it lies in the world's memory.
pub struct Kept {
    pub panics: [bool; THREADS],
    /// The places that are borrowed.
    pub lent: [bool; THREADS],
    /// 1 once a thread said that it is inside.
    pub said: u32,
    /// The pieces of memory that are in use.
    pieces: usize,
    pub dropped: usize,
}

/// What is the same in each schedule, as `x_make` left it.
struct Made {
    kept: *mut Kept,
    places: *mut Place,
    many: usize,
    groups: *mut Group,
    /// For each place, or each borrowed place, its address.
    at: [usize; THREADS],
    /// The pieces of memory on cache lines of their own: the places' words, their notes, what all share, and the groups.
    lines: [(usize, usize); 4],
}
const NOTHING: Made =
    Made { kept: null_mut(), places: null_mut(), many: 0, groups: null_mut(), at: [0; THREADS], lines: [(0, 0); 4] };
static mut MADE: Made = NOTHING;

fn made() -> &'static mut Made {
    unsafe { &mut *addr_of_mut!(MADE) }
}

pub fn kept() -> &'static mut Kept {
    unsafe { &mut *made().kept }
}

pub fn begin() {
    let kept = unsafe { x_room(size_of::<Kept>(), 8) };
    unsafe { x_own(kept, size_of::<Kept>()) };
    *made() = Made { kept: kept.cast(), ..NOTHING };
}

pub fn keep(places: Vec<Place>) {
    let places = Vec::leak(places);
    (made().places, made().many) = (places.as_mut_ptr(), places.len());
    places.iter().for_each(note_at);
}

pub fn keep_groups(groups: Vec<Group>) {
    let groups = Vec::leak(groups);
    made().groups = groups.as_mut_ptr();
    for group in groups.iter() {
        let all: Vec<_> = core::iter::from_fn(|| group.try_borrow()).collect();
        all.iter().for_each(|place| note_at(place));
        made().many += all.len();
    }
}

fn note_at(place: &Place) {
    made().at[place.number()] = place as *const Place as usize;
}

pub fn group(number: usize) -> &'static Group {
    unsafe { &*made().groups.add(number) }
}

pub fn place(number: u32) -> &'static mut Place {
    unsafe { &mut *made().places.add(number as usize) }
}

/// Drops a place: no thread uses it afterwards.
pub fn drop_place(number: u32) {
    unsafe { core::ptr::drop_in_place(place(number)) };
    kept().dropped += 1;
}

/// Returns true if all places were dropped, and memory is left besides that of the places themselves.
pub fn is_memory_lost() -> bool {
    kept().dropped == made().many && kept().pieces > 1
}

struct Room;
unsafe impl GlobalAlloc for Room {
    unsafe fn alloc(&self, layout: Layout) -> *mut u8 {
        kept().pieces += 1;
        let piece = x_room(layout.size(), layout.align());
        if layout.align() == LINE {
            let free = made().lines.iter_mut().find(|line| line.1 == 0);
            free.map(|line| *line = (piece as usize, layout.size()));
        }
        piece.cast()
    }

    unsafe fn dealloc(&self, piece: *mut u8, layout: Layout) {
        kept().pieces -= 1;
        if layout.align() == LINE {
            x_gone(piece.cast(), layout.size());
        }
    }
}
#[global_allocator]
static ROOM: Room = Room;

#[cfg(not(feature = "std"))]
use weakest::Weakest as Sleep;
#[cfg(feature = "std")]
use zaulinte::StdPort as Sleep;

/// A port that does no more than the crate asks: which sleeper is woken is any, and each may return early.
#[cfg(not(feature = "std"))]
mod weakest {
    use super::{c_void, AtomicU32};

    extern "C" {
        fn x_sleep_while(word: *mut c_void, is: u32);
        fn x_wake_one(word: *mut c_void);
    }

    #[derive(Default)]
    pub struct Weakest;
    impl Weakest {
        pub fn sleep_while(&self, word: &AtomicU32, is: u32) {
            unsafe { x_sleep_while(word.as_ptr().cast(), is) }
        }
        pub fn wake_one(&self, word: &AtomicU32) {
            unsafe { x_wake_one(word.as_ptr().cast()) }
        }
    }
}

/// The port that is explored, with a mark by which its word is found.
pub struct Explored {
    sleep: Sleep,
    _mark: u64,
}
const MARK: u64 = 0x7a61_756c_696e_7400;

impl Explored {
    /// Creates the port of the place with this number, or, with the number of places, that of the entrance.
    pub fn of(number: u64) -> Explored {
        Explored { sleep: Sleep::default(), _mark: MARK + number }
    }
}

unsafe impl Port for Explored {
    const POLLS: u32 = match option_env!("POLLS") {
        Some(digit) => (digit.as_bytes()[0] - b'0') as u32,
        None => 0,
    };
    fn sleep_while(&self, word: &AtomicU32, is: u32) {
        self.sleep.sleep_while(word, is);
    }
    fn wake_one(&self, word: &AtomicU32) {
        self.sleep.wake_one(word);
    }
    fn panicking() -> bool {
        unsafe { x_me() < THREADS as u32 && kept().panics[x_me() as usize] }
    }
    fn thread() -> usize {
        unsafe { x_me() as usize + 1 }
    }
}

#[no_mangle]
pub extern "C" fn x_place_of(handle: usize) -> u32 {
    let is_in = |&from: &usize| (from..from + size_of::<Place>()).contains(&handle);
    made().at.iter().position(is_in).map_or(NOBODY, |place| place as u32)
}

const PLACES: [&CStr; THREADS] = [c"of place 0", c"of place 1", c"of place 2", c"of place 3"];
const WORDS: [&CStr; THREADS] = [c"place 0's word", c"place 1's word", c"place 2's word", c"place 3's word"];
const NOTES: [&CStr; THREADS] = [c"place 0's note", c"place 1's note", c"place 2's note", c"place 3's note"];

#[no_mangle]
pub extern "C" fn x_name_of(at: usize) -> *const c_char {
    let place = x_place_of(at);
    if place != NOBODY {
        return PLACES[place as usize].as_ptr();
    }
    let is_in = |&&(from, size): &&(usize, usize)| (from..from + size).contains(&at);
    made().lines.iter().find(is_in).map_or(null(), |&(from, _)| word_in(from, at).as_ptr())
}

/// Names a word by its cache line: that of a place's word, and of the entrance's, has the mark of its port.
fn word_in(piece: usize, at: usize) -> &'static CStr {
    let line = at / LINE * LINE;
    let marks = (line..line + LINE).step_by(8).map(|word| unsafe { (word as *const u64).read() }.wrapping_sub(MARK));
    match marks.min() {
        Some(number) if number == made().many as u64 => c"the entrance's word",
        Some(number) if number < made().many as u64 => WORDS[number as usize],
        Some(number) if number < 2 * THREADS as u64 => c"a group's word",
        _ if piece == made().lines[3].0 => c"a word of a group",
        _ if piece == made().lines[1].0 => NOTES[(line - piece) / LINE],
        _ if at < piece + OWNERS => c"the number of owners",
        _ => c"a word of the monitor",
    }
}
