//! The programs' letters (programs.c) as calls of the running monitor for Rust. A place that two threads compete for,
//! and the letters that free, can't be written in Rust. Besides: x the thread panics inside; F it forgets its guard;
//! d it drops its place, and ends.
#![no_std]
extern crate alloc;
mod rust_world;

use core::ffi::{c_char, CStr};
use core::ptr::null;
use rust_world::{fail, kept, x_await, x_inside, x_tell, x_touch, Explored, NOBODY};
use zaulinte::{conditions, Checks, LockResult, Monitor};

conditions! { enum Hoare { Item } }
conditions! { enum Mesa { Item } }

struct Data {
    items: u32,
    /// A thread panicked inside.
    is_poisoned: bool,
    /// The places that wait on the condition of Hoare.
    waits: [bool; 10],
    /// The place that a signal to it resumes next.
    chosen: Option<usize>,
}

type Place = zaulinte::Place<Data, Hoare, Mesa, Explored>;
type Group = zaulinte::Places<Data, Hoare, Mesa, Explored>;
type Borrowed = zaulinte::Borrowed<'static, Data, Hoare, Mesa, Explored>;
type Inside<'a> = zaulinte::Inside<'a, Data, Hoare, Mesa, Explored>;

#[repr(C)]
pub struct Program {
    name: *const c_char,
    script: [*const c_char; 4],
    places: u32,
    hoare: u32,
    mesa: u32,
    groups: *const c_char,
}

#[no_mangle]
pub extern "C" fn x_make(program: &Program) {
    rust_world::begin();
    let mut ports = (0..).map(Explored::of);
    let data = Data { items: 0, is_poisoned: false, waits: [false; 10], chosen: None };
    let made = Monitor::with_port(data, program.places as usize, Checks::default(), || ports.next().unwrap());
    let Ok((monitor, mut places)) = made else { panic!() };
    if cfg!(record) {
        monitor.record(&mut places, 4).unwrap();
    }
    drop(monitor); // its places keep what they share
    if program.groups.is_null() {
        return rust_world::keep(places);
    }
    let sizes = unsafe { CStr::from_ptr(program.groups) }.to_bytes();
    let mut group =
        |size: &u8| Group::with_port(places.drain(..usize::from(size - b'0')).collect(), ports.next().unwrap());
    rust_world::keep_groups(sizes.iter().map(|size| group(size).unwrap()).collect());
}

#[no_mangle]
pub extern "C" fn x_finished() -> *const c_char {
    if unsafe { x_inside() } != NOBODY {
        return c"all threads ended, and a place is inside".as_ptr();
    }
    if rust_world::is_memory_lost() {
        c"all places were dropped, and memory is lost".as_ptr()
    } else {
        null()
    }
}

#[no_mangle]
pub extern "C" fn x_run(_: u32, number: u32, script: *const c_char) {
    let script = unsafe { CStr::from_ptr(script) }.to_bytes();
    let is_waiter = |i: usize| i > 1 && script[i - 2] == b'S'; // of SCK the letters are S and K
    let is_letter = |&(i, letter): &(usize, u8)| letter != b' ' && (!letter.is_ascii_digit() || is_waiter(i));
    let mut letters = script.iter().copied().enumerate().filter(is_letter).map(|(_, letter)| letter);
    let mut groups = script.windows(2).filter(|pair| b"gh".contains(&pair[0])).map(|pair| usize::from(pair[1] - b'0'));
    let mut borrowed: [Option<Borrowed>; 2] = [None, None]; // the last before the others
    while let Some(letter) = letters.next() {
        match letter {
            b'g' | b'h' => match borrow(letter, groups.next().unwrap()) {
                Some(place) => borrowed = [Some(place), borrowed[0].take()],
                None => return,
            },
            b'r' => {
                kept().lent[of(&mut borrowed, number).number()] = false;
                borrowed = [borrowed[1].take(), None];
            }
            b'!' => unsafe { x_tell(&mut kept().said, 1) },
            b'@' => unsafe { x_await(&kept().said, 1) },
            b'G' => {} // a group that is in use can't be dropped in Rust
            b'e' | b't' if enters(of(&mut borrowed, number), letter, &mut letters) => {}
            b't' => return,
            b'd' => return rust_world::drop_place(number),
            _ => fail(c"no such letter outside"),
        }
    }
}

/// Returns the place that the thread borrowed last, or else its own.
fn of(borrowed: &mut [Option<Borrowed>; 2], number: u32) -> &mut Place {
    borrowed[0].as_deref_mut().unwrap_or_else(|| rust_world::place(number))
}

fn enters(place: &mut Place, letter: u8, letters: &mut impl Iterator<Item = u8>) -> bool {
    let number = place.number() as u32;
    let entered = if letter == b'e' { Some(place.enter()) } else { place.try_enter() };
    entered.map(|entered| visit(entered, number, letters)).is_some()
}

fn borrow(letter: u8, group: usize) -> Option<Borrowed> {
    let group = rust_world::group(group);
    let place = if letter == b'g' { group.borrow() } else { group.try_borrow()? };
    let lent = &mut kept().lent[place.number()];
    if core::mem::replace(lent, true) {
        fail(c"a place is lent to two threads")
    }
    Some(place)
}

fn visit(entered: LockResult<Inside<'_>>, number: u32, letters: &mut impl Iterator<Item = u8>) {
    let is_err = entered.is_err();
    let mut visited = Some(entered.unwrap_or_else(|poisoned| poisoned.into_inner()));
    visited.as_ref().map(|inside| agrees(inside, is_err));
    while let Some(inside) = visited {
        unsafe { x_touch(number) };
        let letter = letters.next();
        visited = match letter {
            Some(b'S') => signal_to(inside, letters.next()),
            _ => act(inside, number, letter),
        };
    }
}

/// Tests that a call returned an error if a thread panicked inside, and only then.
fn agrees(inside: &Inside<'_>, is_err: bool) {
    if is_err != inside.is_poisoned {
        fail(c"a call reports the wrong poison")
    }
}

fn act<'a>(mut inside: Inside<'a>, number: u32, letter: Option<u8>) -> Option<Inside<'a>> {
    match letter {
        Some(b'l') => return None,
        Some(b'p' | b'P') => return pass(inside),
        Some(b'x') => return panic_inside(inside),
        Some(b'F') => {
            core::mem::forget(inside);
            return None;
        }
        Some(b'?') => wait(&mut inside),
        Some(b'*') => wait_mesa(&mut inside, number),
        Some(b's') => signal(&mut inside),
        Some(b'n') => notify(&mut inside),
        Some(b'b') => broadcast(&mut inside),
        Some(b'+') => inside.items += 1,
        Some(b'-') => inside.items = inside.items.checked_sub(1).unwrap_or_else(|| fail(c"there is no item")),
        _ => fail(c"no such letter inside"),
    }
    Some(inside)
}

fn wait(inside: &mut Inside<'_>) {
    if inside.items == 0 {
        let number = inside.place_number();
        inside.waits[number] = true;
        let is_err = inside.wait(Hoare::Item, 0).is_err();
        inside.waits[number] = false;
        agrees(inside, is_err);
        if inside.chosen.take().is_some_and(|chosen| chosen != number) {
            fail(c"another place resumes than the chosen one")
        }
    }
    if inside.items == 0 {
        fail(c"a place resumes without an item")
    }
}

fn wait_mesa(inside: &mut Inside<'_>, number: u32) {
    while inside.items == 0 {
        let is_err = inside.wait_mesa(Mesa::Item, 0).is_err();
        agrees(inside, is_err);
        unsafe { x_touch(number) };
    }
}

fn signal(inside: &mut Inside<'_>) {
    let waits = inside.queue(Hoare::Item);
    let resumed = inside.signal(Hoare::Item);
    agrees(inside, resumed.is_err());
    if resumed.unwrap_or_else(|poisoned| poisoned.into_inner()) != waits {
        fail(c"signal tells the wrong number")
    }
}

fn signal_to<'a>(mut inside: Inside<'a>, letter: Option<u8>) -> Option<Inside<'a>> {
    let waiter = usize::from(letter.unwrap_or_else(|| fail(c"no place")) - b'0');
    let waits = inside.waits[waiter];
    inside.chosen = waits.then_some(waiter);
    let resumed = inside.signal_to(Hoare::Item, waiter);
    agrees(&inside, resumed.is_err());
    if resumed.unwrap_or_else(|poisoned| poisoned.into_inner()) != waits {
        fail(c"signal_to tells the wrong number")
    }
    if inside.chosen.is_some() {
        fail(c"the chosen place hasn't resumed")
    }
    Some(inside)
}

fn pass<'a>(mut inside: Inside<'a>) -> Option<Inside<'a>> {
    let waits = inside.queue(Hoare::Item);
    if inside.signal_leave(Hoare::Item) != waits {
        fail(c"signal_leave tells the wrong number")
    }
    None
}

fn notify(inside: &mut Inside<'_>) {
    let count = inside.count_mesa(Mesa::Item);
    if inside.notify(Mesa::Item) != (count > 0) {
        fail(c"notify tells the wrong number")
    }
}

fn broadcast(inside: &mut Inside<'_>) {
    let count = inside.count_mesa(Mesa::Item);
    if inside.broadcast(Mesa::Item) != count {
        fail(c"broadcast tells the wrong number")
    }
}

/// Does what a panic inside does: the guard is dropped while its thread unwinds.
fn panic_inside<'a>(mut inside: Inside<'a>) -> Option<Inside<'a>> {
    inside.is_poisoned = true;
    let panics = &mut kept().panics[unsafe { rust_world::x_me() } as usize];
    *panics = true;
    drop(inside);
    *panics = false;
    None
}
