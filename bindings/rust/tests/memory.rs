//! A book or a monitor frees all that it allocated. If an allocation fails, it keeps nothing.
use std::alloc::{GlobalAlloc, Layout, System};
use std::cell::{Cell, RefCell};
use std::rc::Rc;
use zaulinte::book::Book;
use zaulinte::{conditions, Monitor, Places, Refused};

conditions! { enum When { A, B } }
conditions! { enum Mesa { C } }

thread_local! {
    // what this thread allocated and hasn't freed: its address and layout
    static TAKEN: RefCell<Option<Vec<(usize, Layout)>>> = const { RefCell::new(None) };
    // the number of allocations of this thread that succeed before an allocation fails
    static BEFORE_FAILURE: Cell<Option<usize>> = const { Cell::new(None) };
}

struct Noted;

// Notes nothing while it notes, nor if no test asks for it.
fn note(change: impl FnOnce(&mut Vec<(usize, Layout)>)) {
    let _ = TAKEN.try_with(|taken| {
        if let Ok(mut taken) = taken.try_borrow_mut() {
            taken.as_mut().map(change);
        }
    });
}

// Counts an allocation down, and returns true if it is the allocation that fails.
fn fails() -> bool {
    let before = BEFORE_FAILURE.try_with(Cell::get).unwrap_or(None);
    let _ = BEFORE_FAILURE.try_with(|cell| cell.set(before.and_then(|before| before.checked_sub(1))));
    before == Some(0)
}

// SAFETY: it is the system's, or fails
unsafe impl GlobalAlloc for Noted {
    unsafe fn alloc(&self, layout: Layout) -> *mut u8 {
        if fails() {
            return std::ptr::null_mut();
        }
        let at = unsafe { System.alloc(layout) };
        note(|taken| taken.push((at as usize, layout)));
        at
    }

    unsafe fn dealloc(&self, at: *mut u8, layout: Layout) {
        note(|taken| {
            let place = taken.iter().position(|&piece| piece == (at as usize, layout));
            taken.swap_remove(place.expect("freed as it was allocated"));
        });
        unsafe { System.dealloc(at, layout) }
    }
}

#[global_allocator]
static NOTED: Noted = Noted;

// Returns what an act allocated and didn't free.
fn taken_by(act: impl FnOnce()) -> Vec<(usize, Layout)> {
    TAKEN.with(|taken| *taken.borrow_mut() = Some(Vec::with_capacity(1000)));
    act();
    TAKEN.with(|taken| taken.borrow_mut().take().unwrap())
}

#[test]
fn a_book_gives_back_what_it_took() {
    for places in [1, 2, 4, 9, 16, 64] {
        let mut book = None;
        assert!(!taken_by(|| book = Book::new(places, 8, 3).ok()).is_empty());
        drop(book);
        assert_eq!(taken_by(|| drop(Book::new(places, 8, 3))), []);
    }
}

#[test]
fn a_book_that_is_used_takes_no_more() {
    let mut book = Book::new(64, 8, 0).unwrap();
    let mut uses = || {
        for place in 0..64 {
            book.enter(place)?;
            book.wait(place, place % 8, 7)?;
        }
        Ok::<(), Refused>(())
    };
    assert_eq!(taken_by(|| uses().unwrap()), []);
}

#[test]
fn a_refused_book_keeps_nothing() {
    assert_eq!(taken_by(|| assert!(Book::new(65, 1, 0).is_err())), []);
    assert_eq!(taken_by(|| assert!(Book::new(64, 9, 0).is_err())), []);
}

type Small = Monitor<u32, When, Mesa>;

#[test]
fn a_monitor_gives_back_what_it_took() {
    for places in [1, 2, 9, 64] {
        assert_eq!(taken_by(|| drop(Small::new(7, places))), []);
        assert_eq!(taken_by(|| drop(Small::new(7, places).map(|(_monitor, places)| places))), []);
    }
    assert_eq!(taken_by(|| assert!(Small::new(7, 65).is_err())), []);
}

#[test]
fn places_outlive_their_monitor() {
    let uses = || {
        let (monitor, mut places) = Small::new(7, 3).unwrap();
        drop(monitor);
        *places[2].enter().unwrap() += 1;
        drop(places.remove(0));
        assert_eq!(*places[0].enter().unwrap(), 8);
    };
    assert_eq!(taken_by(uses), []);
}

#[test]
fn a_monitor_that_is_used_takes_no_more() {
    let (_monitor, mut places) = Small::new(7, 64).unwrap();
    let uses = || {
        for place in &mut places {
            let mut inside = place.try_enter().unwrap().unwrap();
            *inside += 1;
            assert!(!inside.signal(When::A).unwrap() && !inside.notify(Mesa::C) && inside.first(When::B).is_none());
            assert!(!inside.signal_leave(When::B));
        }
    };
    assert_eq!(taken_by(uses), []);
}

#[test]
fn a_group_gives_back_what_it_took_and_a_loan_takes_nothing() {
    let makes = |fails: bool| {
        let places = Small::new(7, 9).unwrap().1;
        BEFORE_FAILURE.with(|before| before.set(fails.then_some(0)));
        let made = Places::new(places);
        BEFORE_FAILURE.with(|before| before.set(None));
        made
    };
    assert_eq!(taken_by(|| drop(makes(false).unwrap().into_inner())), []);
    assert_eq!(taken_by(|| assert_eq!(makes(true).err(), Some(Refused::NoMemory))), []);
    let group = makes(false).unwrap();
    assert_eq!(taken_by(|| drop((group.borrow(), group.try_borrow()))), []);
    assert_eq!(taken_by(|| _ = *group.borrow().enter().unwrap()), []);
}

// Makes a monitor; the allocation after so many fails.
fn with_failure_after(succeed: usize, places: usize) -> Option<Refused> {
    BEFORE_FAILURE.with(|before| before.set(Some(succeed)));
    let made = Small::new(7, places);
    BEFORE_FAILURE.with(|before| before.set(None));
    made.err()
}

// Returns the number of allocations by which a monitor is made.
fn requests(places: usize) -> usize {
    BEFORE_FAILURE.with(|before| before.set(Some(usize::MAX)));
    let made = Small::new(7, places);
    let left = BEFORE_FAILURE.with(|before| before.replace(None));
    assert!(made.is_ok());
    usize::MAX - left.unwrap()
}

#[test]
fn a_refused_allocation_is_an_error_at_each_request_and_loses_nothing() {
    for places in [1, 5, 64] {
        let requests = requests(places);
        assert!(requests > places); // each place has memory of its own
        for succeed in 0..requests - 1 {
            // the last is the `Arc`'s, at which the program would end
            let mut refused = None;
            assert_eq!(taken_by(|| refused = with_failure_after(succeed, places)), []);
            assert_eq!(refused, Some(Refused::NoMemory), "request {succeed} of {places} places");
        }
    }
}

#[test]
fn data_of_a_refused_monitor_are_dropped() {
    struct Dropped(#[allow(dead_code)] Rc<()>);
    // SAFETY: this test has one thread
    unsafe impl Send for Dropped {}
    let data = Rc::new(());
    assert!(Monitor::<Dropped, When>::new(Dropped(data.clone()), 65).is_err());
    assert_eq!(Rc::strong_count(&data), 1);
}

#[test]
fn a_place_whose_guard_was_forgotten_leaves_as_it_is_dropped_and_loses_nothing() {
    let forgets = || {
        let (_monitor, mut places) = Monitor::<Vec<u8>, When>::new(vec![], 2).unwrap();
        std::mem::forget(places[0].enter().unwrap());
        assert!(places[1].try_enter().is_none());
        drop(places.remove(0));
        places[0].try_enter().unwrap().unwrap().push(1);
    };
    assert_eq!(taken_by(forgets), []);
}

#[repr(C)]
struct Tried {
    is: bool,
    at: *mut u8,
}

extern "C" {
    fn rattle_alloc(bytes: usize, align: usize) -> Tried;
    fn rattle_dealloc(at: *mut u8);
}

#[test]
fn the_archive_s_memory_is_aligned_or_refused() {
    let takes = |bytes: usize, align: usize| {
        // SAFETY: the size isn't 0, and what is given back was given
        unsafe {
            let tried = rattle_alloc(bytes, align);
            if !tried.is {
                return false;
            }
            assert_eq!(tried.at as usize % align, 0);
            tried.at.write_bytes(7, bytes);
            rattle_dealloc(tried.at);
            true
        }
    };
    for bytes in [1, 15, 16, 17, 4096] {
        assert_eq!(taken_by(|| assert!([1, 2, 4, 8, 16].iter().all(|&align| takes(bytes, align)))), []);
        assert!(!takes(bytes, 32) && !takes(usize::MAX - bytes + 1, 1));
    }
}
