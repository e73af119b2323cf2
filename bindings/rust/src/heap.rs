//! Memory for the archives, under the two names by which they ask for it. They give memory back by its address alone,
//! so the size is kept in front of each piece.
use alloc::alloc::{alloc, dealloc, Layout};
use core::ptr::null_mut;

/// Bytes in front of each piece, which has the same alignment.
const HEAD: usize = 16;

/// An allocation: `at` is valid if `is`.
#[repr(C)]
pub struct Tried {
    is: bool,
    at: *mut u8,
}

fn with_head(bytes: usize) -> Option<Layout> {
    Layout::from_size_align(bytes.checked_add(HEAD)?, HEAD).ok()
}

fn piece(bytes: usize, align: usize) -> Option<*mut u8> {
    let layout = with_head(bytes).filter(|_| align <= HEAD)?;
    // SAFETY: the size isn't 0
    let start = unsafe { alloc(layout) };
    if start.is_null() {
        return None;
    }
    // SAFETY: the head is inside of what was allocated, and aligned
    unsafe {
        start.cast::<usize>().write(bytes);
        Some(start.add(HEAD))
    }
}

#[no_mangle]
extern "C" fn rattle_alloc(bytes: usize, align: usize) -> Tried {
    match piece(bytes, align) {
        Some(at) => Tried { is: true, at },
        None => Tried { is: false, at: null_mut() },
    }
}

#[no_mangle]
unsafe extern "C" fn rattle_dealloc(at: *mut u8) {
    // SAFETY: the archive gives back what it was given, whose head `piece` wrote
    unsafe {
        let start = at.sub(HEAD);
        if let Some(layout) = with_head(start.cast::<usize>().read()) {
            dealloc(start, layout);
        }
    }
}
