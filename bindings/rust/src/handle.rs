//! What the proved archives hand to a caller.
use core::ffi::c_void;
use core::ptr::null_mut;

/// A book, a door or a place, as C holds it. The archive alone writes it; all zero, it holds nothing.
#[repr(C)]
pub(crate) struct Handle {
    live: u64,
    spare: *mut c_void,
    at: *mut c_void,
}

// SAFETY: a handle may move between threads (the headers say so), and each call of the archive has it alone: `&mut`
unsafe impl Send for Handle {}
// SAFETY: nothing is done with a shared one
unsafe impl Sync for Handle {}

impl Handle {
    /// A handle that holds nothing.
    pub(crate) const EMPTY: Handle = Handle { live: 0, spare: null_mut(), at: null_mut() };
}
