//! Bytes lent to the engine, with an unreadable page hard against one side and a margin of known bytes on the other.
//!
//! A read or write past the guarded side is a memory fault, though the archive itself was built without any sanitizer.
//! A write past the other side is found when the margins are looked at.

use std::cell::RefCell;
use std::ffi::{c_int, c_void};
use std::{ptr, slice};

unsafe extern "C" {
    fn mmap(at: *mut c_void, len: usize, prot: c_int, flags: c_int, fd: c_int, offset: i64) -> *mut c_void;
    fn mprotect(at: *mut c_void, len: usize, prot: c_int) -> c_int;
}

// As on x86-64 Linux, for which the archive is built.
const PROT_NONE: c_int = 0;
const PROT_READ_WRITE: c_int = 3;
const MAP_PRIVATE_ANONYMOUS: c_int = 0x22;
const PAGE: usize = 4_096;

/// What the margins are filled with.
const MARGIN: u8 = 0xA5;

/// The side of the bytes that lies against an unreadable page.
#[derive(Clone, Copy, Debug)]
pub enum Side {
    Front,
    Back,
}

impl Side {
    pub const BOTH: [Side; 2] = [Side::Front, Side::Back];
}

/// A copy of some bytes in guarded memory.
pub struct Lent {
    pages: Pages,
    start: usize,
    len: usize,
}

/// Readable pages, with one unreadable page before them and one after.
#[derive(Clone, Copy)]
struct Pages {
    first: *mut u8,
    len: usize,
}

thread_local! {
    /// Pages that no `Lent` uses now: a mapping for each of millions of slices would take longer than the calls.
    static FREE: RefCell<Vec<Pages>> = const { RefCell::new(Vec::new()) };
}

impl Pages {
    /// Pages for so many bytes, taken from the free ones or mapped.
    fn take(bytes: usize) -> Pages {
        let len = bytes.div_ceil(PAGE).max(1) * PAGE;
        let free = FREE.with_borrow_mut(|free| {
            let at = free.iter().position(|pages| pages.len == len)?;
            Some(free.swap_remove(at))
        });
        free.unwrap_or_else(|| Pages::map(len))
    }

    fn map(len: usize) -> Pages {
        // SAFETY: a fresh mapping; only its middle is made readable and only that is used.
        let first = unsafe {
            let whole = mmap(ptr::null_mut(), len + 2 * PAGE, PROT_NONE, MAP_PRIVATE_ANONYMOUS, -1, 0);
            assert!(whole as isize != -1, "mmap gave no memory");
            let first = whole.cast::<u8>().add(PAGE);
            assert_eq!(mprotect(first.cast(), len, PROT_READ_WRITE), 0, "mprotect failed");
            first
        };
        Pages { first, len }
    }
}

impl Lent {
    pub fn new(bytes: &[u8], guarded: Side) -> Lent {
        let pages = Pages::take(bytes.len());
        let start = match guarded {
            Side::Front => 0,
            Side::Back => pages.len - bytes.len(),
        };
        let mut lent = Lent { pages, start, len: bytes.len() };
        let (before, inside, after) = lent.parts();
        before.fill(MARGIN);
        inside.copy_from_slice(bytes);
        after.fill(MARGIN);
        lent
    }

    pub fn bytes(&self) -> &[u8] {
        // SAFETY: within the readable pages, which are this value's alone.
        unsafe { slice::from_raw_parts(self.pages.first.add(self.start), self.len) }
    }

    pub fn bytes_mut(&mut self) -> &mut [u8] {
        self.parts().1
    }

    /// Are the bytes beside the lent ones as they were?
    pub fn margins_stand(&mut self) -> bool {
        let (before, _, after) = self.parts();
        before.iter().chain(after.iter()).all(|&byte| byte == MARGIN)
    }

    fn parts(&mut self) -> (&mut [u8], &mut [u8], &mut [u8]) {
        // SAFETY: the readable pages, which are this value's alone, borrowed as it is.
        let pages = unsafe { slice::from_raw_parts_mut(self.pages.first, self.pages.len) };
        let (before, rest) = pages.split_at_mut(self.start);
        let (inside, after) = rest.split_at_mut(self.len);
        (before, inside, after)
    }
}

impl Drop for Lent {
    fn drop(&mut self) {
        FREE.with_borrow_mut(|free| free.push(self.pages));
    }
}
