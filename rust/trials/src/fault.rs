//! Says which case was being tried when the engine touches memory that it was not lent.

use std::cell::Cell;
use std::ffi::{c_int, c_void};
use std::sync::Once;

unsafe extern "C" {
    fn signal(number: c_int, handler: usize) -> usize;
    fn write(fd: c_int, bytes: *const c_void, len: usize) -> isize;
}

const SIGSEGV: c_int = 11;
const SIG_DFL: usize = 0;

thread_local! {
    static TRYING: Cell<[u8; 120]> = const { Cell::new([0; 120]) };
}

/// Notes what this thread is about to try, for the message of a memory fault.
pub fn trying(label: &str) {
    static HANDLER: Once = Once::new();
    HANDLER.call_once(|| {
        // SAFETY: `tell` calls only functions that a signal handler may call.
        unsafe { signal(SIGSEGV, tell as *const () as usize) };
    });
    let mut line = [b' '; 120];
    let length = label.len().min(line.len());
    line[..length].copy_from_slice(&label.as_bytes()[..length]);
    TRYING.set(line);
}

/// Writes the noted case, then lets the fault end the process as it would have.
extern "C" fn tell(_: c_int) {
    let head = b"memory fault in the engine while trying: ";
    let line = TRYING.get();
    // SAFETY: both buffers are whole; `signal` with the default action is always allowed.
    unsafe {
        write(2, head.as_ptr().cast(), head.len());
        write(2, line.as_ptr().cast(), line.len());
        write(2, b"\n".as_ptr().cast(), 1);
        signal(SIGSEGV, SIG_DFL);
    }
}
