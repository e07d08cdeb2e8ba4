//! Signals, as a terminal, a shutdown or another program sends them.

use std::process::Child;

/// Sends a run this signal, if it has not ended.
pub fn signal(run: &Child, number: i32) {
    let id = i32::try_from(run.id()).expect("a process number");
    // SAFETY: the call touches no memory of this process. The run was not waited for, so the number is still its own.
    unsafe { libc::kill(id, number) };
}
