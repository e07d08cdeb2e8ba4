//! A run of the program beside the test, which must come to an end.

use std::process::{Child, Stdio};
use std::thread;
use std::time::{Duration, Instant};

use crate::desk::room::{Room, Said};

pub fn started(room: &Room, words: &[&str]) -> Child {
    let mut command = room.command(words);
    command.stdout(Stdio::piped()).stderr(Stdio::piped()).spawn().expect("the program starts")
}

/// What a run said that prints little. One that goes on for half a minute hangs, and is ended.
pub fn ended(mut run: Child) -> Said {
    let since = Instant::now();
    while run.try_wait().expect("a run").is_none() {
        if since.elapsed() > Duration::from_secs(30) {
            run.kill().expect("a run that goes on");
            panic!("the program hangs: {:?}", run.wait_with_output());
        }
        thread::sleep(Duration::from_millis(1));
    }
    Said::of(run.wait_with_output().expect("the program has ended"))
}
