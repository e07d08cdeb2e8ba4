//! The parish's tally.

use std::fs;

use crate::desk::parish::QUESTION;
use crate::desk::room::Room;

/// The looks of the parish's run.
pub const LOOKS: u64 = 6;

/// The numbers in a tally's file.
pub fn numbers(room: &Room, file: &str) -> [u64; 16] {
    let bytes = fs::read(room.path(file)).expect("the tally");
    assert_eq!(bytes.len(), 128);
    let number = |reader: usize| u64::from_be_bytes(bytes[8 * reader..][..8].try_into().expect("eight bytes"));
    std::array::from_fn(number)
}

/// The parish's question, asked by a reader with a tally.
pub fn ask<'a>(tally: &'a str, reader: &'a str) -> [&'a str; 7] {
    ["ask", "parish", QUESTION, "--tally", tally, "--reader", reader]
}
