//! Engines of the same calls, to compare the proved one with.

pub mod by_hand;
mod fold;
pub mod plain;
