//! The engine as an engineer would write it for speed alone, without a proof: the same calls but `typed`, with the
//! same results and looks, for the same baseline (x86-64 with SSE2).
//!
//! A condition is worked out only where its look is due, as in the engine. What the speed comes from: blocks of 64
//! entries, vector instructions, loads without a test of bounds that the checks before have made sure of, operands
//! prepared once a call, and tables that nobody clears. tests/by_hand.rs and every row of the benchmark hold it to the
//! engine's results.
//!
//! Calls are never inlined, so that the benchmark cannot move work out of what it times; most of the rest always is, as
//! it has to be for the loops to keep their values in registers.

mod blocks;
mod catalogue;
mod copy;
mod due;
mod field;
mod list;
mod numbers;
mod operands;
mod question;
mod run;
mod texts;
mod vector;

pub use catalogue::check_catalogue;
pub use copy::copy;
pub use question::{check_question, outcome};
pub use run::run;

use list::List;

/// Entries are worked in blocks of so many, a bit of a word for each.
const BLOCK: usize = 64;
/// The most blocks that a catalogue has.
const MAX_BLOCKS: usize = searchroom::MAX_ENTRIES / BLOCK;
