//! What the tests in `tests/` share: lent memory with guards, comparison with the evaluator, and reports.

mod both;
mod catalogue;
mod copy;
mod damaged;
mod every;
mod fault;
mod fewer;
mod fuzz;
mod lent;
mod ones;
mod question;
mod report;
mod room;
mod run;
mod seen;
mod tally;
mod typed;

pub use both::{compare_both, compare_condition, look_count};
pub use catalogue::compare_catalogue;
pub use copy::{Copying, by_condition, compare_copy};
pub use damaged::{Damaged, damage_some, damaged_catalogue};
pub use every::{Answers, compare_every_call};
pub use fault::trying;
pub use fewer::{fewer, seeds, sizes};
pub use fuzz::Fuzz;
pub use lent::{Lent, Side};
pub use ones::ones;
pub use question::{compare_outcome, compare_question};
pub use report::hex;
pub use room::Room;
pub use run::{Run, compare_run};
pub use seen::Seen;
pub use tally::{NOT_READERS, READERS, any_reader, any_tally, encode_tally, encode_tally_with, nearly_full_tally};
pub use typed::{Typing, compare_reading, compare_typed};

use generator::encode_mark;

/// The catalogue of document 01's parish of three entries.
pub const PARISH_CATALOGUE: &[u8] = include_bytes!("../../../examples/parish/catalogue.bin");

/// Its question: year 1700 to 1799 and parish beginning "ash", or year blank.
pub const PARISH_QUESTION: &[u8] = include_bytes!("../../../examples/parish/question.bin");

/// The same question as it is typed.
pub const PARISH_TEXT: &str = r#"any(all(c0 in 1700..1799,c1 starts "ash"),c0 blank)"#;

/// Its running order 0, 1, 2.
pub const PARISH_ORDER: &[u8] = include_bytes!("../../../examples/parish/order.bin");

/// Another question on the parish: year not from 1700 to 1799.
pub const OUTSIDE_THE_CENTURY: &[u8] = &[80, 0, 10, 0, 128, 0, 0, 6, 0xA4, 0, 0, 7, 7];

/// Numbers of entries at which a row of bits ends with a byte or a word, or beside such an end, or words and then a byte.
pub const ENTRIES_AT_ENDS: [usize; 12] = [1, 7, 8, 9, 56, 57, 63, 64, 65, 1_000, 2_047, 2_048];

/// What memory is filled with before it is lent, where a test looks at what stays.
pub const FILL: u8 = 0x5A;

/// The parish's catalogue with a mark of this byte.
pub fn marked_parish(mark: u8) -> Vec<u8> {
    [PARISH_CATALOGUE, &encode_mark(&[mark])].concat()
}
