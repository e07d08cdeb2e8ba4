//! The searchroom engine from Rust: safe calls over `libsearchroom.a`.
//!
//! The engine takes byte slices and numbers and checks them itself: every call may be made with any bytes, and answers
//! either with its result or with the [`Refusal`] that is due. Nothing has to be checked beforehand.
//!
//! Nobody else may write to lent bytes while a call runs: the engine checks first and trusts afterwards. Rust's borrows
//! see to it, except for bytes of a memory map or of shared memory, which another process can change, and which go away
//! where the mapped file is cut. Read a file with [`std::fs::read`]. Bytes of a map may be lent only where the map is
//! private and nobody writes or cuts the file until the call returns.
//!
//! ```
//! // One entry and one column of numbers, holding the year 1701.
//! let catalogue = [67, 0, 3, 0, 1, 1, 78, 0, 4, 0, 0, 0x06, 0xA5];
//! let size = searchroom::check_catalogue(&catalogue)?;
//! assert_eq!((size.entries, size.columns), (1, 1));
//! # Ok::<(), searchroom::Refusal>(())
//! ```

mod catalogue;
mod consultation;
mod copy;
mod question;
mod refusal;
mod run;
mod sys;
mod tally;
mod typed;
mod word;

pub use catalogue::{MAX_COLUMNS, MAX_ENTRIES, MAX_TEXT, Size, check_catalogue};
pub use consultation::{Consultation, consult};
pub use copy::{COPY_BYTES, Look, Looks, copy, copy_of, looks};
pub use question::{Answer, MAX_CONDITIONS, MAX_DEPTH, check_question, outcome};
pub use refusal::Refusal;
pub use run::{Counts, bit, run};
pub use tally::Tally;
pub use typed::{MAX_TYPED, TYPED_BYTES, typed, typed_question};
pub use word::Word;

/// The calls as C sees them: the answer is the packed [`Word`], not taken apart.
pub mod raw {
    pub use crate::catalogue::check_catalogue_word as check_catalogue;
    pub use crate::copy::copy_word as copy;
    pub use crate::question::{check_question_word as check_question, outcome_word as outcome};
    pub use crate::run::run_word as run;
    pub use crate::typed::typed_word as typed;
}
