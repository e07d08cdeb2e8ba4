//! Random inputs from a seed: decoded values, their bytes, and damages to bytes, to marks and to typed texts. Beside them, worked
//! by hand, the twelve kinds with their answers, and the letters that a search takes for the same.
//!
//! The same seed gives the same input on every machine, so that a test which fails names the seed and no more.

mod catalogue;
mod county;
mod damage;
mod deeds;
mod encode;
mod faulty;
mod kinds;
mod letters;
mod mark;
mod misspelling;
mod near;
mod outcomes;
mod parish;
mod question;
mod rng;

pub use catalogue::{catalogue, catalogue_of, column, text, with_blanks};
pub use county::{county, marked_county};
pub use damage::{Damage, damage};
pub use deeds::deeds;
pub use encode::{encode_bits, encode_catalogue, encode_condition, encode_mark, encode_question, encode_texts, field};
pub use faulty::{faulty_question, typable_question};
pub use kinds::{Kind, twelve_kinds};
pub use letters::{alike, latin_1, plain_letter};
pub use mark::{MarkFault, faulty_mark, mark};
pub use misspelling::{Misspelling, misspell};
pub use near::{near_text, operand};
pub use outcomes::{BLOCK, Pattern, with_outcomes};
pub use question::{condition, question, question_of, running_order, tree_of};
pub use rng::Rng;
