//! Document 01 and the orders done since, in plain Rust, written from the papers alone.
//!
//! It shares nothing with the engine and is meant to be believed by reading: values are decoded first, then every rule is
//! worked out as its sentence says it, at whatever cost. Tests hold the engine to its answers.

mod catalogue;
mod condition;
mod copy;
mod field;
mod mark;
mod question;
pub mod refusal;
mod register;
mod run;
mod spelling;
mod tables;
mod typed;
mod word;

pub use catalogue::{BLANK_NUMBER, Catalogue, Column, read_catalogue};
pub use condition::{Answer, Condition, Test, fold, outcome, read_condition};
pub use copy::{Copied, copy};
pub use question::{Question, Tree, read_question};
pub use refusal::Number;
pub use register::{refused_register, register};
pub use run::{Found, due_by_reach, due_by_trying, find};
pub use spelling::spelling;
pub use tables::{Ran, run};
pub use typed::{Typed, read_typed, typed};
pub use word::{catalogue_word, outcome_word, pack, question_word, refused};
