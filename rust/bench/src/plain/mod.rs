//! The engine's calls as one would write them in Rust without proofs, with care but without tricks.

mod catalogue;
mod copy;
mod question;
mod run;
mod typed;

pub use catalogue::check_catalogue;
pub use copy::copy_every_outcome;
pub use question::{check_question, outcome};
pub use run::{run_every_outcome, run_in_tree_order};
pub use typed::typed;
