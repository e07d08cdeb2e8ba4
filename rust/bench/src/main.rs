//! Prints a table of ratios, the engine's time over that of something that does the same work, and a table of what a
//! look costs on top of the checks.
//!
//! What is compared is timed in turn, in the same run and on the same bytes (but for the engine with a mark beside
//! itself without it), and the medians are compared; a ratio under 1 says that the engine is faster. Times alone would
//! say more about the machine than about the engine.

mod against_sqlite;
mod asked;
mod catalogue;
mod copy;
mod count;
mod look;
mod million;
mod places;
mod question;
mod questions;
mod run;
mod sqlite;
mod table;
mod timing;
mod typed;

use table::Table;

fn main() {
    let mut table = Table::with_head();
    catalogue::report(&mut table);
    question::report(&mut table);
    run::report(&mut table);
    copy::report(&mut table);
    against_sqlite::report(&mut table);
    million::report(&mut table);
    count::report(&mut table);
    typed::report(&mut table);
    table.print_end();
    look::report();
}
