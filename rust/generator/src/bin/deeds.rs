//! Writes the county's list of deeds, a CSV file, to standard output:
//! `cargo run --release -p generator --bin deeds > deeds.csv`.

use std::io::{self, Write};

use generator::deeds;

fn main() -> io::Result<()> {
    io::stdout().write_all(deeds().as_bytes())
}
