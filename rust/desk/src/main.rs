//! The desk of the searchroom, for people: from a spreadsheet to a list, a register and a picture.
//!
//! It reads and writes files and rewrites questions. Every list, look and answer, and every refusal with a number, is the
//! engine's.

mod ask;
mod catalogue;
mod columns;
mod draw;
mod explain;
mod export;
mod failure;
mod fault;
mod faults;
mod folder;
mod found;
mod heading;
mod import;
mod lock;
mod names;
mod notation;
mod ours;
mod pair;
mod question;
mod reading;
mod refused;
mod replace;
mod request;
mod save;
mod sheet;
mod show;
mod table;
mod target;
mod typed;
mod usage;
mod words;

use std::io::{self, BufWriter, Write};
use std::process::ExitCode;

use clap::Parser;

use crate::failure::Failure;
use crate::show::Paint;
use crate::words::{Desk, Word};

fn main() -> ExitCode {
    let desk = Desk::try_parse().unwrap_or_else(|error| usage::end(error));
    match carry_out(&desk.word) {
        Ok(()) | Err(Failure::Closed) => ExitCode::SUCCESS,
        Err(failure) => {
            let paint = Paint::of(&io::stderr());
            // Where nobody hears it the status still tells.
            let _ = writeln!(io::stderr(), "{} {failure}", paint.red("searchroom:"));
            ExitCode::FAILURE
        }
    }
}

/// Carries out a word and sends off what it prints.
fn carry_out(word: &Word) -> Result<(), Failure> {
    let paint = Paint::of(&io::stdout());
    let mut out = BufWriter::new(io::stdout().lock());
    match word {
        Word::Import(words) => import::import(&words.file, &words.folder, words.separated.separator, &mut out),
        Word::Export(words) => export::export(&words.folder, words.separated.separator, &mut out),
        Word::Ask(words) => ask::ask(words, paint, &mut out),
        Word::Explain(words) => explain::explain(words, paint, &mut out),
        Word::Draw(words) => draw::draw(words, &mut out),
    }?;
    Ok(out.flush()?)
}
