//! The words that the program takes, and their help.

use std::path::PathBuf;

use clap::{Args, Parser, Subcommand};

/// The desk of the searchroom: from a spreadsheet to a list, a register and a picture
///
/// A catalogue is made from a CSV file and asked questions: trees of conditions, all of these, any of those. A question lists
/// the entries that meet it and registers every look at a condition. The engine behind it is proved: the list is exactly
/// right, and in the same running order no right way of working makes fewer looks.
#[derive(Parser)]
#[command(
    name = "searchroom",
    bin_name = "searchroom",
    version,
    subcommand_value_name = "WORD",
    subcommand_help_heading = "Words",
    after_help = "\
Examples:
  searchroom import examples/deeds/deeds.csv deeds
  searchroom ask deeds 'all(year in 1700..1799, parish starts \"ash\")'
  searchroom explain deeds 'all(year in 1700..1799, parish starts \"ash\")' 17
  searchroom draw deeds 'all(year in 1700..1799, parish starts \"ash\")' -o question.svg

Exit status: 0 done, whether entries were found or not; 1 refused, with the reason on standard error; \
2 wrong usage."
)]
pub struct Desk {
    #[command(subcommand)]
    pub word: Word,
}

#[derive(Subcommand)]
pub enum Word {
    Import(Import),
    Export(Export),
    Ask(Ask),
    Explain(Explain),
    Draw(Draw),
}

/// Make a catalogue from a CSV file
///
/// The first line names the columns, at most 16; each further line is an entry, at most 2,048. A column holds numbers
/// if every value is empty or a number up to 4,294,967,294 without leading zeros, else texts of at most 23 letters;
/// `name:number` or `name:text` in the first line decides it. An empty value is a blank. A column named `withdrawn` is
/// the mark: yes, true, 1 or x withdraws the entry, no, false, 0 or nothing does not. The file is in UTF-8 and has at
/// most 16 MiB, the letters of its values are those of ISO 8859-1. Whatever does not fit is reported with its line and
/// column, many faults summed up by column, and then nothing is written.
///
/// FOLDER receives catalogue.bin, which the engine reads, and columns.csv, the columns' names.
#[derive(Args)]
#[command(after_help = "\
Examples:
  searchroom import examples/deeds/deeds.csv deeds
  searchroom import --separator ';' bonds.csv bonds")]
pub struct Import {
    /// The CSV file
    pub file: PathBuf,
    /// The folder for the catalogue; it is made if it is not there
    pub folder: PathBuf,
    #[command(flatten)]
    pub separated: Separated,
}

/// Write the catalogue as CSV again
///
/// The values are those that were imported, in UTF-8, under the same first line.
#[derive(Args)]
#[command(after_help = "\
Example:
  searchroom export deeds > deeds-again.csv")]
pub struct Export {
    /// The folder with the catalogue
    pub folder: PathBuf,
    #[command(flatten)]
    pub separated: Separated,
}

#[derive(Args)]
pub struct Separated {
    /// The sign between the values: one character, or `tab`
    #[arg(long, value_name = "SIGN", default_value = ",", value_parser = separator)]
    pub separator: u8,
}

/// List the entries that meet a question, and count the looks
///
/// A question is one condition or one group of them, in single quotes, so that the shell leaves it alone. Withdrawn entries
/// are never listed and never looked at.
#[derive(Args)]
#[command(after_help = "\
Conditions, with `not` before for the opposite:
  year in 1700..1799     a number from 1700 to 1799; one year is 1700..1700
  parish is \"ash\"        a text, the whole of it
  parish starts \"ash\"    its beginning
  parish has \"ash\"       any part of it
  year blank             no value
Groups, of conditions or groups:
  all(.., ..)            every member is met
  any(.., ..)            one of them is, or more

A column is named as in the CSV file, in double quotes if that is not one word, or by its number: c0, c1. \
Texts are found in capitals or small letters, with or without the accent. A blank value meets neither a condition \
nor its opposite, except `blank` and `not blank`. A question has at most 64 conditions, none of them twice, in groups \
at most 8 deep.

Examples:
  searchroom ask deeds 'all(year in 1700..1799, parish starts \"ash\")'
  searchroom ask deeds 'any(depositor has \"bronte\", year blank)' --order 1,0 --json
  searchroom ask deeds 'parish is \"ashton\"' --reader 3 --tally tally.bin --copy copy.bin")]
pub struct Ask {
    #[command(flatten)]
    pub asked: Asked,
    /// The reader for whom the run is made, 0 to 15
    #[arg(long, value_name = "NUMBER", default_value_t = 0, value_parser = reader, allow_hyphen_values = true)]
    pub reader: u64,
    /// Add the looks to this reader's number in FILE, which is made if it is not there
    #[arg(long, value_name = "FILE")]
    pub tally: Option<PathBuf>,
    /// Write the steward's copy of the register to FILE: seven bytes for each look
    #[arg(long, value_name = "FILE")]
    pub copy: Option<PathBuf>,
    /// Replace the copy's FILE even if it is not empty and no copy
    #[arg(long, requires = "copy")]
    pub force: bool,
    /// Answer with one line of JSON
    #[arg(long)]
    pub json: bool,
    /// Only print the question in the strict spelling that the engine reads; goes with no other option
    #[arg(long, conflicts_with_all = ["order", "reader", "tally", "copy", "force", "json"])]
    pub strict: bool,
}

/// Show a question's tree at one entry: which conditions were looked at, which passed, and why
///
/// A condition is looked at where it can still make the difference. Where a group around it is settled by earlier looks, it is
/// passed: its answer makes no difference and is not worked out. Nothing is added to a tally.
#[derive(Args)]
#[command(after_help = "\
Example:
  searchroom explain deeds 'all(year in 1700..1799, parish starts \"ash\")' 17")]
pub struct Explain {
    #[command(flatten)]
    pub asked: Asked,
    /// The entry's number, from 0 on
    #[arg(value_parser = entry, allow_negative_numbers = true)]
    pub entry: u64,
}

/// Draw a question's tree as an SVG picture
///
/// Each condition stands with its looks, as a share of the entries that are not withdrawn. Nothing is added to a tally.
#[derive(Args)]
#[command(after_help = "\
Example:
  searchroom draw deeds 'all(year in 1700..1799, parish starts \"ash\")' -o question.svg")]
pub struct Draw {
    #[command(flatten)]
    pub asked: Asked,
    /// The file for the picture, or - for standard output
    #[arg(short, long, value_name = "FILE")]
    pub output: PathBuf,
    /// Replace FILE even if it is not empty and no picture of the desk's
    #[arg(long)]
    pub force: bool,
}

/// What every question needs.
#[derive(Args)]
pub struct Asked {
    /// The folder with the catalogue
    pub folder: PathBuf,
    /// The question, in single quotes (`searchroom ask --help` has the notation)
    pub question: String,
    /// The running order: the conditions' numbers, as in 2,0,1. Without it they run as they stand
    #[arg(long, value_name = "NUMBERS", value_delimiter = ',', value_parser = condition, allow_hyphen_values = true)]
    pub order: Option<Vec<u8>>,
}

/// The number of a condition, if it fits a byte of the order; the engine judges it.
fn condition(text: &str) -> Result<u8, String> {
    text.trim()
        .parse()
        .map_err(|_| "conditions are numbers from 0 to at most 63, separated by commas, as in 2,0,1".to_owned())
}

/// The number of an entry; the engine judges it.
fn entry(text: &str) -> Result<u64, String> {
    text.trim().parse().map_err(|_| "entries are numbers from 0 to at most 2,047".to_owned())
}

/// The number of a reader; the engine judges it.
fn reader(text: &str) -> Result<u64, String> {
    text.trim().parse().map_err(|_| "readers are numbers, 0 to 15".to_owned())
}

/// The byte of a separator.
fn separator(sign: &str) -> Result<u8, String> {
    match sign.as_bytes() {
        b"tab" => Ok(b'\t'),
        &[byte] if byte.is_ascii() && !matches!(byte, b'"' | b'\n' | b'\r') => Ok(byte),
        _ => Err("one character of ASCII, or `tab`; a quote or a line end cannot separate values".to_owned()),
    }
}
