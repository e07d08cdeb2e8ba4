//! What may be wrong in a CSV file, in words: of one fault, and of many of a kind.

use std::fmt;
use std::mem::{Discriminant, discriminant};

use searchroom::{MAX_COLUMNS, MAX_ENTRIES, MAX_TEXT};

use crate::catalogue::MAX_NUMBER;
use crate::names::Misnamed;
use crate::show::{counted, grouped, quoted, shown};

/// Something in a CSV file that does not fit a catalogue.
#[derive(Clone)]
pub struct Fault {
    pub line: usize,
    pub cell: Option<Cell>,
    pub what: What,
}

/// The cell of a fault.
#[derive(Clone)]
pub struct Cell {
    /// Its place in the line, counted from 0.
    pub place: usize,
    /// The column's name; empty in the first line.
    pub name: String,
    pub value: String,
}

/// A kind of faults; names are of as many kinds as there are reasons against one.
pub type Kind = (Discriminant<What>, Option<Discriminant<Misnamed>>);

#[derive(Clone)]
pub enum What {
    NoLine,
    /// So many entries are too many.
    Entries(usize),
    /// A name in the first line, and why it cannot stand.
    Name(Misnamed),
    /// A column too many.
    Column,
    NoColumn,
    /// The line has so many values, and the first line has so many.
    Values(usize, usize),
    /// An empty line, in a file of so many columns.
    Empty(usize),
    Quotes,
    NotUtf8,
    /// A text of so many letters.
    Long(usize),
    /// Letters outside ISO 8859-1; [`What::outside`] makes it.
    Outside(Vec<char>),
    NotDigits,
    LeadingZero,
    TooLarge,
    /// No word for withdrawn, nor for the opposite.
    NoWord,
    /// That line has this word for the same.
    OtherWord(usize, String),
}

/// How many letters of a value or a name a fault shows, and how many that are not in ISO 8859-1.
const SHOWN: usize = 60;

impl fmt::Display for Fault {
    fn fmt(&self, f: &mut fmt::Formatter<'_>) -> fmt::Result {
        write!(f, "line {}", self.line)?;
        if let Some(cell) = &self.cell {
            write!(f, ", {}, {}", cell.column(), quoted(&cut(&cell.value)))?;
        }
        write!(f, ": {}", self.what)
    }
}

impl Cell {
    /// A cell of this place. Of a name and a value no more is kept than shows that the rest is cut.
    pub fn new(place: usize, name: &str, value: &str) -> Cell {
        let kept = |text: &str| text.chars().take(SHOWN + 1).collect();
        Cell { place, name: kept(name), value: kept(value) }
    }

    /// The column, counted from 1 as spreadsheets do, and its name.
    pub fn column(&self) -> String {
        let name = if self.name.is_empty() { String::new() } else { format!(" ({})", shown(&cut(&self.name))) };
        format!("column {}{name}", self.place + 1)
    }
}

fn cut(text: &str) -> String {
    let cut: String = text.chars().take(SHOWN).collect();
    if cut.len() < text.len() { cut + "…" } else { cut }
}

/// What is wrong in one place, and what to do.
impl fmt::Display for What {
    fn fmt(&self, f: &mut fmt::Formatter<'_>) -> fmt::Result {
        f.write_str(&match self {
            What::NoLine => "the file has no line; the first one names the columns".to_owned(),
            What::Entries(entries) => {
                let (entries, most) = (grouped(*entries), grouped(MAX_ENTRIES));
                format!("{entries} entries; at most {most} fit, so split the file before this line")
            }
            What::Name(why) => why.to_string(),
            What::Column => format!("a column too many; a catalogue has at most {MAX_COLUMNS} beside the mark"),
            What::NoColumn => "no column beside the mark; add one, for a catalogue has at least one".to_owned(),
            What::Values(values, columns) => {
                let advice = if values > columns { STANDS_IN_QUOTES } else { KEEPS_ITS_SEPARATOR };
                let values = counted(*values, "value", "values");
                format!("{values}; the first line has {columns}; {advice}")
            }
            What::Empty(1) => "an empty line; write \"\" for a blank value, or remove it if it is no entry".to_owned(),
            What::Empty(_) => "an empty line; remove it".to_owned(),
            What::Quotes => format!("a quote is not closed, or letters follow a closing quote; {AS_QUOTES_STAND}"),
            What::NotUtf8 => format!("not UTF-8; {AS_UTF_8}"),
            What::Long(letters) => format!("{letters} letters; a text has at most {MAX_TEXT}, so shorten it"),
            What::Outside(letters) => {
                let more = if letters.len() > SHOWN { ", …" } else { "" };
                let letters: Vec<String> = letters.iter().take(SHOWN).map(|&letter| outside(letter)).collect();
                format!("not in ISO 8859-1: {}{more}; {OTHER_LETTERS}", letters.join(", "))
            }
            What::NotDigits | What::LeadingZero | What::TooLarge => format!("not a number; write {}", a_number()),
            What::NoWord => format!("neither yes nor no; {YES_OR_NO}"),
            What::OtherWord(line, word) => format!("line {line} says {} for the same; use one word", quoted(word)),
        })
    }
}

impl What {
    /// The fault of a text with letters outside ISO 8859-1, if it has any. Of many no more are kept than are shown.
    pub fn outside(text: &str) -> Option<What> {
        let outside = text.chars().filter(|&letter| u8::try_from(letter).is_err());
        let letters: Vec<char> = outside.take(SHOWN + 1).collect();
        (!letters.is_empty()).then_some(What::Outside(letters))
    }

    /// What faults of one kind have in common: they call for the same advice.
    pub fn kind(&self) -> Kind {
        (discriminant(self), if let What::Name(why) = self { Some(discriminant(why)) } else { None })
    }

    /// Is this a fault of the first line, which has one line for all columns in a summary?
    pub fn is_of_first_line(&self) -> bool {
        matches!(self, What::Name(_) | What::Column)
    }

    /// What is wrong in many places, the first of them in this line and column, and what to do. Of texts that are too
    /// long the longest has so many letters.
    pub fn many(&self, count: usize, line: usize, column: &str, longest: usize) -> String {
        let first = format!("first in line {line}");
        let (what, advice) = match self {
            What::Name(why) => why.many(column),
            What::Column => {
                (format!("columns over the {MAX_COLUMNS} that fit beside the mark, first {column}"), "remove them")
            }
            What::Values(..) => {
                (format!("lines have another number of values than the first, first line {line}"), AS_VALUES_STAND)
            }
            What::Empty(1) => {
                (format!("empty lines, first line {line}"), "write \"\" for a blank value, or remove them")
            }
            What::Empty(_) => (format!("empty lines, first line {line}"), "remove them"),
            What::Quotes => (
                format!("lines have a quote that is not closed, or letters after a closing one, first line {line}"),
                AS_QUOTES_STAND,
            ),
            What::NotUtf8 => (format!("values that are not UTF-8, {first}"), AS_UTF_8),
            What::Long(_) => {
                (format!("values over {MAX_TEXT} letters, the longest {longest}, {first}"), "shorten them")
            }
            What::Outside(letters) => {
                let letter = outside(letters[0]);
                (format!("values with letters outside ISO 8859-1, the first {letter} in line {line}"), OTHER_LETTERS)
            }
            What::NotDigits => (format!("values that are not digits alone, {first}"), NUMBERS_OR_TEXTS),
            What::LeadingZero => (format!("values with a leading zero, {first}"), NUMBERS_OR_TEXTS),
            What::TooLarge => (format!("values over {}, {first}", grouped(MAX_NUMBER as usize)), NUMBERS_OR_TEXTS),
            What::NoWord => (format!("values that are neither yes nor no, {first}"), YES_OR_NO),
            What::OtherWord(..) => (format!("values in another word than before, {first}"), "use one word for each"),
            // A file has one of these at most.
            What::NoLine | What::Entries(_) | What::NoColumn => return self.to_string(),
        };
        format!("{count} {what}; {advice}")
    }
}

/// How a number is written.
pub fn a_number() -> String {
    format!("digits alone, no leading zero, at most {}", grouped(MAX_NUMBER as usize))
}

/// A letter outside ISO 8859-1, with its number because it may look like another.
fn outside(letter: char) -> String {
    format!("{} (U+{:04X})", shown(&letter.to_string()), u32::from(letter))
}

pub const AS_UTF_8: &str = "save the file as \"CSV UTF-8\"";
const OTHER_LETTERS: &str = "use other letters";
const STANDS_IN_QUOTES: &str = "a value that holds the separator stands in quotes";
const KEEPS_ITS_SEPARATOR: &str = "an empty value keeps its separator";
const AS_VALUES_STAND: &str = "an empty value keeps its separator, and one that holds the separator stands in quotes";
const AS_QUOTES_STAND: &str = "a value in quotes begins and ends with one, and a quote inside is doubled";
const NUMBERS_OR_TEXTS: &str = "write numbers, or :text in place of :number";
const YES_OR_NO: &str = "write yes, true, 1 or x if it is withdrawn, else no, false, 0 or nothing";
