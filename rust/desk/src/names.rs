//! The names in a first line, judged one after the other, and in words what may be wrong with one.

use std::collections::HashMap;
use std::{fmt, str};

use searchroom::MAX_COLUMNS;

use crate::fault::{AS_UTF_8, What};
use crate::heading::{marks, name_of, numbered};
use crate::show::{grouped, is_of_no_width};

/// The most letters of a name: more would not fit any page.
const MAX_NAME: usize = 200;

/// The most letters of a cell with a name, the spaces around it and its sort among them: `columns.csv` keeps them all.
pub const MAX_CELL: usize = 1_000;

/// Why a name cannot stand.
#[derive(Clone)]
pub enum Misnamed {
    NotUtf8,
    Empty,
    /// The column of that place has the name too.
    Taken(usize),
    Long,
    /// The name is not too long, but its cell is.
    Padded,
    /// This letter in it is seen by nobody.
    Unseen(char),
    /// The name is that of another column in a question.
    Numbered(String),
}

/// The names that were judged so far.
#[derive(Default)]
pub struct Names {
    /// Of each name, in small letters, the place at which it stands first. Those of columns too many are not kept.
    places: HashMap<String, usize>,
    judged: usize,
    /// How many of the cells are not the mark's.
    pub columns: usize,
}

impl Names {
    /// What is wrong with the next cell of the first line. A column too many is to be removed, whatever its name is.
    pub fn judge(&mut self, cell: &[u8]) -> Option<What> {
        let text = String::from_utf8_lossy(cell);
        let (place, number) = (self.judged, self.columns);
        self.judged += 1;
        if !marks(&text) {
            self.columns += 1;
            if number >= MAX_COLUMNS {
                return Some(What::Column);
            }
        }
        let name = name_of(&text).0;
        let first = if name.is_empty() { place } else { *self.places.entry(name.to_lowercase()).or_insert(place) };
        if str::from_utf8(cell).is_err() {
            Some(What::Name(Misnamed::NotUtf8))
        } else if first < place {
            Some(What::Name(Misnamed::Taken(first)))
        } else {
            misnamed(&text, name, number).map(What::Name)
        }
    }
}

/// What is wrong with a name by itself, in the cell of the column of this number.
fn misnamed(cell: &str, name: &str, number: usize) -> Option<Misnamed> {
    if name.is_empty() {
        Some(Misnamed::Empty)
    } else if name.chars().count() > MAX_NAME {
        Some(Misnamed::Long)
    } else if let Some(letter) = name.chars().find(|&letter| is_of_no_width(letter)) {
        Some(Misnamed::Unseen(letter))
    } else if numbered(name).is_some_and(|other| other != number.to_string()) {
        Some(Misnamed::Numbered(name.to_owned()))
    } else {
        (cell.chars().count() > MAX_CELL).then_some(Misnamed::Padded)
    }
}

/// What is wrong with one name, and what to do.
impl fmt::Display for Misnamed {
    fn fmt(&self, f: &mut fmt::Formatter<'_>) -> fmt::Result {
        match self {
            Misnamed::NotUtf8 => write!(f, "not UTF-8; {AS_UTF_8}"),
            Misnamed::Empty => f.write_str("no name; write one into the first line, or remove the column"),
            Misnamed::Taken(place) => write!(f, "column {} has that name too; each column needs its own", place + 1),
            Misnamed::Long => write!(f, "a name has at most {MAX_NAME} letters; shorten it"),
            Misnamed::Padded => {
                write!(f, "with its spaces a name has at most {} letters; remove spaces", grouped(MAX_CELL))
            }
            Misnamed::Unseen(letter) => {
                write!(f, "nobody sees the letter U+{:04X} in this name; remove it", u32::from(*letter))
            }
            Misnamed::Numbered(name) => {
                write!(f, "in a question {name} is the column of that number; give it another name")
            }
        }
    }
}

impl Misnamed {
    /// What is wrong with many names, the first of them in this column, and what to do.
    pub fn many(&self, column: &str) -> (String, &'static str) {
        match self {
            Misnamed::NotUtf8 => (format!("names that are not UTF-8, first in {column}"), AS_UTF_8),
            Misnamed::Empty => (
                format!("columns without a name, first {column}"),
                "write names into the first line, or remove the columns",
            ),
            Misnamed::Taken(_) => {
                (format!("names that an earlier column has too, first in {column}"), "give each column one of its own")
            }
            Misnamed::Long => (format!("names over {MAX_NAME} letters, first in {column}"), "shorten them"),
            Misnamed::Padded => {
                let letters = grouped(MAX_CELL);
                (format!("names over {letters} letters with their spaces, first in {column}"), "remove spaces")
            }
            Misnamed::Unseen(letter) => {
                let letter = u32::from(*letter);
                (
                    format!("names with letters that nobody sees, the first U+{letter:04X} in {column}"),
                    "remove these letters",
                )
            }
            Misnamed::Numbered(_) => (
                format!("names that are columns of other numbers in a question, first in {column}"),
                "give them other names",
            ),
        }
    }
}
