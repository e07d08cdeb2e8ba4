//! A CSV file as the columns of a catalogue, and everything in it that does not fit one.

use std::str;

use searchroom::{MAX_COLUMNS, MAX_ENTRIES, MAX_TEXT};

use crate::catalogue::{Catalogue, Column, number_of};
use crate::fault::{Cell, Fault, What, a_number};
use crate::faults::Faults;
use crate::folder::Folder;
use crate::heading::{Heading, Holds, marks, name_of, says_withdrawn};
use crate::names::Names;
use crate::show::{counted, quoted};
use crate::table::{Lines, likely_separator};

/// What was noticed in a CSV file.
#[derive(Default)]
pub struct Noticed {
    pub faults: Faults,
    /// Of the catalogue's columns by number: what may surprise in it.
    pub notes: Vec<Option<String>>,
    /// What may surprise in the file as a whole.
    pub remarks: Vec<String>,
}

/// How many values of a line are judged: as many as fit with the mark. Where there are more, the first line has faults.
const JUDGED: usize = MAX_COLUMNS + 1;

/// An entry: the number of its line, and the cells that are judged.
struct Line {
    number: usize,
    cells: Vec<Vec<u8>>,
    /// Has it no value at all?
    is_blank: bool,
}

/// A column of the file: its place in a line, its name, and the value of each line with the line's number.
struct Values<'a> {
    place: usize,
    name: &'a str,
    values: Vec<(usize, &'a str)>,
}

impl Noticed {
    /// The folder that the file's bytes make; none if there are faults.
    pub fn folder(&mut self, bytes: &[u8], separator: u8) -> Option<Folder> {
        let mut lines = Lines::of(bytes, separator);
        if !lines.read(&mut self.faults) {
            self.fault(1, None, What::NoLine);
            return None;
        }
        let (columns, cells) = (lines.columns, self.first_line(&lines));
        let whole = self.entries(lines);
        if let Some((option, values)) = likely_separator(bytes, columns) {
            let likely = format!("the first line has {values} values if separated by {option}");
            self.remarks.push(format!("{likely}: try --separator {option}"));
        }
        self.remark(&cells, &whole);
        let (mut headings, mut columns, mut mark) = (Vec::new(), Vec::new(), None);
        for (place, cell) in cells.into_iter().enumerate() {
            let (name, declared) = name_of(&cell);
            let values = self.values(place, name, &whole);
            let holds = if marks(&cell) {
                let (withdrawn, holds) = self.mark(&values);
                mark = Some(withdrawn);
                holds
            } else {
                let (column, holds) = self.column(&values, declared);
                columns.push(column);
                holds
            };
            headings.push(Heading { cell, holds });
        }
        let catalogue = Catalogue { entries: whole.len(), columns, mark };
        (self.faults.count() == 0).then(|| Folder { bytes: catalogue.bytes(), catalogue, headings })
    }

    /// Remarks on a first line that looks like an entry, and on entries that look like none.
    fn remark(&mut self, cells: &[String], lines: &[Line]) {
        if let Some(cell) = cells.iter().find(|cell| number_of(cell).is_some()) {
            self.remarks.push(format!("{cell} is taken for a column's name: the first line names the columns"));
        }
        let blank: Vec<_> = lines.iter().filter(|line| line.is_blank).collect();
        if let [first, ..] = blank.as_slice() {
            let (one, more) = ("entry has no value at all, in line", "entries have no value at all, the first in line");
            self.remarks.push(format!("{} {}", counted(blank.len(), one, more), first.number));
        }
    }

    fn fault(&mut self, line: usize, cell: Option<Cell>, what: What) {
        self.faults.add(Fault { line, cell, what });
    }

    /// A fault of a column's value.
    fn unfit(&mut self, column: &Values, line: usize, value: &str, what: What) {
        self.fault(line, Some(Cell::new(column.place, column.name, value)), what);
    }

    /// The cells of the first line, which name the columns.
    fn first_line(&mut self, first: &Lines) -> Vec<String> {
        let mut names = Names::default();
        let text = |cell: &[u8]| String::from_utf8_lossy(cell).into_owned();
        for (place, cell) in first.cells.iter().enumerate() {
            if let Some(what) = names.judge(cell) {
                self.fault(first.number, Some(Cell::new(place, "", &text(cell))), what);
            }
        }
        if names.columns == 0 {
            self.fault(first.number, Some(Cell::new(0, "", &text(&first.cells[0]))), What::NoColumn);
        }
        first.cells.iter().take(JUDGED).map(text).collect()
    }

    /// The entries that have a value for each column. As many are judged as fit, and the others counted.
    fn entries(&mut self, mut lines: Lines) -> Vec<Line> {
        let mut whole = Vec::new();
        for _ in 0..MAX_ENTRIES {
            if !lines.read(&mut self.faults) {
                return whole;
            }
            if self.is_whole(&lines) {
                let cells = lines.cells.iter().take(JUDGED).map(<[u8]>::to_vec).collect();
                whole.push(Line { number: lines.number, cells, is_blank: lines.cells.iter().all(<[u8]>::is_empty) });
            }
        }
        if lines.read(&mut self.faults) {
            self.fault(lines.number, None, What::Entries(MAX_ENTRIES + 1 + lines.count()));
        }
        whole
    }

    /// Has a line a value for each column?
    fn is_whole(&mut self, line: &Lines) -> bool {
        let values = line.cells.len();
        if values != line.columns {
            self.fault(line.number, None, What::Values(values, line.columns));
        }
        values == line.columns
    }

    /// The values of a column.
    fn values<'a>(&mut self, place: usize, name: &'a str, lines: &'a [Line]) -> Values<'a> {
        let mut column = Values { place, name, values: Vec::new() };
        for line in lines {
            let bytes = &line.cells[place];
            match str::from_utf8(bytes) {
                Ok(value) => column.values.push((line.number, value)),
                Err(_) => self.unfit(&column, line.number, &String::from_utf8_lossy(bytes), What::NotUtf8),
            }
        }
        column
    }

    /// A column as it is declared; else of numbers if every value is empty or a number, else of texts.
    fn column(&mut self, column: &Values, declared: Option<Holds>) -> (Column, Holds) {
        let guessed = declared.is_none();
        let is_number = |value: &str| value.is_empty() || number_of(value).is_some();
        let other = column.values.iter().find(|(_, value)| !is_number(value));
        let holds = declared.unwrap_or(if other.is_none() { Holds::Numbers } else { Holds::Texts });
        self.notes.push(note(column, other.filter(|_| guessed)));
        let told = match holds {
            Holds::Numbers => Column::Numbers(self.each(column, Noticed::number)),
            _ => Column::Texts(self.each(column, Noticed::text)),
        };
        (told, holds)
    }

    /// What each value of a column says; nothing if it is empty.
    fn each<T>(
        &mut self,
        column: &Values,
        says: fn(&mut Noticed, &Values, usize, &str) -> Option<T>,
    ) -> Vec<Option<T>> {
        let value = |&(line, value): &(usize, &str)| match value {
            "" => None,
            _ => says(self, column, line, value),
        };
        column.values.iter().map(value).collect()
    }

    fn number(&mut self, column: &Values, line: usize, value: &str) -> Option<u32> {
        let number = number_of(value);
        if number.is_none() {
            self.unfit(column, line, value, no_number(value));
        }
        number
    }

    /// A text in ISO 8859-1.
    fn text(&mut self, column: &Values, line: usize, value: &str) -> Option<Vec<u8>> {
        let letters = value.chars().count();
        if letters > MAX_TEXT {
            self.unfit(column, line, value, What::Long(letters));
        }
        if let Some(what) = What::outside(value) {
            self.unfit(column, line, value, what);
        }
        value.chars().map(|letter| u8::try_from(letter).ok()).collect()
    }

    /// The mark, and the two words that the file has for it.
    fn mark(&mut self, column: &Values) -> (Vec<bool>, Holds) {
        // The first word for each, with its line.
        let mut words: [Option<(usize, &str)>; 2] = [None, None];
        let mut mark = Vec::new();
        for &(line, value) in &column.values {
            let Some(withdrawn) = says_withdrawn(value) else {
                self.unfit(column, line, value, What::NoWord);
                continue;
            };
            let (first, word) = *words[usize::from(withdrawn)].get_or_insert((line, value));
            if word != value {
                self.unfit(column, line, value, What::OtherWord(first, word.to_owned()));
            }
            mark.push(withdrawn);
        }
        let word =
            |withdrawn: bool, usual: &str| words[usize::from(withdrawn)].map_or(usual, |(_, word)| word).to_owned();
        (mark, Holds::Mark { withdrawn: word(true, "yes"), present: word(false, "no") })
    }
}

/// Why a value is no number.
fn no_number(value: &str) -> What {
    if !value.bytes().all(|byte| byte.is_ascii_digit()) {
        What::NotDigits
    } else if value.starts_with('0') {
        What::LeadingZero
    } else {
        What::TooLarge
    }
}

/// What may surprise in a column: a value that makes it one of texts though half of them are numbers, or one with spaces
/// around it.
fn note(column: &Values, no_number: Option<&(usize, &str)>) -> Option<String> {
    let filled: Vec<&(usize, &str)> = column.values.iter().filter(|(_, value)| !value.is_empty()).collect();
    let numbers = filled.iter().filter(|(_, value)| number_of(value).is_some()).count();
    if let Some((line, value)) = no_number.filter(|_| 2 * numbers >= filled.len()) {
        return Some(format!("line {line} has {}; a number is {}", quoted(value), a_number()));
    }
    let (line, value) = filled.into_iter().find(|(_, value)| value.trim() != *value)?;
    Some(format!("line {line} has {}, with a space before or after; a search takes it for a letter", quoted(value)))
}
