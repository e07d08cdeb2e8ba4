//! A CSV file as lines of cells.

use std::borrow::Cow;
use std::iter;

use crate::fault::{Fault, What};
use crate::faults::Faults;

/// The lines of a CSV file, read one after the other. A file has as many cells as bytes, and a cell takes many bytes
/// where it is kept by itself: so no more than the last line is kept, as one piece.
pub struct Lines<'a> {
    reader: csv::Reader<&'a [u8]>,
    separator: u8,
    place: Place<'a>,
    /// How many values the first line has; none before it is read.
    pub columns: usize,
    /// Of the last line that was read: its number in the file, counted from 1 as editors do, and its cells.
    pub number: usize,
    pub cells: csv::ByteRecord,
}

impl Lines<'_> {
    pub fn of(bytes: &[u8], separator: u8) -> Lines<'_> {
        let at = if bytes.starts_with(BYTE_ORDER_MARK) { BYTE_ORDER_MARK.len() } else { 0 };
        let place = Place { bytes, at, line: 1 };
        let cells = csv::ByteRecord::new();
        Lines { reader: reader(bytes, separator), separator, place, columns: 0, number: 0, cells }
    }

    /// Reads a line, if there is one. An empty line is a fault: the library that reads the file passes over it, and in
    /// a file of one column an entry would be lost.
    pub fn read(&mut self, faults: &mut Faults) -> bool {
        let more = next(&mut self.reader, &mut self.cells);
        if self.columns == 0 {
            self.columns = self.cells.len();
        }
        while self.place.at_line_end() {
            // Without a line that names the columns there is nothing to say of empty ones.
            if self.columns > 0 {
                faults.add(Fault { line: self.place.line, cell: None, what: What::Empty(self.columns) });
            }
            self.place.pass_line_end();
        }
        if more {
            self.number = self.place.line;
            let end = usize::try_from(self.reader.position().byte()).expect("a place in memory");
            if !is_told_as_it_stands(&self.place.bytes[self.place.at..end], &self.cells, self.separator) {
                faults.add(Fault { line: self.number, cell: None, what: What::Quotes });
            }
            self.place.advance(end);
        }
        more
    }

    /// How many lines are left. They are not judged.
    pub fn count(mut self) -> usize {
        iter::from_fn(|| next(&mut self.reader, &mut self.cells).then_some(())).count()
    }
}

/// Reads the next line into the cells, if there is one.
fn next(reader: &mut csv::Reader<&[u8]>, cells: &mut csv::ByteRecord) -> bool {
    reader.read_byte_record(cells).expect("memory can always be read")
}

fn reader(bytes: &[u8], separator: u8) -> csv::Reader<&[u8]> {
    let mut reader = csv::ReaderBuilder::new().flexible(true).delimiter(separator).from_reader(bytes);
    // Of a first line that it takes for headers the library keeps two copies; with these it reads it as any other.
    reader.set_byte_headers(csv::ByteRecord::new());
    reader
}

/// Signs that often separate values, and how they are named on the command line.
const SEPARATORS: [(u8, &str); 4] = [(b',', "','"), (b';', "';'"), (b'\t', "tab"), (b'|', "'|'")];

/// Another sign that may separate the values, and how many the first line has then: more than these columns, and some
/// other line has as many, if there is another.
pub fn likely_separator(bytes: &[u8], columns: usize) -> Option<(&'static str, usize)> {
    let values = |sign: u8| {
        let (mut reader, mut cells) = (reader(bytes, sign), csv::ByteRecord::new());
        let mut counts = iter::from_fn(|| next(&mut reader, &mut cells).then(|| cells.len())).peekable();
        let values = counts.next().filter(|&values| values > columns)?;
        (counts.peek().is_none() || counts.any(|count| count == values)).then_some(values)
    };
    let likely = SEPARATORS.into_iter().filter_map(|(sign, option)| values(sign).map(|values| (option, values)));
    likely.max_by_key(|&(_, values)| values)
}

/// Do the cells stand in the line as they are, or in quotes? The library lets other quotes pass, and would change the value or
/// take further lines into it.
fn is_told_as_it_stands(line: &[u8], cells: &csv::ByteRecord, separator: u8) -> bool {
    let mut rest = line;
    for (place, cell) in cells.iter().enumerate() {
        let parted: &[u8] = if place == 0 { b"" } else { &[separator] };
        let Some(after) = rest.strip_prefix(parted) else { return false };
        let told = if after.starts_with(b"\"") { Cow::Owned(in_quotes(cell)) } else { Cow::Borrowed(cell) };
        let Some(after) = after.strip_prefix(&*told) else { return false };
        rest = after;
    }
    matches!(rest, b"" | b"\n" | b"\r" | b"\r\n")
}

fn in_quotes(cell: &[u8]) -> Vec<u8> {
    let times = |byte| if byte == b'"' { 2 } else { 1 };
    let doubled = cell.iter().flat_map(|&byte| iter::repeat_n(byte, times(byte)));
    iter::once(b'"').chain(doubled).chain(iter::once(b'"')).collect()
}

const BYTE_ORDER_MARK: &[u8] = "\u{FEFF}".as_bytes();

/// A place in a file and the number of its line. Lines end with \n, \r\n or \r.
struct Place<'a> {
    bytes: &'a [u8],
    at: usize,
    line: usize,
}

impl Place<'_> {
    fn at_line_end(&self) -> bool {
        matches!(self.bytes.get(self.at), Some(b'\n' | b'\r'))
    }

    fn pass_line_end(&mut self) {
        self.at += if self.bytes[self.at..].starts_with(b"\r\n") { 2 } else { 1 };
        self.line += 1;
    }

    /// Goes on to where a record ended, and past the rest of its line end.
    fn advance(&mut self, to: usize) {
        while self.at < to {
            if self.at_line_end() {
                self.pass_line_end();
            } else {
                self.at += 1;
            }
        }
    }
}
