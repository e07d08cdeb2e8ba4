use evaluator::{BLANK_NUMBER, Catalogue, Column};

use crate::{Rng, mark};

/// Parts of names, in ISO/IEC 8859-1. They share beginnings, ends and middles up to their case, so that conditions on
/// texts made of them are met often enough.
const NAMES: [&[u8]; 12] = [
    b"Ash",
    b"ASHBY",
    b"ash",
    b"by",
    b"B",
    b"Andr\xE9",
    b"ANDR\xC9",
    b"\xD7",
    b"\xF7",
    b"St. ",
    b"-on-Sea",
    b"\xDE\xFE\xFF\xDF",
];

/// Numbers at the ends of ranges, and some between.
const NUMBERS: [u32; 12] =
    [0, 1, 1_699, 1_700, 1_701, 1_799, 1_800, 1_822, 65_535, 65_536, BLANK_NUMBER - 1, BLANK_NUMBER - 2];

/// A catalogue of any accepted size, most often a small one.
pub fn catalogue(rng: &mut Rng) -> Catalogue {
    let entries = match rng.below(20) {
        0 => *rng.pick(&[2_047, 2_048]),
        1..=3 => rng.between(0, 300),
        _ => rng.between(0, 20),
    };
    let columns = if rng.chance(10) { rng.between(1, 16) } else { rng.between(1, 5) };
    catalogue_of(rng, entries, columns)
}

/// A catalogue of `entries` and `columns`, each column of numbers or of texts. Of its values an eighth are blank, or more, or
/// nearly all. Some have a mark.
pub fn catalogue_of(rng: &mut Rng, entries: usize, columns: usize) -> Catalogue {
    let mut blanked = || {
        let column = column(rng, entries);
        let percent = *rng.pick(&[0, 20, 50, 90]);
        with_blanks(column, |_| rng.chance(percent))
    };
    let columns = (0..columns).map(|_| blanked()).collect();
    Catalogue { mark: mark(rng, entries), ..Catalogue::unmarked(entries, columns) }
}

/// The column, blank at these entries too.
pub fn with_blanks(column: Column, mut is_blank: impl FnMut(usize) -> bool) -> Column {
    match column {
        Column::Numbers(numbers) => {
            let blanked = |(entry, number)| if is_blank(entry) { BLANK_NUMBER } else { number };
            Column::Numbers(numbers.into_iter().enumerate().map(blanked).collect())
        }
        Column::Texts(texts) => {
            let blanked = |(entry, text)| if is_blank(entry) { Vec::new() } else { text };
            Column::Texts(texts.into_iter().enumerate().map(blanked).collect())
        }
    }
}

/// A column of numbers or of texts, an eighth of them blank.
pub fn column(rng: &mut Rng, entries: usize) -> Column {
    if rng.chance(50) {
        Column::Numbers((0..entries).map(|_| number(rng)).collect())
    } else {
        Column::Texts((0..entries).map(|_| text(rng)).collect())
    }
}

fn number(rng: &mut Rng) -> u32 {
    match rng.below(8) {
        0 => BLANK_NUMBER,
        1 => rng.next_u64() as u32,
        _ => *rng.pick(&NUMBERS),
    }
}

/// A text of 0 to 23 bytes: blank, made of names, or any bytes.
pub fn text(rng: &mut Rng) -> Vec<u8> {
    match rng.below(8) {
        0 => Vec::new(),
        1 => {
            let length = rng.between(1, 23);
            rng.bytes(length)
        }
        _ => {
            let mut text = Vec::new();
            for _ in 0..rng.between(1, 6) {
                text.extend_from_slice(rng.pick::<&[u8]>(&NAMES));
            }
            text.truncate(23);
            text
        }
    }
}
