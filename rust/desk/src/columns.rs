//! The headings of a folder's catalogue, which `columns.csv` keeps.

use searchroom::MAX_COLUMNS;

use crate::catalogue::{Catalogue, Column, from_latin_1, number_of};
use crate::heading::{Heading, Holds, WITHDRAWN};
use crate::names::{MAX_CELL, Names};

/// The first line of `columns.csv`.
pub const FIRST_LINE: &str = "header,values\n";

/// The most bytes of `columns.csv`: for each column and the mark the longest cell, of letters of four bytes, and what
/// stands around it: quotes, a comma, what the column holds and the line's end.
pub const MAX_BYTES: usize = FIRST_LINE.len() + (MAX_COLUMNS + 1) * (4 * MAX_CELL + 32);

/// The headings that `columns.csv` keeps; none where it is not of the form that [`write`] gives it, or the names are faulty.
pub fn read(bytes: &[u8]) -> Option<Vec<Heading>> {
    if !bytes.starts_with(FIRST_LINE.as_bytes()) {
        return None;
    }
    let mut headings = Vec::new();
    for record in csv::Reader::from_reader(bytes).into_records() {
        let record = record.ok()?;
        if headings.len() > MAX_COLUMNS {
            return None;
        }
        let holds = match record.get(1)? {
            "number" => Holds::Numbers,
            "text" => Holds::Texts,
            words => {
                let (withdrawn, present) = words.split_once('/')?;
                Holds::Mark { withdrawn: withdrawn.to_owned(), present: present.to_owned() }
            }
        };
        headings.push(Heading { cell: record[0].to_owned(), holds });
    }
    let mut names = Names::default();
    headings.iter().all(|heading| names.judge(heading.cell.as_bytes()).is_none()).then_some(headings)
}

pub fn write(headings: &[Heading]) -> Vec<u8> {
    let mut writer = csv::Writer::from_writer(FIRST_LINE.as_bytes().to_vec());
    let mut record = |cell: &str, values: &str| writer.write_record([cell, values]).expect("memory takes every record");
    for Heading { cell, holds } in headings {
        match holds {
            Holds::Numbers => record(cell, "number"),
            Holds::Texts => record(cell, "text"),
            Holds::Mark { withdrawn, present } => record(cell, &format!("{withdrawn}/{present}")),
        }
    }
    writer.into_inner().expect("memory takes every record")
}

/// The headings of the columns of a catalogue that has no names.
pub fn unnamed(catalogue: &Catalogue) -> Vec<Heading> {
    let column = |(number, column): (usize, &Column)| match column {
        Column::Numbers(_) => Heading { cell: format!("c{number}"), holds: Holds::Numbers },
        // Texts that all look like numbers would be read as numbers again.
        Column::Texts(texts) if texts.iter().flatten().all(|text| number_of(&from_latin_1(text)).is_some()) => {
            Heading { cell: format!("c{number}:text"), holds: Holds::Texts }
        }
        Column::Texts(_) => Heading { cell: format!("c{number}"), holds: Holds::Texts },
    };
    catalogue.columns.iter().enumerate().map(column).collect()
}

/// The headings, and one for a mark that they lack: it was added to the catalogue since.
pub fn with_mark(mut headings: Vec<Heading>, catalogue: &Catalogue) -> Vec<Heading> {
    if catalogue.mark.is_some() && !headings.iter().any(Heading::is_mark) {
        let holds = Holds::Mark { withdrawn: "yes".to_owned(), present: "no".to_owned() };
        headings.push(Heading { cell: WITHDRAWN.to_owned(), holds });
    }
    headings
}

/// Do these headings fit the catalogue?
pub fn fit(headings: &[Heading], catalogue: &Catalogue) -> bool {
    let held = |column: &Column| match column {
        Column::Numbers(_) => Holds::Numbers,
        Column::Texts(_) => Holds::Texts,
    };
    let columns: Vec<Holds> = catalogue.columns.iter().map(held).collect();
    let named = headings.iter().filter(|heading| !heading.is_mark()).map(|heading| heading.holds.clone());
    let marks = headings.iter().filter(|heading| heading.is_mark()).count();
    named.eq(columns) && marks == usize::from(catalogue.mark.is_some())
}
