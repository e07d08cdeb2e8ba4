use crate::field::{Field, take_field};
use crate::mark::read_mark;
use crate::refusal::{self, Number};

const CATALOGUE_TAG: u8 = 67;
const NUMBERS_TAG: u8 = 78;
const TEXTS_TAG: u8 = 84;
const MAX_ENTRIES: usize = 2_048;
const MAX_COLUMNS: usize = 16;
const MAX_TEXT: usize = 23;
const SLOT: usize = 24;

/// The number that stands for a blank.
pub const BLANK_NUMBER: u32 = 4_294_967_295;

/// An accepted catalogue.
#[derive(Clone, Debug, PartialEq, Eq)]
pub struct Catalogue {
    pub entries: usize,
    pub columns: Vec<Column>,
    /// The mark, if there is one (order 6): for each entry, whether it is withdrawn.
    pub mark: Option<Vec<bool>>,
}

impl Catalogue {
    /// A catalogue that ends with its last column.
    pub fn unmarked(entries: usize, columns: Vec<Column>) -> Catalogue {
        Catalogue { entries, columns, mark: None }
    }

    /// Is an entry withdrawn? Without a mark none is.
    pub fn is_withdrawn(&self, entry: usize) -> bool {
        self.mark.as_ref().is_some_and(|mark| mark[entry])
    }

    /// The number of entries still in the house.
    pub fn present(&self) -> usize {
        (0..self.entries).filter(|&entry| !self.is_withdrawn(entry)).count()
    }
}

/// A column holds one value for each entry. A number is blank at [`BLANK_NUMBER`], a text at length 0.
#[derive(Clone, Debug, PartialEq, Eq)]
pub enum Column {
    Numbers(Vec<u32>),
    Texts(Vec<Vec<u8>>),
}

/// Walks a catalogue front to back; the first failing check decides.
pub fn read_catalogue(bytes: &[u8]) -> Result<Catalogue, Number> {
    let mut rest = bytes;
    let first = take_field(&mut rest).ok_or(refusal::CATALOGUE_FIELD)?;
    let [e1, e2, c] = *first.payload else { return Err(refusal::CATALOGUE_HEADER) };
    if first.tag != CATALOGUE_TAG {
        return Err(refusal::CATALOGUE_HEADER);
    }
    let entries = usize::from(e1) * 256 + usize::from(e2);
    let count = usize::from(c);
    if entries > MAX_ENTRIES || count == 0 || count > MAX_COLUMNS {
        return Err(refusal::CATALOGUE_LIMITS);
    }
    let mut columns = Vec::new();
    for _ in 0..count {
        let field = take_field(&mut rest).ok_or(refusal::CATALOGUE_FIELD)?;
        columns.push(read_column(&field, entries)?);
    }
    let mark = read_mark(rest, entries)?;
    Ok(Catalogue { entries, columns, mark })
}

fn read_column(field: &Field, entries: usize) -> Result<Column, Number> {
    let length = field.payload.len();
    match field.tag {
        NUMBERS_TAG if length == 4 * entries => {
            let numbers = field.payload.chunks(4).map(|n| u32::from_be_bytes([n[0], n[1], n[2], n[3]]));
            Ok(Column::Numbers(numbers.collect()))
        }
        TEXTS_TAG if length == SLOT * entries => {
            Ok(Column::Texts(field.payload.chunks(SLOT).map(read_slot).collect::<Result<_, _>>()?))
        }
        _ => Err(refusal::COLUMN_FORM),
    }
}

/// A slot is a length, the text, and zeros to the end.
fn read_slot(slot: &[u8]) -> Result<Vec<u8>, Number> {
    let length = usize::from(slot[0]);
    if length > MAX_TEXT {
        return Err(refusal::TEXT_SLOT);
    }
    let (text, padding) = slot[1..].split_at(length);
    if padding.iter().any(|&byte| byte != 0) {
        return Err(refusal::TEXT_SLOT);
    }
    Ok(text.to_vec())
}
