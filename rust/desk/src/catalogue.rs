//! A catalogue taken apart into values, and put together again. The engine judges its bytes; here they are only told.

use searchroom::{MAX_COLUMNS, MAX_ENTRIES, MAX_TEXT, Refusal, bit, check_catalogue};

/// The largest number; the next one stands for a blank.
pub const MAX_NUMBER: u32 = BLANK_NUMBER - 1;

const BLANK_NUMBER: u32 = u32::MAX;
const CATALOGUE_TAG: u8 = 67;
const NUMBERS_TAG: u8 = 78;
const TEXTS_TAG: u8 = 84;
const MARK_TAG: u8 = 87;
const HEAD: usize = 3;
const NUMBER: usize = 4;
const SLOT: usize = 1 + MAX_TEXT;
/// The bytes of the first field: the number of entries, in two, and that of columns.
const SIZE: usize = 3;

/// How every catalogue begins.
pub const BEGINNING: &[u8] = &[CATALOGUE_TAG, 0, SIZE as u8];

/// The most bytes of a catalogue: every column one of texts, and a mark.
pub const MAX_BYTES: usize = HEAD + SIZE + MAX_COLUMNS * (HEAD + SLOT * MAX_ENTRIES) + HEAD + MAX_ENTRIES.div_ceil(8);

pub struct Catalogue {
    pub entries: usize,
    pub columns: Vec<Column>,
    /// The mark, if there is one: for each entry, whether it is withdrawn.
    pub mark: Option<Vec<bool>>,
}

/// One value for each entry; none is a blank.
pub enum Column {
    Numbers(Vec<Option<u32>>),
    /// In ISO 8859-1, where a letter is a byte.
    Texts(Vec<Option<Vec<u8>>>),
}

impl Column {
    /// The value at an entry as people read it; nothing for a blank.
    pub fn value(&self, entry: usize) -> Option<String> {
        match self {
            Column::Numbers(numbers) => numbers[entry].map(|number| number.to_string()),
            Column::Texts(texts) => texts[entry].as_deref().map(from_latin_1),
        }
    }

    pub fn blanks(&self) -> usize {
        match self {
            Column::Numbers(numbers) => numbers.iter().filter(|number| number.is_none()).count(),
            Column::Texts(texts) => texts.iter().filter(|text| text.is_none()).count(),
        }
    }
}

/// ISO 8859-1 has the first 256 letters of Unicode, at their numbers.
pub fn from_latin_1(bytes: &[u8]) -> String {
    bytes.iter().copied().map(char::from).collect()
}

/// The number that a value is, if it is one as numbers are written: digits alone and no leading zero, so that it is written
/// the same again.
pub fn number_of(value: &str) -> Option<u32> {
    let number: u32 = value.parse().ok()?;
    (number <= MAX_NUMBER && number.to_string() == value).then_some(number)
}

impl Catalogue {
    /// Takes a catalogue apart.
    ///
    /// # Errors
    /// The engine's refusal of the bytes.
    pub fn read(bytes: &[u8]) -> Result<Catalogue, Refusal> {
        let size = check_catalogue(bytes)?;
        let mut rest = bytes;
        take_field(&mut rest);
        let columns = (0..size.columns).map(|_| read_column(&mut rest)).collect();
        let entries = usize::from(size.entries);
        let mark = (!rest.is_empty()).then(|| {
            let (_, bits) = take_field(&mut rest);
            (0..entries).map(|entry| bit(bits, entry)).collect()
        });
        Ok(Catalogue { entries, columns, mark })
    }

    /// The catalogue's bytes; it keeps to the engine's limits.
    pub fn bytes(&self) -> Vec<u8> {
        let [high, low] = u16::try_from(self.entries).expect("at most 2,048 entries").to_be_bytes();
        let columns = u8::try_from(self.columns.len()).expect("at most 16 columns");
        let mut bytes = field(CATALOGUE_TAG, &[high, low, columns]);
        for column in &self.columns {
            bytes.extend(column_field(column));
        }
        if let Some(mark) = &self.mark {
            let byte = |eight: &[bool]| eight.iter().rev().fold(0, |byte, &bit| byte << 1 | u8::from(bit));
            bytes.extend(field(MARK_TAG, &mark.chunks(8).map(byte).collect::<Vec<u8>>()));
        }
        bytes
    }

    pub fn is_withdrawn(&self, entry: usize) -> bool {
        self.mark.as_ref().is_some_and(|mark| mark[entry])
    }

    pub fn withdrawn(&self) -> usize {
        (0..self.entries).filter(|&entry| self.is_withdrawn(entry)).count()
    }

    /// The number of entries still in the house.
    pub fn present(&self) -> usize {
        self.entries - self.withdrawn()
    }
}

/// Takes a field off the front of an accepted catalogue: its tag and its payload.
fn take_field<'a>(rest: &mut &'a [u8]) -> (u8, &'a [u8]) {
    let (head, after) = rest.split_at(HEAD);
    let (payload, after) = after.split_at(usize::from(u16::from_be_bytes([head[1], head[2]])));
    *rest = after;
    (head[0], payload)
}

fn read_column(rest: &mut &[u8]) -> Column {
    let (tag, payload) = take_field(rest);
    if tag == NUMBERS_TAG {
        let number = |bytes: &[u8]| bytes.iter().fold(0, |number, &byte| number << 8 | u32::from(byte));
        let told = |bytes| Some(number(bytes)).filter(|&number| number != BLANK_NUMBER);
        Column::Numbers(payload.chunks(NUMBER).map(told).collect())
    } else {
        let text = |slot: &[u8]| slot[1..][..usize::from(slot[0])].to_vec();
        let told = |slot| Some(text(slot)).filter(|text| !text.is_empty());
        Column::Texts(payload.chunks(SLOT).map(told).collect())
    }
}

fn field(tag: u8, payload: &[u8]) -> Vec<u8> {
    let length = u16::try_from(payload.len()).expect("within the limits no payload passes 65,535 bytes");
    [&[tag], length.to_be_bytes().as_slice(), payload].concat()
}

fn column_field(column: &Column) -> Vec<u8> {
    match column {
        Column::Numbers(numbers) => {
            let bytes = numbers.iter().flat_map(|number| number.unwrap_or(BLANK_NUMBER).to_be_bytes());
            field(NUMBERS_TAG, &bytes.collect::<Vec<u8>>())
        }
        Column::Texts(texts) => {
            field(TEXTS_TAG, &texts.iter().flat_map(|text| slot(text.as_deref())).collect::<Vec<u8>>())
        }
    }
}

fn slot(text: Option<&[u8]>) -> [u8; SLOT] {
    let text = text.unwrap_or_default();
    let mut slot = [0; SLOT];
    slot[0] = u8::try_from(text.len()).expect("at most 23 bytes");
    slot[1..=text.len()].copy_from_slice(text);
    slot
}
