use searchroom::{MAX_COLUMNS, MAX_ENTRIES, MAX_TEXT, Refusal, Size};

use super::field::Field;
use super::vector::Vector;
use super::{BLOCK, List};

const CATALOGUE: u8 = 67;
const NUMBERS: u8 = 78;
const TEXTS: u8 = 84;
const MARK: u8 = 87;

/// A number, most significant byte first.
pub type Number = [u8; 4];
/// A text's length, its bytes, and zeros to the end.
pub type Slot = [u8; 24];

#[derive(Clone, Copy)]
pub enum Column<'a> {
    Numbers(&'a [Number]),
    Texts(&'a [Slot]),
}

/// A catalogue that was checked: every slot's length is at most 23.
pub struct Catalogue<'a> {
    pub entries: usize,
    pub columns: List<Column<'a>, MAX_COLUMNS>,
    /// Empty where there is none.
    mark: &'a [u8],
}

/// Checks a catalogue.
#[inline(never)]
pub fn check_catalogue(catalogue: &[u8]) -> Result<Size, Refusal> {
    let read = Catalogue::read(catalogue)?;
    Ok(Size { entries: read.entries as u16, columns: read.columns.len() as u16 })
}

impl<'a> Catalogue<'a> {
    #[inline(always)]
    pub fn read(bytes: &'a [u8]) -> Result<Catalogue<'a>, Refusal> {
        let head = Field::first_of(bytes).ok_or(Refusal::CatalogueField)?;
        let (CATALOGUE, &[high, low, count]) = (head.tag, head.payload) else {
            return Err(Refusal::CatalogueHeader);
        };
        let entries = usize::from(u16::from_be_bytes([high, low]));
        if entries > MAX_ENTRIES || count == 0 || usize::from(count) > MAX_COLUMNS {
            return Err(Refusal::CatalogueLimits);
        }
        let mut catalogue = Catalogue { entries, columns: List::new(), mark: &[] };
        let mut rest = head.rest;
        for _ in 0..count {
            let field = Field::first_of(rest).ok_or(Refusal::CatalogueField)?;
            catalogue.columns.push(read_column(&field, entries)?);
            rest = field.rest;
        }
        catalogue.mark = read_mark(rest, entries)?;
        Ok(catalogue)
    }

    /// The entries of a block that are still in the house.
    #[inline(always)]
    pub fn present(&self, block: usize) -> u64 {
        let entries = self.entries - BLOCK * block;
        let whole = if entries < BLOCK { (1 << entries) - 1 } else { u64::MAX };
        whole & !self.withdrawn(block)
    }

    #[inline(always)]
    fn withdrawn(&self, block: usize) -> u64 {
        match self.mark.get(BLOCK / 8 * block..) {
            None => 0,
            Some(bytes) => match bytes.first_chunk() {
                Some(&word) => u64::from_le_bytes(word),
                None => bytes.iter().rev().fold(0, |word, &byte| word << 8 | u64::from(byte)),
            },
        }
    }
}

#[inline(always)]
fn read_column<'a>(field: &Field<'a>, entries: usize) -> Result<Column<'a>, Refusal> {
    match field.tag {
        NUMBERS if field.payload.len() == size_of::<Number>() * entries => {
            Ok(Column::Numbers(field.payload.as_chunks().0))
        }
        TEXTS if field.payload.len() == size_of::<Slot>() * entries => {
            let slots = field.payload.as_chunks().0;
            if slots_are_sound(slots) { Ok(Column::Texts(slots)) } else { Err(Refusal::TextSlot) }
        }
        _ => Err(Refusal::ColumnForm),
    }
}

/// The bytes of the mark, if there is one after the last column.
#[inline(always)]
fn read_mark(after_columns: &[u8], entries: usize) -> Result<&[u8], Refusal> {
    match after_columns.first() {
        None => return Ok(&[]),
        Some(&MARK) => {}
        Some(_) => return Err(Refusal::CatalogueLeftOver),
    }
    let field = Field::first_of(after_columns).ok_or(Refusal::CatalogueField)?;
    let is_stray = |&last: &u8| !entries.is_multiple_of(8) && last >> (entries % 8) != 0;
    if field.payload.len() != entries.div_ceil(8) || field.payload.last().is_some_and(is_stray) {
        return Err(Refusal::BadMark);
    }
    if field.rest.is_empty() { Ok(field.payload) } else { Err(Refusal::CatalogueLeftOver) }
}

/// Has every slot a length of at most 23, and zeros behind its text? All bits that may not stand are gathered without a
/// branch and asked for once.
#[inline(always)]
fn slots_are_sound(slots: &[Slot]) -> bool {
    let [mut front, mut back] = [Vector::of_byte(0); 2];
    for slot in slots {
        let forbidden = &FORBIDDEN[usize::from(slot[0] % 32)].0;
        front = front | load_front(slot) & load_front(forbidden);
        back = back | load_back(slot) & load_back(forbidden);
    }
    (front | back).equal_bytes(Vector::of_byte(0)).bits() == 0xFFFF
}

#[inline(always)]
fn load_front(slot: &Slot) -> Vector {
    let (front, _) = slot.split_first_chunk().expect("24 bytes");
    Vector::load(front)
}

#[inline(always)]
fn load_back(slot: &Slot) -> Vector {
    let (_, back) = slot.split_last_chunk().expect("24 bytes");
    Vector::load_half(back)
}

/// For each length in the low five bits of a slot's first byte, the bits that may not stand in the slot.
static FORBIDDEN: [Forbidden; 32] = forbidden_bits();

/// Aligned, so that no load of it meets two lines of the cache.
#[derive(Clone, Copy)]
#[repr(align(32))]
struct Forbidden(Slot);

const fn forbidden_bits() -> [Forbidden; 32] {
    let mut table = [Forbidden([0; 24]); 32];
    let mut length = 0;
    while length < table.len() {
        // A length from 32 on shows in the three high bits, one from 24 on by its place in the table.
        table[length].0[0] = if length > MAX_TEXT { 0xFF } else { 0xE0 };
        let mut at = length + 1;
        while at < size_of::<Slot>() {
            table[length].0[at] = 0xFF;
            at += 1;
        }
        length += 1;
    }
    table
}
