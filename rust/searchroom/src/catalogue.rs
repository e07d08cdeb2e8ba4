use crate::{Refusal, Word, sys};

/// The most entries that a catalogue may have.
pub const MAX_ENTRIES: usize = 2_048;

/// The most columns that a catalogue may have; it has at least one.
pub const MAX_COLUMNS: usize = 16;

/// The most bytes of a text in a catalogue, or of a text that a condition asks for.
pub const MAX_TEXT: usize = 23;

/// How much an accepted catalogue holds.
#[derive(Clone, Copy, Debug, PartialEq, Eq, Hash)]
pub struct Size {
    /// The number of entries, 0 to 2,048, withdrawn ones among them.
    pub entries: u16,
    /// The number of columns, 1 to 16.
    pub columns: u16,
}

/// Checks a catalogue.
///
/// It may end with a mark: tag 87, length ceiling(E / 8) where E is the number of entries, and a row of bits set out like those
/// of [`run`](crate::run). A one marks a withdrawn entry. Such an entry is never listed and never looked at, whatever the
/// question; [`outcome`](crate::outcome) works out a condition there as anywhere. A mark of zeros gives the same results as no
/// mark.
///
/// ```
/// use searchroom::{Refusal, Tally, check_catalogue, consult};
///
/// // Years 1701, 1822 and a blank, and a mark: the first entry is withdrawn. Year not blank.
/// let mut catalogue = [67, 0, 3, 0, 3, 1, 78, 0, 12, 0, 0, 6, 0xA5, 0, 0, 7, 0x1E, 255, 255, 255, 255, 87, 0, 1, 0b001];
/// assert_eq!(check_catalogue(&catalogue)?.entries, 3);
/// let found = consult(&catalogue, &[80, 0, 2, 0, 129], &[0], 0, &mut Tally::default())?;
/// assert_eq!(found.listed().collect::<Vec<_>>(), [1]);
/// assert_eq!(found.looked_at(0).collect::<Vec<_>>(), [1, 2]);
/// catalogue[24] = 0b1000; // there is no fourth entry
/// assert_eq!(check_catalogue(&catalogue), Err(Refusal::BadMark));
/// # Ok::<(), searchroom::Refusal>(())
/// ```
///
/// # Errors
/// Refusals 1 to 6, from [`Refusal::CatalogueField`] to [`Refusal::CatalogueLeftOver`], and [`Refusal::BadMark`].
pub fn check_catalogue(catalogue: &[u8]) -> Result<Size, Refusal> {
    let word = check_catalogue_word(catalogue).accepted()?;
    Ok(Size { entries: word.first(), columns: word.second() })
}

/// Checks a catalogue. The first result is the number of entries, the second the number of columns.
pub fn check_catalogue_word(catalogue: &[u8]) -> Word {
    // SAFETY: the call only reads the `len` bytes behind the pointer, which a slice has, and nobody writes to borrowed
    // bytes.
    Word(unsafe { sys::searchroom_check_catalogue(catalogue.as_ptr(), catalogue.len()) })
}
