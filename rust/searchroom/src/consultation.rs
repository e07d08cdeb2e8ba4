use crate::question::MAX_CONDITIONS;
use crate::{Counts, Refusal, Tally, bit, check_catalogue, run};

/// What an accepted run found: the listed entries, and the entries at which each condition was looked at.
#[derive(Clone, Debug, PartialEq, Eq)]
pub struct Consultation {
    counts: Counts,
    /// The bytes of one row of bits.
    row: usize,
    listed: Vec<u8>,
    looks: Vec<u8>,
}

/// Runs a question over a catalogue in a running order, and adds the look count to the reader's number in the tally. A
/// withdrawn entry is not listed and has no looks.
///
/// The reader is 0 to 15 ([`Tally::READERS`] of them); any other is refused with [`Refusal::NoSuchReader`]. The program
/// `consult` is always reader 0; this call names its reader.
///
/// ```
/// // Years 1701, 1822 and a blank. Year from 1700 to 1799, or year blank.
/// let catalogue = [67, 0, 3, 0, 3, 1, 78, 0, 12, 0, 0, 6, 0xA5, 0, 0, 7, 0x1E, 255, 255, 255, 255];
/// let question = [79, 0, 18, 80, 0, 10, 0, 0, 0, 0, 6, 0xA4, 0, 0, 7, 7, 80, 0, 2, 0, 1];
/// let mut tally = searchroom::Tally::default();
/// let found = searchroom::consult(&catalogue, &question, &[0, 1], 7, &mut tally)?;
/// assert_eq!(found.listed().collect::<Vec<_>>(), [0, 2]);
/// assert_eq!(found.looked_at(1).collect::<Vec<_>>(), [1, 2]); // entry 0 was settled by condition 0
/// assert_eq!(tally.of(7), Some(5));
/// # Ok::<(), searchroom::Refusal>(())
/// ```
///
/// # Errors
/// Those of [`run`], except [`Refusal::ShortTable`]. [`Refusal::BadTally`] comes only where this reader's sum would pass
/// 2^64 − 1. A refusal leaves the tally as it was.
pub fn consult(
    catalogue: &[u8],
    question: &[u8],
    order: &[u8],
    reader: u64,
    tally: &mut Tally,
) -> Result<Consultation, Refusal> {
    let row = usize::from(check_catalogue(catalogue)?.entries).div_ceil(8);
    let mut listed = vec![0; row];
    // An accepted order holds each condition once, so its length is their number.
    let mut looks = vec![0; row * order.len().min(MAX_CONDITIONS)];
    let counts = run(catalogue, question, order, reader, &mut listed, &mut looks, tally.bytes_mut())?;
    Ok(Consultation { counts, row, listed, looks })
}

impl Consultation {
    /// The number of listed entries and of looks.
    pub fn counts(&self) -> Counts {
        self.counts
    }

    /// The listed entries, ascending.
    pub fn listed(&self) -> impl Iterator<Item = usize> + '_ {
        ones(&self.listed)
    }

    /// The entries at which a condition was looked at, ascending; none for a number that is no condition's.
    pub fn looked_at(&self, condition: usize) -> impl Iterator<Item = usize> + '_ {
        let mut rows = self.looks.chunks(self.row.max(1));
        ones(rows.nth(condition).unwrap_or_default())
    }
}

/// The entries whose bits are one in a row.
fn ones(row: &[u8]) -> impl Iterator<Item = usize> + '_ {
    (0..8 * row.len()).filter(|&entry| bit(row, entry))
}
