use crate::{Refusal, Word, sys};

/// The counts of an accepted run.
#[derive(Clone, Copy, Debug, PartialEq, Eq, Hash)]
pub struct Counts {
    /// The number of listed entries.
    pub found: u16,
    /// The number of looks, over all conditions and entries.
    pub looks: u32,
}

/// The bit of an entry in a row of a table of [`run`] or of a mark; zero past the row's end.
///
/// ```
/// assert!(searchroom::bit(&[0b101, 0b1], 8));
/// assert!(!searchroom::bit(&[0b101, 0b1], 1));
/// ```
pub fn bit(row: &[u8], entry: usize) -> bool {
    row.get(entry / 8).is_some_and(|byte| byte >> (entry % 8) & 1 == 1)
}

/// Runs a question over a catalogue in a running order, for a reader, into tables of the caller's. It takes
/// [`Answer::Blank`](crate::Answer::Blank) as no. A withdrawn entry is not listed and has no looks.
///
/// With E entries and n conditions, a row takes ceiling(E / 8) bytes: entry e is the bit of weight 2^(e mod 8) in byte
/// e div 8, unused bits zero. `listed` receives one row, `looks` one row for each condition in condition-number order;
/// further bytes of either stay as they are. `reader` is 0 to 15 ([`Tally::READERS`](crate::Tally::READERS) of them); any
/// other is refused with [`Refusal::NoSuchReader`]. `tally` is the bytes of a [`Tally`](crate::Tally), which
/// [`Tally::bytes_mut`](crate::Tally::bytes_mut) lends: the look count is added to this reader's number, every other byte
/// stays. Of an accepted run nothing but the tally depends on the reader. A refusal alters none of the three.
///
/// [`consult`](crate::consult) does the same with tables of its own.
///
/// # Errors
/// Those of [`check_question`](crate::check_question), then [`Refusal::BadOrder`], [`Refusal::ShortTable`],
/// [`Refusal::NoSuchReader`] and [`Refusal::BadTally`].
pub fn run(
    catalogue: &[u8],
    question: &[u8],
    order: &[u8],
    reader: u64,
    listed: &mut [u8],
    looks: &mut [u8],
    tally: &mut [u8],
) -> Result<Counts, Refusal> {
    let word = run_word(catalogue, question, order, reader, listed, looks, tally).accepted()?;
    Ok(Counts { found: word.first(), looks: word.third() })
}

/// Runs a question. The first result is the number of listed entries, the third that of looks.
pub fn run_word(
    catalogue: &[u8],
    question: &[u8],
    order: &[u8],
    reader: u64,
    listed: &mut [u8],
    looks: &mut [u8],
    tally: &mut [u8],
) -> Word {
    // SAFETY: the call reads the bytes of the first three slices and writes none but those of the last three; these
    // overlap no other, for they are borrowed alone. Nobody else writes to borrowed bytes.
    Word(unsafe {
        sys::searchroom_run(
            catalogue.as_ptr(),
            catalogue.len(),
            question.as_ptr(),
            question.len(),
            order.as_ptr(),
            order.len(),
            reader,
            listed.as_mut_ptr(),
            listed.len(),
            looks.as_mut_ptr(),
            looks.len(),
            tally.as_mut_ptr(),
            tally.len(),
        )
    })
}
