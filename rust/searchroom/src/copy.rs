use std::iter::FusedIterator;

use crate::catalogue::MAX_ENTRIES;
use crate::question::MAX_CONDITIONS;
use crate::{Answer, Refusal, Word, check_catalogue, sys};

/// The bytes of a look's field.
const FIELD: usize = 7;

/// Bytes that are enough for any copy: a field for each of 64 conditions at each of 2,048 entries.
pub const COPY_BYTES: usize = FIELD * MAX_CONDITIONS * MAX_ENTRIES;

/// Writes the steward's copy of the register: each look that a [`run`](crate::run) of the same catalogue, question and
/// order registers, with its outcome. Gives the number of bytes written, seven times the look count.
///
/// Each look has one field: tag 76, length 4, the entry (two bytes, most significant first), the condition's number, and
/// what [`outcome`](crate::outcome) gives there ([`Answer::number`]). A withdrawn entry has none. Entries ascend; in which
/// sequence the fields of one entry follow each other is left open. They stand at the front of `output`, whose further bytes
/// stay as they are; [`COPY_BYTES`] bytes are enough for any copy. A refusal alters none. [`looks`] reads the fields.
///
/// [`copy_of`] does the same with memory of its own.
///
/// ```
/// // Years 1701 and a blank. Year from 1700 to 1799, or year blank.
/// let catalogue = [67, 0, 3, 0, 2, 1, 78, 0, 8, 0, 0, 6, 0xA5, 255, 255, 255, 255];
/// let question = [79, 0, 18, 80, 0, 10, 0, 0, 0, 0, 6, 0xA4, 0, 0, 7, 7, 80, 0, 2, 0, 1];
/// let mut output = [0; 100];
/// let written = searchroom::copy(&catalogue, &question, &[0, 1], &mut output)?;
/// assert_eq!(written, 21); // entry 0 was settled by condition 0
/// assert_eq!(output[..7], [76, 0, 4, 0, 0, 0, 1]);
/// # Ok::<(), searchroom::Refusal>(())
/// ```
///
/// # Errors
/// Those of [`check_question`](crate::check_question), then [`Refusal::BadOrder`] and [`Refusal::ShortOutput`].
pub fn copy(catalogue: &[u8], question: &[u8], order: &[u8], output: &mut [u8]) -> Result<usize, Refusal> {
    Ok(copy_word(catalogue, question, order, output).accepted()?.third() as usize)
}

/// Writes a copy. The third result is the number of bytes written.
pub fn copy_word(catalogue: &[u8], question: &[u8], order: &[u8], output: &mut [u8]) -> Word {
    // SAFETY: the call reads the bytes of the first three slices and writes none but those of the last, which overlaps no
    // other, for it is borrowed alone. Nobody else writes to borrowed bytes.
    Word(unsafe {
        sys::searchroom_copy(
            catalogue.as_ptr(),
            catalogue.len(),
            question.as_ptr(),
            question.len(),
            order.as_ptr(),
            order.len(),
            output.as_mut_ptr(),
            output.len(),
        )
    })
}

/// The steward's copy of the register: the bytes that [`copy`] writes, and no others.
///
/// ```
/// use searchroom::{Answer, Look};
///
/// // Years 1701 and a blank. Year not from 1700 to 1799.
/// let catalogue = [67, 0, 3, 0, 2, 1, 78, 0, 8, 0, 0, 6, 0xA5, 255, 255, 255, 255];
/// let outside = [80, 0, 10, 0, 128, 0, 0, 6, 0xA4, 0, 0, 7, 7];
/// let copy = searchroom::copy_of(&catalogue, &outside, &[0])?;
/// let looks: Vec<Look> = searchroom::looks(&copy).collect();
/// assert_eq!(looks[0], Look { entry: 0, condition: 0, answer: Answer::No });
/// assert_eq!(looks[1], Look { entry: 1, condition: 0, answer: Answer::Blank });
/// # Ok::<(), searchroom::Refusal>(())
/// ```
///
/// # Errors
/// Those of [`copy`], except [`Refusal::ShortOutput`].
pub fn copy_of(catalogue: &[u8], question: &[u8], order: &[u8]) -> Result<Vec<u8>, Refusal> {
    let entries = usize::from(check_catalogue(catalogue)?.entries);
    // An accepted order holds each condition once, so its length is their number.
    let mut output = vec![0; FIELD * entries * order.len().min(MAX_CONDITIONS)];
    let written = copy(catalogue, question, order, &mut output)?;
    output.truncate(written);
    output.shrink_to_fit();
    Ok(output)
}

/// A look: what a condition answered at an entry.
#[derive(Clone, Copy, Debug, PartialEq, Eq, Hash)]
pub struct Look {
    pub entry: u16,
    /// The condition's number.
    pub condition: u8,
    pub answer: Answer,
}

/// The looks in the bytes of a copy, as they stand there.
///
/// They end where no look follows: at the end of the bytes, or before the first field that is cut, has another tag or
/// length than a look's, or tells an answer that there is not. [`Looks::rest`] is then what was not read, nothing of a whole
/// copy. Give the bytes written alone: beyond them an output may still hold looks of an earlier copy.
///
/// ```
/// use searchroom::{Answer, Look, looks};
///
/// let bytes = [76, 0, 4, 0, 9, 2, 1, 76, 0, 4, 1, 0, 5, 0];
/// let mut whole = looks(&bytes);
/// assert_eq!(whole.next(), Some(Look { entry: 9, condition: 2, answer: Answer::Yes }));
/// assert_eq!(whole.next(), Some(Look { entry: 256, condition: 5, answer: Answer::No }));
/// assert_eq!(whole.next(), None);
/// assert!(whole.rest().is_empty());
///
/// let mut cut = looks(&bytes[..13]);
/// assert_eq!(cut.by_ref().count(), 1);
/// assert_eq!(cut.rest(), &bytes[7..13]);
/// ```
pub fn looks(copy: &[u8]) -> Looks<'_> {
    Looks { rest: copy }
}

/// An iterator over the looks of a copy, made by [`looks`].
#[derive(Clone, Debug)]
pub struct Looks<'a> {
    rest: &'a [u8],
}

impl<'a> Looks<'a> {
    /// The bytes that are not read yet.
    pub fn rest(&self) -> &'a [u8] {
        self.rest
    }
}

impl Iterator for Looks<'_> {
    type Item = Look;

    fn next(&mut self) -> Option<Look> {
        let (&[76, 0, 4, high, low, condition, outcome], rest) = self.rest.split_first_chunk::<FIELD>()? else {
            return None;
        };
        let answer = Answer::from_number(outcome.into())?;
        self.rest = rest;
        Some(Look { entry: u16::from_be_bytes([high, low]), condition, answer })
    }

    fn size_hint(&self) -> (usize, Option<usize>) {
        (0, Some(self.rest.len() / FIELD))
    }
}

impl FusedIterator for Looks<'_> {}
