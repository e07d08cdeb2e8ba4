use crate::catalogue::MAX_TEXT;
use crate::question::{MAX_CONDITIONS, MAX_DEPTH};
use crate::{Refusal, Word, sys};

/// The most bytes that a typed question may have.
pub const MAX_TYPED: usize = 16_384;

/// Bytes that are enough for any question that was typed: 64 conditions of 28 bytes, each in seven groups of its own inside
/// the outermost.
pub const TYPED_BYTES: usize = HEAD + MAX_CONDITIONS * ((MAX_DEPTH - 1) * HEAD + HEAD + 2 + MAX_TEXT);

/// The bytes of a field before its payload.
const HEAD: usize = 3;

/// Reads a typed question into the question bytes that the other calls take. Gives the number of bytes written.
///
/// A typed question is one condition or one group. Conditions are `c0 in 1700..1799`, `c0 blank`, `c1 is "ash"`,
/// `c1 starts "ash"` and `c1 has "ash"`, with `not ` before for the opposite. Groups are `all(…)` and `any(…)`, with one or more
/// members, conditions or groups, parted by one comma. Outside quotes letters are small and no spaces stand but these.
/// Nothing stands before or after: a file's last newline is to be stripped. `blank` takes its kind from the column, and is
/// kind 1 where there is no such column (the question is then refused with 11). Columns are 0 to 255 and numbers 0 to
/// 4,294,967,295, without leading zeros. Between quotes stand none or more bytes: 32 to 126 for themselves, except quote and
/// backslash; these and every other byte as a backslash and two digits 0-9A-F. No other spelling is taken, so each accepted
/// question has one typed form.
///
/// The bytes stand at the front of `output`, whose further bytes stay as they are; [`TYPED_BYTES`] bytes are enough for any
/// question. A refusal alters none.
///
/// [`typed_question`] does the same with memory of its own.
///
/// ```
/// use searchroom::{Refusal, TYPED_BYTES, check_question, typed};
///
/// // No entries; a column of numbers and one of texts.
/// let catalogue = [67, 0, 3, 0, 0, 2, 78, 0, 0, 84, 0, 0];
/// let mut output = [0; TYPED_BYTES];
/// let written = typed(&catalogue, br#"any(not c0 in 1700..1799,c1 has "Andr\E9",c1 blank)"#, &mut output)?;
/// assert_eq!(check_question(&catalogue, &output[..written]), Ok(3));
/// assert_eq!(typed(&catalogue, b"any(c0 blank, c1 blank)", &mut output), Err(Refusal::Misspelled)); // a space too many
/// # Ok::<(), searchroom::Refusal>(())
/// ```
///
/// # Errors
/// Those of [`check_catalogue`](crate::check_catalogue), then [`Refusal::Misspelled`], then 10 to 13 as
/// [`check_question`](crate::check_question) gives them for the bytes read, then [`Refusal::ShortTypedOutput`].
pub fn typed(catalogue: &[u8], text: &[u8], output: &mut [u8]) -> Result<usize, Refusal> {
    Ok(typed_word(catalogue, text, output).accepted()?.third() as usize)
}

/// Reads a typed question. The third result is the number of bytes written.
pub fn typed_word(catalogue: &[u8], text: &[u8], output: &mut [u8]) -> Word {
    // SAFETY: the call reads the bytes of the first two slices and writes none but those of the last, which overlaps no
    // other, for it is borrowed alone. Nobody else writes to borrowed bytes.
    Word(unsafe {
        sys::searchroom_typed(
            catalogue.as_ptr(),
            catalogue.len(),
            text.as_ptr(),
            text.len(),
            output.as_mut_ptr(),
            output.len(),
        )
    })
}

/// The bytes of a typed question: those that [`typed`] writes, and no others.
///
/// ```
/// // No entries; a column of numbers and one of texts.
/// let catalogue = [67, 0, 3, 0, 0, 2, 78, 0, 0, 84, 0, 0];
/// let question = searchroom::typed_question(&catalogue, br#"c1 starts "ash""#)?;
/// assert_eq!(question, [80, 0, 5, 1, 3, b'a', b's', b'h']);
/// # Ok::<(), searchroom::Refusal>(())
/// ```
///
/// # Errors
/// Those of [`typed`], except [`Refusal::ShortTypedOutput`].
pub fn typed_question(catalogue: &[u8], text: &[u8]) -> Result<Vec<u8>, Refusal> {
    let mut output = [0; TYPED_BYTES];
    let written = typed(catalogue, text, &mut output)?;
    Ok(output[..written].to_vec())
}
