use crate::{Refusal, Word, sys};

/// The most conditions that a question may have.
pub const MAX_CONDITIONS: usize = 64;

/// The most groups that may stand inside each other, the outermost being one.
pub const MAX_DEPTH: usize = 8;

/// What a condition answers at an entry.
///
/// A blank field meets neither a condition nor its opposite. A condition that asks for the blank itself, or its opposite,
/// answers yes or no there.
#[derive(Clone, Copy, Debug, PartialEq, Eq, Hash)]
#[repr(u8)]
pub enum Answer {
    No = 0,
    Yes = 1,
    /// The field is blank. A run takes this as no.
    Blank = 2,
}

impl Answer {
    /// Every answer, by ascending number.
    pub const ALL: [Answer; 3] = [Answer::No, Answer::Yes, Answer::Blank];

    /// The number by which a call or a copy tells the answer.
    pub fn number(self) -> u8 {
        self as u8
    }

    /// The answer that a call or a copy tells by this number, if there is one.
    pub(crate) fn from_number(number: u16) -> Option<Answer> {
        Answer::ALL.into_iter().find(|answer| u16::from(answer.number()) == number)
    }
}

/// Checks a question against a catalogue and gives the number of its conditions, 1 to 64.
///
/// ```
/// let catalogue = [67, 0, 3, 0, 1, 1, 78, 0, 4, 0, 0, 0x06, 0xA5];
/// // Column 0 is blank (kind 1), or is not (kind 129).
/// let question = [79, 0, 10, 80, 0, 2, 0, 1, 80, 0, 2, 0, 129];
/// assert_eq!(searchroom::check_question(&catalogue, &question), Ok(2));
/// ```
///
/// # Errors
/// Those of [`check_catalogue`](crate::check_catalogue), then 7 to 14, from [`Refusal::QuestionField`] to
/// [`Refusal::QuestionLeftOver`].
pub fn check_question(catalogue: &[u8], question: &[u8]) -> Result<u16, Refusal> {
    Ok(check_question_word(catalogue, question).accepted()?.first())
}

/// Checks a question against a catalogue. The first result is the number of conditions.
pub fn check_question_word(catalogue: &[u8], question: &[u8]) -> Word {
    // SAFETY: the call only reads the bytes of the two slices, and nobody writes to borrowed bytes.
    Word(unsafe {
        sys::searchroom_check_question(catalogue.as_ptr(), catalogue.len(), question.as_ptr(), question.len())
    })
}

/// Works out one condition of a question at one entry of a catalogue, withdrawn or not. Texts are compared up to their case and
/// their accents: "Andre" finds "André" and "ANDRÉ", and is found by them.
///
/// ```
/// use searchroom::{Answer, Refusal, outcome};
///
/// // Years 1701 and a blank. Year not from 1700 to 1799 (kind 128), or year blank (kind 1).
/// let catalogue = [67, 0, 3, 0, 2, 1, 78, 0, 8, 0, 0, 6, 0xA5, 255, 255, 255, 255];
/// let question = [79, 0, 18, 80, 0, 10, 0, 128, 0, 0, 6, 0xA4, 0, 0, 7, 7, 80, 0, 2, 0, 1];
/// assert_eq!(outcome(&catalogue, &question, 0, 0), Ok(Answer::No));
/// assert_eq!(outcome(&catalogue, &question, 1, 0), Ok(Answer::Blank));
/// assert_eq!(outcome(&catalogue, &question, 1, 1), Ok(Answer::Yes));
/// assert_eq!(outcome(&catalogue, &question, 2, 0), Err(Refusal::NoSuchPlace));
/// ```
///
/// # Errors
/// Those of [`check_question`], then [`Refusal::NoSuchPlace`].
///
/// # Panics
/// If the archive gives an answer that this wrapper does not know: the two are then not of the same release.
pub fn outcome(catalogue: &[u8], question: &[u8], entry: u64, condition: u64) -> Result<Answer, Refusal> {
    let number = outcome_word(catalogue, question, entry, condition).accepted()?.first();
    Ok(Answer::from_number(number).unwrap_or_else(|| panic!("the archive answered {number}, unknown here")))
}

/// Works out one condition at one entry. The first result is the number of an [`Answer`].
pub fn outcome_word(catalogue: &[u8], question: &[u8], entry: u64, condition: u64) -> Word {
    // SAFETY: the call only reads the bytes of the two slices, and nobody writes to borrowed bytes.
    Word(unsafe {
        sys::searchroom_outcome(
            catalogue.as_ptr(),
            catalogue.len(),
            question.as_ptr(),
            question.len(),
            entry,
            condition,
        )
    })
}
