//! The packed eight-byte result of each call: number in bits 0-7, then results of 16, 16 and 24 bits.

use crate::refusal::{self, Number};
use crate::{Catalogue, Question, outcome, read_catalogue, read_question};

/// Packs an accepted call's results.
pub fn pack(first: usize, second: usize, third: usize) -> u64 {
    assert!(first < 1 << 16 && second < 1 << 16 && third < 1 << 24);
    (first as u64) << 8 | (second as u64) << 24 | (third as u64) << 40
}

/// A refusal: its number, with zeros for every other result.
pub fn refused(number: Number) -> u64 {
    u64::from(number)
}

/// The word of a call that ends with a refusal or with results packed already.
fn word(answered: Result<u64, Number>) -> u64 {
    answered.unwrap_or_else(refused)
}

/// What checking a catalogue answers: E and C.
pub fn catalogue_word(catalogue: &[u8]) -> u64 {
    word(read_catalogue(catalogue).map(|read| pack(read.entries, read.columns.len(), 0)))
}

/// The catalogue is checked first, then the question against it.
pub(crate) fn read_both(catalogue: &[u8], question: &[u8]) -> Result<(Catalogue, Question), Number> {
    let catalogue = read_catalogue(catalogue)?;
    let question = read_question(&catalogue, question)?;
    Ok((catalogue, question))
}

/// What checking a question answers: n.
pub fn question_word(catalogue: &[u8], question: &[u8]) -> u64 {
    word(read_both(catalogue, question).map(|(_, question)| pack(question.conditions.len(), 0, 0)))
}

/// What working out one condition answers: 0, 1 or 2.
pub fn outcome_word(catalogue: &[u8], question: &[u8], entry: u64, condition: u64) -> u64 {
    word(read_both(catalogue, question).and_then(|(catalogue, question)| {
        if entry >= catalogue.entries as u64 || condition >= question.conditions.len() as u64 {
            return Err(refusal::NO_SUCH_PLACE);
        }
        let condition = &question.conditions[condition as usize];
        Ok(pack(outcome(&catalogue, condition, entry as usize).number(), 0, 0))
    }))
}
