use crate::condition::outcome;
use crate::refusal::{self, Number};
use crate::run::find;
use crate::tables::{read_order, with_front};
use crate::word::{pack, read_both, refused};

const LOOK_TAG: u8 = 76;

/// What a copy answers, and its lent output afterwards.
#[derive(Clone, Debug, PartialEq, Eq)]
pub struct Copied {
    pub word: u64,
    pub output: Vec<u8>,
}

/// The steward's copy of the register (order 1): the output is given as it was lent. A refusal does not alter it. Order 1
/// leaves open how the looks of one entry follow each other; here they stand by condition number.
pub fn copy(catalogue: &[u8], question: &[u8], order: &[u8], output: &[u8]) -> Copied {
    accepted_copy(catalogue, question, order, output)
        .unwrap_or_else(|number| Copied { word: refused(number), output: output.to_vec() })
}

fn accepted_copy(catalogue: &[u8], question: &[u8], order: &[u8], output: &[u8]) -> Result<Copied, Number> {
    let (catalogue, question) = read_both(catalogue, question)?;
    let order = read_order(order, question.conditions.len())?;
    let found = find(&catalogue, &question, &order);
    let mut fields = Vec::new();
    for entry in 0..catalogue.entries {
        for (number, condition) in question.conditions.iter().enumerate() {
            if found.looks[number][entry] {
                fields.extend(look_field(entry, number, outcome(&catalogue, condition, entry).number()));
            }
        }
    }
    if output.len() < fields.len() {
        return Err(refusal::OUTPUT);
    }
    Ok(Copied { word: pack(0, 0, fields.len()), output: with_front(output, fields) })
}

/// Tag 76, length 4, entry (two bytes), condition number, outcome (0 no, 1 yes, 2 blank).
fn look_field(entry: usize, condition: usize, outcome: usize) -> [u8; 7] {
    [LOOK_TAG, 0, 4, (entry / 256) as u8, (entry % 256) as u8, condition as u8, outcome as u8]
}
