use std::str;

use crate::catalogue::{Catalogue, Column, read_catalogue};
use crate::field::field_of;
use crate::question::{ALL_OF_TAG, ANY_OF_TAG, CONDITION_TAG, read_question};
use crate::refusal::{self, Number};
use crate::spelling::{Part, spelled};
use crate::tables::with_front;
use crate::word::{pack, refused};

const MAX_TYPED: usize = 16_384;

/// What reading a typed question answers, and its lent output afterwards.
#[derive(Clone, Debug, PartialEq, Eq)]
pub struct Typed {
    pub word: u64,
    pub output: Vec<u8>,
}

/// Reads a typed question (order 4): the output is given as it was lent. A refusal does not alter it.
pub fn typed(catalogue: &[u8], text: &[u8], output: &[u8]) -> Typed {
    accepted_typed(catalogue, text, output)
        .unwrap_or_else(|number| Typed { word: refused(number), output: output.to_vec() })
}

/// "Checks: 21 .. after 1 to 6 and before 7 to 14 for those bytes; 22, the output is too short, last." Since order 6 the
/// catalogue's refusals are 1 to 6 and 23.
fn accepted_typed(catalogue: &[u8], text: &[u8], output: &[u8]) -> Result<Typed, Number> {
    let catalogue = read_catalogue(catalogue)?;
    let question = read_typed(&catalogue, text)?;
    read_question(&catalogue, &question)?;
    if output.len() < question.len() {
        return Err(refusal::TYPED_OUTPUT);
    }
    Ok(Typed { word: pack(0, 0, question.len()), output: with_front(output, question) })
}

/// The question bytes that a text spells, sound or not. "It takes this spelling and no other": the text is read loosely, and
/// what comes out must be spelled just as the text is.
pub fn read_typed(catalogue: &Catalogue, text: &[u8]) -> Result<Vec<u8>, Number> {
    if text.len() > MAX_TYPED {
        return Err(refusal::MISSPELLED);
    }
    let parts = guess(catalogue, text).ok_or(refusal::MISSPELLED)?;
    if spelled(&parts).is_none_or(|spelling| spelling.as_bytes() != text) {
        return Err(refusal::MISSPELLED);
    }
    put_together(parts).ok_or(refusal::MISSPELLED)
}

/// The parts of a text that is well spelled, and some or none of one that is not. Outside quotes each bracket and each comma
/// ends what stands before it; a quote never stands for itself, so each begins or ends what is in quotes.
fn guess(catalogue: &Catalogue, text: &[u8]) -> Option<Vec<Part>> {
    let text = str::from_utf8(text).ok()?.to_owned() + ",";
    let mut parts = Vec::new();
    let (mut start, mut in_quotes) = (0, false);
    for (at, byte) in text.bytes().enumerate() {
        in_quotes ^= byte == b'"';
        if in_quotes || !b"(),".contains(&byte) {
            continue;
        }
        match (&text[start..at], byte) {
            ("all", b'(') => parts.push(Part::Opens(ALL_OF_TAG)),
            ("any", b'(') => parts.push(Part::Opens(ANY_OF_TAG)),
            // Behind a bracket that closes.
            ("", _) => {}
            (piece, _) => parts.push(Part::Field(guess_condition(catalogue, piece)?)),
        }
        if byte == b')' {
            parts.push(Part::Closes);
        }
        start = at + 1;
    }
    Some(parts)
}

/// The field of a condition.
fn guess_condition(catalogue: &Catalogue, piece: &str) -> Option<Vec<u8>> {
    let (plain, opposite) = piece.strip_prefix("not ").map_or((piece, 0), |plain| (plain, 128));
    let (column, test) = plain.strip_prefix('c')?.split_once(' ')?;
    let column: u8 = column.parse().ok()?;
    let (kind, operand) = match test.split_once(' ').unwrap_or((test, "")) {
        ("in", range) => (0, guess_range(range)?),
        ("blank", _) => (blank_kind(catalogue, column), Vec::new()),
        ("is", text) => (2, guess_quoted(text)?),
        ("starts", text) => (3, guess_quoted(text)?),
        ("has", text) => (4, guess_quoted(text)?),
        _ => return None,
    };
    Some(field_of(CONDITION_TAG, &[&[column, kind + opposite], operand.as_slice()].concat()))
}

/// "`blank` takes its kind from the column, and where the column does not exist it stands for kind 1."
fn blank_kind(catalogue: &Catalogue, column: u8) -> u8 {
    match catalogue.columns.get(usize::from(column)) {
        Some(Column::Texts(_)) => 5,
        Some(Column::Numbers(_)) | None => 1,
    }
}

/// "Numbers up to 4,294,967,295": just those that fit four bytes.
fn guess_range(range: &str) -> Option<Vec<u8>> {
    let (low, high) = range.split_once("..")?;
    let (low, high): (u32, u32) = (low.parse().ok()?, high.parse().ok()?);
    Some([low.to_be_bytes(), high.to_be_bytes()].concat())
}

fn guess_quoted(text: &str) -> Option<Vec<u8>> {
    let mut pieces = text.strip_prefix('"')?.strip_suffix('"')?.split('\\');
    let mut operand = pieces.next()?.as_bytes().to_vec();
    // Each further piece follows a backslash.
    for piece in pieces {
        let (digits, plain) = piece.split_at_checked(2)?;
        operand.push(u8::from_str_radix(digits, 16).ok()?);
        operand.extend(plain.bytes());
    }
    Some(operand)
}

/// The question's bytes: each bracket that closes makes one field of all that stands behind the last that opens. None where a
/// bracket has no other, a group no member, or where the whole is not one field.
fn put_together(parts: Vec<Part>) -> Option<Vec<u8>> {
    let mut done: Vec<Part> = Vec::new();
    for part in parts {
        if part != Part::Closes {
            done.push(part);
            continue;
        }
        let opening = |at: usize| if let Part::Opens(tag) = done[at] { Some((at, tag)) } else { None };
        let (start, tag) = (0..done.len()).rev().find_map(opening)?;
        let members = done[start + 1..].iter().map(Part::bytes).collect::<Vec<_>>().concat();
        if members.is_empty() {
            return None;
        }
        done.truncate(start);
        done.push(Part::Field(field_of(tag, &members)));
    }
    if let [Part::Field(question)] = done.as_slice() { Some(question.clone()) } else { None }
}
