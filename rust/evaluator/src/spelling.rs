use crate::field::{field_of, take_field};
use crate::question::{ALL_OF_TAG, ANY_OF_TAG, CONDITION_TAG};

/// A question from front to back. It is kept flat because a text may nest thousands of groups.
#[derive(Clone, Debug, PartialEq, Eq)]
pub enum Part {
    /// A group of this tag begins.
    Opens(u8),
    /// The field of a condition. While a question is put together, also that of a group which is done.
    Field(Vec<u8>),
    Closes,
}

impl Part {
    /// The bytes of a field; a bracket has none.
    pub fn bytes(&self) -> &[u8] {
        if let Part::Field(field) = self { field } else { &[] }
    }
}

/// The typed form of a question's bytes (order 4): of every accepted question, and of any other that a text can spell. Of bytes
/// that no text spells there is none, or one that is misspelled, or that of other bytes: a blank of the kind that does not
/// fit its column is spelled as the one that does.
pub fn spelling(question: &[u8]) -> Option<String> {
    spelled(&parts_of(question)?)
}

fn parts_of(question: &[u8]) -> Option<Vec<Part>> {
    let mut parts = Vec::new();
    // What is left of the payload of each group that is open, the question around them.
    let mut payloads = vec![question];
    while let Some(rest) = payloads.last_mut() {
        if rest.is_empty() {
            payloads.pop();
            parts.push(Part::Closes);
            continue;
        }
        let field = take_field(rest)?;
        match field.tag {
            CONDITION_TAG => parts.push(Part::Field(field_of(field.tag, field.payload))),
            ALL_OF_TAG | ANY_OF_TAG => {
                parts.push(Part::Opens(field.tag));
                payloads.push(field.payload);
            }
            _ => return None,
        }
    }
    // The last to end was the question itself.
    parts.pop();
    Some(parts)
}

/// "Spell all-of and any-of groups `all(…)` and `any(…)`, one or more members parted by one comma, no spaces but those
/// shown."
pub fn spelled(parts: &[Part]) -> Option<String> {
    let mut text = String::new();
    let mut after_member = false;
    for part in parts {
        if after_member && *part != Part::Closes {
            text.push(',');
        }
        match part {
            Part::Opens(ALL_OF_TAG) => text.push_str("all("),
            Part::Opens(_) => text.push_str("any("),
            Part::Field(field) => text.push_str(&spelled_condition(&field[3..])?),
            Part::Closes => text.push(')'),
        }
        after_member = !matches!(part, Part::Opens(_));
    }
    Some(text)
}

/// "Conditions are `c0 in 1700..1799`, `c0 blank`, `c1 is "ash"`, `c1 starts "ash"`, `c1 has "ash"`, with `not ` before for an
/// opposite."
fn spelled_condition(payload: &[u8]) -> Option<String> {
    let &[column, kind, ref operand @ ..] = payload else { return None };
    let (not, plain_kind) = if kind < 128 { ("", kind) } else { ("not ", kind - 128) };
    let test = match (plain_kind, operand) {
        (0, &[a, b, c, d, e, f, g, h]) => {
            format!("in {}..{}", u32::from_be_bytes([a, b, c, d]), u32::from_be_bytes([e, f, g, h]))
        }
        (1 | 5, []) => "blank".to_owned(),
        (2, _) => format!("is \"{}\"", quoted(operand)),
        (3, _) => format!("starts \"{}\"", quoted(operand)),
        (4, _) => format!("has \"{}\"", quoted(operand)),
        _ => return None,
    };
    Some(format!("{not}c{column} {test}"))
}

/// "In quotes stand none or more bytes: 32 to 126 except quote and backslash stand for themselves; every other byte is a
/// backslash and two digits 0-9A-F."
fn quoted(operand: &[u8]) -> String {
    let spelled = |&byte: &u8| match byte {
        32..=126 if byte != b'"' && byte != b'\\' => char::from(byte).to_string(),
        _ => format!("\\{byte:02X}"),
    };
    operand.iter().map(spelled).collect()
}
