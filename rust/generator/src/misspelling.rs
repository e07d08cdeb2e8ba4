use std::str;

use crate::Rng;

/// The ways in which a typed text is spoilt.
#[derive(Clone, Copy, Debug, PartialEq, Eq)]
pub enum Misspelling {
    Cut,
    Lengthened,
    ByteChanged,
    ByteRemoved,
    ByteDoubled,
    BytesSwapped,
    /// Of a word, of a letter in quotes, or of an escape's digits.
    CaseChanged,
    SpaceAdded,
    /// Beside a bracket or another comma.
    CommaAdded,
    BracketAdded,
    GroupEmptied,
    NotAdded,
    ZeroAdded,
    /// So many that a number may pass what one, four or eight bytes hold.
    DigitsAdded,
    /// A byte in quotes that stands for itself is escaped.
    PlainEscaped,
    /// A byte in quotes that is escaped stands for itself.
    EscapedPlain,
}

impl Misspelling {
    pub const ALL: [Misspelling; 16] = [
        Misspelling::Cut,
        Misspelling::Lengthened,
        Misspelling::ByteChanged,
        Misspelling::ByteRemoved,
        Misspelling::ByteDoubled,
        Misspelling::BytesSwapped,
        Misspelling::CaseChanged,
        Misspelling::SpaceAdded,
        Misspelling::CommaAdded,
        Misspelling::BracketAdded,
        Misspelling::GroupEmptied,
        Misspelling::NotAdded,
        Misspelling::ZeroAdded,
        Misspelling::DigitsAdded,
        Misspelling::PlainEscaped,
        Misspelling::EscapedPlain,
    ];

    /// Can a text be spoilt so where this is left of it?
    fn fits(self, rest: &[u8], in_quotes: bool) -> bool {
        match self {
            Misspelling::BytesSwapped => rest.len() > 1,
            Misspelling::CaseChanged => rest[0].is_ascii_alphabetic(),
            Misspelling::CommaAdded | Misspelling::BracketAdded => b"(),".contains(&rest[0]),
            Misspelling::GroupEmptied => rest[0] == b'(' && !in_quotes,
            Misspelling::NotAdded => b"acn".contains(&rest[0]) && !in_quotes,
            Misspelling::ZeroAdded | Misspelling::DigitsAdded => rest[0].is_ascii_digit(),
            Misspelling::PlainEscaped => in_quotes && rest[0] != b'"',
            Misspelling::EscapedPlain => in_quotes && rest[0] == b'\\' && rest.len() > 2,
            _ => true,
        }
    }
}

/// Spoils a typed text in one way, if it has a place for that. What comes out may still be well spelled.
pub fn misspell(rng: &mut Rng, text: &mut Vec<u8>, how: Misspelling) {
    let mut in_quotes = false;
    let is_place = |at: &usize| {
        let fits = how.fits(&text[*at..], in_quotes);
        in_quotes ^= text[*at] == b'"';
        fits
    };
    let places: Vec<usize> = (0..text.len()).filter(is_place).collect();
    if places.is_empty() {
        return;
    }
    let at = *rng.pick(&places);
    let (byte, end) = (text[at], text.len());
    let (range, put) = match how {
        Misspelling::Cut => (at..end, vec![]),
        Misspelling::Lengthened => (end..end, vec![*rng.pick(b"\n ),\"0\0")]),
        Misspelling::ByteChanged => (at..at + 1, vec![rng.byte()]),
        Misspelling::ByteRemoved => (at..at + 1, vec![]),
        Misspelling::ByteDoubled => (at..at, vec![byte]),
        Misspelling::BytesSwapped => (at..at + 2, vec![text[at + 1], byte]),
        Misspelling::CaseChanged => (at..at + 1, vec![byte ^ 32]),
        Misspelling::SpaceAdded => (at..at, b" ".to_vec()),
        Misspelling::CommaAdded => (at..at + 1, if rng.chance(50) { vec![b',', byte] } else { vec![byte, b','] }),
        Misspelling::BracketAdded => (at..at, rng.pick::<&[u8]>(&[b"(", b")", b"all(", b"any("]).to_vec()),
        Misspelling::GroupEmptied => (at + 1..at + position(&text[at..], b')').max(1), vec![]),
        Misspelling::NotAdded => (at..at, b"not ".to_vec()),
        Misspelling::ZeroAdded => (at..at, b"0".to_vec()),
        Misspelling::DigitsAdded => (at..at, (0..rng.between(1, 25)).map(|_| rng.between(48, 57) as u8).collect()),
        Misspelling::PlainEscaped => (at..at + 1, format!("\\{byte:02X}").into_bytes()),
        Misspelling::EscapedPlain => (at..at + 3, vec![unescaped(&text[at + 1..at + 3])]),
    };
    text.splice(range, put);
}

/// Where a byte first stands, or the end.
fn position(bytes: &[u8], byte: u8) -> usize {
    bytes.iter().position(|&other| other == byte).unwrap_or(bytes.len())
}

/// The byte that two digits stand for; a zero if they are none.
fn unescaped(digits: &[u8]) -> u8 {
    str::from_utf8(digits).ok().and_then(|digits| u8::from_str_radix(digits, 16).ok()).unwrap_or(0)
}
