use std::iter;
use std::ops::Range;

use crate::Rng;

/// The ways in which bytes are spoilt.
#[derive(Clone, Copy, Debug, PartialEq, Eq)]
pub enum Damage {
    Cut,
    Lengthened,
    ByteChanged,
    LengthChanged,
    FieldsSwapped,
}

impl Damage {
    pub const ALL: [Damage; 5] =
        [Damage::Cut, Damage::Lengthened, Damage::ByteChanged, Damage::LengthChanged, Damage::FieldsSwapped];
}

/// Spoils the bytes of a catalogue or a question in one way. What comes out may still be well formed.
pub fn damage(rng: &mut Rng, bytes: &mut Vec<u8>, how: Damage) {
    let fields = fields(bytes);
    match how {
        Damage::Cut => {
            // Near an end as often as anywhere.
            let cut = if rng.chance(50) { rng.between(1, 4) } else { rng.below(bytes.len() + 1) };
            bytes.truncate(bytes.len().saturating_sub(cut));
        }
        Damage::Lengthened => {
            let length = rng.between(1, 5);
            let more = if rng.chance(50) { vec![0; length] } else { rng.bytes(length) };
            bytes.extend(more);
        }
        Damage::ByteChanged if !bytes.is_empty() => change_byte(rng, bytes, &fields),
        Damage::LengthChanged if !fields.is_empty() => {
            let at = rng.pick(&fields).start + 1;
            let length = u16::from_be_bytes([bytes[at], bytes[at + 1]]);
            let changed = match rng.below(4) {
                0 => length.wrapping_add(1),
                1 => length.wrapping_sub(1),
                2 => length.swap_bytes(),
                _ => rng.next_u64() as u16,
            };
            bytes[at..at + 2].copy_from_slice(&changed.to_be_bytes());
        }
        Damage::FieldsSwapped if fields.len() > 1 => swap_fields(rng, bytes, &fields),
        _ => {}
    }
}

/// Changes one byte: of a field's head, of the first bytes of its payload, or anywhere.
fn change_byte(rng: &mut Rng, bytes: &mut [u8], fields: &[Range<usize>]) {
    let mut at = rng.below(bytes.len());
    if !fields.is_empty() && rng.chance(60) {
        let field = rng.pick(fields);
        at = (field.start + rng.below(6)).min(field.end - 1);
    }
    bytes[at] = match rng.below(4) {
        0 => bytes[at].wrapping_add(1),
        1 => bytes[at].wrapping_sub(1),
        2 => bytes[at] ^ 0x80,
        _ => rng.byte(),
    };
}

/// Swaps two fields of which neither holds the other.
fn swap_fields(rng: &mut Rng, bytes: &mut Vec<u8>, fields: &[Range<usize>]) {
    let (a, b) = (rng.pick(fields).clone(), rng.pick(fields).clone());
    let (a, b) = if a.start < b.start { (a, b) } else { (b, a) };
    if a.end <= b.start {
        *bytes = [&bytes[..a.start], &bytes[b.clone()], &bytes[a.end..b.start], &bytes[a], &bytes[b.end..]].concat();
    }
}

/// Every field that can be made out, groups before their members.
fn fields(bytes: &[u8]) -> Vec<Range<usize>> {
    let mut found = Vec::new();
    let mut pending: Vec<Range<usize>> = iter::once(0..bytes.len()).collect();
    while let Some(mut within) = pending.pop() {
        while within.len() >= 3 {
            let length = usize::from(u16::from_be_bytes([bytes[within.start + 1], bytes[within.start + 2]]));
            if length > within.len() - 3 {
                break;
            }
            let field = within.start..within.start + 3 + length;
            if matches!(bytes[field.start], 65 | 79) {
                pending.push(field.start + 3..field.end);
            }
            within.start = field.end;
            found.push(field);
        }
    }
    found
}
