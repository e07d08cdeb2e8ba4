use evaluator::Catalogue;
use evaluator::refusal::{self, Number};

use crate::encode::{encode_bits, encode_catalogue, encode_mark, field};
use crate::{Pattern, Rng};

/// No mark, or one of any pattern: that of zeros and that of ones are among them.
pub fn mark(rng: &mut Rng, entries: usize) -> Option<Vec<bool>> {
    if rng.chance(60) {
        return None;
    }
    let pattern = *rng.pick(&Pattern::ALL);
    Some(pattern.of(rng, entries))
}

/// What can be wrong with a mark.
#[derive(Clone, Copy, Debug, PartialEq, Eq)]
pub enum MarkFault {
    /// There are fewer than three bytes.
    HeadCut,
    /// The length passes the end.
    PastTheEnd,
    ByteShort,
    ByteLong,
    StrayBit,
    OtherTag,
    ByteAfter,
    SecondMark,
}

impl MarkFault {
    pub const ALL: [MarkFault; 8] = [
        MarkFault::HeadCut,
        MarkFault::PastTheEnd,
        MarkFault::ByteShort,
        MarkFault::ByteLong,
        MarkFault::StrayBit,
        MarkFault::OtherTag,
        MarkFault::ByteAfter,
        MarkFault::SecondMark,
    ];

    /// The refusal that it causes.
    pub fn refusal(self) -> Number {
        match self {
            MarkFault::HeadCut | MarkFault::PastTheEnd => refusal::CATALOGUE_FIELD,
            MarkFault::ByteShort | MarkFault::ByteLong | MarkFault::StrayBit => refusal::MARK,
            MarkFault::OtherTag | MarkFault::ByteAfter | MarkFault::SecondMark => refusal::CATALOGUE_LEFT_OVER,
        }
    }

    /// The bytes of a faulty one. None where the fault cannot be had: no byte to leave out, or no bit that is unused.
    fn bytes(self, rng: &mut Rng, withdrawn: &[bool]) -> Option<Vec<u8>> {
        let mut payload = encode_bits(withdrawn);
        let sound = encode_mark(&payload);
        match self {
            MarkFault::HeadCut => Some(sound[..rng.between(1, 2)].to_vec()),
            MarkFault::PastTheEnd => {
                payload.resize(payload.len() + rng.between(1, 300), 0);
                let longer = encode_mark(&payload);
                Some(longer[..rng.between(3, longer.len() - 1)].to_vec())
            }
            MarkFault::ByteShort => payload.pop().map(|_| encode_mark(&payload)),
            MarkFault::ByteLong => Some(encode_mark(&[payload, vec![0]].concat())),
            MarkFault::StrayBit => {
                let unused: Vec<usize> = (withdrawn.len()..8 * payload.len()).collect();
                if unused.is_empty() {
                    return None;
                }
                let stray = *rng.pick(&unused);
                payload[stray / 8] |= 1 << (stray % 8);
                Some(encode_mark(&payload))
            }
            MarkFault::OtherTag => Some(field(*rng.pick(&[0, 67, 78, 84, 86, 88, 255]), &payload)),
            MarkFault::ByteAfter => Some([sound, vec![rng.byte()]].concat()),
            MarkFault::SecondMark => Some(sound.repeat(2)),
        }
    }
}

/// The bytes of a catalogue whose mark has this fault and no other. None where the fault cannot be had.
pub fn faulty_mark(rng: &mut Rng, catalogue: &Catalogue, fault: MarkFault) -> Option<Vec<u8>> {
    let withdrawn: Vec<bool> = (0..catalogue.entries).map(|entry| catalogue.is_withdrawn(entry)).collect();
    let faulty = fault.bytes(rng, &withdrawn)?;
    let unmarked = encode_catalogue(&Catalogue { mark: None, ..catalogue.clone() });
    Some([unmarked, faulty].concat())
}
