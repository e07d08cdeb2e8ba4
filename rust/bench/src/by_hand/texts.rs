use crate::fold::FOLD;

use super::catalogue::Slot;
use super::due::Due;
use super::operands::{Front, HEAD, Letter, Part};
use super::vector::Vector;

/// Two loads of 16 bytes reach over a slot: one from its front, and one from here on.
const SECOND_LOAD: usize = size_of::<Slot>() - 16;

/// The due entries whose text is a blank.
#[inline(always)]
pub fn blank(due: Due<Slot>) -> u64 {
    due.passing(|slot| slot[0] == 0)
}

/// The due entries whose text begins with the operand, or equals it. The first eight bytes of a slot tell most of the
/// others; what passes is compared byte by byte, from the eighth on where the first seven surely match.
#[inline(always)]
pub fn with_front(due: Due<Slot>, front: &Front) -> u64 {
    let possible = due.passing(|slot| front.possible.fits(word(slot, 0)));
    due.among(possible).each_passing(|slot| {
        let operand = front.operand;
        if usize::from(slot[0]) < operand.len() {
            return false;
        }
        if front.sure.fits(word(slot, 0)) {
            operand.get(HEAD..).is_none_or(|rest| is_alike(&slot[1 + HEAD..], rest))
        } else {
            is_alike(&slot[1..], operand)
        }
    })
}

/// The due entries whose text contains the operand. Two of its letters at their distance tell most of the others; where
/// one of the two has accented forms that its pattern leaves out, a slot with a byte from 128 on passes too.
#[inline(always)]
pub fn containing(due: Due<Slot>, part: &Part) -> u64 {
    let [first, second] = part.letters.map(Pattern::of);
    let gap = part.gap;
    let mut possible = due.passing(|slot| {
        // SAFETY: a gap is at most 8, which is also where the second load begins.
        let (from_front, to_end) = unsafe {
            let from_front = first.places(slot, 0) & second.places(slot, gap);
            (from_front, first.places(slot, SECOND_LOAD - gap) & second.places(slot, SECOND_LOAD))
        };
        (from_front | to_end).bits() != 0
    });
    if part.is_loose {
        possible |= due.except(possible).passing(is_beyond_ascii);
    }
    let initial = FOLD[usize::from(part.operand[0])];
    // SAFETY: due are slots of a checked catalogue.
    due.among(possible).each_passing(|slot| unsafe { contains(slot, part.operand, initial) })
}

/// Does a slot's text contain the operand, whose first byte is folded to this one?
///
/// # Safety
/// The slot is a checked catalogue's.
#[inline(always)]
unsafe fn contains(slot: &Slot, operand: &[u8], initial: u8) -> bool {
    let mut at = 1;
    while at + operand.len() <= 1 + usize::from(slot[0]) {
        // SAFETY: the text's length was checked, so that its bytes are among the slot's.
        let place = unsafe { slot.get_unchecked(at..at + operand.len()) };
        if FOLD[usize::from(place[0])] == initial && is_alike(&place[1..], &operand[1..]) {
            return true;
        }
        at += 1;
    }
    false
}

/// A letter as vectors.
#[derive(Clone, Copy)]
struct Pattern {
    open: Vector,
    filled: Vector,
}

impl Pattern {
    #[inline(always)]
    fn of(letter: Letter) -> Pattern {
        Pattern { open: Vector::of_byte(letter.open), filled: Vector::of_byte(letter.filled) }
    }

    /// Where the letter stands, among 16 bytes of a slot.
    ///
    /// # Safety
    /// `from` is at most 8.
    #[inline(always)]
    unsafe fn places(self, slot: &Slot, from: usize) -> Vector {
        // SAFETY: the 16 bytes end among the slot's 24.
        let bytes = unsafe { &*slot.as_ptr().add(from).cast() };
        (Vector::load(bytes) | self.open).equal_bytes(self.filled)
    }
}

/// Has a slot a byte from 128 on?
#[inline(always)]
fn is_beyond_ascii(slot: &Slot) -> bool {
    (word(slot, 0) | word(slot, 1) | word(slot, 2)) & 0x8080_8080_8080_8080 != 0
}

/// One of a slot's three words, the first byte its lowest.
#[inline(always)]
fn word(slot: &Slot, at: usize) -> u64 {
    u64::from_le_bytes(slot.as_chunks().0[at])
}

/// Are the first bytes of a text those of the operand, after folding? The text is at least as long.
#[inline(always)]
fn is_alike(text: &[u8], operand: &[u8]) -> bool {
    text.iter().zip(operand).all(|(&a, &b)| FOLD[usize::from(a)] == FOLD[usize::from(b)])
}
