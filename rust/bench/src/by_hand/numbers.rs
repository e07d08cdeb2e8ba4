use evaluator::BLANK_NUMBER;

use super::BLOCK;
use super::catalogue::Number;
use super::due::Due;
use super::vector::Vector;

/// The numbers from `low` to `low + width`.
#[derive(Clone, Copy)]
pub struct Range {
    pub low: u32,
    pub width: u32,
}

impl Range {
    #[inline(always)]
    fn has(self, number: Number) -> bool {
        u32::from_be_bytes(number).wrapping_sub(self.low) <= self.width
    }
}

/// The due entries whose number lies in a range.
#[inline(always)]
pub fn within(due: Due<Number>, range: Range) -> u64 {
    match due.whole() {
        Some(block) => all_within(block, range),
        None => due.each_passing(|&number| range.has(number)),
    }
}

/// The due entries whose number is a blank.
#[inline(always)]
pub fn blank(due: Due<Number>) -> u64 {
    match due.whole() {
        Some(block) => all(block, |four| four.equal_numbers(Vector::of_number(BLANK_NUMBER))),
        None => due.each_passing(|&number| Range { low: BLANK_NUMBER, width: 0 }.has(number)),
    }
}

/// Numbers compare as unsigned ones if the highest bit of both sides is turned.
#[inline(always)]
fn all_within(block: &[Number; BLOCK], range: Range) -> u64 {
    const HIGHEST: u32 = 1 << 31;
    let low = Vector::of_number(range.low.wrapping_add(HIGHEST));
    let width = Vector::of_number(range.width ^ HIGHEST);
    !all(block, |four| four.turned_round().minus_numbers(low).greater_signed(width))
}

/// The entries of a block at which a comparison of four numbers holds.
#[inline(always)]
fn all(block: &[Number; BLOCK], compare: impl Fn(Vector) -> Vector) -> u64 {
    let mut bits = 0;
    for (place, sixteen) in block.as_flattened().as_chunks::<64>().0.iter().enumerate() {
        let fours = sixteen.as_chunks().0;
        let four = |at: usize| compare(Vector::load(&fours[at]));
        bits |= u64::from(Vector::bits_of_numbers([four(0), four(1), four(2), four(3)])) << (16 * place);
    }
    bits
}
