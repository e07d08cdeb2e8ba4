use crate::fold::FOLD;

use super::catalogue::{Number, Slot};
use super::due::Due;
use super::numbers::{self, Range};
use super::question::{Groups, Test};
use super::texts;

/// The first word of a slot has so many bytes of the text, beside its length.
pub const HEAD: usize = 7;
/// The bit in which a capital letter differs from a small one.
const CASE: u8 = 32;

/// A condition with all that its operand gives worked out, once for all blocks. It is of a question that was read
/// against a checked catalogue, which is the one meant in the contracts of `met` and `blank`.
#[derive(Clone, Copy)]
pub struct Prepared<'a> {
    test: PreparedTest<'a>,
    opposite: bool,
    pub groups: Groups,
}

#[derive(Clone, Copy)]
enum PreparedTest<'a> {
    Range(&'a [Number], Range),
    NumberBlank(&'a [Number]),
    Front(&'a [Slot], Front<'a>),
    Part(&'a [Slot], Part<'a>),
    TextBlank(&'a [Slot]),
}

/// The operand of equals or begins with, and two tests of a slot's first word.
#[derive(Clone, Copy)]
pub struct Front<'a> {
    pub operand: &'a [u8],
    /// Passed wherever the text may match.
    pub possible: Masked,
    /// Passed, of these, only where the first seven bytes do match: all bits but that of the case are asked for.
    pub sure: Masked,
}

/// A word under a mask.
#[derive(Clone, Copy)]
pub struct Masked {
    mask: u64,
    value: u64,
}

/// The operand of contains, and two of its letters.
#[derive(Clone, Copy)]
pub struct Part<'a> {
    pub operand: &'a [u8],
    pub letters: [Letter; 2],
    /// How far the second letter stands behind the first: at most 8.
    pub gap: usize,
    /// Has one of the two accented forms that differ in more than its open bits?
    pub is_loose: bool,
}

/// A byte of an operand for a filter: the bits in which a byte may differ and still pass, and the byte with these set.
#[derive(Clone, Copy)]
pub struct Letter {
    pub open: u8,
    pub filled: u8,
}

impl<'a> Prepared<'a> {
    #[inline(always)]
    pub fn of(test: Test<'a>, opposite: bool, groups: Groups) -> Prepared<'a> {
        let test = match test {
            Test::Range(column, range) => PreparedTest::Range(column, range),
            Test::NumberBlank(column) => PreparedTest::NumberBlank(column),
            Test::Equals(column, operand) => PreparedTest::Front(column, Front::of(operand, true)),
            Test::BeginsWith(column, operand) => PreparedTest::Front(column, Front::of(operand, false)),
            Test::Contains(column, operand) => PreparedTest::Part(column, Part::of(operand)),
            Test::TextBlank(column) => PreparedTest::TextBlank(column),
        };
        Prepared { test, opposite, groups }
    }

    /// The due entries of a block at which the condition answers yes.
    ///
    /// # Safety
    /// The catalogue has such a block and these entries in it.
    #[inline(always)]
    pub unsafe fn met(&self, block: usize, due: u64) -> u64 {
        // SAFETY: a column has a value for each entry.
        let (met, blank) = unsafe {
            match &self.test {
                PreparedTest::Range(column, range) => {
                    let numbers = Due::of_block(column, block, due);
                    (numbers::within(numbers, *range), if self.opposite { numbers::blank(numbers) } else { 0 })
                }
                PreparedTest::NumberBlank(column) => (numbers::blank(Due::of_block(column, block, due)), 0),
                PreparedTest::Front(column, front) => {
                    let slots = Due::of_block(column, block, due);
                    (texts::with_front(slots, front), if self.opposite { texts::blank(slots) } else { 0 })
                }
                PreparedTest::Part(column, part) => {
                    let slots = Due::of_block(column, block, due);
                    (texts::containing(slots, part), if self.opposite { texts::blank(slots) } else { 0 })
                }
                PreparedTest::TextBlank(column) => (texts::blank(Due::of_block(column, block, due)), 0),
            }
        };
        if self.opposite { due & !(met | blank) } else { met }
    }

    /// The due entries of a block at which the condition answers blank.
    ///
    /// # Safety
    /// The catalogue has such a block and these entries in it.
    #[inline(always)]
    pub unsafe fn blank(&self, block: usize, due: u64) -> u64 {
        // SAFETY: a column has a value for each entry.
        unsafe {
            match &self.test {
                PreparedTest::Range(column, _) => numbers::blank(Due::of_block(column, block, due)),
                PreparedTest::Front(column, _) | PreparedTest::Part(column, _) => {
                    texts::blank(Due::of_block(column, block, due))
                }
                PreparedTest::NumberBlank(_) | PreparedTest::TextBlank(_) => 0,
            }
        }
    }
}

impl<'a> Front<'a> {
    #[inline(always)]
    fn of(operand: &'a [u8], whole: bool) -> Front<'a> {
        let [mut possible, mut sure] = [Masked { mask: 0, value: 0 }; 2];
        for &byte in operand.iter().take(HEAD).rev() {
            let byte = FOLD[usize::from(byte)];
            possible.put(byte, OPEN[usize::from(byte)]);
            sure.put(byte, CASE);
        }
        // A text that equals the operand has its length.
        let open = if whole { 0 } else { 0xFF };
        possible.put(operand.len() as u8, open);
        sure.put(operand.len() as u8, open);
        Front { operand, possible, sure }
    }
}

impl Masked {
    #[inline(always)]
    pub fn fits(self, word: u64) -> bool {
        word & self.mask == self.value
    }

    /// Puts a byte with these bits open before those that are there.
    #[inline(always)]
    fn put(&mut self, byte: u8, open: u8) {
        self.mask = self.mask << 8 | u64::from(!open);
        self.value = self.value << 8 | u64::from(byte & !open);
    }
}

impl<'a> Part<'a> {
    /// Takes the first letter that is not loose and the last such one within eight places behind it; loose ones where
    /// there are no others.
    #[inline(always)]
    fn of(operand: &'a [u8]) -> Part<'a> {
        let letter = |at: usize| FOLD[usize::from(operand[at])];
        let first = (0..operand.len()).find(|&at| !is_loose(letter(at))).unwrap_or(0);
        let last = (operand.len() - 1).min(first + 8);
        let second = (first + 1..=last).rev().find(|&at| !is_loose(letter(at))).unwrap_or(last);
        let letters = [letter(first), letter(second)];
        Part {
            operand,
            letters: letters.map(Letter::of),
            gap: second - first,
            is_loose: letters.into_iter().any(is_loose),
        }
    }
}

impl Letter {
    #[inline(always)]
    fn of(byte: u8) -> Letter {
        let open = if is_loose(byte) { CASE } else { OPEN[usize::from(byte)] };
        Letter { open, filled: byte | open }
    }
}

/// Has the letter accented forms that differ in so many bits that a test which leaves them open tells little?
#[inline(always)]
fn is_loose(letter: u8) -> bool {
    matches!(letter, b'a' | b'e' | b'i' | b'n' | b'o' | b'u')
}

/// For each folded byte the bits in which the bytes that fold to it differ from it.
static OPEN: [u8; 256] = open_bits();

const fn open_bits() -> [u8; 256] {
    let mut open = [0; 256];
    let mut byte = 0;
    while byte < 256 {
        let folded = FOLD[byte];
        open[folded as usize] |= byte as u8 ^ folded;
        byte += 1;
    }
    open
}
