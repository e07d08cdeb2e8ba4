use searchroom::{Answer, MAX_CONDITIONS, Refusal};

use super::blocks::{Plan, PreparedConditions, Rows};
use super::catalogue::Catalogue;
use super::operands::Prepared;
use super::question::{Conditions, read_question};
use super::{BLOCK, List};

/// The bytes of a look's field.
const FIELD: usize = 7;
/// Its tag and its length, 4, the first byte lowest.
const TAG_AND_LENGTH: u64 = 0x04_00_4C;

/// A condition's turn in the running order, with what was found out about it, a word for each block.
#[derive(Clone, Copy)]
struct Turn<'t, 'a> {
    condition: &'t Prepared<'a>,
    looks: &'t [u64],
    met: &'t [u64],
}

/// For each entry of a block, by turns: where a look was made, and what it answered.
struct Told {
    looks: [u64; BLOCK],
    yes: [u64; BLOCK],
    blank: [u64; BLOCK],
}

/// Writes a field for each look of a run, an entry's looks in the running order. A refusal writes nothing.
#[inline(never)]
pub fn copy(catalogue: &[u8], question: &[u8], order: &[u8], output: &mut [u8]) -> Result<usize, Refusal> {
    let catalogue = Catalogue::read(catalogue)?;
    let (mut conditions, mut prepared) = (Conditions::new(), PreparedConditions::new());
    read_question(&catalogue, question, &mut conditions)?;
    let plan = Plan::new(&catalogue, &conditions, order, &mut prepared)?;
    let mut rows = Rows::new();
    let worked = plan.work::<true>(&mut rows);
    let written = FIELD * worked.look_count() as usize;
    let mut output = output.get_mut(..written).ok_or(Refusal::ShortOutput)?;
    let mut turns = List::<Turn, MAX_CONDITIONS>::new();
    let mut numbers = [0; MAX_CONDITIONS];
    for (&number, at_turn) in order.iter().zip(&mut numbers) {
        let at = usize::from(number);
        turns.push(Turn { condition: &plan.conditions[at], looks: worked.looks(at), met: worked.met(at) });
        *at_turn = number;
    }
    for first in (0..catalogue.entries).step_by(BLOCK) {
        let told = Told::of_block(&turns, first / BLOCK);
        for entry in first..catalogue.entries.min(first + BLOCK) {
            output = told.put_entry(&numbers, entry, output);
        }
    }
    Ok(written)
}

impl Told {
    #[inline(always)]
    fn of_block(turns: &[Turn], block: usize) -> Told {
        let mut told = Told { looks: [0; BLOCK], yes: [0; BLOCK], blank: [0; BLOCK] };
        for (turn, at) in turns.iter().enumerate() {
            let (due, met) = (at.looks[block], at.met[block]);
            if due == 0 {
                continue;
            }
            gather(&mut told.looks, due, turn);
            gather(&mut told.yes, met, turn);
            let not_met = due & !met;
            if not_met != 0 {
                // A whole block is asked at once: that is faster, and no blank is met.
                let asked = if due == u64::MAX { due } else { not_met };
                // SAFETY: looks were made at entries of this block.
                gather(&mut told.blank, unsafe { at.condition.blank(block, asked) }, turn);
            }
        }
        told
    }

    /// Writes the fields of an entry of the block, given the condition of each turn, and gives what is left of the
    /// output.
    #[inline(always)]
    fn put_entry<'o>(&self, numbers: &[u8; MAX_CONDITIONS], entry: usize, mut output: &'o mut [u8]) -> &'o mut [u8] {
        const YES: u64 = Answer::Yes as u64;
        const BLANK: u64 = Answer::Blank as u64;
        let place = entry % BLOCK;
        let head = TAG_AND_LENGTH | u64::from((entry as u16).swap_bytes()) << 24;
        let mut left = self.looks[place];
        while left != 0 {
            let turn = left.trailing_zeros() as usize;
            let answer = YES * (self.yes[place] >> turn & 1) + BLANK * (self.blank[place] >> turn & 1);
            let field = head | u64::from(numbers[turn]) << 40 | answer << 48;
            output = put_field(field.to_le_bytes(), output);
            left &= left - 1;
        }
        output
    }
}

/// Writes the first seven bytes. All eight at once are faster, and the next field is written over the last one.
#[inline(always)]
fn put_field(field: [u8; 8], output: &mut [u8]) -> &mut [u8] {
    match output.first_chunk_mut() {
        Some(room) => *room = field,
        None => output.copy_from_slice(&field[..FIELD]),
    }
    &mut output[FIELD..]
}

/// Puts a bit for the turn at each of these entries.
#[inline(always)]
fn gather(by_entry: &mut [u64; BLOCK], entries: u64, turn: usize) {
    if entries == u64::MAX {
        by_entry.iter_mut().for_each(|turns| *turns |= 1 << turn);
        return;
    }
    let mut left = entries;
    while left != 0 {
        by_entry[left.trailing_zeros() as usize] |= 1 << turn;
        left &= left - 1;
    }
}
