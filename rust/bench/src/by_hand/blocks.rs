use std::mem::MaybeUninit;
use std::slice;

use searchroom::{MAX_CONDITIONS, Refusal};

use super::catalogue::Catalogue;
use super::operands::Prepared;
use super::question::{Conditions, Group};
use super::{BLOCK, List, MAX_BLOCKS};

/// The conditions of a question by their numbers, prepared.
pub type PreparedConditions<'a> = List<Prepared<'a>, MAX_CONDITIONS>;

/// A question over a catalogue and a running order, ready to be worked.
pub struct Plan<'p, 'a> {
    catalogue: &'p Catalogue<'a>,
    pub conditions: &'p [Prepared<'a>],
    /// Each condition's number once.
    order: &'p [u8],
}

/// A row of bits, a word for each block. Words of blocks that the catalogue lacks are never written.
type Row = [MaybeUninit<u64>; MAX_BLOCKS];

/// Room for what is found out, none of it cleared.
pub struct Rows {
    listed: Row,
    looks: [Row; MAX_CONDITIONS],
    met: [Row; MAX_CONDITIONS],
}

/// What was found out: the words of these blocks and conditions are written, those of `met` only with `MET`.
pub struct Worked<'t, const MET: bool> {
    rows: &'t Rows,
    blocks: usize,
    conditions: usize,
}

/// Is this a running order: the number of each condition, once?
#[inline(always)]
fn is_running_order(order: &[u8], conditions: usize) -> bool {
    let mut seen = 0_u64;
    for &number in order {
        if usize::from(number) >= conditions || seen >> number & 1 == 1 {
            return false;
        }
        seen |= 1 << number;
    }
    order.len() == conditions
}

impl<'p, 'a> Plan<'p, 'a> {
    /// Checks the running order and prepares the conditions in the room for them.
    #[inline(always)]
    pub fn new(
        catalogue: &'p Catalogue<'a>,
        conditions: &Conditions<'a>,
        order: &'p [u8],
        room: &'p mut PreparedConditions<'a>,
    ) -> Result<Plan<'p, 'a>, Refusal> {
        if !is_running_order(order, conditions.len()) {
            return Err(Refusal::BadOrder);
        }
        conditions.iter().for_each(|condition| room.push(condition.prepared()));
        Ok(Plan { catalogue, conditions: room, order })
    }

    /// Works every condition out where its look is due.
    #[inline(always)]
    pub fn work<'t, const MET: bool>(&self, rows: &'t mut Rows) -> Worked<'t, MET> {
        let (blocks, conditions) = (self.catalogue.entries.div_ceil(BLOCK), self.conditions.len());
        let mut live = [0; MAX_CONDITIONS];
        for block in 0..blocks {
            live[..conditions].fill(self.catalogue.present(block));
            let mut listed = 0;
            for &number in self.order {
                // SAFETY: the block is one of the catalogue's and the number a condition's; live are entries of it
                // alone.
                listed |= unsafe { self.take_turn::<MET>(block, number.into(), &mut live, rows) };
            }
            rows.listed[block].write(listed);
        }
        Worked { rows, blocks, conditions }
    }

    /// Looks at a condition at the entries where it is due, which are those where it is live at its turn. Gives the
    /// entries that are listed by it.
    ///
    /// # Safety
    /// The catalogue has such a block, the question such a condition, and the block the live entries.
    #[inline(always)]
    unsafe fn take_turn<const MET: bool>(
        &self,
        block: usize,
        number: usize,
        live: &mut [u64; MAX_CONDITIONS],
        rows: &mut Rows,
    ) -> u64 {
        // SAFETY: there are at most 64 conditions and 32 blocks, and this condition and this block are among them. Due
        // are live entries, which the block has, and the groups are the question's.
        unsafe {
            let due = *live.get_unchecked(number);
            rows.looks.get_unchecked_mut(number).get_unchecked_mut(block).write(due);
            if MET {
                // Where nothing is due a copy loads the word, though it never uses it: it has to be written, and no
                // test would tell.
                rows.met.get_unchecked_mut(number).get_unchecked_mut(block).write(0);
            }
            if due == 0 {
                return 0;
            }
            let condition = self.conditions.get_unchecked(number);
            let met = condition.met(block, due);
            if MET {
                rows.met.get_unchecked_mut(number).get_unchecked_mut(block).write(met);
            }
            *live.get_unchecked_mut(number) = 0;
            settle(&condition.groups, live, due, met) & met
        }
    }
}

/// Takes the outcomes of a condition through the groups around it: where a group is settled, no condition in it is live
/// any more. Gives the entries at which the whole question is settled; its value is there the condition's outcome.
///
/// # Safety
/// The groups are those of a question: their conditions are below 64, the first at most the end.
#[inline(always)]
unsafe fn settle(groups: &[Group], live: &mut [u64; MAX_CONDITIONS], due: u64, met: u64) -> u64 {
    let mut active = due;
    for group in groups {
        let settled = active & if group.is_any { met } else { !met };
        // SAFETY: as asked for.
        let members = unsafe { live.get_unchecked_mut(group.first.into()..group.end.into()) };
        let mut open = 0;
        if settled == 0 {
            // Nothing is to be written, and most often an early member leaves every entry open.
            for &mut entries in members {
                open |= entries;
                if active & !open == 0 {
                    return 0;
                }
            }
        } else {
            for entries in members {
                *entries &= !settled;
                open |= *entries;
            }
        }
        active &= !open;
        if active == 0 {
            return 0;
        }
    }
    active
}

impl Rows {
    #[inline(always)]
    pub fn new() -> Rows {
        const ROW: Row = [MaybeUninit::uninit(); MAX_BLOCKS];
        Rows { listed: ROW, looks: [ROW; MAX_CONDITIONS], met: [ROW; MAX_CONDITIONS] }
    }
}

impl<'t, const MET: bool> Worked<'t, MET> {
    /// The listed entries, a word for each block.
    #[inline(always)]
    pub fn listed(&self) -> &'t [u64] {
        // SAFETY: the words of these blocks are written.
        unsafe { words(&self.rows.listed, self.blocks) }
    }

    /// The entries at which a condition was looked at.
    #[inline(always)]
    pub fn looks(&self, condition: usize) -> &'t [u64] {
        assert!(condition < self.conditions);
        // SAFETY: the words of these blocks are written for each condition, since each has its turn.
        unsafe { words(&self.rows.looks[condition], self.blocks) }
    }

    #[inline(always)]
    pub fn look_count(&self) -> u32 {
        (0..self.conditions).map(|condition| ones(self.looks(condition))).sum()
    }
}

impl<'t> Worked<'t, true> {
    /// The entries at which a condition answered yes.
    #[inline(always)]
    pub fn met(&self, condition: usize) -> &'t [u64] {
        assert!(condition < self.conditions);
        // SAFETY: as for the looks; with `MET` each turn writes these too.
        unsafe { words(&self.rows.met[condition], self.blocks) }
    }
}

/// The number of ones.
#[inline(always)]
pub fn ones(words: &[u64]) -> u32 {
    words.iter().map(|word| word.count_ones()).sum()
}

/// # Safety
/// So many words of the row are written.
#[inline(always)]
unsafe fn words(row: &Row, count: usize) -> &[u64] {
    // SAFETY: as asked for.
    unsafe { slice::from_raw_parts(row.as_ptr().cast(), count) }
}
