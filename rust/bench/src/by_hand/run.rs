use std::slice;

use searchroom::{Counts, Refusal, Tally};

use super::blocks::{Plan, PreparedConditions, Rows, ones};
use super::catalogue::Catalogue;
use super::question::{Conditions, read_question};

/// Runs a question over a catalogue in a running order, for a reader. A refusal alters none of the tables.
#[inline(never)]
pub fn run(
    catalogue: &[u8],
    question: &[u8],
    order: &[u8],
    reader: u64,
    listed: &mut [u8],
    looks: &mut [u8],
    tally: &mut [u8],
) -> Result<Counts, Refusal> {
    let catalogue = Catalogue::read(catalogue)?;
    let (mut conditions, mut prepared) = (Conditions::new(), PreparedConditions::new());
    read_question(&catalogue, question, &mut conditions)?;
    let plan = Plan::new(&catalogue, &conditions, order, &mut prepared)?;
    let row = catalogue.entries.div_ceil(8);
    if listed.len() < row || looks.len() < row * conditions.len() {
        return Err(Refusal::ShortTable);
    }
    if reader >= Tally::READERS {
        return Err(Refusal::NoSuchReader);
    }
    let tally: &mut [u8; Tally::BYTES] = tally.try_into().map_err(|_| Refusal::BadTally)?;
    let mut rows = Rows::new();
    let worked = plan.work::<false>(&mut rows);
    let counts = Counts { found: ones(worked.listed()) as u16, looks: worked.look_count() };
    add(&mut tally.as_chunks_mut().0[reader as usize], counts.looks)?;
    listed[..row].copy_from_slice(&bytes(worked.listed())[..row]);
    for condition in 0..conditions.len() {
        looks[row * condition..][..row].copy_from_slice(&bytes(worked.looks(condition))[..row]);
    }
    Ok(counts)
}

/// Adds to a reader's number.
#[inline(always)]
fn add(number: &mut [u8; 8], looks: u32) -> Result<(), Refusal> {
    let sum = u64::from_be_bytes(*number).checked_add(looks.into()).ok_or(Refusal::BadTally)?;
    *number = sum.to_be_bytes();
    Ok(())
}

/// The bytes of some words, lowest first as on x86-64, which is how a row has its entries.
#[inline(always)]
fn bytes(words: &[u64]) -> &[u8] {
    // SAFETY: the same bytes, which have no alignment.
    unsafe { slice::from_raw_parts(words.as_ptr().cast(), size_of_val(words)) }
}
