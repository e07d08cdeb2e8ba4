use crate::refusal::{self, Number};
use crate::run::{Found, find};
use crate::word::{pack, read_both, refused};

/// What a run answers, and its three lent tables afterwards.
#[derive(Clone, Debug, PartialEq, Eq)]
pub struct Ran {
    pub word: u64,
    pub listed: Vec<u8>,
    pub looks: Vec<u8>,
    pub tally: Vec<u8>,
}

/// Runs a question for a reader: the tables are given as they were lent. A refusal alters none of them.
pub fn run(
    catalogue: &[u8],
    question: &[u8],
    order: &[u8],
    reader: u64,
    listed: &[u8],
    looks: &[u8],
    tally: &[u8],
) -> Ran {
    accepted_run(catalogue, question, order, reader, listed, looks, tally).unwrap_or_else(|number| Ran {
        word: refused(number),
        listed: listed.to_vec(),
        looks: looks.to_vec(),
        tally: tally.to_vec(),
    })
}

fn accepted_run(
    catalogue: &[u8],
    question: &[u8],
    order: &[u8],
    reader: u64,
    listed: &[u8],
    looks: &[u8],
    tally: &[u8],
) -> Result<Ran, Number> {
    let (catalogue, question) = read_both(catalogue, question)?;
    let count = question.conditions.len();
    let order = read_order(order, count)?;
    let row = catalogue.entries.div_ceil(8);
    if listed.len() < row || looks.len() < count * row {
        return Err(refusal::TABLE);
    }
    if reader > 15 {
        return Err(refusal::READER);
    }
    let found = find(&catalogue, &question, &order);
    let tally = tally_after(tally, reader as usize, found.look_count() as u64)?;
    let Found { listed: entries, looks: conditions } = &found;
    Ok(Ran {
        word: pack(found.found_count(), 0, found.look_count()),
        listed: with_front(listed, bits(entries)),
        looks: with_front(looks, conditions.iter().flat_map(|entries| bits(entries)).collect()),
        tally,
    })
}

/// Order 7: the tally is "sixteen numbers of eight bytes", and "only that reader's number grows", by the looks of the run.
fn tally_after(tally: &[u8], reader: usize, looks: u64) -> Result<Vec<u8>, Number> {
    if tally.len() != 128 {
        return Err(refusal::TALLY);
    }
    let number = |bytes: &[u8]| u64::from_be_bytes(bytes.try_into().expect("eight bytes"));
    let mut numbers: Vec<u64> = tally.chunks(8).map(number).collect();
    numbers[reader] = numbers[reader].checked_add(looks).ok_or(refusal::TALLY)?;
    Ok(numbers.into_iter().flat_map(u64::to_be_bytes).collect())
}

/// An order is n bytes holding each condition number once.
pub(crate) fn read_order(order: &[u8], count: usize) -> Result<Vec<usize>, Number> {
    let order: Vec<usize> = order.iter().map(|&number| usize::from(number)).collect();
    let mut sorted = order.clone();
    sorted.sort_unstable();
    if sorted.into_iter().eq(0..count) { Ok(order) } else { Err(refusal::ORDER) }
}

/// One bit for each entry: entry e is the bit of weight 2^(e mod 8) in byte e div 8, unused bits zero.
fn bits(entries: &[bool]) -> Vec<u8> {
    let mut bytes = vec![0; entries.len().div_ceil(8)];
    for (entry, _) in entries.iter().enumerate().filter(|(_, bit)| **bit) {
        bytes[entry / 8] += 1 << (entry % 8);
    }
    bytes
}

/// The table with its front replaced; its further bytes stay.
pub(crate) fn with_front(table: &[u8], front: Vec<u8>) -> Vec<u8> {
    [front.as_slice(), &table[front.len()..]].concat()
}
