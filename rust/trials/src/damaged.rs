use evaluator::Catalogue;
use generator::{
    Damage, MarkFault, Rng, catalogue_of, damage, encode_catalogue, faulty_mark, faulty_question, running_order,
};

use crate::{Run, any_reader, any_tally};

/// The bytes of a catalogue: so many in a hundred damaged, and half as many with a fault of the mark.
pub fn damaged_catalogue(rng: &mut Rng, made: &Catalogue, percent: usize) -> Vec<u8> {
    let mut bytes = encode_catalogue(made);
    if rng.chance(percent / 2) {
        let fault = *rng.pick(&MarkFault::ALL);
        bytes = faulty_mark(rng, made, fault).unwrap_or(bytes);
    }
    damage_some(rng, &mut bytes, percent);
    bytes
}

/// Damages the bytes, with a chance of so many in a hundred.
pub fn damage_some(rng: &mut Rng, bytes: &mut Vec<u8>, percent: usize) {
    if rng.chance(percent) {
        let how = *rng.pick(&Damage::ALL);
        damage(rng, bytes, how);
    }
}

/// A small catalogue, a question and a running order, as bytes, each of them damaged now and then.
pub struct Damaged {
    pub catalogue: Vec<u8>,
    pub question: Vec<u8>,
    pub order: Vec<u8>,
    /// The entries of the catalogue before it was damaged.
    pub entries: usize,
    /// The conditions of the question, if it is accepted.
    pub conditions: usize,
}

impl Damaged {
    pub fn new(rng: &mut Rng) -> Damaged {
        let (entries, columns) = (rng.between(0, 10), rng.between(1, 4));
        let made = catalogue_of(rng, entries, columns);
        let catalogue = damaged_catalogue(rng, &made, 8);
        let faults = *rng.pick(&[0, 0, 0, 5]);
        let mut question = faulty_question(rng, &made, faults);
        damage_some(rng, &mut question, 15);
        let conditions = match evaluator::question_word(&catalogue, &question) {
            word if word as u8 == 0 => (word >> 8) as usize,
            _ => rng.below(5),
        };
        let mut order = running_order(rng, conditions);
        if rng.chance(10) {
            damage_order(rng, &mut order);
        }
        Damaged { catalogue, question, order, entries, conditions }
    }

    /// A run of these with tables, a reader and a tally that mostly fit.
    pub fn run(self, rng: &mut Rng) -> Run {
        let Damaged { catalogue, question, order, entries, conditions } = self;
        let mut table = |fit: usize| {
            let length = match rng.below(20) {
                0 => fit.saturating_sub(1),
                1..4 => fit + rng.below(9),
                _ => fit,
            };
            rng.bytes(length)
        };
        let row = entries.div_ceil(8);
        let (listed, looks) = (table(row), table(row * conditions));
        let reader = any_reader(rng, 5);
        let tally = any_tally(rng, reader, 5);
        Run { catalogue, question, order, reader, listed, looks, tally }
    }
}

fn damage_order(rng: &mut Rng, order: &mut Vec<u8>) {
    match rng.below(4) {
        0 => drop(order.pop()),
        1 => order.push(rng.below(65) as u8),
        _ if !order.is_empty() => {
            let at = rng.below(order.len());
            order[at] = if rng.chance(50) { *rng.pick(order) } else { rng.byte() };
        }
        _ => {}
    }
}
