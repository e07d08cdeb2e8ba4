use evaluator::{Catalogue, Column, Condition, Test};

use crate::Rng;
use crate::catalogue::with_blanks;

/// The engine works a block of so many entries at a time.
pub const BLOCK: usize = 64;

/// The ways in which entries can be set apart from the others of their block.
#[derive(Clone, Copy, Debug)]
pub enum Pattern {
    All,
    None,
    Half,
    Few,
    AllButFew,
    /// The same place of every block.
    OneOfEach,
    AllButOneOfEach,
    /// The first and the last place of every block.
    Ends,
    Every(usize),
    /// Neighbours alike, in stretches of up to so many entries.
    Stretches(usize),
    /// Some blocks whole, the others not at all.
    Blocks,
}

impl Pattern {
    pub const ALL: [Pattern; 15] = [
        Pattern::All,
        Pattern::None,
        Pattern::Half,
        Pattern::Few,
        Pattern::AllButFew,
        Pattern::OneOfEach,
        Pattern::AllButOneOfEach,
        Pattern::Ends,
        Pattern::Every(2),
        Pattern::Every(8),
        Pattern::Every(63),
        Pattern::Every(65),
        Pattern::Stretches(9),
        Pattern::Stretches(100),
        Pattern::Blocks,
    ];

    /// Is an entry one of those set apart? For each of so many entries.
    pub fn of(self, rng: &mut Rng, entries: usize) -> Vec<bool> {
        let place = rng.below(BLOCK);
        let (mut left, mut last) = (0, rng.chance(50));
        let mut is_in = |entry: usize| match self {
            Pattern::All => true,
            Pattern::None => false,
            Pattern::Half => rng.chance(50),
            Pattern::Few => rng.chance(4),
            Pattern::AllButFew => !rng.chance(4),
            Pattern::OneOfEach => entry % BLOCK == place,
            Pattern::AllButOneOfEach => entry % BLOCK != place,
            Pattern::Ends => [0, BLOCK - 1].contains(&(entry % BLOCK)),
            Pattern::Every(step) => (entry + place).is_multiple_of(step),
            Pattern::Stretches(longest) => {
                if left == 0 {
                    (left, last) = (rng.between(1, longest), !last);
                }
                left -= 1;
                last
            }
            Pattern::Blocks => {
                if entry.is_multiple_of(BLOCK) {
                    last = rng.chance(50);
                }
                last
            }
        };
        (0..entries).map(&mut is_in).collect()
    }
}

/// A catalogue and conditions whose outcomes at its entries are these as a run takes them, one row for each condition, of up
/// to 64. Some are worked out on numbers and some on texts, some are opposites, and some of the noes are a blank's.
pub fn with_outcomes(rng: &mut Rng, entries: usize, outcomes: &[Vec<bool>]) -> (Catalogue, Vec<Condition>) {
    const NUMBERS: usize = 8;
    const TEXTS: usize = 3;
    // Filled with what no condition asks for: left empty, a text would be a blank, at which no opposite is met.
    let mut numbers = vec![vec![0; entries]; NUMBERS];
    let mut texts = vec![vec![b"-".to_vec(); entries]; TEXTS];
    // Where some condition on a column is to give yes: no blank can stand there.
    let mut wanted = vec![vec![false; entries]; NUMBERS + TEXTS];
    // Condition c has a column of numbers, or one letter of a column of texts, to itself; of a few conditions, half a text's.
    let mut places: Vec<usize> = (0..outcomes.len().max(2 * NUMBERS)).collect();
    rng.shuffle(&mut places);
    let mut conditions = Vec::new();
    for (&place, outcome) in places.iter().zip(outcomes) {
        let opposite = rng.chance(35);
        let met = outcome.iter().enumerate().filter(|&(_, &yes)| yes != opposite).map(|(entry, _)| entry);
        let condition = if place < NUMBERS {
            let low = rng.between(1, 9) as u32;
            met.for_each(|entry| numbers[place][entry] = low);
            Condition { column: place, test: Test::NumberFrom { low, high: low }, opposite }
        } else {
            let (column, letter) = ((place - NUMBERS) % TEXTS, b'a' + ((place - NUMBERS) / TEXTS) as u8);
            met.for_each(|entry| texts[column][entry].push(letter));
            Condition { column: NUMBERS + column, test: Test::Contains(vec![letter]), opposite }
        };
        wanted[condition.column].iter_mut().zip(outcome).for_each(|(wanted, yes)| *wanted |= yes);
        conditions.push(condition);
    }
    let columns = numbers.into_iter().map(Column::Numbers).chain(texts.into_iter().map(Column::Texts));
    let columns =
        columns.zip(wanted).map(|(column, wanted)| with_blanks(column, |entry| !wanted[entry] && rng.chance(40)));
    (Catalogue::unmarked(entries, columns.collect()), conditions)
}
