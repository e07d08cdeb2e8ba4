use bench::by_hand;
use evaluator::{Catalogue, Question, Test};
use generator::{Rng, encode_catalogue, encode_question, running_order};
use searchroom::{Counts, Refusal, Tally};

use crate::table::{BY_HAND, Table};

/// The ratios wanted of a run to that by hand: of any question, and of one that asks for ranges alone.
const TO_BY_HAND: f64 = 1.35;
const TO_BY_HAND_OF_RANGES: f64 = 1.2;

/// The call of a run, as both engines have it.
pub type Run = fn(&[u8], &[u8], &[u8], u64, &mut [u8], &mut [u8], &mut [u8]) -> Result<Counts, Refusal>;

/// A catalogue and a question with its running order, as bytes.
pub struct Asked {
    pub catalogue: Vec<u8>,
    pub question: Vec<u8>,
    pub order: Vec<u8>,
    to_by_hand: f64,
}

/// The tables of a run.
#[derive(PartialEq)]
pub struct Tables {
    listed: [u8; 256],
    looks: [u8; 16_384],
    tally: [u8; Tally::BYTES],
}

impl Asked {
    /// In a random running order.
    pub fn new(rng: &mut Rng, catalogue: &Catalogue, question: &Question) -> Asked {
        let order = running_order(rng, question.conditions.len());
        Asked::in_order(catalogue, question, order)
    }

    pub fn in_order(catalogue: &Catalogue, question: &Question, order: Vec<u8>) -> Asked {
        Asked {
            catalogue: encode_catalogue(catalogue),
            question: encode_question(question),
            order,
            to_by_hand: to_by_hand(question),
        }
    }

    /// The engine's run, into tables that stay the same from run to run.
    pub fn engine(&self) -> impl FnMut() -> Counts {
        self.runs(searchroom::run)
    }

    /// The listed table of the engine's run.
    pub fn listed(&self) -> [u8; 256] {
        let mut tables = Tables::new();
        tables.fill(searchroom::run, &self.catalogue, &self.question, &self.order);
        tables.listed
    }

    /// A row of the engine's run beside that by hand.
    pub fn against_by_hand(&self, table: &mut Table, what: &str) {
        assert_by_hand(what, &self.catalogue, &self.question, &self.order);
        table.row(what, BY_HAND, Some(self.to_by_hand), self.engine(), self.runs(by_hand::run));
    }

    fn runs(&self, run: Run) -> impl FnMut() -> Counts {
        let mut tables = Tables::new();
        move || tables.fill(run, &self.catalogue, &self.question, &self.order)
    }
}

/// The ratio wanted of a question's run to that by hand.
pub fn to_by_hand(question: &Question) -> f64 {
    let is_range = |test: &Test| matches!(test, Test::NumberFrom { .. });
    let ranges_alone = question.conditions.iter().all(|condition| is_range(&condition.test));
    if ranges_alone { TO_BY_HAND_OF_RANGES } else { TO_BY_HAND }
}

/// Sees that a run by hand gives the engine's counts, tables and tally.
pub fn assert_by_hand(what: &str, catalogue: &[u8], question: &[u8], order: &[u8]) {
    let ran = |run: Run| {
        let mut tables = Tables::new();
        (tables.fill(run, catalogue, question, order), tables)
    };
    assert!(ran(by_hand::run) == ran(searchroom::run), "{what}: the run by hand differs");
}

impl Tables {
    pub fn new() -> Tables {
        Tables { listed: [0; 256], looks: [0; 16_384], tally: [0; Tally::BYTES] }
    }

    /// Makes a run with a new tally.
    pub fn fill(&mut self, run: Run, catalogue: &[u8], question: &[u8], order: &[u8]) -> Counts {
        self.tally = [0; Tally::BYTES];
        let Tables { listed, looks, tally } = self;
        run(catalogue, question, order, 0, listed, looks, tally).expect("the benchmark's questions are accepted")
    }
}
