use std::fmt;

use evaluator::{Catalogue, Question, Ran, catalogue_word};
use generator::{encode_catalogue, encode_question};
use searchroom::Tally;

use crate::{Copying, Lent, PARISH_CATALOGUE, PARISH_QUESTION, Side, fault, hex};

/// All that a run is given, the tables as they are lent.
#[derive(Clone, Debug, Default)]
pub struct Run {
    pub catalogue: Vec<u8>,
    pub question: Vec<u8>,
    pub order: Vec<u8>,
    pub reader: u64,
    pub listed: Vec<u8>,
    pub looks: Vec<u8>,
    pub tally: Vec<u8>,
}

impl fmt::Display for Run {
    fn fmt(&self, f: &mut fmt::Formatter<'_>) -> fmt::Result {
        let parts = ["catalogue", "question", "order", "listed", "looks", "tally"];
        for (name, bytes) in parts.into_iter().zip(self.slices()) {
            writeln!(f, "{name}: {}", hex(bytes))?;
        }
        writeln!(f, "reader: {}", self.reader)
    }
}

impl Run {
    /// A run of reader 0 with a tally and tables of zeros, the tables just long enough if there are as many conditions as the
    /// order has numbers.
    pub fn asking(catalogue: Vec<u8>, question: Vec<u8>, order: &[u8]) -> Run {
        let entries = (catalogue_word(&catalogue) >> 8 & 0xFFFF) as usize;
        let row = entries.div_ceil(8);
        let [listed, looks, tally] = [row, row * order.len(), Tally::BYTES].map(|length| vec![0; length]);
        Run { catalogue, question, order: order.to_vec(), reader: 0, listed, looks, tally }
    }

    /// A run of reader 0 with tables just long enough, filled with ones, and a tally of zeros.
    pub fn fitting(catalogue: &Catalogue, question: &Question, order: &[u8]) -> Run {
        let row = catalogue.entries.div_ceil(8);
        Run {
            listed: vec![0xFF; row],
            looks: vec![0xFF; row * question.conditions.len()],
            ..Run::asking(encode_catalogue(catalogue), encode_question(question), order)
        }
    }

    /// The parish's run of reader 0 in this order, with a tally and tables of zeros, the tables just long enough.
    pub fn parish(order: &[u8]) -> Run {
        Run { looks: vec![0; 3], ..Run::asking(PARISH_CATALOGUE.to_vec(), PARISH_QUESTION.to_vec(), order) }
    }

    /// The copy of the same catalogue, question and order, into this output.
    pub fn copying<'a>(&'a self, output: &'a [u8]) -> Copying<'a> {
        Copying { catalogue: &self.catalogue, question: &self.question, order: &self.order, output }
    }

    fn slices(&self) -> [&[u8]; 6] {
        [&self.catalogue, &self.question, &self.order, &self.listed, &self.looks, &self.tally]
    }
}

/// Makes a run by the engine, in guarded memory, and by the evaluator: the word and every lent byte afterwards must be
/// the same. Gives the evaluator's results.
pub fn compare_run(label: &str, given: &Run) -> Ran {
    let Run { catalogue, question, order, reader, listed, looks, tally } = given;
    let expected = evaluator::run(catalogue, question, order, *reader, listed, looks, tally);
    fault::trying(label);
    for side in Side::BOTH {
        let mut lent = given.slices().map(|bytes| Lent::new(bytes, side));
        let [catalogue, question, order, listed, looks, tally] = &mut lent;
        let word = searchroom::raw::run(
            catalogue.bytes(),
            question.bytes(),
            order.bytes(),
            *reader,
            listed.bytes_mut(),
            looks.bytes_mut(),
            tally.bytes_mut(),
        );
        let ran = Ran {
            word: word.0,
            listed: listed.bytes().to_vec(),
            looks: looks.bytes().to_vec(),
            tally: tally.bytes().to_vec(),
        };
        assert!(ran == expected, "{label}:\nthe engine gave {ran:?}\nthe evaluator {expected:?}\n{given}");
        let inputs = [catalogue, question, order].map(|input| input.bytes().to_vec());
        let unaltered = inputs.iter().zip(given.slices()).all(|(after, before)| after == before);
        let unaltered = unaltered && lent.iter_mut().all(Lent::margins_stand);
        assert!(unaltered, "{label}: the run wrote to its inputs or beside a table\n{given}");
    }
    expected
}
