use std::fmt;

use evaluator::Copied;

use crate::{Lent, Side, fault, hex};

/// The bytes of a look's field.
const FIELD: usize = 7;

/// All that a copy is given, the output as it is lent.
#[derive(Clone, Copy, Debug)]
pub struct Copying<'a> {
    pub catalogue: &'a [u8],
    pub question: &'a [u8],
    pub order: &'a [u8],
    pub output: &'a [u8],
}

impl fmt::Display for Copying<'_> {
    fn fmt(&self, f: &mut fmt::Formatter<'_>) -> fmt::Result {
        for (name, bytes) in ["catalogue", "question", "order", "output"].into_iter().zip(self.slices()) {
            writeln!(f, "{name}: {}", hex(bytes))?;
        }
        Ok(())
    }
}

impl<'a> Copying<'a> {
    fn slices(&self) -> [&'a [u8]; 4] {
        [self.catalogue, self.question, self.order, self.output]
    }
}

/// Makes a copy by the engine, in guarded memory, and by the evaluator: the word and every byte of the output afterwards
/// must be the same, but for the sequence of one entry's fields. Gives the evaluator's results.
pub fn compare_copy(label: &str, given: &Copying) -> Copied {
    let expected = evaluator::copy(given.catalogue, given.question, given.order, given.output);
    fault::trying(label);
    for side in Side::BOTH {
        let mut lent = given.slices().map(|bytes| Lent::new(bytes, side));
        let [catalogue, question, order, output] = &mut lent;
        let word = searchroom::raw::copy(catalogue.bytes(), question.bytes(), order.bytes(), output.bytes_mut()).0;
        assert_eq!(word, expected.word, "{label}: the engine's word (left), the evaluator's (right)\n{given}");
        compare_outputs(label, given, &Copied { word, output: output.bytes().to_vec() }, &expected);
        let inputs = [catalogue, question, order].map(|input| input.bytes().to_vec());
        let unaltered = inputs.iter().zip(given.slices()).all(|(after, before)| after == before);
        let unaltered = unaltered && lent.iter_mut().all(Lent::margins_stand);
        assert!(unaltered, "{label}: the copy wrote to its inputs or beside its output\n{given}");
    }
    expected
}

fn compare_outputs(label: &str, given: &Copying, copied: &Copied, expected: &Copied) {
    let [engine, evaluator] =
        [copied, expected].map(|copied| by_condition(&copied.output, (copied.word >> 40) as usize));
    if let Some(at) = (0..given.output.len()).find(|&at| engine[at] != evaluator[at]) {
        let [engine, evaluator] = [engine, evaluator].map(|bytes| hex(&bytes[at..bytes.len().min(at + 2 * FIELD)]));
        panic!("{label}: from byte {at} on the engine has {engine}, the evaluator {evaluator}\n{given}");
    }
}

/// The output with the written fields of each entry sorted: how they follow each other is left open. Nothing else is.
pub fn by_condition(output: &[u8], written: usize) -> Vec<u8> {
    let (written, further) = output.split_at(written);
    let mut fields: Vec<&[u8]> = written.chunks(FIELD).collect();
    fields.chunk_by_mut(|one, next| one[3..5] == next[3..5]).for_each(|of_one_entry| of_one_entry.sort_unstable());
    fields.push(further);
    fields.concat()
}
