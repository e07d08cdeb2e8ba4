use std::fmt;

use evaluator::Typed;
use searchroom::TYPED_BYTES;

use crate::{FILL, Lent, Side, fault, hex};

/// All that the reading of a typed question is given, the output as it is lent.
#[derive(Clone, Copy, Debug)]
pub struct Typing<'a> {
    pub catalogue: &'a [u8],
    pub text: &'a [u8],
    pub output: &'a [u8],
}

impl fmt::Display for Typing<'_> {
    fn fmt(&self, f: &mut fmt::Formatter<'_>) -> fmt::Result {
        for (name, bytes) in ["catalogue", "text", "output"].into_iter().zip(self.slices()) {
            writeln!(f, "{name}: {}", hex(bytes))?;
        }
        let start = &self.text[..self.text.len().min(400)];
        writeln!(f, "the text begins: {}", start.escape_ascii())
    }
}

impl<'a> Typing<'a> {
    fn slices(&self) -> [&'a [u8]; 3] {
        [self.catalogue, self.text, self.output]
    }
}

/// Reads a typed question by the engine, in guarded memory, and by the evaluator: the word and every byte of the output
/// afterwards must be the same. Gives the evaluator's results.
pub fn compare_typed(label: &str, given: &Typing) -> Typed {
    let expected = evaluator::typed(given.catalogue, given.text, given.output);
    fault::trying(label);
    for side in Side::BOTH {
        let mut lent = given.slices().map(|bytes| Lent::new(bytes, side));
        let [catalogue, text, output] = &mut lent;
        let word = searchroom::raw::typed(catalogue.bytes(), text.bytes(), output.bytes_mut()).0;
        assert_eq!(word, expected.word, "{label}: the engine's word (left), the evaluator's (right)\n{given}");
        if output.bytes() != expected.output {
            let [engine, evaluator] = [output.bytes(), &expected.output].map(hex);
            panic!("{label}: the engine's output is {engine}, the evaluator's {evaluator}\n{given}");
        }
        let unaltered = catalogue.bytes() == given.catalogue && text.bytes() == given.text;
        let unaltered = unaltered && lent.iter_mut().all(Lent::margins_stand);
        assert!(unaltered, "{label}: the call wrote to its inputs or beside its output\n{given}");
    }
    expected
}

/// Reads a text by both into an output that is long enough. Gives the bytes written, or the refusal's number.
pub fn compare_reading(catalogue: &[u8], text: impl AsRef<[u8]>) -> Result<Vec<u8>, u8> {
    let text = text.as_ref();
    let label = text[..text.len().min(100)].escape_ascii().to_string();
    let typed = compare_typed(&label, &Typing { catalogue, text, output: &[FILL; TYPED_BYTES] });
    match typed.word as u8 {
        0 => Ok(typed.output[..(typed.word >> 40) as usize].to_vec()),
        number => Err(number),
    }
}
