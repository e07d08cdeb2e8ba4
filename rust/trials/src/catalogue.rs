use crate::{Lent, Side, fault, hex};

/// Checks a catalogue by the engine, in guarded memory, and by the evaluator. Gives the word on which both agree.
pub fn compare_catalogue(label: &str, catalogue: &[u8]) -> u64 {
    let expected = evaluator::catalogue_word(catalogue);
    fault::trying(label);
    for side in Side::BOTH {
        let mut lent = Lent::new(catalogue, side);
        let word = searchroom::raw::check_catalogue(lent.bytes()).0;
        assert_eq!(word, expected, "{label}: the engine's word (left), the evaluator's (right); {}", hex(catalogue));
        let unaltered = lent.bytes() == catalogue && lent.margins_stand();
        assert!(unaltered, "{label}: the check wrote to the catalogue or beside it; {}", hex(catalogue));
    }
    expected
}
