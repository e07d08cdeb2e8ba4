use crate::{Lent, Side, fault, hex};

/// Checks a question by the engine, in guarded memory, and by the evaluator. Gives the word on which both agree.
pub fn compare_question(label: &str, catalogue: &[u8], question: &[u8]) -> u64 {
    let expected = evaluator::question_word(catalogue, question);
    read_only(label, catalogue, question, expected, |catalogue, question| {
        searchroom::raw::check_question(catalogue, question).0
    });
    expected
}

/// Works out one condition by the engine, in guarded memory, and by the evaluator. Gives the word on which both agree.
pub fn compare_outcome(label: &str, catalogue: &[u8], question: &[u8], entry: u64, condition: u64) -> u64 {
    let expected = evaluator::outcome_word(catalogue, question, entry, condition);
    let label = format!("{label}, entry {entry}, condition {condition}");
    read_only(&label, catalogue, question, expected, |catalogue, question| {
        searchroom::raw::outcome(catalogue, question, entry, condition).0
    });
    expected
}

/// Makes a call that reads two slices, and sees that it answers as expected and writes nothing.
fn read_only(label: &str, catalogue: &[u8], question: &[u8], expected: u64, call: impl Fn(&[u8], &[u8]) -> u64) {
    fault::trying(label);
    for side in Side::BOTH {
        let mut lent = [catalogue, question].map(|bytes| Lent::new(bytes, side));
        let word = call(lent[0].bytes(), lent[1].bytes());
        let input = || format!("catalogue: {}\nquestion: {}", hex(catalogue), hex(question));
        assert_eq!(word, expected, "{label}: the engine's word (left), the evaluator's (right)\n{}", input());
        let unaltered = lent[0].bytes() == catalogue && lent[1].bytes() == question;
        let unaltered = unaltered && lent.iter_mut().all(Lent::margins_stand);
        assert!(unaltered, "{label}: the call wrote to its inputs or beside them\n{}", input());
    }
}
