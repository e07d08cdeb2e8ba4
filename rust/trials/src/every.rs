use evaluator::{Copied, Ran, Typed, catalogue_word, question_word, spelling};

use crate::{
    Run, Typing, compare_catalogue, compare_copy, compare_outcome, compare_question, compare_run, compare_typed,
};

/// What every call answers on one catalogue, and what was lent to it afterwards.
#[derive(Debug, PartialEq, Eq)]
pub struct Answers {
    pub catalogue: u64,
    pub question: u64,
    /// Of each condition at each entry, and at the one after the last, which there is not.
    pub outcomes: Vec<u64>,
    pub ran: Ran,
    pub copied: Copied,
    pub typed: Typed,
}

impl Answers {
    /// All that was answered.
    pub fn words(&self) -> Vec<u64> {
        let others = [self.catalogue, self.question, self.ran.word, self.copied.word, self.typed.word];
        [others.as_slice(), &self.outcomes].concat()
    }
}

/// Makes every call with the catalogue, question and order of a run, by the engine and by the evaluator. The copy, and the
/// question as it is typed, are written to this output.
pub fn compare_every_call(label: &str, given: &Run, output: &[u8]) -> Answers {
    let Run { catalogue, question, .. } = given;
    let entries = catalogue_word(catalogue) >> 8 & 0xFFFF;
    let conditions = (question_word(catalogue, question) >> 8).max(1);
    let places = (0..=entries).flat_map(|entry| (0..conditions).map(move |condition| (entry, condition)));
    let text = spelling(question).expect("a typed form");
    Answers {
        catalogue: compare_catalogue(label, catalogue),
        question: compare_question(label, catalogue, question),
        outcomes: places.map(|(entry, number)| compare_outcome(label, catalogue, question, entry, number)).collect(),
        ran: compare_run(label, given),
        copied: compare_copy(label, &given.copying(output)),
        typed: compare_typed(label, &Typing { catalogue, text: text.as_bytes(), output }),
    }
}
