use bench::{by_hand, plain};
use evaluator::{Catalogue, Column};
use generator::{Rng, column, encode_catalogue, encode_question, question_of};

use crate::questions::texts_alike;
use crate::table::{BY_HAND, Table};

/// Checking a question and working out one condition, against the plain calls and those by hand. The catalogue is
/// small, so that the time is the question's.
pub fn report(table: &mut Table) {
    let mut rng = Rng::new(3);
    let made = Catalogue::unmarked(8, (0..6).map(|_| column(&mut rng, 8)).collect());
    let catalogue = encode_catalogue(&made);
    for (count, depth) in [(1, 1), (6, 3), (20, 3), (64, 1), (64, 8)] {
        let question = encode_question(&question_of(&mut rng, &made, count, depth));
        checks(table, &format!("check_question, conditions: {count}, depth up to {depth}"), &catalogue, &question);
        outcomes(table, &format!("outcome, conditions: {count}, depth up to {depth}"), &catalogue, &question);
    }
    // Each has to be told from all before it.
    let texts = encode_catalogue(&Catalogue::unmarked(0, vec![Column::Texts(Vec::new()); 2]));
    checks(table, "check_question, 64 texts, another last byte each", &texts, &encode_question(&texts_alike()));
}

fn checks(table: &mut Table, what: &str, catalogue: &[u8], question: &[u8]) {
    let engine = || searchroom::check_question(catalogue, question);
    let plainly = || plain::check_question(catalogue, question);
    let by_hand = || by_hand::check_question(catalogue, question);
    let count = engine().expect("the benchmark's questions are accepted");
    assert_eq!((plainly(), by_hand()), (Ok(count.into()), Ok(count)), "{what}");
    table.row(what, "plain Rust check", None, engine, plainly);
    table.row(what, BY_HAND, None, engine, by_hand);
}

fn outcomes(table: &mut Table, what: &str, catalogue: &[u8], question: &[u8]) {
    let engine = || searchroom::outcome(catalogue, question, 7, 0);
    let plainly = || plain::outcome(catalogue, question, 7, 0);
    let by_hand = || by_hand::outcome(catalogue, question, 7, 0);
    assert_eq!(plainly().ok(), engine().ok(), "{what}");
    assert_eq!(by_hand(), engine(), "{what}");
    table.row(what, "plain Rust outcome", None, engine, plainly);
    table.row(what, BY_HAND, None, engine, by_hand);
}
