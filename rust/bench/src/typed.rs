use bench::plain;
use evaluator::{Catalogue, Column, Question, spelling};
use generator::{Rng, column, encode_catalogue, encode_question, question_of};
use searchroom::TYPED_BYTES;

use crate::table::Table;

/// The ratios wanted to the plain reading: of one condition, and of any other text.
const OF_ONE: f64 = 0.8;
const OF_ANY: f64 = 1.0;

/// Reading a typed question, against a plain reading that makes the same checks. The catalogue is small, so that the
/// time is the text's.
pub fn report(table: &mut Table) {
    let mut rng = Rng::new(7);
    let made = Catalogue::unmarked(8, (0..6).map(|_| column(&mut rng, 8)).collect());
    for (count, depth) in [(1, 1), (6, 3), (20, 3), (64, 1), (64, 8)] {
        let asked: Question = question_of(&mut rng, &made, count, depth);
        let text = spelling(&encode_question(&asked)).expect("a typed form");
        let aim = if count == 1 { OF_ONE } else { OF_ANY };
        row(table, &format!("typed, conditions: {count}, depth up to {depth}"), aim, &made, &text);
    }
    let texts = Catalogue::unmarked(0, vec![Column::Texts(vec![]); 16]);
    row(table, "typed, the longest text that is accepted", OF_ANY, &texts, &longest_accepted());
    // The second condition is refused, but only once the whole text is read.
    let ranges = vec!["c0 in 1700..1799"; 963].join(",");
    row(table, "typed, 16,375 bytes of ranges, refused", OF_ANY, &made, &format!("any({ranges})"));
}

fn row(table: &mut Table, what: &str, aim: f64, catalogue: &Catalogue, text: &str) {
    let (catalogue, text) = (encode_catalogue(catalogue), text.as_bytes());
    let [mut ours, mut theirs] = [[0; TYPED_BYTES]; 2];
    let mut engine = || searchroom::typed(&catalogue, text, &mut ours).map_err(|refusal| refusal.number());
    let mut plainly = || plain::typed(&catalogue, text, &mut theirs);
    assert_eq!(engine(), plainly(), "{what}");
    table.row(what, "plain Rust reading", Some(aim), engine, plainly);
    assert!(ours == theirs, "{what}: the bytes differ");
}

/// 64 conditions of 23 escaped bytes, each in seven groups of its own inside one.
fn longest_accepted() -> String {
    let condition = |number| format!("not c15 starts \"\\{number:02X}{}\"", "\\E9".repeat(22));
    let member = |number| format!("{}{}{}", "all(".repeat(7), condition(number), ")".repeat(7));
    format!("any({})", (128..192).map(member).collect::<Vec<_>>().join(","))
}
