use bench::{by_hand, plain};
use generator::{Pattern, Rng};
use searchroom::{COPY_BYTES, Look, copy_of, looks};

use crate::asked::Asked;
use crate::places;
use crate::questions::{at_each_depth, county_with, every_look, mixed};
use crate::table::{BY_HAND, Table};

/// The ratio wanted to the plain engine.
const TO_PLAIN: Option<f64> = Some(0.3);

/// Copies of the register: against a plain engine that makes the same checks and writes the same fields, and against
/// the engine by hand.
pub fn report(table: &mut Table) {
    // The questions of the runs.
    let mut rng = Rng::new(4);
    let made = mixed(&mut rng, 2_048);
    for (count, depth, asked) in at_each_depth(&mut rng, &made) {
        rows(table, &format!("copy, conditions: {count}, depth up to {depth}"), TO_PLAIN, &asked);
    }
    let made = places::catalogue(&mut rng, 2_048);
    for count in [1, 6, 12, 20] {
        let question = places::question(&mut rng, count);
        let asked = Asked::new(&mut rng, &made, &question);
        rows(table, &format!("copy, conditions: {count}, four columns"), TO_PLAIN, &asked);
    }
    // No condition is passed and each is cheap, so that most of the work is writing, which all have to do.
    rows(table, "copy, conditions: 64, every look", None, &every_look(&mut rng));
    let half = Pattern::Half.of(&mut rng, 2_048);
    rows(table, "copy, county, half withdrawn, scattered", TO_PLAIN, &county_with(Some(half)));
}

fn rows(table: &mut Table, what: &str, to_plain: Option<f64>, asked: &Asked) {
    let Asked { catalogue, question, order, .. } = asked;
    let [mut ours, mut plains, mut by_hands] = [(); 3].map(|()| vec![0; COPY_BYTES]);
    let mut engine = || searchroom::copy(catalogue, question, order, &mut ours);
    let mut plainly = || plain::copy_every_outcome(catalogue, question, order, &mut plains);
    let mut by_hand = || by_hand::copy(catalogue, question, order, &mut by_hands);
    let written = by_hand().expect("an accepted copy");
    assert_eq!(plainly(), Ok(written), "{what}: the lengths differ");
    table.row(what, "plain Rust, same fields", to_plain, &mut engine, plainly);
    table.row(what, BY_HAND, None, engine, by_hand);
    let copied = by_condition(&copy_of(catalogue, question, order).expect("an accepted copy"));
    let others = [plains, by_hands].map(|output| by_condition(&output[..written]));
    assert!(others.iter().all(|other| *other == copied), "{what}: the engines differ");
}

/// The number of bytes, and the looks by entry and condition: how those of one entry follow each other is left open.
fn by_condition(copy: &[u8]) -> (usize, Vec<Look>) {
    let mut told: Vec<Look> = looks(copy).collect();
    told.sort_by_key(|look| (look.entry, look.condition));
    (copy.len(), told)
}
