use bench::plain;
use evaluator::{Condition, Test};
use generator::{Pattern, Rng, question_of};

use crate::asked::Asked;
use crate::places;
use crate::questions::{at_each_depth, county_with, eight_ranges, every_look, kinds, mixed, settled_early, single};
use crate::table::Table;

/// The ratios wanted to the engine that works out every outcome, at the most entries and at one block of them.
const AT_2048: Option<f64> = Some(0.15);
const AT_64: Option<f64> = Some(0.35);

/// Runs of a question: against plain engines that make the same checks and list the same entries, and against the
/// engine by hand, which makes the same looks too.
pub fn report(table: &mut Table) {
    let mut rng = Rng::new(4);
    let made = mixed(&mut rng, 2_048);
    for (count, depth, asked) in at_each_depth(&mut rng, &made) {
        against_all(table, &format!("run, conditions: {count}, depth up to {depth}"), AT_2048, &asked);
    }
    for (name, aim, test) in [
        ("contains", AT_2048, Test::Contains(b"hby".to_vec())),
        ("begins with", AT_2048, Test::BeginsWith(b"ash".to_vec())),
        ("equals", AT_2048, Test::Equals(b"ashby".to_vec())),
        // Letters that all have accented forms tell the engine's filters least.
        ("contains, letters with accents", None, Test::Contains(b"on".to_vec())),
        ("begins with, letters with accents", None, Test::BeginsWith(b"an".to_vec())),
    ] {
        let question = single(Condition { column: 1, test, opposite: false });
        let asked = Asked::new(&mut rng, &made, &question);
        against_all(table, &format!("run, one condition: {name}"), aim, &asked);
    }
    against_all(table, "run, 20 conditions, settled by the first", AT_2048, &settled_early(&mut rng));
    for (entries, aim) in [(64, AT_64), (256, None), (1_024, None), (2_048, AT_2048)] {
        let made = mixed(&mut rng, entries);
        let question = question_of(&mut Rng::new(5), &made, 12, 3);
        let asked = Asked::new(&mut rng, &made, &question);
        against_all(table, &format!("run, 12 conditions, {entries} entries"), aim, &asked);
    }
    withdrawn(table, &mut rng);
    of_each_kind(table);
}

/// The county's run where some entries are withdrawn: half of them must make it faster.
fn withdrawn(table: &mut Table, rng: &mut Rng) {
    let none = county_with(None);
    against_all(table, "run, county, none withdrawn", AT_2048, &none);
    let quarter = (0..2_048).map(|_| rng.chance(25)).collect();
    let half = Pattern::Half.of(rng, 2_048);
    let first_half = (0..2_048).map(|entry| entry < 1_024).collect();
    for (what, aim, mark) in [
        ("a quarter withdrawn, scattered", None, quarter),
        ("half withdrawn, scattered", Some(1.0), half),
        ("first half withdrawn", Some(1.0), first_half),
    ] {
        let (what, with) = (format!("run, county, {what}"), county_with(Some(mark)));
        against_all(table, &what, AT_2048, &with);
        table.row(&what, "the same, none withdrawn", aim, with.engine(), none.engine());
    }
}

/// Runs that show one thing each, against the engine by hand alone.
fn of_each_kind(table: &mut Table) {
    let mut rng = Rng::new(9);
    let made = places::catalogue(&mut rng, 2_048);
    for (name, condition) in kinds() {
        let asked = Asked::new(&mut rng, &made, &single(condition));
        asked.against_by_hand(table, &format!("run, four columns, {name}"));
    }
    for percent in [100, 50, 10] {
        let what = format!("run, all of eight ranges, each met at {percent} %");
        eight_ranges(&mut rng, percent).against_by_hand(table, &what);
    }
    every_look(&mut rng).against_by_hand(table, "run, all of 64 ranges, every look");
    let made = mixed(&mut rng, 1);
    let question = question_of(&mut rng, &made, 1, 1);
    Asked::new(&mut rng, &made, &question).against_by_hand(table, "run, one condition, one entry");
}

fn against_all(table: &mut Table, what: &str, aim: Option<f64>, asked: &Asked) {
    let Asked { catalogue, question, order, .. } = asked;
    let [mut first, mut second] = [[0; 256]; 2];
    let mut every = || plain::run_every_outcome(catalogue, question, order, &mut first).ok();
    let mut in_order = || plain::run_in_tree_order(catalogue, question, order, &mut second).ok();
    let found = Some(asked.engine()().found.into());
    assert!(found == every() && found == in_order(), "{what}: the counts differ");
    table.row(what, "plain Rust, every outcome", aim, asked.engine(), every);
    table.row(what, "plain Rust, in tree order", None, asked.engine(), in_order);
    assert!([first, second] == [asked.listed(); 2], "{what}: the listed entries differ");
    asked.against_by_hand(table, what);
}
