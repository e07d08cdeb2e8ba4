use std::hint::black_box;

use generator::{Rng, question_of};

use crate::asked::Asked;
use crate::places;
use crate::questions::{eight_ranges, kinds, mixed, settled_early, single};
use crate::timing::medians;

/// What a look costs on top of the checks: the time of a run less that of `check_question`, which checks the catalogue
/// and the question as a run does first, over the number of looks. What a run does once, whatever its looks, is in it.
pub fn report() {
    println!("| {:<48} | {:>6} | {:>9} | {:>9} | ns a look |", "run", "looks", "run us", "checks us");
    println!("|---|---|---|---|---|");
    let mut rng = Rng::new(9);
    let made = places::catalogue(&mut rng, 2_048);
    for (name, condition) in kinds() {
        row(&format!("one condition: {name}"), &Asked::new(&mut rng, &made, &single(condition)));
    }
    for percent in [100, 50, 10] {
        row(&format!("all of eight ranges, each met at {percent} %"), &eight_ranges(&mut rng, percent));
    }
    for count in [6, 12, 20] {
        let question = places::question(&mut rng, count);
        row(&format!("conditions: {count}, four columns"), &Asked::new(&mut rng, &made, &question));
    }
    for (entries, count, depth) in [(2_048, 20, 3), (2_048, 64, 1), (2_048, 64, 8), (256, 12, 3), (64, 12, 3)] {
        let made = mixed(&mut rng, entries);
        let question = question_of(&mut rng, &made, count, depth);
        let what = format!("conditions: {count}, depth up to {depth}, {entries} entries");
        row(&what, &Asked::new(&mut rng, &made, &question));
    }
    row("20 conditions, settled by the first", &settled_early(&mut rng));
}

fn row(what: &str, asked: &Asked) {
    let mut engine = asked.engine();
    let looks = engine().looks;
    let mut run = || {
        black_box(engine());
    };
    let mut checks = || {
        black_box(searchroom::check_question(&asked.catalogue, &asked.question).ok());
    };
    let [run, checks] = medians([&mut run, &mut checks]);
    let each = (run - checks) / f64::from(looks);
    println!("| {what:<48} | {looks:>6} | {:>9.2} | {:>9.2} | {:>9.2} |", run * 1e6, checks * 1e6, each * 1e9);
}
