use evaluator::{Catalogue, Column, Condition, Question, Ran, Test, Tree, pack};
use generator::{Pattern, Rng};

use crate::{READERS, Run, compare_copy, compare_run, encode_tally, fewer};

/// Makes the run in an order and its copy, and sees that both are accepted. Where less is to be tried, some are not copied.
pub fn compare_both(rng: &mut Rng, label: &str, catalogue: &Catalogue, question: &Question, order: &[u8]) -> Ran {
    let given = lending(rng, catalogue, question, order);
    let ran = compare_run(label, &given);
    assert_eq!(ran.word as u8, 0, "{label} is refused");
    if !fewer() || rng.chance(10) {
        let (written, more) = (7 * look_count(&ran), *rng.pick(&[0, 1, 7, 300]));
        let copied = compare_copy(label, &given.copying(&rng.bytes(written + more)));
        assert_eq!(copied.word, pack(0, 0, written), "{label}, the copy");
    }
    ran
}

/// The number of looks that an accepted run made.
pub fn look_count(ran: &Ran) -> usize {
    (ran.word >> 40) as usize
}

/// Any reader's run with tables and tally of any bytes, the tables often longer than they must be.
fn lending(rng: &mut Rng, catalogue: &Catalogue, question: &Question, order: &[u8]) -> Run {
    let fit = Run::fitting(catalogue, question, order);
    let mut table = |fit: &[u8]| {
        let more = *rng.pick(&[0, 1, 7, 8, 9, 300]);
        rng.bytes(fit.len() + more)
    };
    let (listed, looks) = (table(&fit.listed), table(&fit.looks));
    // Numbers that no run fills.
    let tally = encode_tally([(); READERS].map(|()| rng.next_u64() >> 1));
    Run { reader: rng.below(READERS) as u64, listed, looks, tally, ..fit }
}

/// Runs and copies a condition on column 1 where it is due everywhere, and where another on column 0 leaves it due at some
/// entries alone; then its opposite. The catalogue's last column ends where readable memory ends. Gives the entries that the
/// condition lists where it is due everywhere, and those of its opposite.
pub fn compare_condition(rng: &mut Rng, label: &str, column: Column, test: Test) -> [Vec<usize>; 2] {
    let size = match &column {
        Column::Numbers(numbers) => numbers.len(),
        Column::Texts(texts) => texts.len(),
    };
    [false, true].map(|opposite| {
        let condition = Condition { column: 1, test: test.clone(), opposite };
        let pattern = *rng.pick(&Pattern::ALL);
        let gate = pattern.of(rng, size).into_iter().map(u32::from).collect();
        let made = Catalogue::unmarked(size, vec![Column::Numbers(gate), column.clone()]);
        let bare = Question { tree: Tree::Condition(0), conditions: vec![condition.clone()] };
        let ran = compare_both(rng, &format!("{label}, {condition:?}"), &made, &bare, &[0]);
        let gate = Condition { column: 0, test: Test::NumberFrom { low: 1, high: 1 }, opposite: rng.chance(50) };
        let members = vec![Tree::Condition(0), Tree::Condition(1)];
        let tree = if rng.chance(50) { Tree::AllOf(members) } else { Tree::AnyOf(members) };
        let gated = Question { tree, conditions: vec![gate, condition.clone()] };
        compare_both(rng, &format!("{label}, {pattern:?} due, {condition:?}"), &made, &gated, &[0, 1]);
        (0..size).filter(|entry| ran.listed[entry / 8] >> (entry % 8) & 1 == 1).collect()
    })
}
