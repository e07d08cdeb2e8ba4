//! The evaluator's own runs: document 01's cases, and its two ways to tell a due look held to each other.

use evaluator::{
    Column, Found, Question, Tree, due_by_reach, due_by_trying, find, read_catalogue, read_condition, read_question,
    run,
};
use generator::{Rng, catalogue_of, question_of, twelve_kinds};

const CATALOGUE: &[u8] = include_bytes!("../../../examples/parish/catalogue.bin");
const QUESTION: &[u8] = include_bytes!("../../../examples/parish/question.bin");

/// The listed entries and each condition's looks, for the parish in this order.
fn parish(order: &[usize]) -> (Vec<bool>, Vec<usize>) {
    let catalogue = read_catalogue(CATALOGUE).expect("the parish's catalogue");
    let question = read_question(&catalogue, QUESTION).expect("the parish's question");
    let found = find(&catalogue, &question, order);
    let looks = (0..3).map(|condition| found.looks_at(condition)).collect();
    (found.listed, looks)
}

#[test]
fn proved_cases_1_and_2() {
    assert_eq!(parish(&[0, 1, 2]), (vec![true, false, true], vec![3, 1, 2]));
    assert_eq!(parish(&[2, 1, 0]), (vec![true, false, true], vec![2, 2, 3]));
}

#[test]
fn register_of_the_parish() {
    let expected = include_str!("../../../examples/parish/expected");
    assert_eq!(evaluator::register(CATALOGUE, QUESTION, &[0, 1, 2]), expected);
    assert_eq!(evaluator::register(CATALOGUE, QUESTION, &[0, 1]), "consultation register\nrefused 15\n");
}

#[test]
fn tables_of_the_parish() {
    let tally = [&[0, 0, 0, 0, 0, 0, 0, 250].repeat(2), &[9; 112][..]].concat();
    let ran = run(CATALOGUE, QUESTION, &[0, 1, 2], 1, &[255; 2], &[255; 4], &tally);
    assert_eq!(ran.word, 2 << 8 | 6 << 40);
    assert_eq!(ran.listed, [0b101, 255]);
    assert_eq!(ran.looks, [0b111, 0b001, 0b110, 255]);
    assert_eq!(ran.tally[..16], [0, 0, 0, 0, 0, 0, 0, 250, 0, 0, 0, 0, 0, 0, 1, 0]);
    assert_eq!(ran.tally[16..], [9; 112]);
}

/// Order 7: "24, reader over 15, after 16", and then 17 "for a tally not of 128 bytes or a sum too large for this reader".
#[test]
fn refusals_for_reader_and_tally() {
    let parish = |reader, looks: &[u8], tally: &[u8]| {
        let ran = run(CATALOGUE, QUESTION, &[0, 1, 2], reader, &[0], looks, tally);
        let unaltered = ran.listed == [0] && ran.looks == looks && ran.tally == tally;
        assert!(ran.word as u8 == 0 || unaltered, "a refusal altered a table");
        ran.word as u8
    };
    let full = [[0; 120].as_slice(), &[255; 8]].concat();
    assert_eq!([0, 14, 15].map(|reader| parish(reader, &[0; 3], &full)), [0, 0, 17]);
    assert_eq!([16, 17, u64::MAX].map(|reader| parish(reader, &[0; 3], &full)), [24; 3]);
    assert_eq!([0, 8, 127, 128, 129].map(|length| parish(15, &[0; 3], &vec![0; length])), [17, 17, 17, 0, 17]);
    assert_eq!((parish(16, &[0; 2], &[]), parish(16, &[0; 3], &[])), (16, 24));
}

/// A condition and its opposite at a value that meets the one, at a value that meets the other, and at a blank, at which
/// only those that ask for the blank are met.
#[test]
fn condition_and_its_opposite() {
    let (catalogue, kinds) = twelve_kinds();
    for pair in kinds.chunks(2) {
        let conditions: Vec<_> =
            pair.iter().map(|kind| read_condition(&catalogue, &kind.payload).expect("a sound payload")).collect();
        let found = |group: fn(Vec<Tree>) -> Tree| {
            let tree = group(vec![Tree::Condition(0), Tree::Condition(1)]);
            find(&catalogue, &Question { tree, conditions: conditions.clone() }, &[0, 1])
        };
        let (any, all) = (found(Tree::AnyOf), found(Tree::AllOf));
        let kind = pair[0].number;
        let (met, listed) = if matches!(kind, 1 | 5) {
            ([false, false, true], [true, true, true])
        } else {
            ([true, false, false], [true, true, false])
        };
        assert_eq!((any.listed, all.listed), (listed.to_vec(), vec![false; 3]), "kind {kind}");
        assert_eq!(any.looks, [vec![true; 3], met.map(|met| !met).to_vec()], "any of, kind {kind}");
        assert_eq!(all.looks, [vec![true; 3], met.to_vec()], "all of, kind {kind}");
    }
}

/// On random trees, orders and patterns, at every turn with at most ten later conditions: trying all later outcomes, and
/// reach, agree.
#[test]
fn two_ways_to_tell_a_due_look_agree() {
    let (mut due, mut not) = (0_u32, 0_u32);
    for seed in 0..3_000 {
        let mut rng = Rng::new(seed);
        let catalogue = catalogue_of(&mut rng, 1, 2);
        let count = if seed % 50 == 0 { rng.between(20, 64) } else { rng.between(1, 8) };
        let depth = rng.between(1, 8);
        let Question { tree, .. } = question_of(&mut rng, &catalogue, count, depth);
        let mut order: Vec<usize> = (0..count).collect();
        rng.shuffle(&mut order);
        let choice = rng.next_u64();
        let pattern: Vec<bool> = (0..count).map(|bit| choice >> bit & 1 == 1).collect();
        for turn in count.saturating_sub(11)..count {
            let tried = due_by_trying(&tree, &order, turn, &pattern);
            let reached = due_by_reach(&tree, &order, turn, &pattern);
            assert_eq!(tried, reached, "seed {seed}: turn {turn} of {order:?}, {pattern:?}, {tree:?}");
            *if tried { &mut due } else { &mut not } += 1;
        }
    }
    assert!(due > 1_000 && not > 1_000, "{due} due, {not} not");
}

/// Whoever takes each condition not looked at as no still gets the tree's value, on each entry still in the house: the looks
/// suffice.
#[test]
fn looks_suffice_for_the_answer() {
    for seed in 0..300 {
        let mut rng = Rng::new(seed);
        let catalogue = catalogue_of(&mut rng, 6, 3);
        let count = if seed % 10 == 0 { 40 } else { rng.between(1, 9) };
        let question = question_of(&mut rng, &catalogue, count, 4);
        let mut order: Vec<usize> = (0..count).collect();
        rng.shuffle(&mut order);
        let Found { listed, looks } = find(&catalogue, &question, &order);
        for entry in (0..catalogue.entries).filter(|&entry| !catalogue.is_withdrawn(entry)) {
            let seen: Vec<bool> = (0..count)
                .map(|number| {
                    let condition = &question.conditions[number];
                    looks[number][entry] && evaluator::outcome(&catalogue, condition, entry).truth()
                })
                .collect();
            assert_eq!(question.tree.value(&seen), listed[entry], "seed {seed}, entry {entry}");
        }
    }
}

/// "Mistakes a good clerk makes", where they show in which looks are due.
#[test]
fn mistakes_of_a_good_clerk() {
    let leaf = Tree::Condition;
    let due = |tree: &Tree, order: &[usize], turn, pattern: &[bool]| due_by_trying(tree, order, turn, pattern);
    // An outer group is settled: nothing inside it is due, though the inner group is open.
    let tree = Tree::AnyOf(vec![leaf(0), Tree::AllOf(vec![leaf(1), leaf(2)])]);
    assert!(!due(&tree, &[0, 1, 2], 1, &[true, true, true]));
    assert!(due(&tree, &[0, 1, 2], 1, &[false, true, true]));
    // An all-of group of members not looked at does not count as true: its value no longer matters.
    let tree = Tree::AllOf(vec![leaf(0), Tree::AllOf(vec![leaf(1), leaf(2)])]);
    assert!(!tree.value(&[false, true, true]));
    assert!(!due(&tree, &[0, 1, 2], 1, &[false, true, true]));
    // Conditions on one column are unconnected: both are due though they exclude each other.
    let tree = Tree::AllOf(vec![leaf(0), leaf(1)]);
    assert!(due(&tree, &[0, 1], 1, &[true, false]));
}

#[test]
fn no_entries_no_looks() {
    let catalogue = evaluator::Catalogue::unmarked(0, vec![Column::Numbers(vec![])]);
    let question = question_of(&mut Rng::new(1), &catalogue, 5, 3);
    let found = find(&catalogue, &question, &[0, 1, 2, 3, 4]);
    assert_eq!((found.found_count(), found.look_count()), (0, 0));
}
