//! `searchroom_run` against the evaluator: the word and every lent byte, accepted and refused.

use evaluator::{Answer, Catalogue, Column, Condition, Question, Ran, Test, Tree, pack, refused};
use generator::{
    Rng, catalogue, catalogue_of, encode_catalogue, field, question, question_of, running_order, twelve_kinds,
};
use searchroom::{Refusal, Tally, consult};
use trials::{
    Damaged, OUTSIDE_THE_CENTURY, PARISH_CATALOGUE, PARISH_ORDER, PARISH_QUESTION, Run, Seen, compare_run,
    encode_tally_with, marked_parish,
};

/// One entry for each pattern of `count` outcomes: condition c is met at entry e exactly if bit c of e is one.
fn every_pattern(count: usize) -> (Catalogue, Vec<Condition>) {
    let column = |c: usize| Column::Numbers((0..1_u32 << count).map(|entry| entry >> c & 1).collect());
    let condition = |column| Condition { column, test: Test::NumberFrom { low: 1, high: 1 }, opposite: false };
    let catalogue = Catalogue::unmarked(1 << count, (0..count).map(column).collect());
    (catalogue, (0..count).map(condition).collect())
}

#[test]
fn proved_cases_1_and_2_as_run() {
    let ran = compare_run("P1", &Run::parish(PARISH_ORDER));
    assert_eq!(ran.word, pack(2, 0, 6));
    assert_eq!((ran.listed, ran.looks, ran.tally), (vec![0b101], vec![0b111, 0b001, 0b110], encode_tally_with(0, 6)));
    let ran = compare_run("P2", &Run::parish(&[2, 1, 0]));
    assert_eq!((ran.word, ran.listed), (pack(2, 0, 7), vec![0b101]));
    assert_eq!(ran.looks.iter().map(|row| row.count_ones()).collect::<Vec<_>>(), [2, 2, 3]);
}

#[test]
fn wrapper_gives_the_parish_as_values() {
    let mut tally = Tally::default();
    let found = consult(PARISH_CATALOGUE, PARISH_QUESTION, PARISH_ORDER, 0, &mut tally).expect("accepted");
    assert_eq!((found.counts().found, found.counts().looks, tally.of(0)), (2, 6, Some(6)));
    assert_eq!(found.listed().collect::<Vec<_>>(), [0, 2]);
    let looked_at = |condition| found.looked_at(condition).collect::<Vec<_>>();
    assert_eq!([0, 1, 2, 3].map(looked_at), [vec![0, 1, 2], vec![0], vec![1, 2], vec![]]);
    let order = consult(PARISH_CATALOGUE, PARISH_QUESTION, &[0; 1_000], 0, &mut tally);
    assert_eq!((order, tally.of(0)), (Err(Refusal::BadOrder), Some(6)));
}

/// Of 1701, 1822 and a blank the second alone is listed, and each is looked at.
#[test]
fn undated_entry_is_not_outside_the_century() {
    let given = Run::asking(PARISH_CATALOGUE.to_vec(), OUTSIDE_THE_CENTURY.to_vec(), &[0]);
    let ran = compare_run("outside the century", &given);
    assert_eq!((ran.word, ran.listed, ran.looks), (pack(1, 0, 3), vec![0b010], vec![0b111]));
}

/// Any of a condition and its opposite, and all of them, for each kind and in both orders. At a blank neither of two that
/// ask for a value is met: any-of has two looks there and lists nothing, all-of has one.
#[test]
fn condition_and_its_opposite() {
    let (made, kinds) = twelve_kinds();
    for pair in kinds.chunks(2) {
        let members: Vec<u8> = pair.iter().flat_map(|kind| field(80, &kind.payload)).collect();
        let yes =
            |at: usize| -> u8 { (0..3).map(|entry| u8::from(pair[at].answers[entry] == Answer::Yes) << entry).sum() };
        for (first, second) in [(0, 1), (1, 0)] {
            for (tag, listed, due) in [(79, yes(0) | yes(1), 0b111 - yes(first)), (65, 0, yes(first))] {
                let order = [first as u8, second as u8];
                let given = Run::asking(encode_catalogue(&made), field(tag, &members), &order);
                let label = format!("kind {}, group of tag {tag}, condition {first} first", pair[0].number);
                let ran = compare_run(&label, &given);
                assert_eq!((ran.listed, ran.looks[first], ran.looks[second]), (vec![listed], 0b111, due), "{label}");
            }
        }
    }
}

/// P7: with no entry, any accepted question finds 0 with 0 looks, in tables of no bytes, whatever the tally.
#[test]
fn proved_case_7_no_entries() {
    let nobody = Catalogue::unmarked(0, vec![Column::Numbers(vec![])]);
    for (count, depth) in [(1, 1), (1, 8), (5, 2), (64, 8)] {
        let mut rng = Rng::new(count as u64);
        let asked = question_of(&mut rng, &nobody, count, depth);
        let order = running_order(&mut rng, count);
        for (tables, tally) in [(0, 0), (3, u64::MAX)] {
            let given = Run {
                listed: vec![7; tables],
                looks: vec![7; tables],
                tally: encode_tally_with(0, tally),
                ..Run::fitting(&nobody, &asked, &order)
            };
            let ran = compare_run("no entries", &given);
            assert_eq!((ran.word, ran.listed, ran.tally), (pack(0, 0, 0), given.listed, given.tally));
        }
    }
}

#[test]
fn proved_case_10_and_other_orders() {
    let two = field(79, &[80, 0, 2, 0, 1, 80, 0, 2, 0, 129]);
    let with = |order: &[u8]| Run { question: two.clone(), looks: vec![0; 2], ..Run::parish(order) };
    for order in [[0, 1], [1, 0]] {
        assert_eq!(compare_run("a right order", &with(&order)).word as u8, 0);
    }
    let wrong: [&[u8]; 14] = [
        &[],
        &[0],
        &[1],
        &[0, 0],
        &[1, 1],
        &[0, 2],
        &[2, 0],
        &[1, 2],
        &[0, 255],
        &[0, 64],
        &[0, 1, 0],
        &[0, 1, 2],
        &[0, 0, 1],
        &[1; 300],
    ];
    for order in wrong {
        assert_eq!(compare_run(&format!("order {order:?}"), &with(order)).word, refused(15), "{order:?}");
    }
}

#[test]
fn orders_of_sixty_four() {
    let mut rng = Rng::new(4);
    let made = catalogue_of(&mut rng, 20, 6);
    let asked = question_of(&mut rng, &made, 64, 4);
    let forward: Vec<u8> = (0..64).collect();
    let backward: Vec<u8> = (0..64).rev().collect();
    for order in [forward.clone(), backward, running_order(&mut rng, 64), running_order(&mut rng, 64)] {
        assert_eq!(compare_run("64 conditions", &Run::fitting(&made, &asked, &order)).word as u8, 0);
    }
    for at in 0..64 {
        for value in [(at as u8 + 1) % 64, 64, 128 + at as u8, 255] {
            let mut order = forward.clone();
            order[at] = value;
            let label = format!("64 conditions, place {at} set to {value}");
            assert_eq!(compare_run(&label, &Run::fitting(&made, &asked, &order)).word, refused(15));
        }
    }
    for length in [63, 65] {
        let order: Vec<u8> = (0..length).collect();
        assert_eq!(compare_run("63 or 65 long", &Run::fitting(&made, &asked, &order)).word, refused(15));
    }
}

/// Both tables just long enough, one byte short, and longer with further bytes that stay.
#[test]
fn tables_of_every_length() {
    for entries in [0, 1, 7, 8, 9, 16, 17, 2_047, 2_048] {
        for count in [1, 3, 64] {
            let mut rng = Rng::new(entries as u64 * 100 + count as u64);
            let made = catalogue_of(&mut rng, entries, 3);
            let asked = question_of(&mut rng, &made, count, 3);
            let fit = Run::fitting(&made, &asked, &running_order(&mut rng, count));
            let (row, rows) = (fit.listed.len(), fit.looks.len());
            for (more_listed, more_looks) in [(0, 0), (-1, 0), (0, -1), (-1, -1), (1, 0), (0, 1), (50, 70)] {
                let length = |fit: usize, more: isize| fit.checked_add_signed(more);
                let (Some(listed), Some(looks)) = (length(row, more_listed), length(rows, more_looks)) else {
                    continue;
                };
                let label = format!("{entries} entries, {count} conditions, tables of {listed} and {looks}");
                let given = Run { listed: rng.bytes(listed), looks: rng.bytes(looks), ..fit.clone() };
                let Ran { word, .. } = compare_run(&label, &given);
                assert_eq!(word == refused(16), listed < row || looks < rows, "{label}");
            }
        }
    }
}

#[test]
fn earlier_of_two_refusals_decides() {
    let sound = Run::parish(PARISH_ORDER);
    let mut worse = Run { tally: vec![0; 8], ..sound.clone() };
    assert_eq!(compare_run("17 alone", &worse).word, refused(17));
    worse.reader = 16;
    assert_eq!(compare_run("24 before 17", &worse).word, refused(24));
    worse.looks.pop();
    assert_eq!(compare_run("16 before 24", &worse).word, refused(16));
    worse = Run { listed: vec![], ..worse };
    assert_eq!(compare_run("16 by both tables", &worse).word, refused(16));
    worse.order = vec![0, 1, 1];
    assert_eq!(compare_run("15 before 16", &worse).word, refused(15));
    worse.question.push(0);
    assert_eq!(compare_run("14 before 15", &worse).word, refused(14));
    worse.question = vec![80];
    assert_eq!(compare_run("7 before 15", &worse).word, refused(7));
    worse.catalogue.push(0);
    assert_eq!(compare_run("6 before 7", &worse).word, refused(6));
    worse.catalogue = marked_parish(0b1000);
    assert_eq!(compare_run("23 before 7", &worse).word, refused(23));
    worse.catalogue.clear();
    assert_eq!(compare_run("1 before all", &worse).word, refused(1));
    assert_eq!(compare_run("nothing at all", &Run::default()).word, refused(1));
}

/// Every order of up to four conditions, in trees of every shape the generator makes, on every pattern of outcomes.
#[test]
fn every_pattern_in_every_order() {
    for seed in 0..400 {
        let mut rng = Rng::new(seed);
        let count = rng.between(1, 4);
        let depth = rng.between(1, 4);
        let (made, conditions) = every_pattern(count);
        let Question { tree, .. } = question_of(&mut rng, &made, count, depth);
        let asked = Question { tree, conditions };
        for order in permutations(count) {
            compare_run(&format!("seed {seed}, order {order:?}"), &Run::fitting(&made, &asked, &order));
        }
    }
}

fn permutations(count: usize) -> Vec<Vec<u8>> {
    let mut all = vec![vec![]];
    for number in 0..count as u8 {
        let longer = |order: &Vec<u8>| {
            (0..=order.len()).map(|at| [&order[..at], &[number], &order[at..]].concat()).collect::<Vec<_>>()
        };
        all = all.iter().flat_map(longer).collect();
    }
    all
}

/// The same for more conditions and deeper trees, in a few orders.
#[test]
fn every_pattern_of_up_to_nine() {
    for seed in 0..60 {
        let mut rng = Rng::new(seed);
        let (count, depth) = (rng.between(5, 9), rng.between(1, 8));
        let (made, conditions) = every_pattern(count);
        let Question { tree, .. } = question_of(&mut rng, &made, count, depth);
        let asked = Question { tree, conditions };
        let order = running_order(&mut rng, count);
        compare_run(&format!("every pattern, seed {seed}"), &Run::fitting(&made, &asked, &order));
    }
}

/// "Mistakes a good clerk makes", each on every pattern of outcomes.
#[test]
fn mistakes_of_a_good_clerk() {
    let leaf = Tree::Condition;
    let all = Tree::AllOf;
    let any = Tree::AnyOf;
    let trees = [
        ("outer group settled", any(vec![leaf(0), all(vec![leaf(1), any(vec![leaf(2), leaf(3)])])])),
        ("group of unlooked members", all(vec![leaf(0), all(vec![leaf(1), all(vec![leaf(2), leaf(3)])])])),
        ("groups of one", any(vec![all(vec![any(vec![leaf(0)])]), all(vec![leaf(1)]), any(vec![leaf(2), leaf(3)])])),
        ("two groups of two", all(vec![any(vec![leaf(0), leaf(1)]), any(vec![leaf(2), leaf(3)])])),
    ];
    for (label, tree) in trees {
        let (made, conditions) = every_pattern(4);
        let asked = Question { tree, conditions };
        for order in permutations(4) {
            compare_run(&format!("{label}, order {order:?}"), &Run::fitting(&made, &asked, &order));
        }
    }
    // Year before 1700 and year after 1800 are unconnected: after one yes the other is still due.
    let years = Catalogue::unmarked(3, vec![Column::Numbers(vec![1_650, 1_750, 1_850])]);
    let before = Condition { column: 0, test: Test::NumberFrom { low: 0, high: 1_699 }, opposite: false };
    let after = Condition { column: 0, test: Test::NumberFrom { low: 1_801, high: 9_999 }, opposite: false };
    let asked = Question { tree: all(vec![leaf(0), leaf(1)]), conditions: vec![before, after] };
    let ran = compare_run("unconnected", &Run::fitting(&years, &asked, &[0, 1]));
    assert_eq!((ran.word, ran.looks), (pack(0, 0, 4), vec![0b111, 0b001]));
}

#[test]
fn eight_nested_groups() {
    for seed in 0..40 {
        let mut rng = Rng::new(seed);
        let (made, conditions) = every_pattern(8);
        let mut tree = Tree::Condition(7);
        for number in (0..7).rev() {
            let members = vec![Tree::Condition(number), tree];
            tree = if rng.chance(50) { Tree::AllOf(members) } else { Tree::AnyOf(members) };
        }
        let asked = Question { tree: Tree::AllOf(vec![tree]), conditions };
        let order = running_order(&mut rng, 8);
        let ran = compare_run(&format!("eight nested groups, seed {seed}"), &Run::fitting(&made, &asked, &order));
        assert_eq!(ran.word as u8, 0);
    }
}

/// The most looks that a run can make: 131,072, which do not fit 16 bits, by the tally's last place too.
#[test]
fn largest_run() {
    let numbers = Column::Numbers((0..2_048).map(|entry| entry % 7).collect());
    let made = Catalogue::unmarked(2_048, vec![numbers]);
    let condition = |low| Condition { column: 0, test: Test::NumberFrom { low, high: 9_000 }, opposite: low > 0 };
    let conditions: Vec<Condition> = (0..64).map(|n| condition(if n == 0 { 0 } else { 6 + n })).collect();
    let asked = Question { tree: Tree::AllOf((0..64).map(Tree::Condition).collect()), conditions };
    let order: Vec<u8> = (0..64).collect();
    let full = Run::fitting(&made, &asked, &order);
    let ran = compare_run("largest run", &full);
    assert_eq!(ran.word, pack(2_048, 0, 131_072));
    assert_eq!(ran.looks, vec![0xFF; 16_384]);
    for (tally, word) in [(u64::MAX - 131_072, pack(2_048, 0, 131_072)), (u64::MAX - 131_071, refused(17))] {
        let given = Run { tally: encode_tally_with(0, tally), ..full.clone() };
        assert_eq!(compare_run("largest run, fullest tally", &given).word, word);
    }
}

#[test]
fn random_runs_are_accepted() {
    let (mut listed, mut skipped) = (0, 0);
    for seed in 0..3_000 {
        let mut rng = Rng::new(seed);
        let made = match seed % 20 {
            0 => catalogue(&mut rng),
            _ => {
                let (entries, columns) = (rng.between(0, 40), rng.between(1, 6));
                catalogue_of(&mut rng, entries, columns)
            }
        };
        let asked = if made.entries > 300 { question_of(&mut rng, &made, 6, 3) } else { question(&mut rng, &made) };
        let count = asked.conditions.len();
        let order = running_order(&mut rng, count);
        let ran = compare_run(&format!("random run, seed {seed}"), &Run::fitting(&made, &asked, &order));
        assert_eq!(ran.word as u8, 0, "seed {seed}");
        listed += ran.word >> 8 & 0xFFFF;
        skipped += (made.present() * count) as u64 - (ran.word >> 40);
    }
    assert!(listed > 10_000 && skipped > 10_000, "{listed} entries listed, {skipped} looks skipped");
}

#[test]
fn random_and_damaged_runs_reach_every_refusal() {
    let mut seen = Seen::none();
    for seed in 0..30_000 {
        let mut rng = Rng::new(seed);
        let given = Damaged::new(&mut rng).run(&mut rng);
        seen.count_run(&given, compare_run(&format!("seed {seed}"), &given).word);
    }
    seen.assert_each(0..=17, 10);
    seen.assert_each(23..=24, 10);
    seen.assert_sums(10);
}
