//! Order 6: a withdrawn entry is never listed and never looked at, by runs and copies, and no other entry is touched by that.
//! Which marks are accepted is tried in mark.rs.

use evaluator::{Catalogue, Column, Condition, Question, Ran, Test, Tree, pack, refused};
use generator::{
    BLOCK, Pattern, Rng, catalogue_of, encode_bits, encode_catalogue, encode_mark, encode_question, field, question,
    question_of, running_order, tree_of, twelve_kinds, with_outcomes,
};
use searchroom::{Answer, Look, Tally, consult, copy_of, looks, outcome};
use trials::{
    Copying, ENTRIES_AT_ENDS, FILL, PARISH_ORDER, PARISH_QUESTION, PARISH_TEXT, Run, compare_both, compare_copy,
    compare_every_call, compare_outcome, compare_question, compare_reading, compare_run, encode_tally_with, fewer,
    look_count, marked_parish, ones, seeds, sizes,
};

/// The same catalogue with a mark.
fn marked(catalogue: &Catalogue, withdrawn: &[bool]) -> Catalogue {
    Catalogue { mark: Some(withdrawn.to_vec()), ..catalogue.clone() }
}

/// A catalogue without a mark, a question and a running order.
struct Asked {
    catalogue: Catalogue,
    question: Question,
    order: Vec<u8>,
}

impl Asked {
    /// The outcomes of each condition are in any pattern.
    fn any(rng: &mut Rng, entries: usize, count: usize) -> Asked {
        let pattern = |rng: &mut Rng| rng.pick(&Pattern::ALL).of(rng, entries);
        let outcomes: Vec<Vec<bool>> = (0..count).map(|_| pattern(rng)).collect();
        let (catalogue, conditions) = with_outcomes(rng, entries, &outcomes);
        let depth = rng.between(1, 4);
        let question = Question { tree: tree_of(rng, count, depth), conditions };
        Asked { catalogue, question, order: running_order(rng, count) }
    }

    /// All of so many conditions that are met at each entry: each is listed, and each look is due.
    fn all_met(rng: &mut Rng, entries: usize, count: usize) -> Asked {
        let (catalogue, conditions) = with_outcomes(rng, entries, &vec![vec![true; entries]; count]);
        let question = Question { tree: Tree::AllOf((0..count).map(Tree::Condition).collect()), conditions };
        Asked { catalogue, question, order: running_order(rng, count) }
    }

    /// The rows that a run writes, that of the listed entries and then those of the looks, and what it answers.
    fn rows(&self, rng: &mut Rng, label: &str, catalogue: &Catalogue) -> (Vec<u8>, u64) {
        let Ran { word, listed, looks, .. } = compare_both(rng, label, catalogue, &self.question, &self.order);
        let row = catalogue.entries.div_ceil(8);
        ([&listed[..row], &looks[..row * self.order.len()]].concat(), word)
    }

    /// The looks that a copy tells, by entry and condition.
    fn told(&self, catalogue: &Catalogue) -> Vec<Look> {
        let copy = copy_of(&encode_catalogue(catalogue), &encode_question(&self.question), &self.order);
        let mut told: Vec<Look> = looks(&copy.expect("an accepted copy")).collect();
        told.sort_by_key(|look| (look.entry, look.condition));
        told
    }

    /// Runs and copies with a mark and without. Withdrawn entries have no bits and no fields, the others those that they have
    /// without the mark, and what is answered counts them.
    fn compare_beside(&self, rng: &mut Rng, label: &str, withdrawn: &[bool]) {
        let with = marked(&self.catalogue, withdrawn);
        let ((rows, word), (without, _)) = (self.rows(rng, label, &with), self.rows(rng, label, &self.catalogue));
        let mark = encode_bits(withdrawn);
        let expected: Vec<u8> = without.iter().zip(mark.iter().cycle()).map(|(bits, mark)| bits & !mark).collect();
        assert_eq!(rows, expected, "{label}");
        let (listed, looks) = rows.split_at(mark.len());
        assert_eq!(word, pack(ones(listed) as usize, 0, ones(looks) as usize), "{label}");
        let is_present = |look: &Look| !withdrawn[usize::from(look.entry)];
        let expected: Vec<Look> = self.told(&self.catalogue).into_iter().filter(is_present).collect();
        assert_eq!(self.told(&with), expected, "{label}, the copy");
    }
}

/// The parish's run, by hand: entries 0 and 2 are listed, condition 0 is looked at everywhere, condition 1 at entry 0,
/// condition 2 at the others. Of these the entries still in the house remain.
#[test]
fn parish_with_each_mark() {
    let fields = [[0, 0, 1], [0, 1, 1], [1, 0, 0], [1, 2, 0], [2, 0, 2], [2, 2, 1]];
    for mark in 0..8_u8 {
        let (label, house) = (format!("parish, mark {mark:03b}"), !mark);
        let given = Run {
            catalogue: marked_parish(mark),
            listed: vec![FILL; 2],
            looks: vec![FILL; 4],
            ..Run::parish(PARISH_ORDER)
        };
        let ran = compare_run(&label, &given);
        assert_eq!(ran.listed, [0b101 & house, FILL], "{label}");
        assert_eq!(ran.looks, [0b111 & house, 0b001 & house, 0b110 & house, FILL], "{label}");
        let present = fields.iter().filter(|[entry, ..]| house >> entry & 1 == 1);
        let expected: Vec<u8> = present.flat_map(|[entry, number, is]| [76, 0, 4, 0, *entry, *number, *is]).collect();
        assert_eq!(ran.tally, encode_tally_with(0, expected.len() as u64 / 7), "{label}");
        let copied = compare_copy(&label, &given.copying(&vec![0; expected.len()]));
        assert_eq!(copied.output, expected, "{label}");
    }
}

#[test]
fn wrapper_gives_the_marked_parish_as_values() {
    let catalogue = marked_parish(0b001);
    let mut tally = Tally::default();
    let found = consult(&catalogue, PARISH_QUESTION, PARISH_ORDER, 0, &mut tally).expect("an accepted run");
    assert_eq!((found.counts().found, found.counts().looks, tally.of(0)), (1, 4, Some(4)));
    assert_eq!(found.listed().collect::<Vec<_>>(), [2]);
    let looked_at = |condition| found.looked_at(condition).collect::<Vec<_>>();
    assert_eq!([0, 1, 2].map(looked_at), [vec![1, 2], vec![], vec![1, 2]]);
    let copied = copy_of(&catalogue, PARISH_QUESTION, PARISH_ORDER).expect("an accepted copy");
    assert_eq!(looks(&copied).map(|look| look.entry).collect::<Vec<_>>(), [1, 1, 2, 2]);
    assert_eq!(outcome(&catalogue, PARISH_QUESTION, 0, 0), Ok(Answer::Yes));
}

/// Each kind and its opposite, by a run where each of three entries may be withdrawn, and by itself, where that makes no
/// difference.
#[test]
fn each_kind_at_a_withdrawn_entry() {
    let (made, kinds) = twelve_kinds();
    for kind in kinds {
        let question = field(80, &kind.payload);
        let yes: u8 = (0..3).map(|entry| u8::from(kind.answers[entry] == evaluator::Answer::Yes) << entry).sum();
        for mark in 0..8_u8 {
            let label = format!("kind {}, mark {mark:03b}", kind.number);
            let catalogue = [encode_catalogue(&made), encode_mark(&[mark])].concat();
            let (listed, looks) = (vec![FILL], vec![FILL]);
            let given = Run { listed, looks, ..Run::asking(catalogue, question.clone(), &[0]) };
            let ran = compare_run(&label, &given);
            assert_eq!((ran.listed, ran.looks), (vec![yes & !mark], vec![0b111 & !mark]), "{label}");
            let answers = [0, 1, 2].map(|entry| compare_outcome(&label, &given.catalogue, &question, entry, 0));
            assert_eq!(answers, kind.answers.map(|answer| pack(answer.number(), 0, 0)), "{label}");
        }
    }
}

/// The first and last entry of the mark's first byte, the first of its second, and the last of all: one alone is withdrawn, or
/// all but that one.
#[test]
fn one_entry_withdrawn_or_left() {
    for size in sizes(ENTRIES_AT_ENDS) {
        let mut rng = Rng::new(size as u64);
        let asked = [Asked::any(&mut rng, size, 5), Asked::all_met(&mut rng, size, 3)];
        let mut entries: Vec<usize> = [0, 7, 8, size - 1].into_iter().filter(|&entry| entry < size).collect();
        entries.dedup();
        for (one, alone) in entries.into_iter().flat_map(|entry| [(entry, true), (entry, false)]) {
            let withdrawn: Vec<bool> = (0..size).map(|entry| (entry == one) == alone).collect();
            let label = format!("{size} entries, {one} withdrawn: {alone}, the others: {}", !alone);
            asked.iter().for_each(|asked| asked.compare_beside(&mut rng, &label, &withdrawn));
        }
    }
}

/// Each of the generator's patterns of withdrawn entries, over conditions met in any of them, in whole blocks of 64 entries,
/// with one more, and without the last.
#[test]
fn each_pattern_of_withdrawn_entries() {
    for size in sizes([63, 64, 65, 128, 200, 2_047, 2_048]) {
        for (seed, pattern) in Pattern::ALL.into_iter().enumerate() {
            let mut rng = Rng::new((100 * size + seed) as u64);
            let withdrawn = pattern.of(&mut rng, size);
            for count in [1, 6] {
                let label = format!("{size} entries, {count} conditions, withdrawn: {pattern:?}");
                Asked::any(&mut rng, size, count).compare_beside(&mut rng, &label, &withdrawn);
            }
        }
    }
}

/// Each entry of two blocks and a part of a third is withdrawn in turn, where every bit of every row is one without the mark:
/// all the others keep theirs, in the same byte and across the borders of blocks.
#[test]
fn no_other_entry_is_touched() {
    let mut rng = Rng::new(3);
    let size = 2 * BLOCK + 10;
    let asked = Asked::all_met(&mut rng, size, 2);
    for one in (0..size).step_by(if fewer() { 21 } else { 1 }) {
        let withdrawn: Vec<bool> = (0..size).map(|entry| entry == one).collect();
        let (rows, word) = asked.rows(&mut rng, "one withdrawn", &marked(&asked.catalogue, &withdrawn));
        let house = encode_bits(&withdrawn.iter().map(|withdrawn| !withdrawn).collect::<Vec<_>>());
        assert_eq!((rows, word), (house.repeat(3), pack(size - 1, 0, 2 * (size - 1))), "entry {one}");
    }
}

#[test]
fn every_entry_withdrawn() {
    for size in sizes(ENTRIES_AT_ENDS) {
        for count in [1, 5, 64] {
            let mut rng = Rng::new((100 * size + count) as u64);
            let asked = Asked::any(&mut rng, size, count);
            let made = marked(&asked.catalogue, &vec![true; size]);
            let fit = Run::fitting(&made, &asked.question, &asked.order);
            for tally in [0, 250, u64::MAX] {
                let tally = encode_tally_with(0, tally);
                let ran = compare_run("all withdrawn", &Run { tally: tally.clone(), ..fit.clone() });
                assert_eq!((ran.word, ran.tally), (pack(0, 0, 0), tally), "{size} entries");
                assert!([ran.listed, ran.looks].concat().iter().all(|&byte| byte == 0), "{size} entries");
            }
            for length in [0, 1, 100] {
                let copied = compare_copy("all withdrawn", &fit.copying(&vec![FILL; length]));
                assert_eq!((copied.word, copied.output), (pack(0, 0, 0), vec![FILL; length]), "{size} entries");
            }
        }
    }
}

/// A withdrawn entry still has its place in the tables; only looks count for the tally and for a copy's output.
#[test]
fn tables_have_a_place_for_withdrawn_entries() {
    let mut rng = Rng::new(4);
    let asked = Asked::all_met(&mut rng, 9, 2);
    // The last entry is withdrawn, and with it all that the second byte of a row has.
    let made = marked(&asked.catalogue, &[vec![false; 8], vec![true]].concat());
    let fit = Run::fitting(&made, &asked.question, &asked.order);
    let full = Run { tally: encode_tally_with(0, u64::MAX - 16), ..fit.clone() };
    for (given, word) in [
        (Run { listed: vec![0; 1], ..fit.clone() }, refused(16)),
        (Run { looks: vec![0; 3], ..fit.clone() }, refused(16)),
        (Run { tally: encode_tally_with(0, u64::MAX - 15), ..fit.clone() }, refused(17)),
        (full, pack(8, 0, 16)),
    ] {
        assert_eq!(compare_run("the last withdrawn", &given).word, word);
    }
    for (length, word) in [(7 * 16 - 1, refused(20)), (7 * 16, pack(0, 0, 7 * 16))] {
        assert_eq!(compare_copy("the last withdrawn", &fit.copying(&vec![FILL; length])).word, word);
    }
    let other = Copying { order: &[0], ..fit.copying(&[]) };
    assert_eq!(compare_copy("the last withdrawn, another order", &other).word, refused(15));
}

#[test]
fn mark_of_zeros_gives_the_same_results_as_no_mark() {
    for size in [0, 1, 7, 8, 9, 63, 64, 65, 130] {
        let mut rng = Rng::new(size as u64);
        let asked = Asked::any(&mut rng, size, 4);
        let answers = |catalogue: &Catalogue| {
            let given = Run::fitting(catalogue, &asked.question, &asked.order);
            compare_every_call("zeros", &given, &vec![FILL; 7 * 4 * size + 80])
        };
        let (zeros, unmarked) = (answers(&marked(&asked.catalogue, &vec![false; size])), answers(&asked.catalogue));
        assert_eq!(zeros, unmarked, "{size} entries");
        assert_eq!([zeros.catalogue, zeros.question], [pack(size, 11, 0), pack(4, 0, 0)], "{size} entries");
    }
}

/// All that is answered of the catalogue, the question, each outcome and the typed text is as without the mark.
#[test]
fn other_calls_go_on_as_before() {
    for seed in seeds(150) {
        let mut rng = Rng::new(seed);
        let (size, columns) = (rng.between(0, 20), rng.between(1, 4));
        let unmarked = Catalogue { mark: None, ..catalogue_of(&mut rng, size, columns) };
        let asked = question(&mut rng, &unmarked);
        let order = running_order(&mut rng, asked.conditions.len());
        let pattern = *rng.pick(&Pattern::ALL);
        let with = marked(&unmarked, &pattern.of(&mut rng, size));
        let [with, without] = [with, unmarked].map(|made| {
            let given = Run::fitting(&made, &asked, &order);
            compare_every_call(&format!("seed {seed}"), &given, &[FILL; 9_000])
        });
        assert_eq!((with.catalogue, with.question), (without.catalogue, without.question), "seed {seed}");
        assert_eq!((with.outcomes, with.typed), (without.outcomes, without.typed), "seed {seed}");
    }
}

/// People forget the withdrawn condition: whatever is asked, the answer is that of the question with it.
#[test]
fn as_if_every_question_asked_for_it() {
    for seed in seeds(200) {
        let mut rng = Rng::new(seed);
        let size = *rng.pick(&[5, 64, 100, 129]);
        let made = Catalogue { mark: None, ..catalogue_of(&mut rng, size, 3) };
        let withdrawn = Pattern::Half.of(&mut rng, size);
        let asked = question_of(&mut rng, &made, 4, 3);
        // The mark once more as a column: 1 where the entry is withdrawn.
        let column = Column::Numbers(withdrawn.iter().map(|&withdrawn| withdrawn.into()).collect());
        let wider = Catalogue::unmarked(size, [made.columns.clone(), vec![column]].concat());
        let in_house = Condition { column: 3, test: Test::NumberFrom { low: 0, high: 0 }, opposite: false };
        let tree = Tree::AllOf(vec![asked.tree.clone(), Tree::Condition(4)]);
        let careful = Question { tree, conditions: [asked.conditions.clone(), vec![in_house]].concat() };
        // Asked for it first, the others are looked at where the entry is in the house.
        let label = format!("seed {seed}");
        let expected = compare_both(&mut rng, &label, &wider, &careful, &[4, 0, 1, 2, 3]);
        let ran = compare_both(&mut rng, &label, &marked(&made, &withdrawn), &asked, &[0, 1, 2, 3]);
        let row = size.div_ceil(8);
        assert_eq!((&ran.listed[..row], &ran.looks[..4 * row]), (&expected.listed[..row], &expected.looks[..4 * row]));
        assert_eq!(look_count(&ran), look_count(&expected) - size, "{label}");
    }
}

#[test]
fn questions_and_texts_on_a_marked_catalogue() {
    let catalogue = marked_parish(0b111);
    assert_eq!(compare_question("all withdrawn", &catalogue, PARISH_QUESTION), pack(3, 0, 0));
    assert_eq!(compare_question("all withdrawn", &catalogue, &field(80, &[2, 1])), refused(11));
    assert_eq!(compare_outcome("all withdrawn", &catalogue, PARISH_QUESTION, 3, 0), refused(18));
    assert_eq!(compare_reading(&catalogue, PARISH_TEXT).as_deref(), Ok(PARISH_QUESTION));
    assert_eq!(compare_reading(&catalogue, "c1 blank"), Ok(field(80, &[1, 5])));
    assert_eq!(compare_reading(&catalogue, "c2 blank"), Err(11));
    assert_eq!(compare_reading(&catalogue, "c2 blank "), Err(21));
}

/// 64 conditions over 2,048 entries, half of them withdrawn: at those left every look is due.
#[test]
fn largest_run_with_half_withdrawn() {
    let mut rng = Rng::new(5);
    let asked = Asked::all_met(&mut rng, 2_048, if fewer() { 4 } else { 64 });
    let withdrawn = Pattern::Every(2).of(&mut rng, 2_048);
    asked.compare_beside(&mut rng, "half withdrawn", &withdrawn);
    let (_, word) = asked.rows(&mut rng, "half withdrawn", &marked(&asked.catalogue, &withdrawn));
    assert_eq!(word, pack(1_024, 0, 1_024 * asked.order.len()));
}
