//! The engine by hand against the proved one: the same results, refusals and lent bytes, on random and damaged inputs,
//! each lent to the engine by hand hard against an unreadable page.

use bench::by_hand;
use evaluator::{Catalogue, Column, Condition, Question, Test, Tree};
use generator::{
    Pattern, Rng, catalogue, catalogue_of, encode_catalogue, encode_mark, field, near_text, operand, question,
    running_order,
};
use searchroom::{MAX_ENTRIES, Refusal};
use trials::{
    Damaged, ENTRIES_AT_ENDS, Lent, READERS, Run, Seen, Side, by_condition, damaged_catalogue, encode_tally, fewer,
    seeds, trying,
};

/// The number of a call's refusal, or 0 where it was accepted: all that is counted of a packed word.
fn number<T>(answer: &Result<T, Refusal>) -> u64 {
    answer.as_ref().err().map_or(0, |refusal| refusal.number().into())
}

/// Makes every call with these inputs by both engines.
fn compare(rng: &mut Rng, label: &str, given: &Run, seen: &mut Seen) {
    trying(label);
    for side in Side::BOTH {
        let lent = [&given.catalogue, &given.question].map(|bytes| Lent::new(bytes, side));
        let [catalogue, question] = lent.each_ref().map(Lent::bytes);
        let checked = searchroom::check_catalogue(catalogue);
        assert_eq!(by_hand::check_catalogue(catalogue), checked, "{label}: check_catalogue\n{given}");
        let read = searchroom::check_question(catalogue, question);
        assert_eq!(by_hand::check_question(catalogue, question), read, "{label}: check_question\n{given}");
        let (entries, conditions) = (checked.map_or(3, |size| size.entries), read.unwrap_or(3));
        for _ in 0..4 {
            let (entry, condition) = (place(rng, entries.into()), place(rng, conditions.into()));
            let engine = searchroom::outcome(catalogue, question, entry, condition);
            let by_hand = by_hand::outcome(catalogue, question, entry, condition);
            assert_eq!(by_hand, engine, "{label}: outcome at entry {entry}, condition {condition}\n{given}");
            seen.count(number(&engine));
        }
        compare_runs(label, given, side, seen);
        compare_copies(rng, label, given, side, seen);
    }
}

/// A number below the bound, just over it, or any.
fn place(rng: &mut Rng, bound: usize) -> u64 {
    match rng.below(12) {
        0 => rng.next_u64(),
        1 => 1 << rng.below(64),
        _ => rng.below(bound + 1) as u64,
    }
}

fn compare_runs(label: &str, given: &Run, side: Side, seen: &mut Seen) {
    let Run { catalogue, question, order, reader, listed, looks, tally } = given;
    let mut tables = [listed, looks, tally].map(Vec::clone);
    let [engine_listed, engine_looks, engine_tally] = &mut tables;
    let engine = searchroom::run(catalogue, question, order, *reader, engine_listed, engine_looks, engine_tally);
    let mut lent = [catalogue, question, order, listed, looks, tally].map(|bytes| Lent::new(bytes, side));
    let [catalogue, question, order, listed, looks, tally] = &mut lent;
    let by_hand = by_hand::run(
        catalogue.bytes(),
        question.bytes(),
        order.bytes(),
        *reader,
        listed.bytes_mut(),
        looks.bytes_mut(),
        tally.bytes_mut(),
    );
    assert_eq!(by_hand, engine, "{label}: run\n{given}");
    assert!([listed, looks, tally].map(|table| table.bytes()) == tables, "{label}: the tables differ\n{given}");
    assert!(lent.iter_mut().all(Lent::margins_stand), "{label}: the run wrote beside a table\n{given}");
    seen.count_run(given, number(&engine));
}

/// Copies into an output that is long enough, and into one that is a byte too short.
fn compare_copies(rng: &mut Rng, label: &str, given: &Run, side: Side, seen: &mut Seen) {
    let Run { catalogue, question, order, .. } = given;
    let written = searchroom::copy_of(catalogue, question, order).map_or(0, |copy| copy.len());
    for length in [written + rng.pick(&[0, 0, 1, 7, 300]), written.saturating_sub(1)] {
        let before = rng.bytes(length);
        let mut engine_output = before.clone();
        let engine = searchroom::copy(catalogue, question, order, &mut engine_output);
        let mut lent = [catalogue, question, order, &before].map(|bytes| Lent::new(bytes, side));
        let [catalogue, question, order, output] = &mut lent;
        let by_hand = by_hand::copy(catalogue.bytes(), question.bytes(), order.bytes(), output.bytes_mut());
        assert_eq!(by_hand, engine, "{label}: copy\n{given}");
        let [by_hand, by_engine] =
            [output.bytes(), &engine_output].map(|output| by_condition(output, engine.unwrap_or(0)));
        assert!(by_hand == by_engine, "{label}: the copies differ\n{given}");
        assert!(lent.iter_mut().all(Lent::margins_stand), "{label}: the copy wrote beside its output\n{given}");
        seen.count(number(&engine));
    }
}

/// An accepted run with tables that may be longer than they must be, all lent bytes random but for a tally that no run
/// fills.
fn asking(rng: &mut Rng, catalogue: &Catalogue, question: &Question) -> Run {
    let order = running_order(rng, question.conditions.len());
    let fit = Run::fitting(catalogue, question, &order);
    let mut table = |fit: &[u8]| {
        let more = *rng.pick(&[0, 1, 7, 300]);
        rng.bytes(fit.len() + more)
    };
    let (listed, looks) = (table(&fit.listed), table(&fit.looks));
    let tally = encode_tally([(); READERS].map(|()| rng.next_u64() >> 1));
    Run { reader: rng.below(READERS) as u64, listed, looks, tally, ..fit }
}

#[test]
fn small_and_damaged_inputs() {
    let mut seen = Seen::none();
    for seed in seeds(12_000) {
        let mut rng = Rng::new(seed);
        let given = Damaged::new(&mut rng).run(&mut rng);
        compare(&mut rng, &format!("damaged, seed {seed}"), &given, &mut seen);
    }
    // An eighth of the seeds does not reach each of them.
    if !fewer() {
        // 19 is no call's, 21 and 22 are typed questions'.
        for numbers in [0..=18, 20..=20, 23..=24] {
            seen.assert_each(numbers, 20);
        }
        seen.assert_sums(20);
    }
}

#[test]
fn whole_blocks_and_parts_of_them() {
    let [mut seen, mut damaged] = [(); 2].map(|()| Seen::none());
    for seed in seeds(600) {
        let mut rng = Rng::new(seed);
        let made = if rng.chance(50) {
            catalogue(&mut rng)
        } else {
            let (entries, columns) = (*rng.pick(&ENTRIES_AT_ENDS[..9]), rng.between(1, 6));
            catalogue_of(&mut rng, entries, columns)
        };
        let asked = question(&mut rng, &made);
        let given = asking(&mut rng, &made, &asked);
        compare(&mut rng, &format!("blocks, seed {seed}"), &given, &mut seen);
        let given = Run { catalogue: damaged_catalogue(&mut rng, &made, 60), ..given };
        compare(&mut rng, &format!("blocks, damaged, seed {seed}"), &given, &mut damaged);
    }
    seen.assert_each(0..=0, if fewer() { 500 } else { 4_000 });
    damaged.assert_each(0..=6, if fewer() { 1 } else { 50 });
    damaged.assert_each(23..=23, if fewer() { 1 } else { 50 });
}

/// Texts that match an operand or nearly do, looked at in whole blocks and where another condition left them due.
#[test]
fn texts_that_nearly_match() {
    let mut seen = Seen::none();
    for seed in seeds(2_000) {
        let mut rng = Rng::new(seed);
        let operand = operand(&mut rng);
        let entries = rng.between(1, 200);
        let texts = (0..entries).map(|_| near_text(&mut rng, &operand)).collect();
        let pattern = *rng.pick(&Pattern::ALL);
        let gate = pattern.of(&mut rng, entries).into_iter().map(u32::from).collect();
        let made = Catalogue::unmarked(entries, vec![Column::Numbers(gate), Column::Texts(texts)]);
        let test = rng.pick(&[Test::Equals, Test::BeginsWith, Test::Contains])(operand);
        let asked = Condition { column: 1, test, opposite: rng.chance(30) };
        let due = Condition { column: 0, test: Test::NumberFrom { low: 1, high: 1 }, opposite: false };
        let tree = Tree::AllOf(vec![Tree::Condition(0), Tree::Condition(1)]);
        let bare = Question { tree: Tree::Condition(0), conditions: vec![asked.clone()] };
        for question in [bare, Question { tree, conditions: vec![due, asked] }] {
            let given = asking(&mut rng, &made, &question);
            compare(&mut rng, &format!("texts, seed {seed}"), &given, &mut seen);
        }
    }
    seen.assert_each(0..=0, if fewer() { 2_500 } else { 20_000 });
}

/// A slot between two others with every length byte, and a byte that is not zero at every place or at none.
#[test]
fn slots_of_every_length() {
    let texts = vec![b"Ash".to_vec(), Vec::new(), vec![b'x'; 23]];
    let sound = encode_catalogue(&Catalogue::unmarked(3, vec![Column::Texts(texts)]));
    let slot = sound.len() - 2 * 24;
    let mut accepted = 0;
    for length in 0..=255 {
        for place in 0..24 {
            let mut catalogue = sound.clone();
            catalogue[slot + place] = 1;
            catalogue[slot] = length;
            let lent = Lent::new(&catalogue, Side::Back);
            let engine = searchroom::check_catalogue(&catalogue);
            assert_eq!(by_hand::check_catalogue(lent.bytes()), engine, "length {length}, byte at {place}");
            accepted += u32::from(engine.is_ok());
        }
    }
    // Of each length the places of its text, and none.
    assert_eq!(accepted, (1..=24).sum());
}

/// The most slots, and a byte behind the text of each in turn.
#[test]
fn bad_byte_in_any_slot() {
    let texts = vec![b"Ash".to_vec(); MAX_ENTRIES];
    let sound = encode_catalogue(&Catalogue::unmarked(MAX_ENTRIES, vec![Column::Texts(texts)]));
    let first = sound.len() - 24 * MAX_ENTRIES;
    let mut lent = Lent::new(&sound, Side::Back);
    for slot in 0..MAX_ENTRIES {
        let at = first + 24 * slot + 4 + slot % 20;
        lent.bytes_mut()[at] = 1;
        assert_eq!(searchroom::check_catalogue(lent.bytes()), Err(Refusal::TextSlot), "slot {slot}");
        assert_eq!(by_hand::check_catalogue(lent.bytes()), Err(Refusal::TextSlot), "slot {slot}");
        lent.bytes_mut()[at] = 0;
    }
    assert!(by_hand::check_catalogue(lent.bytes()).is_ok());
}

/// For each number of entries a mark with each of the bits that are no entry's.
#[test]
fn stray_bit_in_a_mark_of_any_size() {
    for entries in 1..=MAX_ENTRIES {
        let unmarked = encode_catalogue(&Catalogue::unmarked(entries, vec![Column::Numbers(vec![0; entries])]));
        let mut mark = vec![0; entries.div_ceil(8)];
        for bit in entries..8 * mark.len() {
            mark[bit / 8] = 1 << (bit % 8);
            let catalogue = [unmarked.as_slice(), &encode_mark(&mark)].concat();
            assert_eq!(searchroom::check_catalogue(&catalogue), Err(Refusal::BadMark), "{entries} entries, bit {bit}");
            assert_eq!(by_hand::check_catalogue(&catalogue), Err(Refusal::BadMark), "{entries} entries, bit {bit}");
        }
    }
}

/// With 64 conditions any further one is too many, whatever else may be wrong with it.
#[test]
fn conditions_after_the_last() {
    let catalogue = encode_catalogue(&Catalogue::unmarked(0, vec![Column::Numbers(Vec::new())]));
    let range = |high: u8| field(80, &[0, 0, 0, 0, 0, 0, 0, 0, 0, high]);
    let most: Vec<u8> = (0..64).flat_map(range).collect();
    for (more, expected) in [
        (Vec::new(), Ok(64)),
        (range(64), Err(Refusal::TooManyConditions)),
        (range(0), Err(Refusal::TooManyConditions)),
        (field(80, &[9, 0]), Err(Refusal::TooManyConditions)),
        (field(65, &[]), Err(Refusal::EmptyGroup)),
        (vec![80], Err(Refusal::QuestionField)),
    ] {
        let question = field(79, &[most.as_slice(), &more].concat());
        assert_eq!(searchroom::check_question(&catalogue, &question), expected, "{more:?}");
        assert_eq!(by_hand::check_question(&catalogue, &question), expected, "{more:?}");
    }
}
