//! `searchroom_copy` against the evaluator and against a run of the same: the word and every byte of the output, accepted
//! and refused. How the fields of one entry follow each other is left open, so no test depends on it.

use evaluator::{Catalogue, Column, Condition, Question, Test, Tree, pack, refused};
use generator::{
    Rng, catalogue_of, encode_catalogue, field, question, question_of, running_order, tree_of, twelve_kinds,
    with_outcomes,
};
use searchroom::{Answer, COPY_BYTES, Look, Refusal, Tally, consult, copy, copy_of, looks, outcome};
use trials::{
    Copying, Damaged, FILL, PARISH_CATALOGUE, PARISH_ORDER, PARISH_QUESTION, Run, Seen, compare_copy, fewer,
    marked_parish, seeds, sizes,
};

/// The parish's looks in the order 0, 1, 2, worked by hand: at 1701 "Ash", at 1822 "ASHBY", at the blanks.
const PARISH_FIELDS: [[u8; 7]; 6] = [
    [76, 0, 4, 0, 0, 0, 1],
    [76, 0, 4, 0, 0, 1, 1],
    [76, 0, 4, 0, 1, 0, 0],
    [76, 0, 4, 0, 1, 2, 0],
    [76, 0, 4, 0, 2, 0, 2],
    [76, 0, 4, 0, 2, 2, 1],
];

/// The parish's copy into so many bytes, by the engine and by the evaluator: the word and the output.
fn parish(order: &[u8], length: usize) -> (u64, Vec<u8>) {
    let output = vec![FILL; length];
    let given = Copying { catalogue: PARISH_CATALOGUE, question: PARISH_QUESTION, order, output: &output };
    let copied = compare_copy(&format!("parish in order {order:?}, output of {length} bytes"), &given);
    (copied.word, copied.output)
}

/// Copies into outputs that are just long enough, longer, and too short. Then holds the copy to a run of the same: it tells
/// each look that the run registers, once, and no other, and each with the outcome that the engine gives by itself. Gives
/// the looks.
fn expect_as_run(label: &str, catalogue: &Catalogue, question: &Question, order: &[u8]) -> Vec<Look> {
    let given = Run::fitting(catalogue, question, order);
    let found = consult(&given.catalogue, &given.question, order, 0, &mut Tally::default()).expect("an accepted run");
    let written = 7 * found.counts().looks as usize;
    for length in [written, written + 5, written.saturating_sub(1)] {
        let expected = if length < written { refused(20) } else { pack(0, 0, written) };
        let copied = compare_copy(label, &given.copying(&vec![FILL; length]));
        assert_eq!(copied.word, expected, "{label}: output of {length} bytes");
    }
    let copied = copy_of(&given.catalogue, &given.question, order).expect("an accepted copy");
    let told: Vec<Look> = looks(&copied).collect();
    assert_eq!((copied.len(), 7 * told.len()), (written, written), "{label}");
    assert!(told.is_sorted_by_key(|look| look.entry), "{label}: the entries do not ascend");
    for condition in 0..order.len() {
        let of_condition = told.iter().filter(|look| usize::from(look.condition) == condition);
        let entries: Vec<usize> = of_condition.map(|look| look.entry.into()).collect();
        assert_eq!(entries, found.looked_at(condition).collect::<Vec<_>>(), "{label}: condition {condition}");
    }
    for look in &told {
        let by_itself = outcome(&given.catalogue, &given.question, look.entry.into(), look.condition.into());
        assert_eq!(by_itself, Ok(look.answer), "{label}: {look:?}");
    }
    told
}

#[test]
fn six_fields_of_the_parish() {
    for further in [0, 1, 7, 100] {
        let expected = [PARISH_FIELDS.concat(), vec![FILL; further]].concat();
        assert_eq!(parish(PARISH_ORDER, 42 + further), (pack(0, 0, 42), expected));
    }
    for length in 0..42 {
        assert_eq!(parish(PARISH_ORDER, length), (refused(20), vec![FILL; length]));
    }
}

/// In the order 2, 1, 0 there are seven looks: all three at entries 0 and 1, and the year's blank settles entry 2.
#[test]
fn parish_in_reverse() {
    let (word, output) = parish(&[2, 1, 0], 50);
    assert_eq!((word, output[49]), (pack(0, 0, 49), FILL));
    assert_eq!(output[42..49], [76, 0, 4, 0, 2, 2, 1]);
    assert_eq!(parish(&[2, 1, 0], 48), (refused(20), vec![FILL; 48]));
}

#[test]
fn wrapper_gives_the_parish_as_values() {
    let mut output = [FILL; 43];
    assert_eq!(copy(PARISH_CATALOGUE, PARISH_QUESTION, PARISH_ORDER, &mut output), Ok(42));
    let copied = copy_of(PARISH_CATALOGUE, PARISH_QUESTION, PARISH_ORDER).expect("an accepted copy");
    let (yes, no, blank) = (Answer::Yes, Answer::No, Answer::Blank);
    for bytes in [&output[..42], &copied] {
        let mut told: Vec<(u16, u8, Answer)> =
            looks(bytes).map(|Look { entry, condition, answer }| (entry, condition, answer)).collect();
        told.sort_by_key(|&(entry, condition, _)| (entry, condition));
        assert_eq!(told, [(0, 0, yes), (0, 1, yes), (1, 0, no), (1, 2, no), (2, 0, blank), (2, 2, yes)]);
    }
    let refused = copy(PARISH_CATALOGUE, PARISH_QUESTION, PARISH_ORDER, &mut output[..41]);
    assert_eq!(refused, Err(Refusal::ShortOutput));
    assert_eq!(copy_of(PARISH_CATALOGUE, PARISH_QUESTION, &[0; 1_000]), Err(Refusal::BadOrder));
    assert_eq!(copy_of(b"", PARISH_QUESTION, PARISH_ORDER), Err(Refusal::CatalogueField));
}

/// Bytes that no copy writes end the looks, and stay to be seen.
#[test]
fn looks_end_before_what_is_no_look() {
    let sound = PARISH_FIELDS[1];
    for (at, byte) in [(0, 75), (0, 77), (1, 1), (2, 3), (2, 5), (6, 3), (6, 255)] {
        let mut other = sound;
        other[at] = byte;
        let bytes = [sound, other, sound].concat();
        let mut read = looks(&bytes);
        assert_eq!((read.by_ref().count(), read.next(), read.rest()), (1, None, &bytes[7..]), "{other:?}");
    }
    let bytes = PARISH_FIELDS.concat();
    for length in 0..=bytes.len() {
        let mut read = looks(&bytes[..length]);
        let whole = length / 7;
        assert_eq!((read.by_ref().count(), read.rest()), (whole, &bytes[7 * whole..length]));
    }
}

/// With no entry there is no look: an output of no bytes is long enough, and a longer one stays.
#[test]
fn no_entries_no_fields() {
    for seed in 0..50 {
        let mut rng = Rng::new(seed);
        let made = catalogue_of(&mut rng, 0, 3);
        let asked = question(&mut rng, &made);
        let order = running_order(&mut rng, asked.conditions.len());
        let given = Run::fitting(&made, &asked, &order);
        for length in [0, 1, 100] {
            let copied = compare_copy("no entries", &given.copying(&vec![FILL; length]));
            assert_eq!((copied.word, copied.output), (pack(0, 0, 0), vec![FILL; length]));
        }
        assert_eq!(copy_of(&given.catalogue, &given.question, &order), Ok(vec![]));
    }
}

#[test]
fn earlier_of_two_refusals_decides() {
    let expect = |number, given: &Copying| {
        assert_eq!(compare_copy(&format!("{number} comes first"), given).word, refused(number));
    };
    let (catalogue, question) = (PARISH_CATALOGUE, PARISH_QUESTION);
    let short = Copying { catalogue, question, order: PARISH_ORDER, output: &[FILL; 41] };
    expect(20, &short);
    for order in [&[0, 1][..], &[], &[0, 1, 1], &[0, 1, 3], &[0, 1, 2, 2], &[0, 1, 2, 3]] {
        expect(15, &Copying { order, ..short });
        expect(15, &Copying { order, output: &[], ..short });
        expect(15, &Copying { order, output: &[FILL; 100], ..short });
    }
    let bad = Copying { order: &[0, 1, 1], output: &[], ..short };
    expect(14, &Copying { question: &[question, &[0]].concat(), ..bad });
    expect(7, &Copying { question: &[80], ..bad });
    expect(23, &Copying { catalogue: &marked_parish(0b1000), question: &[80], ..bad });
    expect(6, &Copying { catalogue: &[catalogue, &[0]].concat(), question: &[80], ..bad });
    expect(1, &Copying { catalogue: &[], question: &[], order: &[], output: &[] });
}

/// Each kind at values and at a blank: the outcome is the condition's own.
#[test]
fn each_kind_and_its_opposite() {
    let (made, kinds) = twelve_kinds();
    let catalogue = encode_catalogue(&made);
    for kind in kinds {
        let (label, question) = (format!("kind {}", kind.number), field(80, &kind.payload));
        let given = Copying { catalogue: &catalogue, question: &question, order: &[0], output: &[FILL; 21] };
        let copied = compare_copy(&label, &given);
        let outcomes = kind.answers.map(|answer| answer.number() as u8);
        let expected = [0, 1, 2].map(|entry| [76, 0, 4, 0, entry, 0, outcomes[usize::from(entry)]]);
        assert_eq!(copied.output, expected.concat(), "{label}");
    }
}

/// Year from 1700 to 1799 and its opposite, on the parish, in both orders: at the blank both answer blank, and in an all-of
/// group the first of them settles it.
#[test]
fn condition_and_its_opposite() {
    let century = [0, 0, 6, 0xA4, 0, 0, 7, 7];
    let members = [0, 128].map(|kind| field(80, &[&[0, kind], century.as_slice()].concat())).concat();
    // The entry, the condition and the outcome of each look.
    type Looks<'a> = &'a [[u8; 3]];
    let cases: [(u8, [u8; 2], Looks); 4] = [
        (79, [0, 1], &[[0, 0, 1], [1, 0, 0], [1, 1, 1], [2, 0, 2], [2, 1, 2]]),
        (79, [1, 0], &[[0, 0, 1], [0, 1, 0], [1, 1, 1], [2, 0, 2], [2, 1, 2]]),
        (65, [0, 1], &[[0, 0, 1], [0, 1, 0], [1, 0, 0], [2, 0, 2]]),
        (65, [1, 0], &[[0, 1, 0], [1, 0, 0], [1, 1, 1], [2, 1, 2]]),
    ];
    for (tag, order, looks) in cases {
        let (label, question) = (format!("group of tag {tag}, order {order:?}"), field(tag, &members));
        let output = vec![FILL; 7 * looks.len()];
        let given = Copying { catalogue: PARISH_CATALOGUE, question: &question, order: &order, output: &output };
        let expected: Vec<[u8; 7]> =
            looks.iter().map(|&[entry, condition, outcome]| [76, 0, 4, 0, entry, condition, outcome]).collect();
        assert_eq!(compare_copy(&label, &given).output, expected.concat(), "{label}");
    }
}

/// All of 32 that are met, and any of 31 that are not or one that is at some entries: each look is due at each entry.
#[test]
fn most_looks_that_there_can_be() {
    let numbers = Column::Numbers((0..2_048).map(|entry| entry % 7).collect());
    let made = Catalogue::unmarked(2_048, vec![numbers]);
    let range = |number: u32| match number {
        0..32 => (0, 6 + number),
        32..63 => (7, number),
        _ => (2, 4),
    };
    let condition = |(low, high)| Condition { column: 0, test: Test::NumberFrom { low, high }, opposite: false };
    let conditions = (0..64).map(|number| condition(range(number))).collect();
    let any = Tree::AnyOf((32..64).map(Tree::Condition).collect());
    let tree = Tree::AllOf((0..32).map(Tree::Condition).chain([any]).collect());
    let order: Vec<u8> = (0..64).collect();
    let given = Run::fitting(&made, &Question { tree, conditions }, &order);
    assert_eq!(COPY_BYTES, 917_504);
    for (length, word) in [(917_504, pack(0, 0, 917_504)), (917_505, pack(0, 0, 917_504)), (917_503, refused(20))] {
        let copied = compare_copy("most looks", &given.copying(&vec![FILL; length]));
        assert_eq!(copied.word, word, "output of {length} bytes");
    }
}

#[test]
fn sizes_around_multiples_of_64() {
    for size in sizes([1, 7, 8, 9, 63, 64, 65, 127, 128, 129, 255, 256, 257, 2_047, 2_048]) {
        for count in [1, 6, 13] {
            let mut rng = Rng::new((100 * size + count) as u64);
            let made = catalogue_of(&mut rng, size, 3);
            let asked = question_of(&mut rng, &made, count, 4);
            let order = running_order(&mut rng, count);
            expect_as_run(&format!("{size} entries, {count} conditions"), &made, &asked, &order);
        }
    }
}

/// One entry for each pattern of up to six outcomes, in trees of every shape the generator makes.
#[test]
fn every_pattern_of_outcomes() {
    for seed in seeds(300) {
        let mut rng = Rng::new(seed);
        let (count, depth) = (rng.between(1, 6), rng.between(1, 6));
        let entries = 1 << count;
        let row = |condition: usize| (0..entries).map(|entry: usize| entry >> condition & 1 == 1).collect();
        let outcomes: Vec<Vec<bool>> = (0..count).map(row).collect();
        let (made, conditions) = with_outcomes(&mut rng, entries, &outcomes);
        let asked = Question { tree: tree_of(&mut rng, count, depth), conditions };
        let order = running_order(&mut rng, count);
        expect_as_run(&format!("every pattern, seed {seed}"), &made, &asked, &order);
    }
}

#[test]
fn random_copies_tell_their_runs() {
    let mut told: Vec<Look> = Vec::new();
    for seed in seeds(1_000) {
        let mut rng = Rng::new(seed);
        let (entries, columns) = (rng.between(0, 40), rng.between(1, 6));
        let made = catalogue_of(&mut rng, entries, columns);
        let asked = question(&mut rng, &made);
        let order = running_order(&mut rng, asked.conditions.len());
        told.extend(expect_as_run(&format!("random copy, seed {seed}"), &made, &asked, &order));
    }
    for answer in Answer::ALL {
        let times = told.iter().filter(|look| look.answer == answer).count();
        assert!(times > told.len() / 10, "{answer:?} was told {times} times in {}", told.len());
    }
}

#[test]
fn random_and_damaged_copies_reach_every_refusal() {
    let mut seen = Seen::none();
    for seed in seeds(30_000) {
        let mut rng = Rng::new(seed);
        let Damaged { catalogue, question, order, entries, conditions } = Damaged::new(&mut rng);
        let most = vec![0; 7 * entries * conditions];
        let fit = (evaluator::copy(&catalogue, &question, &order, &most).word >> 40) as usize;
        let length = match rng.below(10) {
            0 => fit.saturating_sub(1),
            1 => rng.below(fit + 1),
            2..5 => fit + rng.below(9),
            _ => fit,
        };
        let output = rng.bytes(length);
        let given = Copying { catalogue: &catalogue, question: &question, order: &order, output: &output };
        seen.count(compare_copy(&format!("seed {seed}"), &given).word);
    }
    let times = if fewer() { 1 } else { 10 };
    seen.assert_each(0..=15, times);
    seen.assert_each(20..=20, times);
    seen.assert_each(23..=23, times);
}
