//! `searchroom_outcome` against the evaluator: every kind, every byte value, and every number out of range.

use evaluator::{Catalogue, Column, Condition, Question, Test, Tree, outcome, pack, refused};
use generator::{Rng, catalogue_of, encode_catalogue, encode_question, field, question, twelve_kinds};
use searchroom::{Answer, Refusal};
use trials::{PARISH_CATALOGUE, PARISH_QUESTION, Seen, compare_outcome, damage_some, damaged_catalogue, marked_parish};

const NO: u64 = 0;
const YES: u64 = 1 << 8;
const BLANK: u64 = 2 << 8;

/// A catalogue of one column.
fn one_column(column: Column) -> Catalogue {
    let entries = match &column {
        Column::Numbers(numbers) => numbers.len(),
        Column::Texts(texts) => texts.len(),
    };
    Catalogue::unmarked(entries, vec![column])
}

/// A question of one condition on column 0.
fn bare(test: Test, opposite: bool) -> Question {
    Question { tree: Tree::Condition(0), conditions: vec![Condition { column: 0, test, opposite }] }
}

/// Works out the question's conditions at every entry, by the engine and by the evaluator.
fn compare_everywhere(label: &str, catalogue: &Catalogue, question: &Question) {
    let (bytes, asked) = (encode_catalogue(catalogue), encode_question(question));
    for (number, condition) in question.conditions.iter().enumerate() {
        for entry in 0..catalogue.entries {
            let expected = pack(outcome(catalogue, condition, entry).number(), 0, 0);
            let word = searchroom::raw::outcome(&bytes, &asked, entry as u64, number as u64).0;
            assert_eq!(word, expected, "{label}: entry {entry} of {catalogue:?}, condition {number} of {question:?}");
        }
    }
}

#[test]
fn parish_in_full() {
    let expected = [[YES, NO, BLANK], [YES, YES, BLANK], [NO, NO, YES]];
    for (condition, row) in expected.iter().enumerate() {
        for (entry, &word) in row.iter().enumerate() {
            let (entry, condition) = (entry as u64, condition as u64);
            assert_eq!(compare_outcome("parish", PARISH_CATALOGUE, PARISH_QUESTION, entry, condition), word);
        }
    }
    assert_eq!(searchroom::outcome(PARISH_CATALOGUE, PARISH_QUESTION, 0, 0), Ok(Answer::Yes));
    assert_eq!(searchroom::outcome(PARISH_CATALOGUE, PARISH_QUESTION, 1, 0), Ok(Answer::No));
    assert_eq!(searchroom::outcome(PARISH_CATALOGUE, PARISH_QUESTION, 2, 1), Ok(Answer::Blank));
    assert_eq!(searchroom::outcome(PARISH_CATALOGUE, PARISH_QUESTION, 3, 0), Err(Refusal::NoSuchPlace));
}

#[test]
fn each_kind_at_values_and_at_a_blank() {
    let (made, kinds) = twelve_kinds();
    let catalogue = encode_catalogue(&made);
    for kind in kinds {
        let (label, question) = (format!("kind {}", kind.number), field(80, &kind.payload));
        let words = [0, 1, 2].map(|entry| compare_outcome(&label, &catalogue, &question, entry, 0));
        assert_eq!(words, kind.answers.map(|answer| pack(answer.number(), 0, 0)), "{label}");
    }
}

/// An out-of-range number is 18 even where its low bits, cut to some width, would be in range.
#[test]
fn no_such_entry_or_condition() {
    let beyond: Vec<u64> = [3, 4, 255, 1 << 63, u64::MAX, u64::MAX - 1]
        .into_iter()
        .chain([8, 16, 24, 32, 48, 56].into_iter().flat_map(|bits| [1 << bits, (1 << bits) + 2]))
        .collect();
    for &number in &beyond {
        for (entry, condition) in [(number, 0), (0, number), (number, number), (2, number), (number, 2)] {
            let word = compare_outcome("out of range", PARISH_CATALOGUE, PARISH_QUESTION, entry, condition);
            assert_eq!(word, refused(18), "entry {entry}, condition {condition}");
        }
    }
    let nobody = [67, 0, 3, 0, 0, 1, 78, 0, 0];
    assert_eq!(compare_outcome("no entries", &nobody, &field(80, &[0, 1]), 0, 0), refused(18));
}

#[test]
fn last_entry_and_last_condition() {
    let mut rng = Rng::new(3);
    let numbers = (0..2_048).map(|_| rng.below(100) as u32).collect();
    let catalogue = one_column(Column::Numbers(numbers));
    let condition = |high| Condition { column: 0, test: Test::NumberFrom { low: 10, high }, opposite: high % 2 == 0 };
    let conditions = (10..74).map(condition).collect::<Vec<_>>();
    let question = Question { tree: Tree::AllOf((0..64).map(Tree::Condition).collect()), conditions };
    let (bytes, asked) = (encode_catalogue(&catalogue), encode_question(&question));
    for entry in [0, 1, 7, 8, 2_046, 2_047, 2_048] {
        for condition in [0, 1, 31, 32, 62, 63, 64] {
            let word = compare_outcome("2,048 entries, 64 conditions", &bytes, &asked, entry, condition);
            assert_eq!(word == refused(18), entry == 2_048 || condition == 64);
        }
    }
}

#[test]
fn earlier_refusals_come_before_18() {
    let far = u64::MAX;
    assert_eq!(compare_outcome("no catalogue", b"", PARISH_QUESTION, far, far), refused(1));
    assert_eq!(compare_outcome("stray bit in the mark", &marked_parish(0b1000), b"", far, far), refused(23));
    assert_eq!(compare_outcome("no question", PARISH_CATALOGUE, b"", far, far), refused(7));
    let over = [PARISH_QUESTION, &[0]].concat();
    assert_eq!(compare_outcome("bytes left over", PARISH_CATALOGUE, &over, far, far), refused(14));
}

#[test]
fn proved_case_4_and_ranges_at_their_ends() {
    let most = u32::MAX - 1;
    let numbers = vec![0, 1, 255, 256, 1_699, 1_700, 1_799, 1_800, 65_535, 65_536, 1 << 31, most - 1, most, u32::MAX];
    let catalogue = one_column(Column::Numbers(numbers.clone()));
    for &low in numbers.iter().filter(|&&low| low <= most) {
        for &high in numbers.iter().filter(|&&high| low <= high && high <= most) {
            for opposite in [false, true] {
                let question = bare(Test::NumberFrom { low, high }, opposite);
                compare_everywhere(&format!("{low} to {high}"), &catalogue, &question);
            }
        }
    }
    for opposite in [false, true] {
        compare_everywhere("number blank", &catalogue, &bare(Test::NumberBlank, opposite));
    }
    let asked = |kind| field(80, &[&[0, kind], [0, 0, 6, 0xA4, 0, 0, 7, 7].as_slice()].concat());
    let years = encode_catalogue(&one_column(Column::Numbers(vec![1_699, 1_700, 1_799, 1_800, u32::MAX])));
    let words = |kind| [0, 1, 2, 3, 4].map(|entry| compare_outcome("P4", &years, &asked(kind), entry, 0));
    assert_eq!(words(0), [NO, YES, YES, NO, BLANK]);
    assert_eq!(words(128), [YES, NO, NO, YES, BLANK]);
}

#[test]
fn proved_case_5_by_is_in_ashby() {
    let catalogue = encode_catalogue(&one_column(Column::Texts(vec![b"ASHBY".to_vec(), b"B".to_vec()])));
    let question = encode_question(&bare(Test::Contains(b"by".to_vec()), false));
    assert_eq!(compare_outcome("P5", &catalogue, &question, 0, 0), YES);
    assert_eq!(compare_outcome("P5", &catalogue, &question, 1, 0), NO);
}

/// All 256 byte values as text against all 256 as operand.
#[test]
fn every_pair_of_bytes() {
    let catalogue = one_column(Column::Texts((0..=255).map(|byte| vec![byte]).collect()));
    for operand in 0..=255 {
        for (test, opposite) in [
            (Test::Equals(vec![operand]), false),
            (Test::BeginsWith(vec![operand]), true),
            (Test::Contains(vec![operand]), false),
        ] {
            compare_everywhere(&format!("operand {operand}"), &catalogue, &bare(test, opposite));
        }
    }
}

/// An operand of each length at each place of a text of each length, and the same with one byte of it not fitting.
#[test]
fn every_place_of_a_text() {
    let text = |length: usize| (0..length).map(|at| b'A' + at as u8).collect::<Vec<_>>();
    let catalogue = one_column(Column::Texts((0..=23).map(text).collect()));
    for start in 0..23 {
        for length in 1..=23 - start {
            let operand = text(23)[start..start + length].to_ascii_lowercase();
            let mut spoilt = operand.clone();
            spoilt[(start + length) % length] = b'?';
            for operand in [operand, spoilt] {
                let label = format!("{length} bytes from {start}");
                compare_everywhere(&label, &catalogue, &bare(Test::Contains(operand.clone()), false));
                if start == 0 {
                    compare_everywhere(&label, &catalogue, &bare(Test::BeginsWith(operand.clone()), false));
                    compare_everywhere(&label, &catalogue, &bare(Test::Equals(operand), false));
                }
            }
        }
    }
}

/// Contains where a try fails late and the next must start inside it, and zeros as text beside zeros as padding.
#[test]
fn repeats_and_zeros() {
    let texts: [&[u8]; 9] = [b"", b"\0", b"\0\0", b"aab", b"aaab", b"abaababaab", b"a\0", b"\0a", &[0; 23]];
    let catalogue = one_column(Column::Texts(texts.iter().map(|text| text.to_vec()).collect()));
    for operand in [b"\0".as_slice(), b"\0\0", b"aab", b"ab", b"abab", b"a\0", b"\0a", b"b", &[0; 22], &[0; 23]] {
        for opposite in [false, true] {
            for test in [Test::Equals, Test::BeginsWith, Test::Contains].map(|test| test(operand.to_vec())) {
                compare_everywhere("repeats", &catalogue, &bare(test, opposite));
            }
        }
    }
    for opposite in [false, true] {
        compare_everywhere("text blank", &catalogue, &bare(Test::TextBlank, opposite));
    }
}

#[test]
fn random_conditions_everywhere() {
    for seed in 0..1_500 {
        let mut rng = Rng::new(seed);
        let (entries, columns) = (rng.between(0, 12), rng.between(1, 6));
        let made = catalogue_of(&mut rng, entries, columns);
        let asked = question(&mut rng, &made);
        compare_everywhere(&format!("seed {seed}"), &made, &asked);
    }
}

/// How often each answer came, so that the comparison is not of refusals and noes alone.
#[test]
fn random_calls_reach_every_refusal() {
    let mut seen = Seen::none();
    let (mut yes, mut blank) = (0, 0);
    for seed in 0..40_000 {
        let mut rng = Rng::new(seed);
        let (entries, columns) = (rng.between(1, 6), rng.between(1, 4));
        let made = catalogue_of(&mut rng, entries, columns);
        let catalogue = damaged_catalogue(&mut rng, &made, 10);
        let faults = *rng.pick(&[0, 0, 5, 10]);
        let mut asked = generator::faulty_question(&mut rng, &made, faults);
        damage_some(&mut rng, &mut asked, 20);
        let (entry, condition) = (rng.below(entries + 1) as u64, rng.below(4) as u64);
        let word = compare_outcome(&format!("seed {seed}"), &catalogue, &asked, entry, condition);
        seen.count(word);
        yes += u32::from(word == YES);
        blank += u32::from(word == BLANK);
    }
    seen.assert_each(0..=14, 20);
    seen.assert_each(18..=18, 20);
    seen.assert_each(23..=23, 20);
    assert!(yes > 1_000 && blank > 1_000, "{yes} calls answered yes, {blank} blank");
}
