//! The evaluator's own reading of one condition, held to document 01's cases and to other ways of saying the same.

use evaluator::{Answer, BLANK_NUMBER, Catalogue, Column, Condition, Test, fold, outcome, read_condition};
use generator::{latin_1, plain_letter, twelve_kinds};

fn years(numbers: &[u32]) -> Catalogue {
    Catalogue::unmarked(numbers.len(), vec![Column::Numbers(numbers.to_vec())])
}

fn parishes(texts: &[&[u8]]) -> Catalogue {
    Catalogue::unmarked(texts.len(), vec![Column::Texts(texts.iter().map(|text| text.to_vec()).collect())])
}

/// The outcome at entry 0 of the condition with this kind and operand on column 0.
fn at_first(catalogue: &Catalogue, kind: u8, operand: &[u8]) -> Answer {
    let payload = [&[0, kind], operand].concat();
    outcome(catalogue, &read_condition(catalogue, &payload).expect("a sound payload"), 0)
}

fn yes(catalogue: &Catalogue, kind: u8, operand: &[u8]) -> bool {
    at_first(catalogue, kind, operand) == Answer::Yes
}

fn range(low: u32, high: u32) -> Vec<u8> {
    [low.to_be_bytes(), high.to_be_bytes()].concat()
}

#[test]
fn proved_case_3_folding() {
    assert_eq!([65, 215, 222, 255].map(fold), [97, 215, 254, 121]);
}

#[test]
fn fold_is_lower_case_without_the_accent() {
    for byte in 0..=255 {
        assert_eq!(char::from(fold(byte)), plain_letter(byte), "byte {byte}");
    }
}

#[test]
fn proved_case_4_years_of_a_century() {
    let century = range(1_700, 1_799);
    let (no, yes, blank) = (Answer::No, Answer::Yes, Answer::Blank);
    for (year, inside, outside) in
        [(1_699, no, yes), (1_700, yes, no), (1_799, yes, no), (1_800, no, yes), (BLANK_NUMBER, blank, blank)]
    {
        assert_eq!(at_first(&years(&[year]), 0, &century), inside, "{year}");
        assert_eq!(at_first(&years(&[year]), 128, &century), outside, "opposite at {year}");
    }
}

#[test]
fn ranges_at_their_ends() {
    let most = BLANK_NUMBER - 1;
    for (low, high, number, inside) in [
        (0, 0, 0, true),
        (0, 0, 1, false),
        (0, most, 0, true),
        (0, most, most, true),
        (0, most, BLANK_NUMBER, false),
        (most, most, most, true),
        (most, most, most - 1, false),
        (1, most, 0, false),
        (256, 256, 1, false),
        (0x0102_0304, 0x0102_0304, 0x0102_0304, true),
        (0x0102_0304, 0x0102_0304, 0x0403_0201, false),
    ] {
        assert_eq!(yes(&years(&[number]), 0, &range(low, high)), inside, "{number} in {low} to {high}");
    }
}

#[test]
fn proved_case_5_by_is_in_ashby() {
    assert!(yes(&parishes(&[b"ASHBY"]), 4, b"by"));
    assert!(!yes(&parishes(&[b"B"]), 4, b"by"));
}

#[test]
fn texts_up_to_folding() {
    let ashby = parishes(&[b"ASHBY"]);
    for (kind, operand, expected) in [
        (2, b"ashby".as_slice(), true),
        (2, b"ashb", false),
        (2, b"ashby ", false),
        (3, b"ash", true),
        (3, b"ashby", true),
        (3, b"ashbys", false),
        (3, b"shby", false),
        (4, b"AsHbY", true),
        (4, b"shb", true),
        (4, b"y", true),
        (4, b"by ", false),
        (4, b"ab", false),
    ] {
        assert_eq!(yes(&ashby, kind, operand), expected, "kind {kind}, {operand:?}");
    }
    assert!(!yes(&parishes(&[b"\xD7"]), 2, b"\xF7"), "215 is unchanged");
    assert!(!yes(&parishes(&[b"\xDF"]), 2, b"\xFF"), "223 is unchanged");
    assert!(yes(&parishes(&[b"a\0b"]), 4, b"\0B"), "a zero is a byte like any other");
}

#[test]
fn found_with_or_without_the_accent() {
    for name in ["Andre", "ANDRE", "André", "ANDRÉ"].map(latin_1) {
        let catalogue = parishes(&[&name]);
        for (kind, operand, expected) in [
            (2, "Andre", true),
            (2, "andré", true),
            (2, "ANDRÉ", true),
            (2, "Andræ", false),
            (3, "Âñd", true),
            (3, "ndré", false),
            (4, "ndrê", true),
            (4, "é", true),
            (4, "ø", false),
        ] {
            assert_eq!(yes(&catalogue, kind, &latin_1(operand)), expected, "kind {kind}, {operand} in {name:?}");
        }
    }
}

#[test]
fn each_kind_at_values_and_at_a_blank() {
    let (catalogue, kinds) = twelve_kinds();
    for kind in kinds {
        let condition = read_condition(&catalogue, &kind.payload).expect("a sound payload");
        let answers = [0, 1, 2].map(|entry| outcome(&catalogue, &condition, entry));
        assert_eq!(answers, kind.answers, "kind {}", kind.number);
    }
}

/// The number below the blank's and a text of one zero are values: a condition or its opposite is met.
#[test]
fn values_that_are_nearly_blank() {
    let (number, text) = (years(&[BLANK_NUMBER - 1]), parishes(&[b"\0"]));
    for opposite in [0, 128] {
        let met = opposite != 0;
        assert_eq!(yes(&number, opposite, &range(0, 1)), met);
        assert_eq!(yes(&number, 1 + opposite, b""), met);
        for kind in 2..=4 {
            assert_eq!(yes(&text, kind + opposite, b"a"), met, "kind {kind}");
        }
        assert_eq!(yes(&text, 5 + opposite, b""), met);
    }
}

#[test]
fn run_takes_blank_as_no() {
    assert_eq!([Answer::No, Answer::Yes, Answer::Blank].map(Answer::truth), [false, true, false]);
}

/// Every byte value as the whole text and as the whole operand: the three text kinds are then all equality up to case and
/// accent.
#[test]
fn every_pair_of_bytes() {
    for text in 0..=255_u8 {
        let catalogue = parishes(&[&[text]]);
        for operand in 0..=255_u8 {
            let same = plain_letter(text) == plain_letter(operand);
            for kind in 2..=4 {
                assert_eq!(yes(&catalogue, kind, &[operand]), same, "kind {kind}, text {text}, operand {operand}");
                assert_eq!(yes(&catalogue, kind + 128, &[operand]), !same, "opposite of kind {kind}");
            }
        }
    }
}

/// Over all texts up to five bytes of a small alphabet, contains is what Rust's own search finds.
#[test]
fn contains_as_rust_finds_it() {
    let words = |most: usize| {
        let mut all = vec![String::new()];
        for from in 0.. {
            let Some(word) = all.get(from).filter(|word| word.len() < most).cloned() else { break };
            all.extend(["a", "B"].map(|letter| format!("{word}{letter}")));
        }
        all
    };
    for text in words(5) {
        let catalogue = parishes(&[text.as_bytes()]);
        for operand in words(4).iter().filter(|operand| !operand.is_empty()) {
            let (upper, lower) = (operand.to_uppercase(), text.to_lowercase());
            let operand = operand.to_lowercase();
            assert_eq!(yes(&catalogue, 4, upper.as_bytes()), lower.contains(&operand), "{operand} in {text}");
            assert_eq!(yes(&catalogue, 3, upper.as_bytes()), lower.starts_with(&operand), "{text} begins {operand}");
            assert_eq!(yes(&catalogue, 2, upper.as_bytes()), lower == operand, "{text} is {operand}");
        }
    }
}

#[test]
fn payloads_that_are_refused() {
    let catalogue = Catalogue::unmarked(0, vec![Column::Numbers(vec![]), Column::Texts(vec![])]);
    let refused = |payload: &[u8]| assert_eq!(read_condition(&catalogue, payload), Err(11), "{payload:?}");
    refused(&[]);
    refused(&[0]);
    refused(&[2, 1]);
    refused(&[255, 1]);
    for kind in [6, 127, 134, 255] {
        refused(&[0, kind]);
        refused(&[1, kind]);
    }
    for kind in [0, 128] {
        let head = |operand: &[u8]| [&[0, kind], operand].concat();
        refused(&head(&range(1, 0)));
        refused(&head(&range(0, BLANK_NUMBER)));
        refused(&head(&range(BLANK_NUMBER, BLANK_NUMBER)));
        refused(&head(&range(0, 1)[..7]));
        refused(&head(&[range(0, 1), vec![0]].concat()));
        refused(&head(&[]));
        refused(&[&[1, kind], range(0, 1).as_slice()].concat());
    }
    for kind in [1, 129] {
        refused(&[0, kind, 0]);
        refused(&[1, kind]);
    }
    for kind in [2, 3, 4, 130, 131, 132] {
        refused(&[1, kind]);
        refused(&[&[1, kind], [b'a'; 24].as_slice()].concat());
        refused(&[0, kind, b'a']);
    }
    for kind in [5, 133] {
        refused(&[1, kind, 0]);
        refused(&[0, kind]);
    }
}

#[test]
fn payloads_that_are_accepted() {
    let catalogue = Catalogue::unmarked(0, vec![Column::Numbers(vec![]), Column::Texts(vec![])]);
    let read = |payload: &[u8]| read_condition(&catalogue, payload).expect("a sound payload");
    let condition = |column, test, opposite| Condition { column, test, opposite };
    let (low, high) = (BLANK_NUMBER - 1, BLANK_NUMBER - 1);
    for (bit, opposite) in [(0, false), (128, true)] {
        let payload = [&[0, bit], range(low, high).as_slice()].concat();
        assert_eq!(read(&payload), condition(0, Test::NumberFrom { low, high }, opposite));
        assert_eq!(read(&[0, bit + 1]), condition(0, Test::NumberBlank, opposite));
        assert_eq!(read(&[1, bit + 2, 0]), condition(1, Test::Equals(vec![0]), opposite));
        assert_eq!(read(&[1, bit + 3, b'a']), condition(1, Test::BeginsWith(vec![b'a']), opposite));
        let payload = [&[1, bit + 4], [255; 23].as_slice()].concat();
        assert_eq!(read(&payload), condition(1, Test::Contains(vec![255; 23]), opposite));
        assert_eq!(read(&[1, bit + 5]), condition(1, Test::TextBlank, opposite));
    }
}
