//! Order 5, found with or without the accent, by every call that works conditions out: cases with their answers written out,
//! and operands at each place of a text.

use evaluator::{Catalogue, Column, Condition, Question, Test, Tree, pack, refused};
use generator::{Rng, alike, encode_catalogue, encode_question, field, latin_1};
use searchroom::{Answer, Tally, consult, copy_of, looks, outcome};
use trials::{
    Run, compare_condition, compare_copy, compare_outcome, compare_question, compare_reading, compare_run, fewer, ones,
};

const KINDS: [fn(Vec<u8>) -> Test; 3] = [Test::Equals, Test::BeginsWith, Test::Contains];

/// The first five are "Andre" but for case and accents, the first seven begin with it, the first ten contain it.
const NAMES: [&str; 15] = [
    "Andre",
    "ANDRE",
    "André",
    "ANDRÉ",
    "ãÑdRê",
    "Andrew",
    "ANDRÉE",
    "Saint-André",
    "SAINT-ANDRE",
    "St. Andrews",
    "Andr",
    "Andrø",
    "Andræ",
    "Andr-e",
    "",
];

/// The letters that have accented forms, each with these, small and capital.
const ACCENTED: [&str; 8] =
    ["AaÀÁÂÃÄÅàáâãäå", "CcÇç", "EeÈÉÊËèéêë", "IiÌÍÎÏìíîï", "NnÑñ", "OoÒÓÔÕÖòóôõö", "UuÙÚÛÜùúûü", "YyÝýÿ"];

/// Letters and signs beside them in ISO/IEC 8859-1 that are no other letter with an accent.
const OTHERS: [&str; 7] = ["Ææ", "Ðð", "Øø", "Þþ", "×", "ß", "÷"];

/// So many entries that some blocks of 64 are full and one is not, at which the names stand in turn.
fn in_turn(names: &[impl AsRef<str>]) -> Catalogue {
    let entries = names.len() + 100;
    let texts = names.iter().cycle().take(entries).map(|name| latin_1(name.as_ref())).collect();
    Catalogue::unmarked(entries, vec![Column::Texts(texts)])
}

/// The question of one condition on column 0.
fn bare(test: Test) -> Question {
    Question { tree: Tree::Condition(0), conditions: vec![Condition { column: 0, test, opposite: false }] }
}

/// The names that a condition finds. Its runs and copies must be the evaluator's, and what it and its opposite list must be
/// where the engine answers yes and no by itself.
fn found<T: AsRef<str>>(names: &[T], test: Test) -> Vec<&str> {
    let made = in_turn(names);
    let (catalogue, question) = (encode_catalogue(&made), encode_question(&bare(test.clone())));
    let answers: Vec<_> = (0..made.entries).map(|entry| outcome(&catalogue, &question, entry as u64, 0)).collect();
    let answered = |answer| (0..made.entries).filter(|&entry| answers[entry] == Ok(answer)).collect::<Vec<_>>();
    let listed = compare_condition(&mut Rng::new(5), "accents", made.columns[0].clone(), test);
    assert_eq!(listed, [Answer::Yes, Answer::No].map(answered));
    listed[0].iter().map_while(|&entry| names.get(entry)).map(AsRef::as_ref).collect()
}

#[test]
fn andre_is_found_with_or_without_the_accent() {
    for name in &NAMES[..5] {
        for (kind, count) in KINDS.into_iter().zip([5, 7, 10]) {
            let test = kind(latin_1(name));
            assert_eq!(found(&NAMES, test.clone()), NAMES[..count], "{name}, {test:?}");
        }
    }
}

#[test]
fn parts_of_names_with_or_without_the_accent() {
    let (begins, contains) = (KINDS[1], KINDS[2]);
    for (kind, part, expected) in [
        (begins, "andr", [&NAMES[..7], &NAMES[10..14]].concat()),
        (begins, "ÀÑ", [&NAMES[..7], &NAMES[10..14]].concat()),
        (begins, "ANDRÉE", vec!["ANDRÉE"]),
        (begins, "sãîñt-ä", vec!["Saint-André", "SAINT-ANDRE"]),
        (begins, "Andrö", vec!["Andrø"; 0]),
        (contains, "ndre", NAMES[..10].to_vec()),
        (contains, "NDRÉ", NAMES[..10].to_vec()),
        (contains, "é", [&NAMES[..10], &["Andr-e"]].concat()),
        (contains, "t-ándr", vec!["Saint-André", "SAINT-ANDRE"]),
        (contains, "ëw", vec!["Andrew", "St. Andrews"]),
        (contains, "Ø", vec!["Andrø"]),
        (contains, "rÆ", vec!["Andræ"]),
        (contains, "ae", vec![]),
    ] {
        assert_eq!(found(&NAMES, kind(latin_1(part))), expected, "{part}");
    }
}

/// Each letter finds itself and the others of its group, and none of the other bytes: alone, as the second byte, as the third.
fn expect_groups(groups: &[&str]) {
    for before in ["", "k", "kt"] {
        let names: Vec<String> = (0..=255).map(|byte| format!("{before}{}", char::from(byte))).collect();
        for group in groups {
            let forms: Vec<String> = group.chars().map(|letter| format!("{before}{letter}")).collect();
            for form in &forms {
                for test in KINDS.map(|kind| kind(latin_1(form))) {
                    assert_eq!(found(&names, test.clone()), forms, "{form}, {test:?}");
                }
            }
        }
    }
}

#[test]
fn letters_find_their_accented_forms() {
    expect_groups(&ACCENTED);
}

#[test]
fn other_letters_find_themselves_alone() {
    expect_groups(&OTHERS);
}

/// Neither a condition nor its opposite is met at the blank, with an accent or without.
#[test]
fn opposites_and_blanks_as_before() {
    use Answer::{Blank, No, Yes};
    let made = in_turn(&["ANDRÉ", "Andre", "Audrey", ""]);
    let catalogue = encode_catalogue(&made);
    for operand in ["André", "andre"] {
        for (kind, operand, answers) in [
            (2, operand, [Yes, Yes, No, Blank]),
            (130, operand, [No, No, Yes, Blank]),
            (3, operand, [Yes, Yes, No, Blank]),
            (131, operand, [No, No, Yes, Blank]),
            (4, &operand[1..], [Yes, Yes, No, Blank]),
            (132, operand, [No, No, Yes, Blank]),
            (5, "", [No, No, No, Yes]),
            (133, "", [Yes, Yes, Yes, No]),
        ] {
            let question = field(80, &[&[0, kind], latin_1(operand).as_slice()].concat());
            let copied = copy_of(&catalogue, &question, &[0]).expect("an accepted copy");
            let told: Vec<Answer> = looks(&copied).map(|look| look.answer).collect();
            let expected: Vec<Answer> = answers.into_iter().cycle().take(made.entries).collect();
            assert_eq!(told, expected, "kind {kind}, {operand}");
            for (entry, answer) in answers.into_iter().enumerate() {
                let word = compare_outcome("opposites and blanks", &catalogue, &question, entry as u64, 0);
                assert_eq!(word, pack(answer.number().into(), 0, 0), "kind {kind}, {operand}, entry {entry}");
            }
        }
    }
}

/// A group of two conditions: the name is "André", the name is this.
fn andre_and(name: &str, group: fn(Vec<Tree>) -> Tree) -> Question {
    let condition = |name| Condition { column: 0, test: Test::Equals(latin_1(name)), opposite: false };
    let tree = group(vec![Tree::Condition(0), Tree::Condition(1)]);
    Question { tree, conditions: vec![condition("André"), condition(name)] }
}

/// Refusal 13 compares bytes as they are given: operands that find the same are two conditions, and each has its own looks.
#[test]
fn two_conditions_that_differ_by_an_accent() {
    let made = in_turn(&["Andre", "André", "ANDRÉ", "Kirk", ""]);
    // Of 105 entries 63 are Andre: all-of looks a second time at these, any-of at the others.
    for (question, again) in [(andre_and("Andre", Tree::AllOf), 63), (andre_and("Andre", Tree::AnyOf), 42)] {
        for order in [[0, 1], [1, 0]] {
            let (label, given) = (format!("{question:?} in order {order:?}"), Run::fitting(&made, &question, &order));
            let (looks, ran) = (105 + again, compare_run(&label, &given));
            let of_each: Vec<u64> = ran.looks.chunks(14).map(ones).collect();
            assert_eq!(ran.word, pack(63, 0, looks), "{label}");
            assert_eq!(order.map(|number| of_each[usize::from(number)]), [105, again as u64], "{label}");
            let copied = compare_copy(&label, &given.copying(&vec![0; 7 * looks]));
            assert_eq!(copied.word, pack(0, 0, 7 * looks), "{label}");
            assert_eq!(compare_question(&label, &given.catalogue, &given.question), pack(2, 0, 0), "{label}");
        }
    }
}

#[test]
fn same_condition_twice_is_refused() {
    let made = in_turn(&NAMES);
    for question in [Tree::AllOf, Tree::AnyOf].map(|group| andre_and("André", group)) {
        let given = Run::fitting(&made, &question, &[0, 1]);
        assert_eq!(compare_question("twice", &given.catalogue, &given.question), refused(13));
        assert_eq!(compare_outcome("twice", &given.catalogue, &given.question, 0, 0), refused(13));
        assert_eq!(compare_run("twice", &given).word, refused(13));
        assert_eq!(compare_copy("twice", &given.copying(&[])).word, refused(13));
    }
}

#[test]
fn typed_with_or_without_the_accent() {
    let made = in_turn(&NAMES);
    let numbers = Column::Numbers(vec![0; made.entries]);
    let catalogue = encode_catalogue(&Catalogue { columns: vec![numbers, made.columns[0].clone()], ..made });
    let found = |text: &str| {
        let question = compare_reading(&catalogue, text).expect("an accepted text");
        let found = consult(&catalogue, &question, &[0], 0, &mut Tally::default()).expect("an accepted run");
        found.listed().map_while(|entry| NAMES.get(entry)).copied().collect::<Vec<_>>()
    };
    for name in ["Andre", r"Andr\E9", r"ANDR\C9", r"\E0\F1dre"] {
        assert_eq!(found(&format!(r#"c1 is "{name}""#)), NAMES[..5]);
        assert_eq!(found(&format!(r#"c1 starts "{name}""#)), NAMES[..7]);
        assert_eq!(found(&format!(r#"c1 has "{name}""#)), NAMES[..10]);
        assert_eq!(found(&format!(r#"not c1 has "{name}""#)), NAMES[10..14]);
    }
    let any = |second: &str| compare_reading(&catalogue, format!(r#"any(c1 is "Andr\E9",c1 is "{second}")"#));
    assert_eq!(any("Andre").map(|question| question.len()), Ok(23));
    assert_eq!(any(r"Andr\E9"), Err(13));
}

/// Runs a condition of each kind over a block of 64 entries and one of 63. Their texts have the operand at each place in turn,
/// its letters in any case and with any accent, then the same with one letter changed, and so on: contains finds the former.
fn compare_at_each_place(rng: &mut Rng, operand: &[u8]) {
    const ENTRIES: usize = 127;
    let places = 24 - operand.len();
    let is_changed = |entry: usize| entry / places % 2 == 1;
    let text = |entry: usize| {
        let mut part: Vec<u8> = operand.iter().map(|&byte| *rng.pick(alike(byte))).collect();
        let at = rng.below(part.len());
        while is_changed(entry) && alike(operand[at]).contains(&part[at]) {
            part[at] = rng.byte();
        }
        let before = entry % places;
        [vec![b'.'; before], part, vec![b'.'; rng.below(places - before)]].concat()
    };
    let made = Catalogue::unmarked(ENTRIES, vec![Column::Texts((0..ENTRIES).map(text).collect())]);
    let [_, _, contains] = KINDS.map(|kind| {
        let given = Run::fitting(&made, &bare(kind(operand.to_vec())), &[0]);
        compare_run("at each place", &given).listed
    });
    let is_listed = |entry: usize| contains[entry / 8] >> (entry % 8) & 1 == 1;
    assert!((0..ENTRIES).all(|entry| is_listed(entry) != is_changed(entry)), "{operand:?}");
}

/// Operands of every length whose letters all have accented forms, or all but one or two, in every way: where those stand may
/// decide by which of its letters the engine seeks an operand. A place past the end is none.
#[test]
fn operands_at_each_place_of_a_text() {
    let mut rng = Rng::new(5);
    for length in (1..=23).step_by(if fewer() { 11 } else { 1 }) {
        for first in 0..=length {
            for second in first..=length {
                let letter = |place| {
                    let without = place == first || place == second;
                    let letter = *rng.pick(if without { b"bdfghjklmpqrstvwxz".as_slice() } else { b"aceinouy" });
                    *rng.pick(alike(letter))
                };
                let operand: Vec<u8> = (0..length).map(letter).collect();
                compare_at_each_place(&mut rng, &operand);
            }
        }
    }
}
