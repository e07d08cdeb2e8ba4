//! What is said where a question is refused: the engine's number and text, and the place in the question.

mod desk {
    pub mod parish;
    pub mod room;
}

use desk::parish::{QUESTION, imported, parish};
use desk::room::{Room, Said};
use evaluator::{read_catalogue, read_typed};
use generator::{Misspelling, Rng, encode_mark, field, misspell, question};
use searchroom::Refusal;

const PARISH_CATALOGUE: &[u8] = include_bytes!("../../../examples/parish/catalogue.bin");

/// The first line of what is said of a refusal.
fn first_line(number: u8) -> String {
    format!("searchroom: refused {number}: {}", Refusal::from_number(number).expect("a refusal").text())
}

/// Asks the parish with these words, which must be refused with this number; gives the lines after the first.
fn refused(room: &Room, words: &[&str], number: u8) -> Vec<String> {
    let said = room.run(&[&["ask", "parish"], words].concat()).failed(1);
    let mut lines = said.lines().map(str::to_owned);
    assert_eq!(lines.next(), Some(first_line(number)), "{:.200}", format!("{words:?}"));
    lines.collect()
}

/// The question is shown as it stands, with a caret under the letter of this number; gives what stands behind the caret.
fn caret(room: &Room, question: &str, number: u8, place: usize) -> String {
    let lines = refused(room, &[question], number);
    assert_eq!(lines.first(), Some(&format!("  {question}")), "{lines:?}");
    let told = lines.get(1).and_then(|line| line.split_once("^ ")).unwrap_or_else(|| panic!("{question}: {lines:?}"));
    assert!(told.0.chars().all(|letter| letter == ' '), "{question}: {lines:?}");
    assert_eq!(told.0.len().checked_sub(2), Some(place), "{question}: the caret's place\n{}", lines.join("\n"));
    told.1.to_owned()
}

#[test]
fn misspelling_of_the_specification() {
    let question = r#"all(year in 1700..1799; parish starts "ash")"#;
    let expected = format!("{}\n  {question}\n  {}^ expected `,` or `)`\n", first_line(21), " ".repeat(22));
    assert_eq!(parish().run(&["ask", "parish", question]).failed(1), expected);
}

/// Questions that cannot be read any further than to a letter, and what is expected there.
const MISSPELLED: [(&str, usize, &[&str]); 37] = [
    ("", 0, &["condition", "group", "year", "parish"]),
    ("   ", 0, &["group", "year"]),
    ("yeer in 1..2", 0, &["year", "parish"]),
    ("year", 4, &["`in`", "`blank`"]),
    ("parish", 6, &["`is`", "`starts`", "`has`", "`blank`"]),
    ("year on 1..2", 5, &["`in`"]),
    ("year in", 7, &["number"]),
    ("year in x", 8, &["number"]),
    ("year in 1700", 12, &["`..`"]),
    ("year in 1700-1799", 12, &["`..`"]),
    ("year in 1700..", 14, &["number"]),
    ("year in 1700...1799", 14, &["number"]),
    ("year in -5..10", 8, &["number"]),
    ("parish is ash", 10, &["quotes"]),
    ("parish has 'ash'", 11, &["quotes"]),
    ("all(year blank", 14, &["`)`"]),
    ("any(all(year blank)", 19, &["`,`", "`)`"]),
    ("all(year blank,)", 15, &["year"]),
    ("all()", 4, &["year"]),
    ("all(,year blank)", 4, &["year"]),
    ("all(year blank,,parish blank)", 15, &["year"]),
    ("all year blank", 4, &["`(`"]),
    ("year blank)", 10, &["nothing more"]),
    ("year blank year blank", 11, &["nothing more"]),
    ("all(year blank) x", 16, &["nothing more"]),
    ("all(year blank parish blank)", 15, &["`,`", "`)`"]),
    ("not not year blank", 4, &["year"]),
    ("not all(year blank)", 4, &["year"]),
    ("ALL(year blank)", 0, &["`all`", "small letters", "year"]),
    ("year IN 1..2", 5, &["`in`", "small letters"]),
    ("all(year blank; parish blank)", 14, &["`,`", "`)`"]),
    ("year blank.", 10, &["nothing more", "all(", "any("]),
    ("withdrawn is \"no\"", 0, &["year", "never listed"]),
    ("\"all\" blank", 0, &["a column: year, parish"]),
    ("not ANY(year blank)", 4, &["`any`", "small letters"]),
    ("(year blank)", 0, &["group"]),
    ("any(parish is \"é\", yeer blank)", 19, &["year", "parish"]),
];

#[test]
fn carets_of_misspelled_questions() {
    let room = parish();
    for (question, place, expected) in MISSPELLED {
        let said = caret(&room, question, 21, place);
        assert!(said.starts_with("expected "), "{question}: {said}");
        for word in expected {
            assert!(said.contains(word), "{question}: {word} in {said}");
        }
    }
}

/// Of a question of several lines the one with the fault is shown.
#[test]
fn caret_in_a_question_of_several_lines() {
    let room = parish();
    let question = "any(year blank,\n    yeer in 1..2,\n    parish blank)";
    let lines = refused(&room, &[question], 21);
    assert_eq!(lines[0], "      yeer in 1..2,");
    assert!(lines[1].starts_with("      ^ expected ") && lines[1].contains("year"), "{lines:?}");
    assert_eq!(
        room.run(&["ask", "parish", &question.replace("yeer", "\tyear"), "--strict"]).done(),
        "any(c0 blank,c0 in 1..2,c1 blank)\n"
    );
}

/// What stands in quotes and cannot be taken has its place too.
#[test]
fn carets_between_quotes() {
    let room = parish();
    for (question, place) in [
        ("parish is \"a\\zz\"", 12),
        ("parish is \"a\\4\"", 12),
        ("parish is \"é\\\"", 14),
        ("parish is \"aŐ\"", 12),
        ("\"yeer\" in 1..2", 0),
        ("any(year blank, \"parish", 23),
        ("parish is \"ash", 14),
    ] {
        let said = caret(&room, question, 21, place);
        assert!(!said.is_empty(), "{question}");
    }
}

/// Numbers that no four bytes hold, and columns that no byte holds.
#[test]
fn numbers_past_what_can_be_typed() {
    let room = parish();
    for (question, place) in [
        ("year in 1..4294967296", 0),
        ("year in 99999999999999999999..1", 0),
        ("c256 blank", 0),
        ("all(year blank, c99999999999999999999 blank)", 16),
    ] {
        caret(&room, question, 21, place);
    }
}

/// A name that is not one word is told in quotes, as it must be typed.
#[test]
fn names_are_told_as_they_are_typed() {
    let room = imported("date of deed,in,parish\n1,2,Ash\n");
    let said = caret(&room, "date of deed in 1..2", 21, 0);
    assert!(said.contains("\"date of deed\"") && said.contains("\"in\"") && said.contains("parish"), "{said}");
}

/// What is told of a name holds none of its control characters; the room looks for the escape itself.
#[test]
fn names_with_control_characters() {
    let room = imported("\"a\u{1B}[31m\u{9B}b\",\"two\nlines\"\n1,x\n");
    for (question, number) in [
        ("yeer blank", 21),
        ("c0 has \"x\"", 11),
        ("c1 in 1..2", 11),
        ("c9 blank", 11),
        ("any(c0 blank, c0 blank)", 13),
    ] {
        let lines = refused(&room, &[question], number);
        assert!(lines.len() == 2 && !lines.concat().contains(char::is_control), "{question}: {lines:?}");
    }
}

/// Conditions that are read and refused: the first such is shown, with what to do.
#[test]
fn carets_of_refused_conditions() {
    let room = parish();
    let long = format!("parish is \"{}\"", "a".repeat(24));
    for (question, place) in [
        ("year starts \"ash\"", 0),
        ("parish in 1..2", 0),
        ("year in 1799..1700", 0),
        ("year in 0..4294967295", 0),
        ("parish is \"\"", 0),
        (&long, 0),
        ("c2 blank", 0),
        ("c255 is \"a\"", 0),
        ("any(year blank, all(parish blank,  year has \"x\"), year in 2..1)", 35),
        ("any(parish is \"é\",year in 2..1)", 18),
    ] {
        let said = caret(&room, question, 11, place);
        assert!(said.len() > 10, "{question}: {said}");
    }
    let opposite = refused(&room, &["all(year blank, not year is \"a\")"], 11);
    let place = opposite[1].find('^').expect("a caret") - 2;
    assert!([16, 20].contains(&place), "{opposite:?}");
}

#[test]
fn questions_that_are_too_large() {
    let room = parish();
    let nested = |depth: usize| format!("{}year blank{}", "all(".repeat(depth), ")".repeat(depth));
    room.run(&["ask", "parish", &nested(8)]).done();
    refused(&room, &[&nested(9)], 10);
    refused(&room, &[&nested(300)], 10);
    let many = |count: usize| {
        let conditions: Vec<String> = (0..count).map(|low| format!("year in {low}..9999")).collect();
        format!("any({})", conditions.join(", "))
    };
    room.run(&["ask", "parish", &many(64)]).done();
    refused(&room, &[&many(65)], 12);
    room.run(&["ask", "parish", "any(year blank, not year blank)"]).done();
    refused(&room, &["any(year blank, all(YEAR  blank, parish blank))"], 13);
    refused(&room, &["any(parish is \"a\\62\", c1 is \"ab\")"], 13);
    // Over sixteen kilobytes of strict spelling.
    refused(&room, &[&nested(3_276)], 21);
    refused(&room, &[&nested(20_000)], 21);
}

/// The group that stands too deep and the condition that was there before have their places.
#[test]
fn carets_of_too_deep_and_repeated() {
    let room = parish();
    let nested = format!("{}year blank{}", "all(".repeat(9), ")".repeat(9));
    caret(&room, &nested, 10, 4 * 8);
    caret(&room, "any(year blank, all(YEAR  blank, parish blank))", 13, 20);
    caret(&room, "any(parish is \"é\", parish is \"ash\", c1 is \"\\E9\")", 13, 36);
}

/// Of a long line only what is around the place is shown; the caret stands below it all the same.
#[test]
fn carets_in_long_lines() {
    let room = parish();
    let many: Vec<String> = (0..65).map(|low| format!("year in {low}..9999")).collect();
    let blanks = "parish is \"é\", ".repeat(40);
    for (question, number, at) in [
        (format!("any({})", many.join(", ")), 12, "year in 64..9999"),
        (format!("any({}; year blank)", many[..30].join(", ")), 21, "; year blank"),
        (format!("any(yeer blank, {})", many[..30].join(", ")), 21, "yeer blank"),
        (format!("any({blanks}yeer blank, {blanks}year blank)"), 21, "yeer blank"),
        (format!("any({}", many[..30].join(", ")), 21, ""),
    ] {
        let lines = refused(&room, &[&question], number);
        let place = lines[1].split('^').next().expect("a caret").chars().count();
        let under: String = lines[0].chars().skip(place).collect();
        assert!(under.starts_with(at) && (under.is_empty() || !at.is_empty()), "{at}: {lines:?}");
        assert!(lines[0].chars().count() <= 80 && lines[0].contains('…'), "{lines:?}");
    }
}

/// Spaces do not count: what is short in its strict spelling is read, however long it was typed.
#[test]
fn many_spaces() {
    let question = format!("year{}blank", " ".repeat(20_000));
    assert_eq!(parish().run(&["ask", "parish", &question, "--strict"]).done(), "c0 blank\n");
}

#[test]
fn orders_that_are_refused() {
    let room = parish();
    let question = "any(year blank, parish blank)";
    for order in ["0", "1", "0,0", "1,1", "0,2", "0,1,2", "0,1,0", "0,1,1", "255,0"] {
        refused(&room, &[question, "--order", order], 15);
    }
    for order in ["0,1", "1,0"] {
        room.run(&["ask", "parish", question, "--order", order]).done();
    }
}

#[test]
fn readers_that_are_refused() {
    let room = parish();
    for reader in ["16", "255", "256", "4294967296", "18446744073709551615"] {
        refused(&room, &["year blank", "--reader", reader], 24);
        refused(&room, &["year blank", "--reader", reader, "--tally", "tally.bin"], 24);
        assert!(!room.path("tally.bin").exists() && !room.path("tally.bin.new").exists());
    }
    room.run(&["ask", "parish", "year blank", "--reader", "15"]).done();
    room.run(&["ask", "parish", "year blank", "--reader", "0"]).done();
}

/// The first check that fails decides: order before reader before tally.
#[test]
fn which_refusal_comes_first() {
    let room = parish();
    room.set("tally.bin", "short");
    let words = ["--order", "1", "--reader", "16", "--tally", "tally.bin"];
    refused(&room, &[&["year has \"a\""], &words[..]].concat(), 11);
    refused(&room, &[&["year blank"], &words[..]].concat(), 15);
    refused(&room, &[&["year blank"], &words[2..]].concat(), 24);
    refused(&room, &[&["year blank"], &words[4..]].concat(), 17);
}

/// `--strict` does not run the question, but the engine must take it.
#[test]
fn strict_spelling_of_refused_questions() {
    let room = parish();
    for (question, number) in [("year has \"a\"", 11), ("year", 21), ("any(c0 blank,c0 blank)", 13)] {
        refused(&room, &[question, "--strict"], number);
    }
}

/// Catalogues that the engine refuses, each with its number.
#[test]
fn damaged_catalogues() {
    let whole = PARISH_CATALOGUE;
    let mut stray = whole.to_vec();
    stray[95] = 1;
    for (bytes, number) in [
        (vec![], 1),
        (whole[..95].to_vec(), 1),
        (field(66, &[0, 3, 2]), 2),
        (field(67, &[8, 1, 1]), 3),
        (field(67, &[0, 1, 0]), 3),
        ([&whole[..6], &field(79, &[0; 12])].concat(), 4),
        (stray, 5),
        ([whole, &[0]].concat(), 6),
        ([whole, &encode_mark(&[0b1000])].concat(), 23),
        ([whole, &encode_mark(&[])].concat(), 23),
    ] {
        let room = Room::new();
        room.set("parish/catalogue.bin", &bytes);
        for words in [&["c0 blank"][..], &["misspelled"], &["c0 blank", "--strict"], &["c9 blank", "--json"]] {
            refused(&room, words, number);
        }
        for words in [&["export", "parish"][..], &["explain", "parish", "c0 blank", "0"]] {
            let said = room.run(words).failed(1);
            assert!(said.starts_with(&first_line(number)), "{words:?}: {said}");
        }
        let said = room.run(&["draw", "parish", "c0 blank", "-o", "a.svg"]).failed(1);
        assert!(said.starts_with(&first_line(number)) && !room.path("a.svg").exists(), "{said}");
    }
}

/// A question is refused in the same words by every word that takes one.
#[test]
fn explain_and_draw_refuse_alike() {
    let room = parish();
    for question in ["yeer blank", "all(year blank; year blank)", "all(year blank, year has \"a\")", &QUESTION[1..]] {
        let said = room.run(&["ask", "parish", question]).failed(1);
        assert_eq!(room.run(&["explain", "parish", question, "0"]).failed(1), said);
        assert_eq!(room.run(&["draw", "parish", question, "-o", "a.svg"]).failed(1), said);
        assert!(!room.path("a.svg").exists());
    }
    for words in [&["explain", "parish", "year blank", "0"][..], &["draw", "parish", "year blank", "-o", "a.svg"]] {
        let said = room.run(&[words, &["--order", "1"]].concat()).failed(1);
        assert!(said.starts_with(&first_line(15)), "{said}");
    }
}

/// Spoilt questions are read in the end, and their strict spelling is one that the engine takes; or they are refused with a caret. What
/// is strict already stays as it is.
#[test]
fn questions_spoilt_at_random() {
    let catalogue = read_catalogue(PARISH_CATALOGUE).expect("the parish");
    let room = Room::new();
    room.set("parish/catalogue.bin", PARISH_CATALOGUE);
    let (mut read, mut misspelled) = (0, 0);
    for seed in 0..600 {
        let mut rng = Rng::new(seed);
        let asked = question(&mut rng, &catalogue);
        let mut text = evaluator::spelling(&generator::encode_question(&asked)).expect("a spelling").into_bytes();
        let how = *rng.pick(&Misspelling::ALL);
        misspell(&mut rng, &mut text, how);
        let Ok(text) = String::from_utf8(text) else { continue };
        let word = evaluator::typed(PARISH_CATALOGUE, text.as_bytes(), &[0; 65_536]).word;
        if text.contains('\0') {
            continue;
        }
        let output = room.command(&["ask", "parish", "--strict", "--", &text]).output().expect("the program runs");
        if output.status.code() == Some(0) {
            read += 1;
            let said = Said::of(output).done();
            let strict = said.strip_suffix('\n').expect("a line");
            assert!(read_typed(&catalogue, strict.as_bytes()).is_ok(), "seed {seed}: {text:?}, {strict:?}");
            assert!(word & 0xFF != 0 || strict == text, "seed {seed}: {text:?}, {strict:?}");
        } else {
            let said = Said::of(output).failed(1);
            assert!(word & 0xFF != 0, "seed {seed}: {text:?} is taken by the engine: {said}");
            let is_21 = said.starts_with(&first_line(21));
            misspelled += usize::from(is_21);
            assert!(!is_21 || said.contains("\n  ") && said.contains("^ "), "seed {seed}: {text:?}: {said}");
            assert!(said.starts_with("searchroom: refused "), "seed {seed}: {text:?}: {said}");
        }
    }
    assert!(read > 100 && misspelled > 100, "{read} read, {misspelled} misspelled: the comparison shows little");
}

/// What each refusal advises, word by word: at the caret, or in the line below.
#[test]
fn what_is_advised() {
    let room = parish();
    let long = format!("any({})", (0..2_100).map(|low| format!("c0 in {low}..2000")).collect::<Vec<_>>().join(","));
    let many = format!("any({})", (0..65).map(|low| format!("c0 in {low}..99")).collect::<Vec<_>>().join(","));
    let deep = format!("{}year blank{}", "all(".repeat(9), ")".repeat(9));
    let twice = "any(all(year blank, parish blank), all(year blank, parish is \"a\"))";
    for (question, number, advice) in [
        ("year is \"a\"", 11, "year holds numbers; ask `in` or `blank`"),
        ("parish in 1..2", 11, "parish holds texts; ask `is`, `starts`, `has` or `blank`"),
        ("year in 2..1", 11, "the smaller number stands first, and the largest is 4,294,967,294"),
        ("year in 1..4294967295", 11, "the smaller number stands first, and the largest is 4,294,967,294"),
        ("parish is \"\"", 11, "an empty text; ask `blank`"),
        ("parish has \"abcdefghijklmnopqrstuvwx\"", 11, "24 letters; a text has at most 23, so shorten it"),
        ("c2 blank", 11, "there is no c2; the columns are c0 to c1: year, parish"),
        ("c256 blank", 21, "there is no c256; the columns are c0 to c1: year, parish"),
        (twice, 13, "the same as condition 0; leave one out, or regroup, as in all(A, any(B, C))"),
        (&many, 12, "one condition too many; at most 64 fit, so ask two questions"),
        (&deep, 10, "this group stands too deep; at most 8 stand inside each other, so regroup"),
        (&long, 21, "in the strict spelling it has 34,594 bytes; at most 16,384 are read, so ask two questions"),
    ] {
        let lines = refused(&room, &[question], number);
        let last = lines.last().expect("advice").trim_start();
        assert_eq!(last.strip_prefix("^ ").unwrap_or(last), advice, "{lines:?}");
    }
    let order = refused(&room, &["any(year blank, parish blank)", "--order", "0"], 15);
    assert_eq!(order.last().unwrap(), "  the question has 2 conditions: name each number from 0 to 1 once");
    let order = refused(&room, &["year blank", "--order", "1"], 15);
    assert_eq!(order.last().unwrap(), "  the question has one condition: its order is 0");
    let entry = room.run(&["explain", "parish", "year blank", "3"]).failed(1);
    assert_eq!(entry, format!("{}\n  the entries are 0 to 2\n", first_line(18)));
    room.set("short.bin", "x");
    let tally = refused(&room, &["year blank", "--tally", "short.bin"], 17);
    assert_eq!(tally.last().unwrap(), "  the tally's file has 1 byte: name another, or one that is not there yet");
    room.set("full.bin", [0xFF; 128]);
    let tally = refused(&room, &["year blank", "--tally", "full.bin"], 17);
    assert_eq!(tally.last().unwrap(), "  keep this tally as it is, and begin another");
    room.set("parish/catalogue.bin", "x");
    let catalogue = refused(&room, &["year blank"], 1);
    assert_eq!(catalogue.last().unwrap(), "  in parish/catalogue.bin: import the CSV file again");
}

/// Of two conditions that are refused alone with different numbers, the caret stands at that of the refusal.
#[test]
fn caret_at_the_same_number() {
    let said = caret(&parish(), "any(year has \"x\", c0 in 1..4294967296)", 21, 18);
    assert!(said.contains("the largest is 4,294,967,294"), "{said}");
}
