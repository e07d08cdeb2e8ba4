//! `searchroom ask`: loosely spelled questions, what is found, and what people and programs are told.

mod desk {
    pub mod asked;
    pub mod json;
    pub mod parish;
    pub mod room;
    pub mod shown;
}

use std::fs;

use desk::asked::Asked;
use desk::json::{json_of, json_text};
use desk::parish::{QUESTION, imported, parish};
use desk::shown::shown;
use evaluator::{Condition, Test, Tree};
use generator::{Rng, encode_catalogue, encode_question};

/// The example parish, whose columns have no names.
const EXAMPLE: &str = concat!(env!("CARGO_MANIFEST_DIR"), "/../../examples/parish");

/// Spells a question in one of the many ways that a person may.
struct Speller<'a> {
    rng: &'a mut Rng,
    asked: &'a Asked,
    text: String,
}

impl Speller<'_> {
    fn spell(rng: &mut Rng, asked: &Asked) -> String {
        let mut speller = Speller { rng, asked, text: String::new() };
        speller.spaces(0);
        speller.tree(&asked.question.tree);
        speller.spaces(0);
        speller.text
    }

    /// At least so many spaces.
    fn spaces(&mut self, least: usize) {
        let more = if self.rng.chance(30) { self.rng.between(1, 3) } else { 0 };
        self.text.extend([' '].repeat(least + more));
    }

    fn sign(&mut self, sign: char) {
        self.spaces(0);
        self.text.push(sign);
        self.spaces(0);
    }

    fn tree(&mut self, tree: &Tree) {
        let (word, members) = match tree {
            Tree::Condition(number) => return self.condition(&self.asked.question.conditions[*number]),
            Tree::AllOf(members) => ("all", members),
            Tree::AnyOf(members) => ("any", members),
        };
        self.text.push_str(word);
        self.sign('(');
        for (place, member) in members.iter().enumerate() {
            if place > 0 {
                self.sign(',');
            }
            self.tree(member);
        }
        self.spaces(0);
        self.text.push(')');
    }

    fn condition(&mut self, condition: &Condition) {
        if condition.opposite {
            self.text.push_str("not");
            self.spaces(1);
        }
        self.name(condition.column);
        self.spaces(1);
        match &condition.test {
            Test::NumberFrom { low, high } => {
                self.text.push_str("in");
                self.spaces(1);
                self.number(*low);
                self.spaces(0);
                self.text.push_str("..");
                self.spaces(0);
                self.number(*high);
            }
            Test::NumberBlank | Test::TextBlank => self.text.push_str("blank"),
            Test::Equals(text) => self.test("is", text),
            Test::BeginsWith(text) => self.test("starts", text),
            Test::Contains(text) => self.test("has", text),
        }
    }

    /// The column by its number or by its name, in this case or that.
    fn name(&mut self, column: usize) {
        if self.rng.chance(30) {
            let letter = *self.rng.pick(&['c', 'C']);
            self.text.push_str(&format!("{letter}{column}"));
            return;
        }
        let name = &self.asked.names[column];
        // A word of the notation, or what is no word, stands in quotes; any other may.
        let plain = Condition { column, test: Test::NumberBlank, opposite: false };
        let needs_quotes = shown(&plain, &self.asked.names).starts_with('"');
        let cased = match self.rng.below(3) {
            0 => name.to_uppercase().replace("SS", "ß"),
            1 => name.to_lowercase(),
            _ => name.clone(),
        };
        let quoted = format!("\"{}\"", cased.replace('\\', "\\\\").replace('"', "\\\""));
        self.text.push_str(if needs_quotes || self.rng.chance(20) && !name.starts_with('c') {
            &quoted
        } else {
            &cased
        });
    }

    fn number(&mut self, number: u32) {
        let zeros = if self.rng.chance(20) { self.rng.between(1, 20) } else { 0 };
        self.text.push_str(&format!("{}{number}", "0".repeat(zeros)));
    }

    fn test(&mut self, word: &str, text: &[u8]) {
        self.text.push_str(word);
        self.spaces(1);
        self.text.push('"');
        for &byte in text {
            let letter = self.letter(byte);
            self.text.push_str(&letter);
        }
        self.text.push('"');
    }

    /// A byte as it stands in UTF-8, or escaped.
    fn letter(&mut self, byte: u8) -> String {
        let stands = matches!(byte, b' '..=b'~' | 0xA0..=0xFF);
        match (byte, self.rng.below(4)) {
            (b'"' | b'\\', 0 | 1) => format!("\\{}", char::from(byte)),
            (b'"' | b'\\', _) | (_, 0) => format!("\\{byte:02X}"),
            (_, 1) => format!("\\{byte:02x}"),
            _ if stands => char::from(byte).to_string(),
            _ => format!("\\{byte:02X}"),
        }
    }
}

/// However it is spelled, the strict spelling is the evaluator's.
#[test]
fn strict_spelling_of_loose_questions() {
    for seed in 0..300 {
        let mut rng = Rng::new(seed);
        let asked = Asked::new(&mut rng, 5, 8);
        let text = Speller::spell(&mut rng, &asked);
        let said = asked.room().run(&["ask", "deeds", &text, "--strict"]).done();
        assert_eq!(said, asked.strict() + "\n", "seed {seed}: {text:?} for the columns {:?}", asked.names);
    }
}

/// The strict spelling is itself read, and so is every condition as it is shown.
#[test]
fn what_is_shown_can_be_typed() {
    for seed in 0..100 {
        let mut rng = Rng::new(1_000 + seed);
        let asked = Asked::new(&mut rng, 5, 1);
        let room = asked.room();
        let condition = &asked.question.conditions[0];
        let strict = desk::json::strict(condition);
        for text in [&strict, &shown(condition, &asked.names)] {
            let said = room.run(&["ask", "deeds", text, "--strict"]).done();
            assert_eq!(said, format!("{strict}\n"), "seed {seed}: {text:?} for the columns {:?}", asked.names);
        }
    }
}

/// Everything that is told to programs is what the evaluator finds.
#[test]
fn json_of_random_questions() {
    for seed in 0..250 {
        let mut rng = Rng::new(2_000 + seed);
        let asked = Asked::new(&mut rng, 40, if seed % 25 == 0 { 64 } else { 9 });
        let text = Speller::spell(&mut rng, &asked);
        let reader = rng.below(16);
        let words = ["ask", "deeds", &text, "--json", "--order", &asked.order_word(), "--reader", &reader.to_string()];
        let said = asked.room().run(&words).done();
        assert_eq!(said, json_of(&asked, reader, None), "seed {seed}: {text:?}, {asked:?}");
    }
}

/// Without an order the conditions are taken as they stand, and without a reader it is reader 0.
#[test]
fn json_without_order_and_reader() {
    for seed in 0..50 {
        let mut rng = Rng::new(3_000 + seed);
        let mut asked = Asked::new(&mut rng, 40, 9);
        asked.order.sort_unstable();
        let said = asked.room().run(&["ask", "deeds", &asked.strict(), "--json"]).done();
        assert_eq!(said, json_of(&asked, 0, None), "seed {seed}: {asked:?}");
    }
}

#[test]
fn json_of_the_parish() {
    let room = parish();
    let said = room.run(&["ask", "parish", QUESTION, "--json", "--reader", "3", "--tally", "tally.bin"]).done();
    let expected = concat!(
        r#"{"entries":3,"withdrawn":0,"found":2,"looks":6,"order":[0,1,2],"conditions":["#,
        r#"{"condition":0,"text":"year in 1700..1799","strict":"c0 in 1700..1799","looks":3},"#,
        r#"{"condition":1,"text":"parish starts \"ash\"","strict":"c1 starts \"ash\"","looks":1},"#,
        r#"{"condition":2,"text":"year blank","strict":"c0 blank","looks":2}],"#,
        r#""listed":[{"entry":0,"values":{"year":1701,"parish":"Ash"}},"#,
        r#"{"entry":2,"values":{"year":null,"parish":null}}],"reader":3,"tally":6,"tally_is_new":true}"#,
        "\n"
    );
    assert_eq!(said, expected);
}

/// Python reads it and finds the same text.
#[test]
fn json_is_json() {
    let room = imported("a \"b\",c\\d\n\"x\"\"\\\u{1}\t\u{7F}é\u{AD}\",1\n");
    let said = room.run(&["ask", "parish", "not \"a \\\"b\\\"\" blank", "--json"]).done();
    room.set("said.json", &said);
    let program = "import json, sys; d = json.load(open(sys.argv[1], encoding='utf-8')); \
                   v = d['listed'][0]['values']; assert v == {'a \"b\"': 'x\"\\\\\\x01\\t\\x7f\\xe9\\xad', 'c\\\\d': 1}, v; \
                   assert d['conditions'][0]['strict'] == 'not c0 blank', d";
    let status = std::process::Command::new("python3").args(["-c", program]).arg(room.path("said.json")).status();
    assert!(status.expect("python3").success(), "{said}");
    assert!(said.contains(&json_text("x\"\\\u{1}\t\u{7F}é\u{AD}")), "{said}");
}

/// What people are told of the parish.
#[test]
fn parish_for_people() {
    let room = parish();
    let expected = r#"2 of 3 entries found

entry  year  parish
    0  1701  Ash
    2

6 looks instead of 9
  condition 0  3  year in 1700..1799
  condition 1  1  parish starts "ash"
  condition 2  2  year blank
"#;
    assert_eq!(room.run(&["ask", "parish", QUESTION]).done(), expected);
    let said = room.run(&["ask", "parish", QUESTION, "--tally", "tally.bin", "--reader", "3", "--copy", "copy.bin"]);
    let lines = "tally of reader 3: 6 (tally.bin is new)\ncopy of the register: 42 bytes in copy.bin\n";
    assert_eq!(said.done(), expected.to_owned() + lines);
    let (list, _) = expected.split_once("6 looks").expect("the looks");
    let looks = "7 looks instead of 9\n  condition 0  2  year in 1700..1799\n  condition 1  2  parish starts \"ash\"\n  \
                 condition 2  3  year blank\n";
    assert_eq!(room.run(&["ask", "parish", QUESTION, "--order", "2,1,0"]).done(), list.to_owned() + looks);
}

#[test]
fn parish_without_names() {
    let room = desk::room::Room::new();
    let text = r#"any(all(c0 in 1700..1799,c1 starts "ash"),c0 blank)"#;
    let expected = r#"2 of 3 entries found

entry    c0  c1
    0  1701  Ash
    2

6 looks instead of 9
  condition 0  3  c0 in 1700..1799
  condition 1  1  c1 starts "ash"
  condition 2  2  c0 blank
"#;
    assert_eq!(room.run(&["ask", EXAMPLE, text]).done(), expected);
    assert_eq!(room.run(&["ask", EXAMPLE, text, "--strict"]).done(), format!("{text}\n"));
}

#[test]
fn withdrawn_entries_for_people() {
    let room = imported("year,parish,withdrawn\n1701,Ash,x\n1822,ASHBY,\n,,\n");
    let expected = r#"1 of 3 entries found (1 is withdrawn)

entry  year  parish
    2

4 looks instead of 6
  condition 0  2  year in 1700..1799
  condition 1  0  parish starts "ash"
  condition 2  2  year blank
"#;
    assert_eq!(room.run(&["ask", "parish", QUESTION]).done(), expected);
    let said = room.run(&["ask", "parish", QUESTION, "--json"]).done();
    assert!(said.starts_with(r#"{"entries":3,"withdrawn":1,"found":1,"looks":4,"#), "{said}");
}

/// With none found no table is shown.
#[test]
fn nothing_found() {
    let expected = "0 of 3 entries found\n\n3 looks instead of 3\n  condition 0  3  year in 1..2\n";
    assert_eq!(parish().run(&["ask", "parish", "year in 1..2"]).done(), expected);
    let room = imported("year,withdrawn\n1701,yes\n");
    let expected = "0 of 1 entry found (1 is withdrawn)\n\n0 looks instead of 0\n  condition 0  0  year in 1..2\n";
    assert_eq!(room.run(&["ask", "parish", "year in 1..2"]).done(), expected);
    let said = imported("year\n").run(&["ask", "parish", "year blank", "--json"]).done();
    let expected = concat!(
        r#"{"entries":0,"withdrawn":0,"found":0,"looks":0,"order":[0],"conditions":[{"condition":0,"text":"year blank","#,
        r#""strict":"c0 blank","looks":0}],"listed":[],"reader":0}"#,
        "\n"
    );
    assert_eq!(said, expected);
}

/// People are told of the same entries and looks, each condition as it is shown, its looks in a column.
#[test]
fn random_questions_for_people() {
    for seed in 0..100 {
        let mut rng = Rng::new(9_000 + seed);
        let asked = Asked::new(&mut rng, 40, if seed % 10 == 0 { 30 } else { 9 });
        let (found, present) = (asked.found(), asked.catalogue.present());
        let said = asked.room().run(&["ask", "deeds", &asked.strict(), "--order", &asked.order_word()]).done();
        let lines: Vec<&str> = said.lines().collect();
        let label = format!("seed {seed}, {asked:?}:\n{said}");
        let (entries, count) = (asked.catalogue.entries, asked.question.conditions.len());
        let withdrawn = match entries - present {
            0 => String::new(),
            1 => " (1 is withdrawn)".to_owned(),
            more => format!(" ({more} are withdrawn)"),
        };
        let noun = if entries == 1 { "entry" } else { "entries" };
        assert_eq!(lines[0], format!("{} of {entries} {noun} found{withdrawn}", found.found_count()), "{label}");
        let listed: Vec<usize> = (0..entries).filter(|&entry| found.listed[entry]).collect();
        let table = if listed.is_empty() { &[] } else { &lines[3..3 + listed.len()] };
        let told: Vec<usize> =
            table.iter().map(|line| line.split_whitespace().next().unwrap().parse().unwrap()).collect();
        assert_eq!(told, listed, "{label}");
        let noun = if found.look_count() == 1 { "look" } else { "looks" };
        let looks = format!("{} {noun} instead of {}", found.look_count(), present * count);
        assert_eq!(lines[lines.len() - count - 1], looks, "{label}");
        compare_looks(&label, &asked, &lines[lines.len() - count..]);
    }
}

fn compare_looks(label: &str, asked: &Asked, lines: &[&str]) {
    let found = asked.found();
    let (count, most) =
        (lines.len(), (0..lines.len()).map(|number| found.looks_at(number)).max().expect("a condition"));
    let (wide, widest) = (most.to_string().len(), (count - 1).to_string().len());
    for (number, line) in lines.iter().enumerate() {
        let text = shown(&asked.question.conditions[number], &asked.names);
        let looks = found.looks_at(number);
        assert_eq!(*line, format!("  condition {number:<widest$}  {looks:>wide$}  {text}"), "{label}");
    }
}

/// One of a thing is told as one.
#[test]
fn one_of_each() {
    let room = imported("year\n1701\n");
    let expected =
        "1 of 1 entry found\n\nentry  year\n    0  1701\n\n1 look instead of 1\n  condition 0  1  not year blank\n";
    assert_eq!(room.run(&["ask", "parish", "not year blank"]).done(), expected);
    let said = room.run(&["draw", "parish", "all(not year blank)", "-o", "a.svg"]).done();
    assert_eq!(said, "a.svg: 1 condition, 1 group\n");
    let said = room.run(&["import", "parish.csv", "again"]).done();
    assert!(said.starts_with("1 entry in 1 column: again/catalogue.bin\n"), "{said}");
}

/// Letters with accents are one wide, and what cannot be printed does not reach the terminal.
#[test]
fn table_for_people() {
    let room = imported("name,n\nAndré,1\nÆ,22\n\"a\u{1B}[31m\",3\n\"two\nlines\",4\n");
    let said = room.run(&["ask", "parish", "not n blank"]).done();
    let lines: Vec<&str> = said.lines().skip(2).take(5).collect();
    let column = |line: &str| line.chars().count() - line.chars().rev().take_while(char::is_ascii_digit).count();
    let ends: Vec<usize> = lines[1..].iter().map(|line| column(line)).collect();
    assert!(
        lines[0].starts_with("entry  name") && ends.iter().all(|end| *end == ends[0] || *end + 1 == ends[0]),
        "{said}"
    );
    assert!(said.bytes().all(|byte| byte == b'\n' || byte >= b' '), "{said:?}");
}

/// The steward's copy has the evaluator's looks, those of an entry in any sequence.
#[test]
fn copies_of_random_questions() {
    for seed in 0..100 {
        let mut rng = Rng::new(4_000 + seed);
        let asked = Asked::new(&mut rng, 40, 9);
        let room = asked.room();
        if seed % 2 == 0 {
            room.set("copy.bin", [76, 0, 4, 9, 9, 9, 1].repeat(20));
        }
        let said = room.run(&["ask", "deeds", &asked.strict(), "--order", &asked.order_word(), "--copy", "copy.bin"]);
        let copied = fs::read(room.path("copy.bin")).expect("the copy");
        let line = format!("\ncopy of the register: {} bytes in copy.bin\n", copied.len());
        assert!(said.done().ends_with(&line), "seed {seed}");
        let fields = |bytes: &[u8]| {
            let mut fields: Vec<Vec<u8>> = bytes.chunks(7).map(<[u8]>::to_vec).collect();
            assert!(
                fields.is_sorted_by_key(|field| field.get(3..5).map(<[u8]>::to_vec)),
                "seed {seed}: entries in order"
            );
            fields.sort();
            fields
        };
        let (catalogue, question) = (encode_catalogue(&asked.catalogue), encode_question(&asked.question));
        let expected = evaluator::copy(&catalogue, &question, &asked.order, &vec![0; 65_536]);
        let length = (expected.word >> 40) as usize;
        assert_eq!(fields(&copied), fields(&expected.output[..length]), "seed {seed}: {asked:?}");
        assert!(!room.path("copy.bin.new").exists());
    }
}

/// A refused run writes no copy, and leaves one that is there.
#[test]
fn no_copy_of_a_refused_run() {
    let room = parish();
    let words = ["ask", "parish", "year blank", "--order", "1", "--copy", "copy.bin"];
    room.run(&words).failed(1);
    assert!(!room.path("copy.bin").exists() && !room.path("copy.bin.new").exists());
    room.set("copy.bin", [76, 0, 4, 0, 0, 0, 1]);
    assert!(room.run(&words).failed(1).contains("refused 15"));
    assert_eq!(fs::read(room.path("copy.bin")).unwrap(), [76, 0, 4, 0, 0, 0, 1]);
}
