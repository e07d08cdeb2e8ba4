//! `searchroom explain`: a question's tree at one entry, and why each look was made or passed.

mod desk {
    pub mod asked;
    pub mod parish;
    pub mod room;
    pub mod shown;
}

use desk::asked::Asked;
use desk::parish::{QUESTION, imported, parish};
use desk::room::Room;
use desk::shown::shown;
use evaluator::{Answer, BLANK_NUMBER, Column, Tree, outcome};
use generator::{Rng, question_of};
use searchroom::Refusal;

#[test]
fn parish_of_the_specification() {
    let expected = r#"entry 1: year 1822, parish ASHBY
running order 0, 1, 2

group 0, any of: settled, no
  group 1, all of: settled, no
    condition 0  year in 1700..1799    looked at: no
    condition 1  parish starts "ash"   passed: group 1 is settled, no, by condition 0
  condition 2  year blank              looked at: no

not listed: 2 looks, 1 passed
"#;
    assert_eq!(parish().run(&["explain", "parish", QUESTION, "1"]).done(), expected);
}

#[test]
fn parish_at_the_other_entries() {
    let room = parish();
    let expected = r#"entry 0: year 1701, parish Ash
running order 0, 1, 2

group 0, any of: settled, yes
  group 1, all of: settled, yes
    condition 0  year in 1700..1799    looked at: yes
    condition 1  parish starts "ash"   looked at: yes
  condition 2  year blank              passed: group 0 is settled, yes, by condition 1

listed: 2 looks, 1 passed
"#;
    assert_eq!(room.run(&["explain", "parish", QUESTION, "0"]).done(), expected);
    let expected = r#"entry 2: year (blank), parish (blank)
running order 2, 1, 0

group 0, any of: settled, yes
  group 1, all of: not settled
    condition 0  year in 1700..1799    passed: group 0 is settled, yes, by condition 2
    condition 1  parish starts "ash"   passed: group 0 is settled, yes, by condition 2
  condition 2  year blank              looked at: yes

listed: 1 look, 2 passed
"#;
    let said = room.run(&["explain", "parish", QUESTION, "2", "--order", "2,1,0"]).done();
    assert_eq!(said, expected);
}

/// A blank answers blank, which the run takes as no; a condition alone stands in no group.
#[test]
fn blank_answers() {
    let said = parish().run(&["explain", "parish", "not year in 1..2", "2"]).done();
    let lines: Vec<&str> = said.lines().collect();
    assert_eq!(lines[..3], ["entry 2: year (blank), parish (blank)", "running order 0", ""]);
    assert_eq!(
        lines[3].split_whitespace().collect::<Vec<_>>().join(" "),
        "condition 0 not year in 1..2 looked at: blank"
    );
    assert!(
        lines[5].starts_with("not listed: 1 look") && lines[5].ends_with(", 0 passed") && lines.len() == 6,
        "{said}"
    );
}

#[test]
fn withdrawn_entry() {
    let room = imported("year,parish,withdrawn\n1701,Ash,x\n1822,ASHBY,\n,,\n");
    let expected = r#"entry 0: year 1701, parish Ash
running order 0, 1, 2

group 0, any of: not settled
  group 1, all of: not settled
    condition 0  year in 1700..1799    passed: the entry is withdrawn
    condition 1  parish starts "ash"   passed: the entry is withdrawn
  condition 2  year blank              passed: the entry is withdrawn

not listed: withdrawn
"#;
    assert_eq!(room.run(&["explain", "parish", QUESTION, "0"]).done(), expected);
}

#[test]
fn no_such_entry() {
    let room = parish();
    let marked = imported("year,withdrawn\n1701,x\n");
    let first = format!("searchroom: refused 18: {}\n", Refusal::NoSuchPlace.text());
    let refused = |room: &Room, question: &str, entry: &str| {
        let said = room.run(&["explain", "parish", question, entry]).failed(1);
        said.strip_prefix(&first).unwrap_or_else(|| panic!("{entry}: {said}")).to_owned()
    };
    for entry in ["3", "2048", "65536", "4294967296", "18446744073709551615"] {
        assert!(refused(&room, QUESTION, entry).contains("0 to 2"), "{entry}");
        refused(&marked, "year blank", entry);
    }
    room.run(&["explain", "parish", QUESTION, "2"]).done();
    refused(&imported("year\n"), "year blank", "0");
}

/// Nothing is written: an explanation is no consultation.
#[test]
fn nothing_is_written() {
    let room = parish();
    let files = |folder| std::fs::read_dir(room.path(folder)).unwrap().count();
    let names = || [files("."), files("parish")];
    let before = names();
    room.run(&["explain", "parish", QUESTION, "0"]).done();
    assert_eq!(names(), before);
}

/// A group of a question, numbered as they stand.
struct Group<'a> {
    depth: usize,
    tree: &'a Tree,
    /// The numbers of the conditions inside.
    conditions: Vec<usize>,
}

fn conditions_of(tree: &Tree) -> Vec<usize> {
    match tree {
        Tree::Condition(number) => vec![*number],
        Tree::AllOf(members) | Tree::AnyOf(members) => members.iter().flat_map(conditions_of).collect(),
    }
}

fn groups_of<'a>(tree: &'a Tree, depth: usize, groups: &mut Vec<Group<'a>>) {
    if let Tree::AllOf(members) | Tree::AnyOf(members) = tree {
        groups.push(Group { depth, tree, conditions: conditions_of(tree) });
        members.iter().for_each(|member| groups_of(member, depth + 1, groups));
    }
}

/// The tree's value, if it is the same whatever the conditions are that are not known.
fn settled(tree: &Tree, known: &[Option<bool>]) -> Option<bool> {
    let with = |unknown: bool| tree.value(&known.iter().map(|known| known.unwrap_or(unknown)).collect::<Vec<_>>());
    // A tree has no opposites of groups: it grows with its conditions.
    if with(false) == with(true) { Some(with(true)) } else { None }
}

/// The explanation that must be given of an entry.
struct Explained<'a> {
    asked: &'a Asked,
    entry: usize,
    groups: Vec<Group<'a>>,
    /// Of each condition: what was looked at or why it was passed.
    states: Vec<String>,
    known: Vec<Option<bool>>,
}

impl<'a> Explained<'a> {
    fn new(asked: &'a Asked, entry: usize) -> Explained<'a> {
        let (mut groups, count) = (Vec::new(), asked.question.conditions.len());
        groups_of(&asked.question.tree, 0, &mut groups);
        let mut explained =
            Explained { asked, entry, groups, states: vec![String::new(); count], known: vec![None; count] };
        let found = asked.found();
        for (turn, &number) in asked.order.iter().enumerate() {
            let number = usize::from(number);
            explained.states[number] = if asked.catalogue.is_withdrawn(entry) {
                "passed: the entry is withdrawn".to_owned()
            } else if found.looks[number][entry] {
                let answer = outcome(&asked.catalogue, &asked.question.conditions[number], entry);
                explained.known[number] = Some(answer == Answer::Yes);
                format!("looked at: {}", format!("{answer:?}").to_lowercase())
            } else {
                explained.reason(number, &asked.order[..turn])
            };
        }
        explained
    }

    /// The innermost group around a condition that the looks so far settle, and the look that did.
    fn reason(&self, number: usize, earlier: &[u8]) -> String {
        let mut around = (0..self.groups.len()).filter(|&group| self.groups[group].conditions.contains(&number));
        let settles = |group: usize| settled(self.groups[group].tree, &self.known);
        let group = around.rfind(|&group| settles(group).is_some()).expect("a group that is settled");
        let value = settles(group).expect("a value");
        let mut known = vec![None; self.known.len()];
        let by = earlier.iter().find(|&&look| {
            known[usize::from(look)] = self.known[usize::from(look)];
            settled(self.groups[group].tree, &known).is_some()
        });
        let by = by.expect("a look that settled it");
        format!("passed: group {group} is settled, {}, by condition {by}", if value { "yes" } else { "no" })
    }

    fn lines(&self, tree: &Tree, depth: usize, group: &mut usize, lines: &mut Vec<(String, String)>) {
        let indent = "  ".repeat(depth);
        let (word, members) = match tree {
            Tree::Condition(number) => {
                let text = shown(&self.asked.question.conditions[*number], &self.asked.names);
                return lines.push((format!("{indent}condition {number}  {text}"), self.states[*number].clone()));
            }
            Tree::AllOf(members) => ("all", members),
            Tree::AnyOf(members) => ("any", members),
        };
        let value = match settled(tree, &self.known) {
            _ if self.asked.catalogue.is_withdrawn(self.entry) => "not settled",
            Some(true) => "settled, yes",
            Some(false) => "settled, no",
            None => "not settled",
        };
        lines.push((format!("{indent}group {group}, {word} of: {value}"), String::new()));
        assert_eq!(self.groups[*group].depth, depth);
        *group += 1;
        members.iter().for_each(|member| self.lines(member, depth + 1, group, lines));
    }

    fn head(&self) -> String {
        let value = |column: &Column| match column {
            Column::Numbers(numbers) if numbers[self.entry] == BLANK_NUMBER => "(blank)".to_owned(),
            Column::Numbers(numbers) => numbers[self.entry].to_string(),
            Column::Texts(texts) if texts[self.entry].is_empty() => "(blank)".to_owned(),
            Column::Texts(texts) => texts[self.entry].iter().map(|&byte| letter(byte)).collect(),
        };
        let cells = self.asked.names.iter().zip(&self.asked.catalogue.columns);
        let cells: Vec<String> = cells.map(|(name, column)| format!("{name} {}", value(column))).collect();
        format!("entry {}: {}", self.entry, cells.join(", "))
    }

    fn last(&self) -> String {
        if self.asked.catalogue.is_withdrawn(self.entry) {
            return "not listed: withdrawn".to_owned();
        }
        let looks = self.known.iter().filter(|known| known.is_some()).count();
        let is_listed = self.asked.found().listed[self.entry];
        let noun = if looks == 1 { "look" } else { "looks" };
        format!("{}listed: {looks} {noun}, {} passed", if is_listed { "" } else { "not " }, self.known.len() - looks)
    }
}

/// What nobody would see by its number: control characters, the space that does not break, the hyphen that does not show.
fn letter(byte: u8) -> String {
    let is_unseen = char::from(byte).is_control() || [0xA0, 0xAD].contains(&byte);
    if is_unseen { format!("\\{byte:02X}") } else { char::from(byte).to_string() }
}

/// Compares what was printed: every line, and that what is said of the conditions begins in one column.
fn compare(label: &str, explained: &Explained, said: &str) {
    let said_lines: Vec<&str> = said.lines().collect();
    let (mut lines, asked) = (Vec::new(), explained.asked);
    explained.lines(&asked.question.tree, 0, &mut 0, &mut lines);
    let order: Vec<String> = asked.order.iter().map(u8::to_string).collect();
    let head = [explained.head(), format!("running order {}", order.join(", ")), String::new()];
    assert_eq!(said_lines[..3], head, "{label}");
    let tail = [String::new(), explained.last()];
    assert_eq!(said_lines[3 + lines.len()..], tail, "{label}:\n{said}");
    let mut columns = Vec::new();
    for ((text, state), line) in lines.iter().zip(&said_lines[3..]) {
        let parts = line.strip_prefix(text.as_str()).map(|rest| (rest, rest.trim_start()));
        let (rest, told) = parts.unwrap_or_else(|| panic!("{label}: expected {text:?} in {line:?} of\n{said}"));
        assert_eq!(told, state, "{label}:\n{said}");
        if !state.is_empty() {
            assert!(rest.starts_with("  "), "{label}:\n{said}");
            columns.push(line.chars().count() - told.chars().count());
        }
    }
    assert!(columns.iter().all(|column| *column == columns[0]), "{label}:\n{said}");
}

/// Every entry of random catalogues: lines, answers and reasons as reckoned here from the evaluator's looks.
#[test]
fn random_explanations() {
    let (mut passed, mut withdrawn) = (0, 0);
    for seed in 0..60 {
        let mut rng = Rng::new(5_000 + seed);
        let asked = Asked::new(&mut rng, 7, if seed % 10 == 0 { 20 } else { 9 });
        let room = asked.room();
        for entry in 0..asked.catalogue.entries {
            let words = ["explain", "deeds", &asked.strict(), &entry.to_string(), "--order", &asked.order_word()];
            let explained = Explained::new(&asked, entry);
            compare(&format!("seed {seed}, {asked:?}"), &explained, &room.run(&words).done());
            passed += explained.states.iter().filter(|state| state.starts_with("passed: group")).count();
            withdrawn += usize::from(asked.catalogue.is_withdrawn(entry));
        }
    }
    assert!(passed > 200 && withdrawn > 5, "{passed} passed, {withdrawn} withdrawn: the comparison shows little");
}

/// Sixty-four conditions, and groups eight deep.
#[test]
fn large_questions() {
    for seed in 0..4 {
        let mut rng = Rng::new(6_000 + seed);
        let mut asked = Asked::new(&mut rng, 5, 1);
        while asked.catalogue.columns.len() < 2 || asked.catalogue.entries == 0 {
            asked = Asked::new(&mut rng, 5, 1);
        }
        asked.question = question_of(&mut rng, &asked.catalogue, 64, 8);
        asked.order = generator::running_order(&mut rng, 64);
        let words = ["explain", "deeds", &asked.strict(), "0", "--order", &asked.order_word()];
        compare(&format!("seed {seed}"), &Explained::new(&asked, 0), &asked.room().run(&words).done());
    }
}
