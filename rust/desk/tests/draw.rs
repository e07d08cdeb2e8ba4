//! `searchroom draw`: the picture is XML, holds what it must, and nothing of it stands outside.

mod desk {
    pub mod asked;
    pub mod parish;
    pub mod picture;
    pub mod room;
    pub mod shown;
}

use std::fs;

use desk::asked::Asked;
use desk::parish::{QUESTION, imported, parish};
use desk::picture::{Picture, Shape, Text};
use desk::shown::shown;
use evaluator::{Condition, Question, Test, Tree};
use generator::{Rng, question_of, running_order};

/// Draws a question and reads the picture.
fn drawn(asked: &Asked) -> Picture {
    let room = asked.room();
    let words = ["draw", "deeds", &asked.strict(), "-o", "question.svg", "--order", &asked.order_word()];
    let said = room.run(&words).done();
    let mut groups = Vec::new();
    groups_of(&asked.question.tree, &mut groups);
    let numbers: Vec<&str> = said.split(|sign: char| !sign.is_ascii_digit()).filter(|part| !part.is_empty()).collect();
    let expected = [asked.question.conditions.len().to_string(), groups.len().to_string()];
    assert!(said.starts_with("question.svg: ") && numbers == expected, "{said}");
    assert!(!room.path("question.svg.new").exists());
    Picture::read(&room.path("question.svg"))
}

/// Whether each group, as they stand, is of all, and the conditions inside.
fn groups_of(tree: &Tree, groups: &mut Vec<(&'static str, Vec<usize>)>) -> Vec<usize> {
    let (word, members) = match tree {
        Tree::Condition(number) => return vec![*number],
        Tree::AllOf(members) => ("all", members),
        Tree::AnyOf(members) => ("any", members),
    };
    let place = groups.len();
    groups.push((word, Vec::new()));
    let inside: Vec<usize> = members.iter().flat_map(|member| groups_of(member, groups)).collect();
    groups[place].1.clone_from(&inside);
    inside
}

/// Each condition is a row: its text, its turn, its looks and their share.
fn compare_rows(label: &str, asked: &Asked, picture: &Picture) {
    let (found, present) = (asked.found(), asked.catalogue.present());
    let [texts, shares, turns] = ["condition", "share", "turn"].map(|class| picture.texts_of(class));
    let [tracks, bars] = ["track", "looks"].map(|class| picture.boxes_of(class));
    let count = asked.question.conditions.len();
    assert_eq!([texts.len(), shares.len(), turns.len(), tracks.len(), bars.len()], [count; 5], "{label}");
    for (number, condition) in asked.question.conditions.iter().enumerate() {
        let whole = shown(condition, &asked.names);
        assert!(picture.titles.contains(&whole), "{label}: the title {whole}");
        let text = &texts[number].content;
        let cut = text.strip_suffix('…').filter(|start| whole.starts_with(*start) && start.chars().count() > 40);
        assert!(*text == whole || cut.is_some(), "{label}: {text:?} for {whole:?}");
        let looks = found.looks_at(number);
        let share = shares[number].content.strip_prefix(&format!("{looks} of {present} (")).map(str::to_owned);
        assert!(share.is_some_and(|share| is_share(&share, looks, present)), "{label}: {:?}", shares[number].content);
        let turn = asked.order.iter().position(|&other| usize::from(other) == number).expect("a turn") + 1;
        assert_eq!(turns[number].content, turn.to_string(), "{label}: condition {number}");
        let width = tracks[number].width * looks as f64 / present.max(1) as f64;
        assert!((bars[number].width - width).abs() < 0.02, "{label}: {:?} of {:?}", bars[number], tracks[number]);
        assert_eq!(bars[number].x, tracks[number].x, "{label}");
        assert!([&turns[number], &shares[number]].iter().all(|other| other.y == texts[number].y), "{label}");
        assert!(bars[number].spans(texts[number].y - 4.0), "{label}: the bar stands beside its text");
    }
}

/// The whole percent, rounded; none and all only where it is none or all.
fn is_share(share: &str, looks: usize, present: usize) -> bool {
    let percent = 100.0 * looks as f64 / present.max(1) as f64;
    let told = share.trim_end_matches("%)").trim_start_matches("under ").trim_start_matches("over ");
    told.parse::<f64>().is_ok_and(|told| (told - percent).abs() <= 1.0) && share.ends_with("%)")
}

/// A group is a box around just the rows of its conditions, inside the boxes of the groups around it, with its word.
fn compare_groups(label: &str, asked: &Asked, picture: &Picture) {
    let mut groups = Vec::new();
    groups_of(&asked.question.tree, &mut groups);
    let boxes: Vec<&Shape> =
        picture.boxes.iter().filter(|shape| ["all", "any"].contains(&shape.class.as_str())).collect();
    let words = picture.texts_of("word");
    let expected: Vec<&str> = groups.iter().map(|(word, _)| *word).collect();
    assert_eq!(boxes.iter().map(|shape| shape.class.as_str()).collect::<Vec<_>>(), expected, "{label}");
    assert_eq!(words.iter().map(|word| word.content.as_str()).collect::<Vec<_>>(), expected, "{label}");
    let rows = picture.texts_of("condition");
    for (place, (_, inside)) in groups.iter().enumerate() {
        let within: Vec<usize> = (0..rows.len()).filter(|&row| boxes[place].spans(rows[row].y)).collect();
        assert_eq!(within, *inside, "{label}: group {place}");
        assert!(boxes[place].spans(words[place].y) && boxes[place].x <= words[place].x, "{label}: group {place}");
        assert!(boxes[place].x < rows[inside[0]].x, "{label}: group {place}");
        let around = (0..place).filter(|&other| groups[other].1.contains(&inside[0]));
        for other in around {
            assert!(boxes[other].x < boxes[place].x, "{label}: group {place} inside group {other}");
        }
    }
}

fn compare(label: &str, asked: &Asked) {
    let picture = drawn(asked);
    compare_rows(label, asked, &picture);
    compare_groups(label, asked, &picture);
    picture.assert_inside(label);
    picture.assert_apart(label);
}

#[test]
fn picture_of_the_parish() {
    let room = parish();
    let said = room.run(&["draw", "parish", QUESTION, "-o", "question.svg"]).done();
    assert_eq!(said, "question.svg: 3 conditions, 2 groups\n");
    let picture = Picture::read(&room.path("question.svg"));
    let contents = |class| picture.texts_of(class).into_iter().map(|text| text.content).collect::<Vec<_>>();
    assert_eq!(contents("condition"), ["year in 1700..1799", "parish starts \"ash\"", "year blank"]);
    assert_eq!(contents("share"), ["3 of 3 (100%)", "1 of 3 (33%)", "2 of 3 (67%)"]);
    assert_eq!(contents("word"), ["any", "all"]);
}

/// The file is replaced, and may be named with either form of the option.
#[test]
fn file_is_replaced() {
    let room = parish();
    room.run(&["draw", "parish", QUESTION, "--output", "old.svg"]).done();
    assert_eq!(Picture::read(&room.path("old.svg")).texts_of("condition").len(), 3);
    room.run(&["draw", "parish", "year blank", "--output", "old.svg"]).done();
    assert_eq!(Picture::read(&room.path("old.svg")).texts_of("condition").len(), 1);
    let said = room.run(&["draw", "parish", "year blank", "-o", "missing/a.svg"]).failed(1);
    assert_eq!(said, "searchroom: there is no folder missing: make it\n");
    fs::create_dir(room.path("folder")).unwrap();
    let said = room.run(&["draw", "parish", "year blank", "-o", "folder"]).failed(1);
    assert!(said.starts_with("searchroom: ") && said.contains("folder"), "{said}");
}

/// With `-` the picture goes to standard output, and nothing else does.
#[test]
fn picture_on_standard_output() {
    let room = parish();
    room.run(&["draw", "parish", QUESTION, "-o", "a.svg"]).done();
    let drawn = fs::read_to_string(room.path("a.svg")).unwrap();
    assert_eq!(room.run(&["draw", "parish", QUESTION, "-o", "-"]).done(), drawn);
    assert!(!room.path("-").exists());
}

#[test]
fn random_pictures() {
    for seed in 0..40 {
        let asked = Asked::new(&mut Rng::new(7_000 + seed), 40, 9);
        compare(&format!("seed {seed}: {asked:?}"), &asked);
    }
}

#[test]
fn pictures_of_few_and_many_conditions() {
    let mut rng = Rng::new(8_000);
    for (count, depth) in [(1, 1), (1, 8), (6, 2), (6, 8), (64, 1), (64, 8)] {
        let mut asked = Asked::new(&mut rng, 60, 1);
        asked.question = question_of(&mut rng, &asked.catalogue, count, depth);
        asked.order = running_order(&mut rng, count);
        compare(&format!("{count} conditions, {depth} deep"), &asked);
    }
}

/// Eight groups around one condition, and a condition alone.
#[test]
fn deepest_and_plainest() {
    let mut asked = Asked::new(&mut Rng::new(9), 9, 1);
    asked.order = vec![0];
    let condition = asked.question.conditions[0].clone();
    for depth in [0, 8] {
        let tree = (0..depth).fold(Tree::Condition(0), |inner, _| Tree::AllOf(vec![inner]));
        asked.question = Question { tree, conditions: vec![condition.clone()] };
        compare(&format!("{depth} deep"), &asked);
    }
}

/// Signs of XML, control characters, letters outside ISO 8859-1 and long names: the picture stays sound.
#[test]
fn names_that_are_no_xml() {
    let long = "date of deed ".repeat(15);
    for name in
        ["<b>", "a&amp;b", "a\"b'", "]]>", "<!--", "tab\tname", "\u{1}\u{1B}", "日本", "\u{FFFE}", "\u{FFFF}", &long]
    {
        let room = imported(&format!("\"{}\",b\n1,<&>\n", name.replace('"', "\"\"")));
        let question = "all(not c0 blank, c1 is \"<&>\", c1 has \"\\01\\80\\FF\")";
        room.run(&["draw", "parish", question, "-o", "a.svg"]).done();
        let picture = Picture::read(&room.path("a.svg"));
        picture.assert_inside(name);
        let texts = picture.texts_of("condition");
        assert!(texts.len() == 3 && texts[1].content == "b is \"<&>\"", "{name:?}: {texts:?}");
        let is_plain =
            !name.contains(|letter: char| letter.is_control() || letter > '\u{FFF0}' || "\"\\".contains(letter));
        let trimmed = name.trim();
        assert!(
            !is_plain || picture.titles.iter().any(|title| title.contains(trimmed)),
            "{name:?}: {:?}",
            picture.titles
        );
    }
}

/// Where no entry is in the house there is nothing to look at.
#[test]
fn no_entries() {
    for table in ["year\n", "year,withdrawn\n1701,x\n"] {
        let room = imported(table);
        room.run(&["draw", "parish", "any(year blank, year in 1..2)", "-o", "a.svg"]).done();
        let picture = Picture::read(&room.path("a.svg"));
        let shares: Vec<Text> = picture.texts_of("share");
        assert!(shares.iter().all(|share| share.content.starts_with("0 of 0")), "{shares:?}");
        assert!(picture.boxes_of("looks").iter().all(|bar| bar.width == 0.0));
    }
}

/// Of many entries: a bar of one look is there, but short.
#[test]
fn bars_are_in_proportion() {
    let mut asked = Asked::new(&mut Rng::new(10), 1, 1);
    let numbers = evaluator::Column::Numbers((0..2_000).collect());
    asked.catalogue = evaluator::Catalogue::unmarked(2_000, vec![numbers]);
    asked.names = vec!["n".to_owned()];
    let range = |low, high| Condition { column: 0, test: Test::NumberFrom { low, high }, opposite: false };
    asked.question = Question {
        tree: Tree::AllOf((0..4).map(Tree::Condition).collect()),
        conditions: vec![range(0, 999), range(500, 501), range(500, 500), range(501, 501)],
    };
    asked.order = vec![0, 1, 2, 3];
    let found = asked.found();
    assert_eq!((0..4).map(|number| found.looks_at(number)).collect::<Vec<_>>(), [2_000, 1_000, 2, 1]);
    compare("halves", &asked);
}
