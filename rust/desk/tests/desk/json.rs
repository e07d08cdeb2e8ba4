//! The JSON that `ask` must print, put together from what the evaluator finds.

use evaluator::{BLANK_NUMBER, Column, Condition, Question, Tree, spelling};
use generator::encode_question;

use crate::desk::asked::Asked;
use crate::desk::shown::shown;

/// The whole object, on one line.
pub fn json_of(asked: &Asked, reader: usize, tally: Option<u64>) -> String {
    let found = asked.found();
    let entries = asked.catalogue.entries;
    let conditions = asked.question.conditions.iter().enumerate().map(|(number, condition)| {
        let (text, strict) = (json_text(&shown(condition, &asked.names)), json_text(&strict(condition)));
        format!(r#"{{"condition":{number},"text":{text},"strict":{strict},"looks":{}}}"#, found.looks_at(number))
    });
    let listed = (0..entries).filter(|&entry| found.listed[entry]);
    let listed = listed.map(|entry| format!(r#"{{"entry":{entry},"values":{{{}}}}}"#, values(asked, entry)));
    format!(
        "{{\"entries\":{entries},\"withdrawn\":{},\"found\":{},\"looks\":{},\"order\":[{}],\"conditions\":[{}],\
         \"listed\":[{}],\"reader\":{reader}{}}}\n",
        entries - asked.catalogue.present(),
        found.found_count(),
        found.look_count(),
        asked.order_word(),
        joined(conditions),
        joined(listed),
        tally.map_or_else(String::new, |tally| format!(",\"tally\":{tally}")),
    )
}

fn joined(parts: impl Iterator<Item = String>) -> String {
    parts.collect::<Vec<_>>().join(",")
}

fn values(asked: &Asked, entry: usize) -> String {
    let value = |column: &Column| match column {
        Column::Numbers(numbers) if numbers[entry] == BLANK_NUMBER => "null".to_owned(),
        Column::Numbers(numbers) => numbers[entry].to_string(),
        Column::Texts(texts) if texts[entry].is_empty() => "null".to_owned(),
        Column::Texts(texts) => json_text(&texts[entry].iter().map(|&byte| char::from(byte)).collect::<String>()),
    };
    let cells = asked.names.iter().zip(&asked.catalogue.columns);
    joined(cells.map(|(name, column)| format!("{}:{}", json_text(name), value(column))))
}

/// The strict spelling of a condition alone.
pub fn strict(condition: &Condition) -> String {
    let alone = Question { tree: Tree::Condition(0), conditions: vec![condition.clone()] };
    spelling(&encode_question(&alone)).expect("a condition that can be spelled")
}

/// A text in quotes; only quotes, backslashes and the first 32 characters are escaped.
pub fn json_text(text: &str) -> String {
    let letter = |letter: char| match letter {
        '"' | '\\' => format!("\\{letter}"),
        '\u{8}' => "\\b".to_owned(),
        '\u{9}' => "\\t".to_owned(),
        '\u{A}' => "\\n".to_owned(),
        '\u{C}' => "\\f".to_owned(),
        '\u{D}' => "\\r".to_owned(),
        '\u{0}'..='\u{1F}' => format!("\\u{:04x}", u32::from(letter)),
        _ => letter.to_string(),
    };
    format!("\"{}\"", text.chars().map(letter).collect::<String>())
}
