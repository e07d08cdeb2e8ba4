//! How a condition is shown to people: with the column's name, and text in UTF-8.

use evaluator::{Condition, Test};

const WORDS: [&str; 8] = ["all", "any", "not", "in", "blank", "is", "starts", "has"];

/// The condition as a person would type it.
pub fn shown(condition: &Condition, names: &[String]) -> String {
    let name = &names[condition.column];
    let is_word = name.chars().all(char::is_alphanumeric) && !WORDS.contains(&name.as_str());
    let name = if is_word { name.clone() } else { format!("\"{}\"", name.replace('\\', "\\\\").replace('"', "\\\"")) };
    let test = match &condition.test {
        Test::NumberFrom { low, high } => format!("in {low}..{high}"),
        Test::NumberBlank | Test::TextBlank => "blank".to_owned(),
        Test::Equals(text) => format!("is \"{}\"", letters(text)),
        Test::BeginsWith(text) => format!("starts \"{}\"", letters(text)),
        Test::Contains(text) => format!("has \"{}\"", letters(text)),
    };
    format!("{}{name} {test}", if condition.opposite { "not " } else { "" })
}

/// The text in UTF-8; what nobody would see by its number: control characters, the space that does not break (A0), the hyphen
/// that does not show (AD).
fn letters(text: &[u8]) -> String {
    let letter = |&byte: &u8| match byte {
        b'"' | b'\\' => format!("\\{}", char::from(byte)),
        0xA0 | 0xAD => format!("\\{byte:02X}"),
        _ if char::from(byte).is_control() => format!("\\{byte:02X}"),
        _ => char::from(byte).to_string(),
    };
    text.iter().map(letter).collect()
}
