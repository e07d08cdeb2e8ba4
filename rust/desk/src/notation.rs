//! A question in the notation of order 4, and how it is spelled: strictly, as the engine reads it, or with columns' names and
//! letters in UTF-8, as people do.

use crate::catalogue::from_latin_1;
use crate::show::quoted;

/// A question from front to back. It is kept flat because a text may nest thousands of groups.
#[derive(Default)]
pub struct Written {
    pub parts: Vec<Part>,
    pub conditions: Vec<Condition>,
}

pub enum Part {
    /// A group begins, at this place of the text.
    Opens(Kind, usize),
    /// The condition of this number.
    Condition(usize),
    Closes,
}

#[derive(Clone, Copy, PartialEq, Eq)]
pub enum Kind {
    All,
    Any,
}

impl Kind {
    pub fn named(word: &str) -> Option<Kind> {
        [Kind::All, Kind::Any].into_iter().find(|kind| kind.word() == word)
    }

    pub fn word(self) -> &'static str {
        match self {
            Kind::All => "all",
            Kind::Any => "any",
        }
    }
}

pub struct Condition {
    pub opposite: bool,
    /// The digits of the column's number.
    pub column: String,
    pub test: Test,
    /// Where it begins in the text.
    pub at: usize,
}

pub enum Test {
    /// A number from low to high: their digits.
    In {
        low: String,
        high: String,
    },
    Blank,
    /// `is`, `starts` or `has`, and the text in ISO 8859-1.
    Text {
        word: &'static str,
        text: Vec<u8>,
    },
}

/// The words of the notation; a column of such a name is shown in quotes.
pub const WORDS: [&str; 8] = ["all", "any", "not", "in", "blank", "is", "starts", "has"];

/// The words of the tests on texts.
pub const TEXT_WORDS: [&str; 3] = ["is", "starts", "has"];

impl Written {
    /// The strict spelling.
    pub fn strict(&self) -> String {
        self.spelled(",", Condition::strict)
    }

    /// The question as people read it, and may type it again.
    pub fn shown(&self, names: &[&str]) -> String {
        self.spelled(", ", |condition| condition.shown(names))
    }

    fn spelled(&self, comma: &str, condition: impl Fn(&Condition) -> String) -> String {
        let mut text = String::new();
        let mut after_member = false;
        for part in &self.parts {
            if after_member && !matches!(part, Part::Closes) {
                text.push_str(comma);
            }
            match part {
                Part::Opens(kind, _) => text.extend([kind.word(), "("]),
                Part::Condition(number) => text.push_str(&condition(&self.conditions[*number])),
                Part::Closes => text.push(')'),
            }
            after_member = !matches!(part, Part::Opens(..));
        }
        text
    }
}

impl Condition {
    /// The strict spelling of the condition alone.
    pub fn strict(&self) -> String {
        let letters = |bytes: &[u8]| bytes.iter().map(|&byte| strict_letter(byte)).collect::<String>();
        self.spelled(&format!("c{}", self.column), |bytes| format!("\"{}\"", letters(bytes)))
    }

    /// The condition as people read it, and may type it again.
    pub fn shown(&self, names: &[&str]) -> String {
        let name = self.column.parse().ok().and_then(|number: usize| names.get(number));
        let column = name.map_or_else(|| format!("c{}", self.column), |name| shown_name(name));
        self.spelled(&column, |bytes| quoted(&from_latin_1(bytes)))
    }

    fn spelled(&self, column: &str, in_quotes: impl Fn(&[u8]) -> String) -> String {
        let not = if self.opposite { "not " } else { "" };
        match &self.test {
            Test::In { low, high } => format!("{not}{column} in {low}..{high}"),
            Test::Blank => format!("{not}{column} blank"),
            Test::Text { word, text } => format!("{not}{column} {word} {}", in_quotes(text)),
        }
    }
}

fn strict_letter(byte: u8) -> String {
    match byte {
        b' '..=b'~' if byte != b'"' && byte != b'\\' => char::from(byte).to_string(),
        _ => format!("\\{byte:02X}"),
    }
}

/// A name as it may be typed: in quotes if it is not one word, or a word of the notation.
pub fn shown_name(name: &str) -> String {
    let is_word = name.chars().all(is_of_a_word) && !WORDS.contains(&name.to_lowercase().as_str());
    if is_word { name.to_owned() } else { quoted(name) }
}

/// May this letter stand in a word, as a column's name without quotes is one?
pub fn is_of_a_word(letter: char) -> bool {
    !letter.is_whitespace() && !letter.is_control() && !matches!(letter, '(' | ')' | ',' | '"')
}
