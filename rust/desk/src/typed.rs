//! Reads the notation as people type it: with columns' names, spaces and letters in UTF-8.

use crate::heading::{WITHDRAWN, numbered, same, without_zeros};
use crate::notation::{Condition, Kind, Part, TEXT_WORDS, Test, WORDS, Written, is_of_a_word, shown_name};

/// Where a text cannot be read, and what was expected there.
pub struct Misspelled {
    pub at: usize,
    pub expected: String,
}

/// Reads a question. `names` are those of the catalogue's columns, by their numbers.
pub fn read(text: &str, names: &[&str]) -> Result<Written, Misspelled> {
    let mut reader = Reader { text, at: 0, names };
    let mut written = Written::default();
    let mut open = 0_usize;
    loop {
        reader.spaces();
        if let Some((kind, place)) = reader.group() {
            written.parts.push(Part::Opens(kind, place));
            open += 1;
            continue;
        }
        let condition = reader.condition()?;
        written.parts.push(Part::Condition(written.conditions.len()));
        written.conditions.push(condition);
        loop {
            reader.spaces();
            if open == 0 {
                return if reader.rest().is_empty() { Ok(written) } else { Err(reader.nothing_more()) };
            }
            if reader.take(",") {
                break;
            }
            if !reader.take(")") {
                return Err(reader.expected("`,` or `)`"));
            }
            written.parts.push(Part::Closes);
            open -= 1;
        }
    }
}

struct Reader<'a> {
    text: &'a str,
    at: usize,
    names: &'a [&'a str],
}

impl<'a> Reader<'a> {
    fn rest(&self) -> &'a str {
        &self.text[self.at..]
    }

    fn expected(&self, expected: impl Into<String>) -> Misspelled {
        Misspelled { at: self.at, expected: expected.into() }
    }

    fn nothing_more(&self) -> Misspelled {
        let group = if self.rest().starts_with(')') {
            ""
        } else {
            "; two conditions stand in a group, as in all(.., ..) or any(.., ..)"
        };
        self.expected(format!("nothing more{group}"))
    }

    fn spaces(&mut self) {
        self.at = self.text.len() - self.rest().trim_start().len();
    }

    fn take(&mut self, sign: &str) -> bool {
        let found = self.rest().starts_with(sign);
        self.at += if found { sign.len() } else { 0 };
        found
    }

    /// The word that stands here, which may be empty. It is not taken.
    fn word(&self) -> &'a str {
        let rest = self.rest();
        &rest[..rest.find(|letter| !is_of_a_word(letter)).unwrap_or(rest.len())]
    }

    /// Takes the beginning of a group, if one stands here: its kind and its place.
    fn group(&mut self) -> Option<(Kind, usize)> {
        let kind = Kind::named(self.word())?;
        let inside = self.rest()[kind.word().len()..].trim_start().strip_prefix('(')?;
        let place = self.at;
        self.at = self.text.len() - inside.len();
        Some((kind, place))
    }

    fn condition(&mut self) -> Result<Condition, Misspelled> {
        let at = self.at;
        let opposite = self.word() == "not";
        if opposite {
            self.at += "not".len();
            self.spaces();
        }
        let column = self.column(opposite)?;
        self.spaces();
        let test = self.test()?;
        Ok(Condition { opposite, column, test, at })
    }

    /// The digits of the column's number.
    fn column(&mut self, opposite: bool) -> Result<String, Misspelled> {
        let start = self.at;
        let is_quoted = self.rest().starts_with('"');
        let name: String = if is_quoted {
            self.quoted()?.into_iter().map(|(_, letter)| letter).collect()
        } else {
            let word = self.word();
            self.at += word.len();
            word.to_owned()
        };
        let number = numbered(&name).map(str::to_owned);
        let named = || self.names.iter().position(|other| same(other, &name)).map(|number| number.to_string());
        if let Some(column) = number.or_else(named) {
            return Ok(column);
        }
        if !opposite && !is_quoted && Kind::named(&name).is_some() {
            self.spaces();
            return Err(self.expected(format!("`(` after `{name}`")));
        }
        Err(Misspelled { at: start, expected: self.expected_column(&name, opposite) })
    }

    /// What to expect where no column is named.
    fn expected_column(&self, name: &str, opposite: bool) -> String {
        let columns = self.names.iter().map(|name| shown_name(name)).collect::<Vec<_>>().join(", ");
        if let Some(word) = WORDS.into_iter().find(|word| *word != name && word.eq_ignore_ascii_case(name)) {
            format!("`{word}` in small letters, or a column: {columns}")
        } else if same(name, WITHDRAWN) {
            format!("a column: {columns}; withdrawn entries are never listed, so nobody need ask for the mark")
        } else if self.rest().trim_start().starts_with('(') && !opposite {
            format!("a group, all(.., ..) or any(.., ..), or a column: {columns}")
        } else if opposite {
            format!("a column, for `not` stands before a condition and not before a group: {columns}")
        } else if name.is_empty() {
            format!("a condition or a group; a condition begins with a column: {columns}")
        } else {
            format!("a column: {columns}")
        }
    }

    fn test(&mut self) -> Result<Test, Misspelled> {
        let rest = self.rest();
        let word = &rest[..rest.find(|letter: char| !letter.is_ascii_alphabetic()).unwrap_or(rest.len())];
        let text_word = TEXT_WORDS.into_iter().find(|known| *known == word);
        if text_word.is_none() && word != "in" && word != "blank" {
            let small = if word.contains(|letter: char| letter.is_uppercase()) { ", in small letters" } else { "" };
            return Err(self.expected(format!("`in`, `is`, `starts`, `has` or `blank`{small}")));
        }
        self.at += word.len();
        match text_word {
            Some(word) => Ok(Test::Text { word, text: self.latin_1_text()? }),
            None if word == "blank" => Ok(Test::Blank),
            None => self.range(),
        }
    }

    fn range(&mut self) -> Result<Test, Misspelled> {
        let low = self.number()?;
        self.spaces();
        if !self.take("..") {
            return Err(self.expected("`..` and the last number, as in 1700..1799 (one year: 1700..1700)"));
        }
        Ok(Test::In { low, high: self.number()? })
    }

    fn number(&mut self) -> Result<String, Misspelled> {
        self.spaces();
        let rest = self.rest();
        let digits = &rest[..rest.find(|letter: char| !letter.is_ascii_digit()).unwrap_or(rest.len())];
        if digits.is_empty() {
            return Err(self.expected("a number, as in 1700..1799"));
        }
        self.at += digits.len();
        Ok(without_zeros(digits).to_owned())
    }

    fn latin_1_text(&mut self) -> Result<Vec<u8>, Misspelled> {
        self.spaces();
        if !self.rest().starts_with('"') {
            return Err(self.expected(
                "a text in straight double quotes, as in \"ash\"; a number is asked with `in`, as in 1700..1799",
            ));
        }
        let letter = |(at, letter): (usize, char)| {
            let expected = || format!("a letter of ISO 8859-1, and {letter} is not; no entry has it");
            u8::try_from(letter).map_err(|_| Misspelled { at, expected: expected() })
        };
        self.quoted()?.into_iter().map(letter).collect()
    }

    /// The letters between the quotes that stand here, with their places.
    fn quoted(&mut self) -> Result<Vec<(usize, char)>, Misspelled> {
        let mut letters = Vec::new();
        self.at += 1;
        loop {
            let at = self.at;
            let letter = match self.rest().chars().next() {
                None => return Err(self.expected("`\"`, which ends the text")),
                Some('"') => break,
                Some('\\') => self.escape()?,
                Some(letter) => {
                    self.at += letter.len_utf8();
                    letter
                }
            };
            letters.push((at, letter));
        }
        self.at += 1;
        Ok(letters)
    }

    /// The letter that a backslash and what follows stand for.
    fn escape(&mut self) -> Result<char, Misspelled> {
        let after = &self.rest()[1..];
        if let Some(letter @ ('"' | '\\')) = after.chars().next() {
            self.at += 2;
            return Ok(letter);
        }
        let digits = after.get(..2).filter(|digits| digits.bytes().all(|digit| digit.is_ascii_hexdigit()));
        let Some(byte) = digits.and_then(|digits| u8::from_str_radix(digits, 16).ok()) else {
            return Err(self.expected("after a backslash a quote, a backslash, or two digits 0-9A-F"));
        };
        self.at += 3;
        Ok(char::from(byte))
    }
}
