//! How things are printed: in colours if it goes to a terminal, without control characters, and in the right number.

use std::env;
use std::io::IsTerminal;
use std::path::Path;
use std::str::Utf8Chunk;

/// Colours, or none.
#[derive(Clone, Copy)]
pub struct Paint {
    on: bool,
}

impl Paint {
    /// Colours if the stream is a terminal that has them and the user has not declined them (no-color.org).
    pub fn of(stream: &impl IsTerminal) -> Paint {
        let declined = env::var_os("NO_COLOR").is_some_and(|value| !value.is_empty());
        let dumb = env::var_os("TERM").is_none_or(|terminal| terminal == "dumb");
        Paint { on: stream.is_terminal() && !declined && !dumb }
    }

    pub fn bold(self, text: &str) -> String {
        self.with("1", text)
    }

    pub fn dim(self, text: &str) -> String {
        self.with("2", text)
    }

    pub fn red(self, text: &str) -> String {
        self.with("31", text)
    }

    pub fn green(self, text: &str) -> String {
        self.with("32", text)
    }

    fn with(self, code: &str, text: &str) -> String {
        if self.on { format!("\x1B[{code}m{text}\x1B[0m") } else { text.to_owned() }
    }
}

/// A number and its noun: 1 look, 2 looks.
pub fn counted(number: usize, one: &str, more: &str) -> String {
    format!("{number} {}", if number == 1 { one } else { more })
}

/// A number in groups of three digits, as the pages write it.
pub fn grouped(number: usize) -> String {
    let digits = number.to_string();
    let place = |(at, digit): (usize, char)| {
        let comma = at > 0 && (digits.len() - at).is_multiple_of(3);
        comma.then_some(',').into_iter().chain([digit])
    };
    digits.chars().enumerate().flat_map(place).collect()
}

/// A value as it may go to a terminal: of what nobody sees, control characters above all, a backslash and the number.
pub fn shown(text: &str) -> String {
    text.chars().map(|letter| if is_unseen(letter) { by_number(letter) } else { letter.to_string() }).collect()
}

/// A value as it may stand between quotes: in the same way, and a backslash before quotes and backslashes.
pub fn quoted(text: &str) -> String {
    let letter = |letter: char| match letter {
        '"' | '\\' => format!("\\{letter}"),
        _ if is_unseen(letter) => by_number(letter),
        _ => letter.to_string(),
    };
    format!("\"{}\"", text.chars().map(letter).collect::<String>())
}

/// A path as it may go to a terminal: in the same way, and of a byte that is no UTF-8 its number too.
pub fn shown_path(path: &Path) -> String {
    let part = |part: Utf8Chunk| {
        let strange = part.invalid().iter().map(|&byte| by_number(char::from(byte)));
        shown(part.valid()) + &strange.collect::<String>()
    };
    path.as_os_str().as_encoded_bytes().utf8_chunks().map(part).collect()
}

/// Control characters, the space that does not break, and letters of no width. Those in a catalogue have two digits.
pub fn is_unseen(letter: char) -> bool {
    letter.is_control() || letter == '\u{A0}' || is_of_no_width(letter)
}

/// Letters of no width, the byte order mark and those that turn the direction of writing among them: two names that
/// differ by one look the same.
pub fn is_of_no_width(letter: char) -> bool {
    matches!(letter, '\u{AD}' | '\u{200B}'..='\u{200F}' | '\u{202A}'..='\u{202E}' | '\u{2060}'..='\u{206F}' | '\u{FEFF}')
}

fn by_number(letter: char) -> String {
    format!("\\{:02X}", u32::from(letter))
}
