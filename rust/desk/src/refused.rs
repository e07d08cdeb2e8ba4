//! Where a question that is refused goes wrong, and what to do about it. The engine refuses by number and text; the place in
//! what a person typed is found by asking it about parts.

use searchroom::{MAX_CONDITIONS, MAX_DEPTH, MAX_TEXT, MAX_TYPED, Refusal, typed_question};

use crate::catalogue::{Column, MAX_NUMBER};
use crate::folder::Folder;
use crate::notation::{Condition, Part, Test, Written, shown_name};
use crate::show::grouped;
use crate::typed::Misspelled;

/// A place in the text, and what to do there.
type Trouble = (usize, String);

/// Help with a text that cannot be read.
pub fn help_with_misspelled(text: &str, misspelled: &Misspelled) -> String {
    caret(text, misspelled.at, &format!("expected {}", misspelled.expected))
}

/// Help with a question that can be read and that the engine refuses.
pub fn help_with_refused(folder: &Folder, text: &str, written: &Written, refusal: Refusal) -> String {
    let place = match refusal {
        Refusal::TooDeep => too_deep(written),
        Refusal::TooManyConditions => one_too_many(written),
        Refusal::RepeatedCondition => repeated(folder, written),
        _ => refused_alone(folder, written, refusal),
    };
    match place {
        Some((at, what)) => caret(text, at, &what),
        None => {
            let (bytes, most) = (grouped(written.strict().len()), grouped(MAX_TYPED));
            format!("\n  in the strict spelling it has {bytes} bytes; at most {most} are read, so ask two questions")
        }
    }
}

/// The first group that stands too deep.
fn too_deep(written: &Written) -> Option<Trouble> {
    let mut depth = 0;
    for part in &written.parts {
        match part {
            Part::Opens(_, at) if depth == MAX_DEPTH => {
                return Some((
                    *at,
                    format!("this group stands too deep; at most {MAX_DEPTH} stand inside each other, so regroup"),
                ));
            }
            Part::Opens(..) => depth += 1,
            Part::Condition(_) => {}
            Part::Closes => depth -= 1,
        }
    }
    None
}

fn one_too_many(written: &Written) -> Option<Trouble> {
    let condition = written.conditions.get(MAX_CONDITIONS)?;
    Some((condition.at, format!("one condition too many; at most {MAX_CONDITIONS} fit, so ask two questions")))
}

/// The first condition that the engine reads into the bytes of an earlier one.
fn repeated(folder: &Folder, written: &Written) -> Option<Trouble> {
    let bytes: Vec<_> = written.conditions.iter().map(|condition| alone(folder, condition)).collect();
    (0..bytes.len()).find_map(|number| {
        let earlier = bytes[..number].iter().position(|other| *other == bytes[number])?;
        let what = format!("the same as condition {earlier}; leave one out, or regroup, as in all(A, any(B, C))");
        Some((written.conditions[number].at, what))
    })
}

/// The first condition that the engine refuses by itself with the same number.
fn refused_alone(folder: &Folder, written: &Written, refusal: Refusal) -> Option<Trouble> {
    let condition = written.conditions.iter().find(|condition| alone(folder, condition) == Err(refusal))?;
    Some((condition.at, advice(folder, condition)))
}

/// What the engine makes of a condition alone.
fn alone(folder: &Folder, condition: &Condition) -> Result<Vec<u8>, Refusal> {
    typed_question(&folder.bytes, condition.strict().as_bytes())
}

/// What to do about a condition that the engine refuses alone.
fn advice(folder: &Folder, condition: &Condition) -> String {
    let names: Vec<String> = folder.names().into_iter().map(shown_name).collect();
    let number = condition.column.parse().unwrap_or(usize::MAX);
    let (Some(column), Some(name)) = (folder.catalogue.columns.get(number), names.get(number)) else {
        let last = names.len() - 1;
        return format!("there is no c{}; the columns are c0 to c{last}: {}", condition.column, names.join(", "));
    };
    match (&condition.test, column) {
        (Test::In { .. }, Column::Texts(_)) => format!("{name} holds texts; ask `is`, `starts`, `has` or `blank`"),
        (Test::Text { .. }, Column::Numbers(_)) => format!("{name} holds numbers; ask `in` or `blank`"),
        (Test::Text { text, .. }, _) if text.is_empty() => "an empty text; ask `blank`".to_owned(),
        (Test::Text { text, .. }, _) => format!("{} letters; a text has at most {MAX_TEXT}, so shorten it", text.len()),
        _ => format!("the smaller number stands first, and the largest is {}", grouped(MAX_NUMBER as usize)),
    }
}

/// How many letters of a question are shown around a place.
const SHOWN: usize = 72;

/// The line of the text in which a place stands, and below it a caret at the place with what there is to say.
fn caret(text: &str, at: usize, what: &str) -> String {
    // What is missing at the end is missed where the text ends that can be seen.
    let at = if text[at..].trim().is_empty() { text.trim_end().len() } else { at };
    let start = text[..at].rfind('\n').map_or(0, |end| end + 1);
    let before = text[start..at].chars().count();
    let line: Vec<char> = text[start..].lines().next().unwrap_or_default().chars().collect();
    // A long line is cut, with the place in what is left of it.
    let from = before.saturating_sub(SHOWN / 2).min(line.len().saturating_sub(SHOWN));
    let to = line.len().min(from + SHOWN);
    let cut = |is_cut: bool| if is_cut { "…" } else { "" };
    let shown: String = line[from..to].iter().map(|&letter| if letter.is_control() { ' ' } else { letter }).collect();
    let (head, tail) = (cut(from > 0), cut(to < line.len()));
    let indent = before - from + head.chars().count();
    format!("\n  {head}{shown}{tail}\n  {:indent$}^ {what}", "")
}
