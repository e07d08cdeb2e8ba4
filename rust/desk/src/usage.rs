//! Wrong usage: what clap says of it, as it may go to a terminal.

use clap::builder::StyledStr;
use clap::error::{ContextValue, Error};

use crate::show::{is_unseen, shown};

/// Ends the program with what clap has to say: help, the release, or why it does not take the words. It repeats words
/// as they were typed, so these are shown as values are.
pub fn end(mut error: Error) -> ! {
    let said: Vec<_> = error.context().map(|(kind, value)| (kind, value.clone())).collect();
    for (kind, value) in said {
        error.insert(kind, as_shown(value));
    }
    error.exit()
}

fn as_shown(value: ContextValue) -> ContextValue {
    match value {
        ContextValue::String(text) => ContextValue::String(shown(&text)),
        ContextValue::Strings(texts) => ContextValue::Strings(texts.iter().map(|text| shown(text)).collect()),
        ContextValue::StyledStrs(texts) => ContextValue::StyledStrs(texts.into_iter().map(without_unseen).collect()),
        other => other,
    }
}

/// A text in colours. These are given up where a letter has to be shown by its number.
fn without_unseen(text: StyledStr) -> StyledStr {
    let plain = text.to_string();
    if plain.contains(is_unseen) { shown(&plain).into() } else { text }
}
