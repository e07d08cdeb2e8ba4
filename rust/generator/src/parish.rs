//! The names of parishes, put together from parts.

use crate::Rng;

const FIRST: [&str; 14] = [
    "Ash",
    "Kirk",
    "New",
    "Great ",
    "Little ",
    "St. Mary ",
    "Thorpe ",
    "Upper ",
    "Lang",
    "West",
    "Bur",
    "Wool",
    "Stan",
    "Hart",
];
const LAST: [&str; 12] =
    ["by", "ton", "field", "ley", "Ashby", "Langley", "wick", "ham", "-on-Sea", "Newton", "bridge", "ford"];

/// Any first part with any last one, also where no parish would be called so.
pub(crate) fn any_parish(rng: &mut Rng) -> Vec<u8> {
    [rng.pick(&FIRST).as_bytes(), rng.pick(&LAST).as_bytes()].concat()
}

/// Every name that a parish could have: a first part that is a word stands before a whole name, another before an
/// ending that doubles no letter.
pub(crate) fn likely_parishes() -> Vec<String> {
    let likely = |first: &str, last: &str| match first.ends_with(' ') {
        true => last.starts_with(char::is_uppercase),
        false => last.starts_with(char::is_lowercase) && !first.ends_with(&last[..1]),
    };
    let pairs = FIRST.iter().flat_map(|first| LAST.iter().map(move |last| (first, last)));
    pairs.filter(|(first, last)| likely(first, last)).map(|(first, last)| format!("{first}{last}")).collect()
}
