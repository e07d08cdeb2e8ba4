//! What stands at the head of a column: its name, and what it holds.

/// The name of the column that is the mark.
pub const WITHDRAWN: &str = "withdrawn";

/// The words that say that an entry is withdrawn, and that it is not; their case does not matter.
const WITHDRAWN_WORDS: [&str; 4] = ["yes", "true", "1", "x"];
const PRESENT_WORDS: [&str; 4] = ["no", "false", "0", ""];

/// A column of a CSV file.
pub struct Heading {
    /// The cell of the first line as it stands there.
    pub cell: String,
    pub holds: Holds,
}

#[derive(Clone, PartialEq, Eq)]
pub enum Holds {
    Numbers,
    Texts,
    /// The mark, with the file's word for an entry that is withdrawn and for one that is not.
    Mark {
        withdrawn: String,
        present: String,
    },
}

impl Heading {
    pub fn name(&self) -> &str {
        name_of(&self.cell).0
    }

    pub fn is_mark(&self) -> bool {
        matches!(self.holds, Holds::Mark { .. })
    }
}

/// The name in a heading's cell, and what it declares the column to hold.
pub fn name_of(cell: &str) -> (&str, Option<Holds>) {
    let cell = cell.trim();
    match cell.rsplit_once(':') {
        Some((name, sort)) if same(sort.trim_start(), "number") => (name.trim_end(), Some(Holds::Numbers)),
        Some((name, sort)) if same(sort.trim_start(), "text") => (name.trim_end(), Some(Holds::Texts)),
        _ => (cell, None),
    }
}

/// Is this the cell of the mark? `withdrawn:text` and `withdrawn:number` are columns as any other.
pub fn marks(cell: &str) -> bool {
    matches!(name_of(cell), (name, None) if same(name, WITHDRAWN))
}

/// Are these the same name? Case does not matter.
pub fn same(a: &str, b: &str) -> bool {
    a.to_lowercase() == b.to_lowercase()
}

/// The number of the column that `c0`, `c1` and so on name.
pub fn numbered(name: &str) -> Option<&str> {
    let digits = name.strip_prefix(['c', 'C'])?;
    let all_digits = !digits.is_empty() && digits.bytes().all(|byte| byte.is_ascii_digit());
    all_digits.then(|| without_zeros(digits))
}

/// A number's digits without leading zeros.
pub fn without_zeros(digits: &str) -> &str {
    let rest = digits.trim_start_matches('0');
    if rest.is_empty() { &digits[digits.len() - 1..] } else { rest }
}

/// Does this word say that an entry is withdrawn? Nothing if it says neither that nor the opposite.
pub fn says_withdrawn(word: &str) -> Option<bool> {
    let is_among = |words: &[&str]| words.iter().any(|known| same(known, word));
    is_among(&WITHDRAWN_WORDS).then_some(true).or_else(|| is_among(&PRESENT_WORDS).then_some(false))
}
