use crate::catalogue::{BLANK_NUMBER, Catalogue, Column};
use crate::refusal::{self, Number};

const MAX_OPERAND: usize = 23;
const OPPOSITE: u8 = 128;

/// A condition on one column: its test, or the opposite of that.
#[derive(Clone, Debug, PartialEq, Eq)]
pub struct Condition {
    pub column: usize,
    pub test: Test,
    pub opposite: bool,
}

/// Kinds 0 to 5.
#[derive(Clone, Debug, PartialEq, Eq)]
pub enum Test {
    NumberFrom { low: u32, high: u32 },
    NumberBlank,
    Equals(Vec<u8>),
    BeginsWith(Vec<u8>),
    Contains(Vec<u8>),
    TextBlank,
}

/// What working out a condition at an entry answers (order 2: yes, no or blank).
#[derive(Clone, Copy, Debug, PartialEq, Eq)]
pub enum Answer {
    No,
    Yes,
    Blank,
}

impl Answer {
    /// The number that a call gives for it.
    pub fn number(self) -> usize {
        match self {
            Answer::No => 0,
            Answer::Yes => 1,
            Answer::Blank => 2,
        }
    }

    /// How a run takes it: blank as no.
    pub fn truth(self) -> bool {
        self == Answer::Yes
    }
}

/// Reads a condition's payload against the catalogue's columns; every fault of it is refusal 11.
pub fn read_condition(catalogue: &Catalogue, payload: &[u8]) -> Result<Condition, Number> {
    let &[column, kind, ref operand @ ..] = payload else { return Err(refusal::CONDITION) };
    let column = usize::from(column);
    let (kind, opposite) = if kind < OPPOSITE { (kind, false) } else { (kind - OPPOSITE, true) };
    let test = match (catalogue.columns.get(column), kind) {
        (Some(Column::Numbers(_)), 0) => read_range(operand),
        (Some(Column::Numbers(_)), 1) => operand.is_empty().then_some(Test::NumberBlank),
        (Some(Column::Texts(_)), 2) => read_text(operand).map(Test::Equals),
        (Some(Column::Texts(_)), 3) => read_text(operand).map(Test::BeginsWith),
        (Some(Column::Texts(_)), 4) => read_text(operand).map(Test::Contains),
        (Some(Column::Texts(_)), 5) => operand.is_empty().then_some(Test::TextBlank),
        _ => None,
    };
    Ok(Condition { column, test: test.ok_or(refusal::CONDITION)?, opposite })
}

/// Two four-byte numbers, low ≤ high < 4,294,967,295.
fn read_range(operand: &[u8]) -> Option<Test> {
    let &[a, b, c, d, e, f, g, h] = operand else { return None };
    let (low, high) = (u32::from_be_bytes([a, b, c, d]), u32::from_be_bytes([e, f, g, h]));
    (low <= high && high < BLANK_NUMBER).then_some(Test::NumberFrom { low, high })
}

/// An operand of 1 to 23 bytes.
fn read_text(operand: &[u8]) -> Option<Vec<u8>> {
    (1..=MAX_OPERAND).contains(&operand.len()).then(|| operand.to_vec())
}

/// Works out a condition at an entry. Both are there in the catalogue; whether the entry is withdrawn makes no difference.
pub fn outcome(catalogue: &Catalogue, condition: &Condition, entry: usize) -> Answer {
    let (is_blank, met) = match &catalogue.columns[condition.column] {
        Column::Numbers(numbers) => (numbers[entry] == BLANK_NUMBER, number_meets(&condition.test, numbers[entry])),
        Column::Texts(texts) => (texts[entry].is_empty(), text_meets(&condition.test, &texts[entry])),
    };
    let asks_for_blank = matches!(condition.test, Test::NumberBlank | Test::TextBlank);
    if is_blank && !asks_for_blank {
        // A blank field meets neither a condition nor its opposite.
        Answer::Blank
    } else if met != condition.opposite {
        Answer::Yes
    } else {
        Answer::No
    }
}

fn number_meets(test: &Test, number: u32) -> bool {
    match test {
        Test::NumberFrom { low, high } => *low <= number && number <= *high,
        Test::NumberBlank => number == BLANK_NUMBER,
        _ => unreachable!("a test of texts on a number column"),
    }
}

fn text_meets(test: &Test, text: &[u8]) -> bool {
    match test {
        Test::Equals(operand) => folded(text) == folded(operand),
        Test::BeginsWith(operand) => folded(text).starts_with(&folded(operand)),
        // From each starting place in the text.
        Test::Contains(operand) => (0..text.len()).any(|place| folded(&text[place..]).starts_with(&folded(operand))),
        Test::TextBlank => text.is_empty(),
        _ => unreachable!("a test of numbers on a text column"),
    }
}

fn folded(text: &[u8]) -> Vec<u8> {
    text.iter().map(|&byte| fold(byte)).collect()
}

/// The fold, by which text and operand are compared: "after the present fold" (order 5), so lower case first, and then the
/// accent is taken off.
pub fn fold(byte: u8) -> u8 {
    without_accent(lower_case(byte))
}

/// Document 01: "65 to 90 and 192 to 222 except 215 gain 32; every other byte is unchanged."
fn lower_case(byte: u8) -> u8 {
    match byte {
        215 => 215,
        65..=90 | 192..=222 => byte + 32,
        _ => byte,
    }
}

/// Order 5: "224 to 229 become 97, 231 becomes 99, 232 to 235 become 101, 236 to 239 become 105, 241 becomes 110, 242 to 246
/// become 111, 249 to 252 become 117, 253 and 255 become 121. The others, 230, 240, 248 and 254 among them, stay."
fn without_accent(byte: u8) -> u8 {
    match byte {
        224..=229 => 97,
        231 => 99,
        232..=235 => 101,
        236..=239 => 105,
        241 => 110,
        242..=246 => 111,
        249..=252 => 117,
        253 | 255 => 121,
        _ => byte,
    }
}
