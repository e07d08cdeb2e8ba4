use searchroom::Answer;

use crate::fold::FOLD;

use super::catalogue::{Catalogue, Column, check_catalogue, field};

/// A question that was checked, its operands still in its bytes.
pub struct Question<'a> {
    pub tree: Tree,
    pub conditions: Vec<Condition<'a>>,
}

pub enum Tree {
    Leaf(usize),
    All(Vec<Tree>),
    Any(Vec<Tree>),
}

impl Tree {
    /// The tree's value, each outcome asked for only where the members before it left their group open.
    pub fn value(&self, outcome: &impl Fn(usize) -> bool) -> bool {
        match self {
            Tree::Leaf(number) => outcome(*number),
            Tree::All(members) => members.iter().all(|member| member.value(outcome)),
            Tree::Any(members) => members.iter().any(|member| member.value(outcome)),
        }
    }
}

/// A condition that was checked.
pub struct Condition<'a> {
    payload: &'a [u8],
    column: Column<'a>,
    test: Test<'a>,
    opposite: bool,
}

enum Test<'a> {
    Range(u32, u32),
    NumberBlank,
    Equals(&'a [u8]),
    BeginsWith(&'a [u8]),
    Contains(&'a [u8]),
    TextBlank,
}

/// Checks the catalogue, then the question against it.
pub fn check_question(catalogue: &[u8], question: &[u8]) -> Result<usize, u8> {
    let catalogue = check_catalogue(catalogue)?;
    Ok(read_question(&catalogue, question)?.conditions.len())
}

/// Checks both, then works out one condition.
pub fn outcome(catalogue: &[u8], question: &[u8], entry: u64, condition: u64) -> Result<Answer, u8> {
    let catalogue = check_catalogue(catalogue)?;
    let question = read_question(&catalogue, question)?;
    if entry >= catalogue.entries as u64 {
        return Err(18);
    }
    let condition = question.conditions.get(usize::try_from(condition).map_err(|_| 18)?).ok_or(18)?;
    Ok(condition.answer(entry as usize))
}

/// Reads a question against a catalogue that was checked.
pub fn read_question<'a>(catalogue: &Catalogue<'a>, question: &'a [u8]) -> Result<Question<'a>, u8> {
    let mut conditions = Vec::new();
    let (tree, rest) = member(catalogue, question, 1, &mut conditions)?;
    if rest.is_empty() { Ok(Question { tree, conditions }) } else { Err(14) }
}

fn member<'a>(
    catalogue: &Catalogue<'a>,
    bytes: &'a [u8],
    depth: usize,
    conditions: &mut Vec<Condition<'a>>,
) -> Result<(Tree, &'a [u8]), u8> {
    let (tag, payload, rest) = field(bytes).ok_or(7)?;
    let tree = match tag {
        65 | 79 if depth > 8 => return Err(10),
        65 | 79 if payload.is_empty() => return Err(9),
        65 | 79 => {
            let mut members = Vec::new();
            let mut inside = payload;
            while !inside.is_empty() {
                let (tree, after) = member(catalogue, inside, depth + 1, conditions)?;
                members.push(tree);
                inside = after;
            }
            if tag == 65 { Tree::All(members) } else { Tree::Any(members) }
        }
        80 if conditions.len() == 64 => return Err(12),
        80 => {
            let condition = Condition::read(catalogue, payload).ok_or(11)?;
            if conditions.iter().any(|earlier| earlier.payload == payload) {
                return Err(13);
            }
            conditions.push(condition);
            Tree::Leaf(conditions.len() - 1)
        }
        _ => return Err(8),
    };
    Ok((tree, rest))
}

impl<'a> Condition<'a> {
    fn read(catalogue: &Catalogue<'a>, payload: &'a [u8]) -> Option<Condition<'a>> {
        let (&[column, kind], operand) = payload.split_first_chunk()?;
        let column = *catalogue.columns.get(usize::from(column))?;
        let text = (1..=23).contains(&operand.len());
        let test = match (column, kind & 127) {
            (Column::Numbers(_), 0) if operand.len() == 8 => {
                let (low, high) = (number(operand, 0), number(operand, 1));
                if low > high || high == u32::MAX {
                    return None;
                }
                Test::Range(low, high)
            }
            (Column::Numbers(_), 1) if operand.is_empty() => Test::NumberBlank,
            (Column::Texts(_), 2) if text => Test::Equals(operand),
            (Column::Texts(_), 3) if text => Test::BeginsWith(operand),
            (Column::Texts(_), 4) if text => Test::Contains(operand),
            (Column::Texts(_), 5) if operand.is_empty() => Test::TextBlank,
            _ => return None,
        };
        Some(Condition { payload, column, test, opposite: kind >= 128 })
    }

    /// Does a run take the condition as yes at an entry? Worked out apart from the answer, for speed.
    pub fn holds(&self, entry: usize) -> bool {
        let (met, is_blank) = self.test_at(entry);
        met != self.opposite && (met || !is_blank)
    }

    /// Works the condition out at an entry.
    pub fn answer(&self, entry: usize) -> Answer {
        let (met, is_blank) = self.test_at(entry);
        if is_blank && !met {
            Answer::Blank
        } else if met != self.opposite {
            Answer::Yes
        } else {
            Answer::No
        }
    }

    /// Is the test met at an entry, and is the field blank? Both only where the test asks for the blank.
    fn test_at(&self, entry: usize) -> (bool, bool) {
        match self.column {
            Column::Numbers(numbers) => {
                let value = number(numbers, entry);
                let is_blank = value == u32::MAX;
                let met = match self.test {
                    Test::Range(low, high) => low <= value && value <= high,
                    _ => is_blank,
                };
                (met, is_blank)
            }
            Column::Texts(texts) => {
                let slot = &texts[24 * entry..24 * entry + 24];
                let text = &slot[1..1 + usize::from(slot[0])];
                let met = match self.test {
                    Test::Equals(operand) => text.len() == operand.len() && begins_with(text, operand),
                    Test::BeginsWith(operand) => begins_with(text, operand),
                    Test::Contains(operand) => (0..text.len()).any(|place| begins_with(&text[place..], operand)),
                    _ => text.is_empty(),
                };
                (met, text.is_empty())
            }
        }
    }
}

/// The number at a place of a row of four-byte numbers.
fn number(numbers: &[u8], at: usize) -> u32 {
    u32::from_be_bytes(numbers[4 * at..4 * at + 4].try_into().expect("four bytes"))
}

fn begins_with(text: &[u8], operand: &[u8]) -> bool {
    text.len() >= operand.len() && text.iter().zip(operand).all(|(&a, &b)| FOLD[usize::from(a)] == FOLD[usize::from(b)])
}
