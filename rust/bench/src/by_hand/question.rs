use evaluator::BLANK_NUMBER;
use searchroom::{Answer, MAX_CONDITIONS, MAX_DEPTH, MAX_TEXT, Refusal};

use super::catalogue::{Catalogue, Column, Number, Slot};
use super::field::Field;
use super::numbers::Range;
use super::operands::Prepared;
use super::{BLOCK, List};

const ALL_OF: u8 = 65;
const ANY_OF: u8 = 79;
const CONDITION: u8 = 80;

const RANGE: u8 = 0;
const NUMBER_BLANK: u8 = 1;
const EQUALS: u8 = 2;
const BEGINS_WITH: u8 = 3;
const CONTAINS: u8 = 4;
const TEXT_BLANK: u8 = 5;
/// Added to a kind for its opposite.
const OPPOSITE: u8 = 128;

/// The conditions of a question that was checked, by their numbers.
pub type Conditions<'a> = List<Condition<'a>, MAX_CONDITIONS>;

#[derive(Clone, Copy)]
pub struct Condition<'a> {
    payload: &'a [u8],
    test: Test<'a>,
    groups: Groups,
}

/// The groups around a condition, the innermost first.
pub type Groups = List<Group, MAX_DEPTH>;

/// What a condition asks of a column, without regard to its opposite.
#[derive(Clone, Copy)]
pub enum Test<'a> {
    Range(&'a [Number], Range),
    NumberBlank(&'a [Number]),
    Equals(&'a [Slot], &'a [u8]),
    BeginsWith(&'a [Slot], &'a [u8]),
    Contains(&'a [Slot], &'a [u8]),
    TextBlank(&'a [Slot]),
}

/// A group: the conditions in it are those from `first` on, up to `end`.
#[derive(Clone, Copy)]
pub struct Group {
    pub first: u8,
    pub end: u8,
    pub is_any: bool,
}

/// Checks the catalogue, then the question against it.
#[inline(never)]
pub fn check_question(catalogue: &[u8], question: &[u8]) -> Result<u16, Refusal> {
    let catalogue = Catalogue::read(catalogue)?;
    let mut conditions = Conditions::new();
    read_question(&catalogue, question, &mut conditions)?;
    Ok(conditions.len() as u16)
}

/// Checks both, then works out one condition at one entry.
#[inline(never)]
pub fn outcome(catalogue: &[u8], question: &[u8], entry: u64, condition: u64) -> Result<Answer, Refusal> {
    let catalogue = Catalogue::read(catalogue)?;
    let mut conditions = Conditions::new();
    read_question(&catalogue, question, &mut conditions)?;
    if entry >= catalogue.entries as u64 || condition >= conditions.len() as u64 {
        return Err(Refusal::NoSuchPlace);
    }
    let prepared = conditions[condition as usize].prepared();
    let (block, place) = (entry as usize / BLOCK, 1 << (entry % BLOCK as u64));
    // SAFETY: the entry is one of the catalogue's.
    let (met, blank) = unsafe { (prepared.met(block, place), prepared.blank(block, place)) };
    Ok(if met != 0 {
        Answer::Yes
    } else if blank != 0 {
        Answer::Blank
    } else {
        Answer::No
    })
}

/// Reads a question against a catalogue that was checked. The conditions are read to their place: they would be dear to
/// move.
#[inline(always)]
pub fn read_question<'a>(
    catalogue: &Catalogue<'a>,
    question: &'a [u8],
    conditions: &mut Conditions<'a>,
) -> Result<(), Refusal> {
    let rest = Reader { catalogue, conditions, seen: 0 }.member(question, MAX_DEPTH)?;
    if rest.is_empty() { Ok(()) } else { Err(Refusal::QuestionLeftOver) }
}

struct Reader<'r, 'a> {
    catalogue: &'r Catalogue<'a>,
    conditions: &'r mut Conditions<'a>,
    /// For each payload so far, a bit that its bytes choose.
    seen: u64,
}

impl<'a> Reader<'_, 'a> {
    /// Reads the member at the front, groups at most so deep, and gives what follows it.
    fn member(&mut self, bytes: &'a [u8], depth_left: usize) -> Result<&'a [u8], Refusal> {
        let Field { tag, payload, rest } = Field::first_of(bytes).ok_or(Refusal::QuestionField)?;
        match tag {
            CONDITION => self.condition(payload)?,
            ALL_OF | ANY_OF => self.group(tag == ANY_OF, payload, depth_left)?,
            _ => return Err(Refusal::UnknownTag),
        }
        Ok(rest)
    }

    #[inline(always)]
    fn group(&mut self, is_any: bool, payload: &'a [u8], depth_left: usize) -> Result<(), Refusal> {
        if depth_left == 0 {
            return Err(Refusal::TooDeep);
        }
        if payload.is_empty() {
            return Err(Refusal::EmptyGroup);
        }
        let first = self.conditions.len();
        let mut rest = payload;
        while !rest.is_empty() {
            rest = self.member(rest, depth_left - 1)?;
        }
        let group = Group { first: first as u8, end: self.conditions.len() as u8, is_any };
        self.conditions[first..].iter_mut().for_each(|condition| condition.groups.push(group));
        Ok(())
    }

    #[inline(always)]
    fn condition(&mut self, payload: &'a [u8]) -> Result<(), Refusal> {
        if self.conditions.len() == MAX_CONDITIONS {
            return Err(Refusal::TooManyConditions);
        }
        let test = Test::read(self.catalogue, payload).ok_or(Refusal::BadCondition)?;
        if self.is_repeated(payload) {
            return Err(Refusal::RepeatedCondition);
        }
        self.conditions.push(Condition { payload, test, groups: List::new() });
        Ok(())
    }

    /// Most payloads are told from all earlier ones by their bit alone.
    #[inline(always)]
    fn is_repeated(&mut self, payload: &[u8]) -> bool {
        let bit = 1 << (scattered(payload) >> 58);
        let may_be = self.seen & bit != 0;
        self.seen |= bit;
        may_be && self.conditions.iter().any(|earlier| earlier.payload == payload)
    }
}

/// A number made of a payload's length, its first eight bytes and its last eight, or all where it has fewer.
#[inline(always)]
fn scattered(payload: &[u8]) -> u64 {
    const GOLDEN: u64 = 0x9E37_79B9_7F4A_7C15;
    let mixed = match (payload.first_chunk(), payload.last_chunk()) {
        (Some(&first), Some(&last)) => {
            u64::from_le_bytes(first).rotate_left(7) ^ u64::from_le_bytes(last).wrapping_mul(GOLDEN >> 32)
        }
        _ => payload.iter().fold(0, |mixed: u64, &byte| mixed.wrapping_mul(31) + u64::from(byte)),
    };
    (mixed ^ (payload.len() as u64) << 16).wrapping_mul(GOLDEN)
}

impl<'a> Test<'a> {
    #[inline(always)]
    fn read(catalogue: &Catalogue<'a>, payload: &'a [u8]) -> Option<Test<'a>> {
        let (&[column, kind], operand) = payload.split_first_chunk()?;
        let has_text = (1..=MAX_TEXT).contains(&operand.len());
        Some(match (*catalogue.columns.get(usize::from(column))?, kind % OPPOSITE) {
            (Column::Numbers(column), RANGE) => Test::Range(column, Range::read(operand)?),
            (Column::Numbers(column), NUMBER_BLANK) if operand.is_empty() => Test::NumberBlank(column),
            (Column::Texts(column), EQUALS) if has_text => Test::Equals(column, operand),
            (Column::Texts(column), BEGINS_WITH) if has_text => Test::BeginsWith(column, operand),
            (Column::Texts(column), CONTAINS) if has_text => Test::Contains(column, operand),
            (Column::Texts(column), TEXT_BLANK) if operand.is_empty() => Test::TextBlank(column),
            _ => return None,
        })
    }
}

impl Range {
    #[inline(always)]
    fn read(operand: &[u8]) -> Option<Range> {
        let &[a, b, c, d, e, f, g, h] = operand else { return None };
        let (low, high) = (u32::from_be_bytes([a, b, c, d]), u32::from_be_bytes([e, f, g, h]));
        if low <= high && high != BLANK_NUMBER { Some(Range { low, width: high - low }) } else { None }
    }
}

impl<'a> Condition<'a> {
    #[inline(always)]
    pub fn prepared(&self) -> Prepared<'a> {
        Prepared::of(self.test, self.payload[1] >= OPPOSITE, self.groups)
    }
}
