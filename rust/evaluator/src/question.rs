use crate::catalogue::Catalogue;
use crate::condition::{Condition, read_condition};
use crate::field::take_field;
use crate::refusal::{self, Number};

pub(crate) const ALL_OF_TAG: u8 = 65;
pub(crate) const ANY_OF_TAG: u8 = 79;
pub(crate) const CONDITION_TAG: u8 = 80;
const MAX_CONDITIONS: usize = 64;
const MAX_DEPTH: usize = 8;

/// An accepted question: its tree, and its conditions numbered from 0 as they stand.
#[derive(Clone, Debug, PartialEq, Eq)]
pub struct Question {
    pub tree: Tree,
    pub conditions: Vec<Condition>,
}

/// A group holds members, and a member may be a group again. A leaf is a condition's number.
#[derive(Clone, Debug, PartialEq, Eq)]
pub enum Tree {
    Condition(usize),
    AllOf(Vec<Tree>),
    AnyOf(Vec<Tree>),
}

impl Tree {
    /// The tree's value on a pattern of outcomes, one for each condition.
    pub fn value(&self, pattern: &[bool]) -> bool {
        match self {
            Tree::Condition(number) => pattern[*number],
            Tree::AllOf(members) => members.iter().all(|member| member.value(pattern)),
            Tree::AnyOf(members) => members.iter().any(|member| member.value(pattern)),
        }
    }
}

/// Walks a question front to back; the first failing check decides.
pub fn read_question(catalogue: &Catalogue, bytes: &[u8]) -> Result<Question, Number> {
    let mut walk = Walk { catalogue, payloads: Vec::new(), conditions: Vec::new() };
    let mut rest = bytes;
    let tree = walk.member(&mut rest, 1)?;
    if !rest.is_empty() {
        return Err(refusal::QUESTION_LEFT_OVER);
    }
    Ok(Question { tree, conditions: walk.conditions })
}

/// The conditions met so far, with their payloads.
struct Walk<'a> {
    catalogue: &'a Catalogue,
    payloads: Vec<&'a [u8]>,
    conditions: Vec<Condition>,
}

impl<'a> Walk<'a> {
    /// Takes one member off the front of what is left of the enclosing payload. If it is a group, its depth is `depth`.
    fn member(&mut self, rest: &mut &'a [u8], depth: usize) -> Result<Tree, Number> {
        let field = take_field(rest).ok_or(refusal::QUESTION_FIELD)?;
        match field.tag {
            ALL_OF_TAG => Ok(Tree::AllOf(self.members(field.payload, depth)?)),
            ANY_OF_TAG => Ok(Tree::AnyOf(self.members(field.payload, depth)?)),
            CONDITION_TAG => Ok(Tree::Condition(self.condition(field.payload)?)),
            _ => Err(refusal::UNKNOWN_TAG),
        }
    }

    fn members(&mut self, payload: &'a [u8], depth: usize) -> Result<Vec<Tree>, Number> {
        if depth > MAX_DEPTH {
            return Err(refusal::TOO_DEEP);
        }
        if payload.is_empty() {
            return Err(refusal::EMPTY_GROUP);
        }
        let mut rest = payload;
        let mut members = Vec::new();
        while !rest.is_empty() {
            members.push(self.member(&mut rest, depth + 1)?);
        }
        Ok(members)
    }

    /// The condition's number.
    fn condition(&mut self, payload: &'a [u8]) -> Result<usize, Number> {
        let number = self.conditions.len();
        if number == MAX_CONDITIONS {
            return Err(refusal::TOO_MANY_CONDITIONS);
        }
        let condition = read_condition(self.catalogue, payload)?;
        if self.payloads.contains(&payload) {
            return Err(refusal::REPEATED_CONDITION);
        }
        self.payloads.push(payload);
        self.conditions.push(condition);
        Ok(number)
    }
}
