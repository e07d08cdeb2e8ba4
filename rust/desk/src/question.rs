//! A question that the engine takes, and its tree.

use std::ops::Range;

use searchroom::typed_question;

use crate::failure::Failure;
use crate::folder::Folder;
use crate::notation::{Condition, Kind, Part, Written};
use crate::refused::{help_with_misspelled, help_with_refused};
use crate::typed;

pub struct Question {
    /// The bytes that the engine read the strict spelling into.
    pub bytes: Vec<u8>,
    pub strict: String,
    pub written: Written,
    /// The groups as they stand, the outermost first.
    pub groups: Vec<Group>,
}

pub struct Group {
    pub kind: Kind,
    /// The number of the group around it.
    pub parent: Option<usize>,
    /// How many groups are around it.
    pub depth: usize,
    /// The numbers of the conditions in it.
    pub conditions: Range<usize>,
}

impl Question {
    /// Reads a question as people type it. The engine is given what the desk cannot read, as it stands: the refusal is its own.
    pub fn read(folder: &Folder, text: &str) -> Result<Question, Failure> {
        let names = folder.names();
        let written = typed::read(text, &names).map_err(|misspelled| Failure::Refused {
            refusal: typed_question(&folder.bytes, text.as_bytes()).expect_err("the desk reads what the engine takes"),
            help: help_with_misspelled(text, &misspelled),
        })?;
        let strict = written.strict();
        let bytes = typed_question(&folder.bytes, strict.as_bytes()).map_err(|refusal| Failure::Refused {
            refusal,
            help: help_with_refused(folder, text, &written, refusal),
        })?;
        Ok(Question { bytes, strict, groups: groups(&written), written })
    }

    pub fn conditions(&self) -> &[Condition] {
        &self.written.conditions
    }

    /// The numbers of the groups around a condition, the innermost first.
    pub fn around(&self, condition: usize) -> impl Iterator<Item = usize> + '_ {
        // A group that opens later and has the condition stands further in.
        (0..self.groups.len()).rev().filter(move |&group| self.groups[group].conditions.contains(&condition))
    }
}

/// The groups of a question.
fn groups(written: &Written) -> Vec<Group> {
    let mut groups: Vec<Group> = Vec::new();
    let mut open: Vec<usize> = Vec::new();
    let mut conditions = 0;
    for part in &written.parts {
        match part {
            Part::Opens(kind, _) => {
                let (parent, depth) = (open.last().copied(), open.len());
                groups.push(Group { kind: *kind, parent, depth, conditions: conditions..conditions });
                open.push(groups.len() - 1);
            }
            Part::Condition(_) => conditions += 1,
            Part::Closes => {
                let group = open.pop().expect("each group closes once");
                groups[group].conditions.end = conditions;
            }
        }
    }
    groups
}
