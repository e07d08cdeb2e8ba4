use searchroom::Answer;

use super::question::{Question, Tree};
use super::run::checked;

/// Checks as a copy does, works out every condition at every entry still in the house, and writes a field for each look that is
/// due, an entry's looks in the running order.
pub fn copy_every_outcome(catalogue: &[u8], question: &[u8], order: &[u8], output: &mut [u8]) -> Result<usize, u8> {
    let (catalogue, question) = checked(catalogue, question, order)?;
    let groups = Groups::of(&question);
    let mut answers = [Answer::No; 64];
    let mut open = groups.members.clone();
    let mut fields = Vec::with_capacity(7 * catalogue.entries * order.len());
    for entry in (0..catalogue.entries).filter(|&entry| catalogue.is_present(entry)) {
        for (answer, condition) in answers.iter_mut().zip(&question.conditions) {
            *answer = condition.answer(entry);
        }
        let [high, low] = (entry as u16).to_be_bytes();
        open.copy_from_slice(&groups.members);
        for &number in order {
            if groups.is_due(&open, number.into()) {
                let answer = answers[usize::from(number)];
                groups.take(&mut open, number.into(), answer == Answer::Yes);
                fields.extend_from_slice(&[76, 0, 4, high, low, number, answer.number()]);
            }
        }
    }
    output.get_mut(..fields.len()).ok_or(20)?.copy_from_slice(&fields);
    Ok(fields.len())
}

/// The groups of a question by number, those around a group before it.
struct Groups {
    /// The group that each condition stands in, if there is one.
    around_condition: Vec<Option<usize>>,
    /// The same for each group.
    around_group: Vec<Option<usize>>,
    /// The member's value that settles the group: yes for any-of, no for all-of.
    settles: Vec<bool>,
    /// How many members the group has.
    members: Vec<usize>,
}

impl Groups {
    fn of(question: &Question) -> Groups {
        let mut groups = Groups {
            around_condition: vec![None; question.conditions.len()],
            around_group: Vec::new(),
            settles: Vec::new(),
            members: Vec::new(),
        };
        groups.add(&question.tree, None);
        groups
    }

    fn add(&mut self, tree: &Tree, around: Option<usize>) {
        let (members, settles) = match tree {
            Tree::Leaf(number) => {
                self.around_condition[*number] = around;
                return;
            }
            Tree::All(members) => (members, false),
            Tree::Any(members) => (members, true),
        };
        let number = self.members.len();
        self.around_group.push(around);
        self.settles.push(settles);
        self.members.push(members.len());
        members.iter().for_each(|member| self.add(member, Some(number)));
    }

    /// A look is due as long as every group around the condition has members that leave it open.
    fn is_due(&self, open: &[usize], condition: usize) -> bool {
        let mut around = self.around_condition[condition];
        while let Some(group) = around {
            if open[group] == 0 {
                return false;
            }
            around = self.around_group[group];
        }
        true
    }

    /// Takes a condition's outcome: it settles the group around it, or leaves one open member less. A group that is settled,
    /// or whose last member it was, has that value itself.
    fn take(&self, open: &mut [usize], condition: usize, outcome: bool) {
        let mut around = self.around_condition[condition];
        while let Some(group) = around {
            open[group] = if outcome == self.settles[group] { 0 } else { open[group] - 1 };
            if open[group] > 0 {
                return;
            }
            around = self.around_group[group];
        }
    }
}
