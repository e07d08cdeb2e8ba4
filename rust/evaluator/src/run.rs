use crate::catalogue::Catalogue;
use crate::condition::outcome;
use crate::question::{Question, Tree};

/// What a run finds out: which entries are listed, and at which entries each condition is looked at.
#[derive(Clone, Debug, PartialEq, Eq)]
pub struct Found {
    /// For each entry.
    pub listed: Vec<bool>,
    /// For each condition, for each entry.
    pub looks: Vec<Vec<bool>>,
}

impl Found {
    /// The number of listed entries.
    pub fn found_count(&self) -> usize {
        self.listed.iter().filter(|&&listed| listed).count()
    }

    /// The number of looks at a condition.
    pub fn looks_at(&self, condition: usize) -> usize {
        self.looks[condition].iter().filter(|&&look| look).count()
    }

    /// The number of all looks.
    pub fn look_count(&self) -> usize {
        (0..self.looks.len()).map(|condition| self.looks_at(condition)).sum()
    }
}

/// Runs a question over a catalogue in an order that holds each condition number once.
pub fn find(catalogue: &Catalogue, question: &Question, order: &[usize]) -> Found {
    let count = question.conditions.len();
    let mut found = Found { listed: Vec::new(), looks: vec![Vec::new(); count] };
    for entry in 0..catalogue.entries {
        let pattern: Vec<bool> =
            question.conditions.iter().map(|condition| outcome(catalogue, condition, entry).truth()).collect();
        // Order 6, a withdrawn entry: "never listed and never looked at, whatever the question".
        let is_present = !catalogue.is_withdrawn(entry);
        found.listed.push(is_present && question.tree.value(&pattern));
        for (turn, &condition) in order.iter().enumerate() {
            found.looks[condition].push(is_present && is_due(&question.tree, order, turn, &pattern));
        }
    }
    found
}

/// Up to so many conditions, all outcomes of the later ones are tried; with more they would be too many.
const TRIED: usize = 11;

/// Is a look at the condition of this turn due, on this pattern of true outcomes?
fn is_due(tree: &Tree, order: &[usize], turn: usize, pattern: &[bool]) -> bool {
    if order.len() <= TRIED {
        due_by_trying(tree, order, turn, pattern)
    } else {
        due_by_reach(tree, order, turn, pattern)
    }
}

/// The plain sentence: with the conditions earlier in the order at their true outcomes, some outcomes of the later ones
/// make this condition alone decide the tree.
pub fn due_by_trying(tree: &Tree, order: &[usize], turn: usize, pattern: &[bool]) -> bool {
    let later = &order[turn + 1..];
    let mut tried = pattern.to_vec();
    (0..1_u32 << later.len()).any(|choice| {
        for (bit, &condition) in later.iter().enumerate() {
            tried[condition] = choice >> bit & 1 == 1;
        }
        alone_decides(tree, order[turn], &mut tried)
    })
}

/// Its yes and its no give the tree different values, the other conditions keeping their outcomes.
fn alone_decides(tree: &Tree, condition: usize, pattern: &mut [bool]) -> bool {
    pattern[condition] = true;
    let with_yes = tree.value(pattern);
    pattern[condition] = false;
    let with_no = tree.value(pattern);
    with_yes != with_no
}

/// The same for any number of later conditions. Each condition stands at one place of the tree, so the members of a group
/// take their values independently of each other: the condition decides a group if it decides its own member, and every
/// other member can leave the group open.
pub fn due_by_reach(tree: &Tree, order: &[usize], turn: usize, pattern: &[bool]) -> bool {
    let mut known = vec![None; pattern.len()];
    for &earlier in &order[..turn] {
        known[earlier] = Some(pattern[earlier]);
    }
    can_decide(tree, order[turn], &known)
}

fn can_decide(tree: &Tree, condition: usize, known: &[Option<bool>]) -> bool {
    let (members, leaves_open) = match tree {
        Tree::Condition(number) => return *number == condition,
        Tree::AllOf(members) => (members, true),
        Tree::AnyOf(members) => (members, false),
    };
    members.iter().enumerate().any(|(own, member)| {
        let others = members.iter().enumerate().filter(|(other, _)| *other != own);
        can_decide(member, condition, known) && others.into_iter().all(|(_, other)| can_be(other, leaves_open, known))
    })
}

/// Can the tree take this value, the conditions that are not known being free?
fn can_be(tree: &Tree, value: bool, known: &[Option<bool>]) -> bool {
    match (tree, value) {
        (Tree::Condition(number), _) => known[*number].is_none_or(|outcome| outcome == value),
        (Tree::AllOf(members), true) | (Tree::AnyOf(members), false) => {
            members.iter().all(|member| can_be(member, value, known))
        }
        (Tree::AllOf(members), false) | (Tree::AnyOf(members), true) => {
            members.iter().any(|member| can_be(member, value, known))
        }
    }
}
