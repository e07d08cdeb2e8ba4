use super::catalogue::{Catalogue, check_catalogue};
use super::question::{Question, read_question};

/// Checks as a run does, works out every condition at every entry still in the house, and then the tree. It lists; it registers
/// no looks, which would only cost it more.
pub fn run_every_outcome(catalogue: &[u8], question: &[u8], order: &[u8], listed: &mut [u8]) -> Result<u32, u8> {
    let (catalogue, question) = checked(catalogue, question, order)?;
    let mut outcomes = [false; 64];
    list(&catalogue, listed, |entry| {
        for (outcome, condition) in outcomes.iter_mut().zip(&question.conditions) {
            *outcome = condition.holds(entry);
        }
        question.tree.value(&|number| outcomes[number])
    })
}

/// The same, but works a condition out only where `&&` and `||` would, in the tree's order instead of the running order.
pub fn run_in_tree_order(catalogue: &[u8], question: &[u8], order: &[u8], listed: &mut [u8]) -> Result<u32, u8> {
    let (catalogue, question) = checked(catalogue, question, order)?;
    list(&catalogue, listed, |entry| question.tree.value(&|number| question.conditions[number].holds(entry)))
}

/// Checks the catalogue, the question against it, and the order.
pub fn checked<'a>(catalogue: &'a [u8], question: &'a [u8], order: &[u8]) -> Result<(Catalogue<'a>, Question<'a>), u8> {
    let catalogue = check_catalogue(catalogue)?;
    let question = read_question(&catalogue, question)?;
    let count = question.conditions.len();
    let mut met = 0_u64;
    for &number in order {
        if usize::from(number) >= count || met >> number & 1 == 1 {
            return Err(15);
        }
        met |= 1 << number;
    }
    if order.len() != count {
        return Err(15);
    }
    Ok((catalogue, question))
}

/// Fills the listed table, if it is long enough, and counts its ones. Withdrawn entries are not asked for.
fn list(catalogue: &Catalogue, listed: &mut [u8], mut is_listed: impl FnMut(usize) -> bool) -> Result<u32, u8> {
    if listed.len() < catalogue.entries.div_ceil(8) {
        return Err(16);
    }
    let mut found = 0;
    for (byte, first) in listed.iter_mut().zip((0..catalogue.entries).step_by(8)) {
        *byte = 0;
        for entry in first..catalogue.entries.min(first + 8) {
            *byte |= u8::from(catalogue.is_present(entry) && is_listed(entry)) << (entry - first);
        }
        found += byte.count_ones();
    }
    Ok(found)
}
