use evaluator::{BLANK_NUMBER, Catalogue, Column, Condition, Question, Test, Tree};

use crate::{Rng, text};

/// An accepted question over a catalogue: most often with few conditions, sometimes with up to 64.
pub fn question(rng: &mut Rng, catalogue: &Catalogue) -> Question {
    let count = if rng.chance(10) { rng.between(11, 64) } else { rng.between(1, 10) };
    let depth = rng.between(1, 8);
    question_of(rng, catalogue, count, depth)
}

/// An accepted question of `count` conditions, its groups at most `depth` deep, which is at least 1.
pub fn question_of(rng: &mut Rng, catalogue: &Catalogue, count: usize, depth: usize) -> Question {
    let mut conditions = Vec::new();
    while conditions.len() < count {
        let condition = condition(rng, catalogue);
        if !conditions.contains(&condition) {
            conditions.push(condition);
        }
    }
    Question { tree: tree_of(rng, count, depth), conditions }
}

/// A tree over `count` conditions, its groups at most `depth` deep, which is at least 1.
pub fn tree_of(rng: &mut Rng, count: usize, depth: usize) -> Tree {
    tree(rng, 0, count, depth)
}

/// The numbers of `count` conditions in some order.
pub fn running_order(rng: &mut Rng, count: usize) -> Vec<u8> {
    let mut order: Vec<u8> = (0..count as u8).collect();
    rng.shuffle(&mut order);
    order
}

/// A tree over the condition numbers from `first`, `count` of them, with groups at most `depth` deep.
fn tree(rng: &mut Rng, first: usize, count: usize, depth: usize) -> Tree {
    if depth == 0 || count == 1 && rng.chance(75) {
        return Tree::Condition(first);
    }
    // Below the last group stand conditions alone.
    let mut members = if depth == 1 { count } else { rng.between(1, count) };
    let (mut at, end) = (first, first + count);
    let mut forest = Vec::new();
    while members > 0 {
        let left = end - at - (members - 1);
        let taken = if members == 1 { left } else { rng.between(1, left) };
        forest.push(tree(rng, at, taken, depth - 1));
        at += taken;
        members -= 1;
    }
    if rng.chance(50) { Tree::AllOf(forest) } else { Tree::AnyOf(forest) }
}

/// A sound condition on some column, met by some of its values as often as not.
pub fn condition(rng: &mut Rng, catalogue: &Catalogue) -> Condition {
    let column = rng.below(catalogue.columns.len());
    let test = match &catalogue.columns[column] {
        Column::Numbers(_) if rng.chance(8) => Test::NumberBlank,
        Column::Numbers(numbers) => {
            let (a, b) = (bound(rng, numbers), bound(rng, numbers));
            Test::NumberFrom { low: a.min(b), high: a.max(b) }
        }
        Column::Texts(_) if rng.chance(8) => Test::TextBlank,
        Column::Texts(texts) => {
            let text = like(rng, texts);
            let begin = text[..rng.between(1, text.len())].to_vec();
            let end = begin[rng.below(begin.len())..].to_vec();
            match rng.below(3) {
                0 => Test::Equals(text),
                1 => Test::BeginsWith(begin),
                _ => Test::Contains(end),
            }
        }
    };
    Condition { column, test, opposite: rng.chance(35) }
}

/// A number that may bound a range: one of the column's, one beside it, or any.
fn bound(rng: &mut Rng, numbers: &[u32]) -> u32 {
    let number = if numbers.is_empty() || rng.chance(20) { rng.next_u64() as u32 } else { *rng.pick(numbers) };
    let beside = match rng.below(4) {
        0 => number.wrapping_add(1),
        1 => number.wrapping_sub(1),
        _ => number,
    };
    beside.min(BLANK_NUMBER - 1)
}

/// A text of 1 to 23 bytes: one of the column's with some letters in the other case, or another.
fn like(rng: &mut Rng, texts: &[Vec<u8>]) -> Vec<u8> {
    let mut found = if texts.is_empty() || rng.chance(20) { text(rng) } else { rng.pick(texts).clone() };
    if found.is_empty() {
        found = vec![rng.byte()];
    }
    for byte in &mut found {
        if byte.is_ascii_alphabetic() || *byte >= 192 && rng.chance(50) {
            *byte ^= if rng.chance(50) { 32 } else { 0 };
        }
    }
    found
}
