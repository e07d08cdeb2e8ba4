//! Years and places, and questions on them that SQLite can be asked too.

use evaluator::{BLANK_NUMBER, Catalogue, Column, Condition, Question, Test, Tree};
use generator::Rng;

const PLACES: [&str; 8] = ["Ash", "ASHBY", "Kirkby", "St. Mary", "Newton", "Great Ashfield", "Thorpe", "Kirk Langley"];

/// Two columns of years and two of places, in turn, a tenth of them blank.
pub fn catalogue(rng: &mut Rng, entries: usize) -> Catalogue {
    let column = |rng: &mut Rng, c: usize| match c % 2 {
        0 => Column::Numbers((0..entries).map(|_| if rng.chance(10) { BLANK_NUMBER } else { year(rng) }).collect()),
        _ => Column::Texts((0..entries).map(|_| if rng.chance(10) { Vec::new() } else { place(rng) }).collect()),
    };
    Catalogue::unmarked(entries, (0..4).map(|c| column(rng, c)).collect())
}

fn year(rng: &mut Rng) -> u32 {
    rng.between(1_500, 1_950) as u32
}

fn place(rng: &mut Rng) -> Vec<u8> {
    rng.pick(&PLACES).as_bytes().to_vec()
}

/// Any of: all-of groups of three conditions; or one condition alone.
pub fn question(rng: &mut Rng, count: usize) -> Question {
    let tree = if count == 1 { Tree::Condition(0) } else { two_deep(count) };
    Question { tree, conditions: conditions(rng, count) }
}

fn conditions(rng: &mut Rng, count: usize) -> Vec<Condition> {
    let mut conditions: Vec<Condition> = Vec::new();
    while conditions.len() < count {
        let column = conditions.len() % 4;
        let test = if matches!(column, 0 | 2) {
            let (a, b) = (year(rng), year(rng));
            Test::NumberFrom { low: a.min(b), high: a.max(b) }
        } else {
            let text = place(rng).to_ascii_lowercase();
            match rng.below(3) {
                0 => Test::Equals(text),
                1 => Test::BeginsWith(text[..rng.between(1, text.len())].to_vec()),
                _ => Test::Contains(text[rng.below(text.len() - 1)..].to_vec()),
            }
        };
        let condition = Condition { column, test, opposite: rng.chance(20) };
        if !conditions.contains(&condition) {
            conditions.push(condition);
        }
    }
    conditions
}

fn two_deep(count: usize) -> Tree {
    let numbers: Vec<usize> = (0..count).collect();
    let threes =
        numbers.chunks(3).map(|three| Tree::AllOf(three.iter().map(|&number| Tree::Condition(number)).collect()));
    Tree::AnyOf(threes.collect())
}
