//! The questions that are asked, with their catalogues.

use evaluator::{Catalogue, Column, Condition, Question, Test, Tree};
use generator::{Rng, column, county, question_of};

use crate::asked::Asked;

/// The county's 2,048 deeds and its question of twelve conditions, with these deeds withdrawn.
pub fn county_with(mark: Option<Vec<bool>>) -> Asked {
    let (catalogue, question, order) = county();
    Asked::in_order(&Catalogue { mark, ..catalogue }, &question, order)
}

/// Six columns, numbers and texts in turn, an eighth of their values blank.
pub fn mixed(rng: &mut Rng, entries: usize) -> Catalogue {
    let mut columns = Vec::new();
    while columns.len() < 6 {
        let column = column(rng, entries);
        if matches!(column, Column::Numbers(_)) == (columns.len() % 2 == 0) {
            columns.push(column);
        }
    }
    Catalogue::unmarked(entries, columns)
}

/// Questions of one to 64 conditions over a catalogue, with the number of their conditions and how deep their groups
/// may be.
pub fn at_each_depth(rng: &mut Rng, catalogue: &Catalogue) -> Vec<(usize, usize, Asked)> {
    let sizes = [(1, 1), (6, 1), (6, 3), (20, 1), (20, 3), (20, 8), (64, 1), (64, 3), (64, 8)];
    let asked = |(count, depth)| {
        let question = question_of(rng, catalogue, count, depth);
        (count, depth, Asked::new(rng, catalogue, &question))
    };
    sizes.map(asked).into()
}

/// One condition alone.
pub fn single(condition: Condition) -> Question {
    Question { tree: Tree::Condition(0), conditions: vec![condition] }
}

/// A condition of each kind on years and places, by name.
pub fn kinds() -> [(&'static str, Condition); 10] {
    let range = Test::NumberFrom { low: 1_700, high: 1_799 };
    let [equals, begins] = [Test::Equals(b"kirkby".to_vec()), Test::BeginsWith(b"kirk".to_vec())];
    [
        ("number from low to high", 0, range.clone(), false),
        ("number not from low to high", 0, range, true),
        ("number blank", 0, Test::NumberBlank, false),
        ("equals", 1, equals.clone(), false),
        ("not equals", 1, equals, true),
        ("begins with", 1, begins.clone(), false),
        ("not begins with", 1, begins, true),
        ("contains", 1, Test::Contains(b"shb".to_vec()), false),
        ("contains, letters with accents", 1, Test::Contains(b"on".to_vec()), false),
        ("text blank", 1, Test::TextBlank, false),
    ]
    .map(|(name, column, test, opposite)| (name, Condition { column, test, opposite }))
}

/// All of: a year that few entries have, then nineteen texts to be searched.
pub fn settled_early(rng: &mut Rng) -> Asked {
    let made = mixed(rng, 2_048);
    let mut conditions =
        vec![Condition { column: 0, test: Test::NumberFrom { low: 1_701, high: 1_702 }, opposite: false }];
    conditions.extend((0..19).map(|n| Condition {
        column: 1,
        test: Test::Contains(vec![b'a' + n, b'x']),
        opposite: true,
    }));
    Asked::in_order(&made, &all_of(conditions), (0..20).collect())
}

/// All of eight ranges, each on a column of its own and met at so many entries of a hundred.
pub fn eight_ranges(rng: &mut Rng, percent: u32) -> Asked {
    let mut column = || Column::Numbers((0..2_048).map(|_| rng.below(100) as u32).collect());
    let made = Catalogue::unmarked(2_048, (0..8).map(|_| column()).collect());
    let test = Test::NumberFrom { low: 0, high: percent - 1 };
    let conditions = (0..8).map(|column| Condition { column, test: test.clone(), opposite: false }).collect();
    Asked::new(rng, &made, &all_of(conditions))
}

/// All of 64 ranges in which every number lies.
pub fn every_look(rng: &mut Rng) -> Asked {
    let made = Catalogue::unmarked(2_048, vec![Column::Numbers((0..2_048).collect())]);
    let within = |high| Condition { column: 0, test: Test::NumberFrom { low: 0, high }, opposite: false };
    Asked::new(rng, &made, &all_of((2_048..2_112).map(within).collect()))
}

/// All of 64 texts of one column and kind that differ in the last byte.
pub fn texts_alike() -> Question {
    let text = |last| [vec![b'a'; 22], vec![last]].concat();
    let condition = |last| Condition { column: 1, test: Test::Contains(text(last)), opposite: false };
    all_of((1..=64).map(condition).collect())
}

fn all_of(conditions: Vec<Condition>) -> Question {
    Question { tree: Tree::AllOf((0..conditions.len()).map(Tree::Condition).collect()), conditions }
}
