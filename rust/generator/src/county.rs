//! A county's catalogue of a real size, and a question as a reader might ask it.

use evaluator::{BLANK_NUMBER, Catalogue, Column, Condition, Question, Test, Tree};

use crate::Rng;
use crate::parish::any_parish;

/// The year and the parish of 2,048 deeds, some of them blank; a question of twelve conditions, three groups deep; and a
/// running order that asks for years before it searches texts.
pub fn county() -> (Catalogue, Question, Vec<u8>) {
    let mut rng = Rng::new(1_086);
    let years =
        (0..2_048).map(|_| if rng.chance(12) { BLANK_NUMBER } else { rng.between(1_538, 1_911) as u32 }).collect();
    let mut rng = Rng::new(1_538);
    let parishes = (0..2_048).map(|_| if rng.chance(5) { Vec::new() } else { any_parish(&mut rng) }).collect();
    let catalogue = Catalogue::unmarked(2_048, vec![Column::Numbers(years), Column::Texts(parishes)]);
    (catalogue, question(), vec![0, 4, 5, 8, 11, 10, 1, 2, 3, 6, 7, 9])
}

/// The same after about a tenth of the deeds were withdrawn.
pub fn marked_county() -> (Catalogue, Question, Vec<u8>) {
    let (catalogue, question, order) = county();
    let mut rng = Rng::new(1_838);
    let withdrawn = (0..catalogue.entries).map(|_| rng.chance(10)).collect();
    (Catalogue { mark: Some(withdrawn), ..catalogue }, question, order)
}

fn question() -> Question {
    let years = |low, high| Condition { column: 0, test: Test::NumberFrom { low, high }, opposite: false };
    let text = |test: fn(Vec<u8>) -> Test, operand: &str| Condition {
        column: 1,
        test: test(operand.as_bytes().to_vec()),
        opposite: false,
    };
    let not = |condition: Condition| Condition { opposite: true, ..condition };
    let blank = |column, test| Condition { column, test, opposite: false };
    let conditions = vec![
        // A deed of the civil war from an Ashby or a Thorpe,
        years(1_642, 1_651),
        text(Test::Contains, "ashby"),
        text(Test::BeginsWith, "thorpe"),
        text(Test::Equals, "ASHTON"),
        // or of two later spans, from a town by the sea that is not little,
        years(1_700, 1_710),
        years(1_790, 1_799),
        text(Test::Contains, "on-sea"),
        not(text(Test::BeginsWith, "little")),
        // or one without a year whose parish is named and does not begin with "kirk",
        blank(0, Test::NumberBlank),
        not(text(Test::BeginsWith, "kirk")),
        not(blank(1, Test::TextBlank)),
        // or of the last year.
        years(1_911, 1_911),
    ];
    let leaf = Tree::Condition;
    let leaves = |numbers: &[usize]| numbers.iter().map(|&number| leaf(number)).collect::<Vec<_>>();
    let tree = Tree::AnyOf(vec![
        Tree::AllOf(vec![leaf(0), Tree::AnyOf(leaves(&[1, 2, 3]))]),
        Tree::AllOf(vec![Tree::AnyOf(leaves(&[4, 5])), leaf(6), leaf(7)]),
        Tree::AllOf(leaves(&[8, 9, 10])),
        leaf(11),
    ]);
    Question { tree, conditions }
}
