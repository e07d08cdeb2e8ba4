//! The catalogues that are made for wanted outcomes, held to the evaluator.

use evaluator::{Answer, Test, outcome};
use generator::{Pattern, Rng, with_outcomes};

/// A condition is met where it is wanted and nowhere else. Of the noes some are a blank's and some are not, for a range and
/// for a text, and for the opposite of each.
#[test]
fn outcomes_are_those_wanted() {
    let mut noes = [[0_u32; 2]; 4];
    for seed in 0..200 {
        let mut rng = Rng::new(seed);
        let (entries, count) =
            (rng.between(1, 70), if seed % 2 == 0 { rng.between(1, 9) } else { rng.between(10, 64) });
        let pattern = |rng: &mut Rng| rng.pick(&Pattern::ALL).of(rng, entries);
        let wanted: Vec<Vec<bool>> = (0..count).map(|_| pattern(&mut rng)).collect();
        let (made, conditions) = with_outcomes(&mut rng, entries, &wanted);
        for (condition, wanted) in conditions.iter().zip(wanted) {
            let on_text = matches!(condition.test, Test::Contains(_));
            for (entry, wanted) in wanted.into_iter().enumerate() {
                let answer = outcome(&made, condition, entry);
                assert_eq!(answer.truth(), wanted, "seed {seed}, entry {entry}, {condition:?}");
                if !wanted {
                    let sort = usize::from(on_text) + 2 * usize::from(condition.opposite);
                    noes[sort][usize::from(answer == Answer::Blank)] += 1;
                }
            }
        }
    }
    assert!(noes.as_flattened().iter().all(|&seen| seen > 500), "{noes:?}");
}
