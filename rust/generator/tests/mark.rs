//! The marks and their faults: what they reach, and the faults held to the evaluator.

use evaluator::{catalogue_word, read_catalogue, refused};
use generator::{MarkFault, Rng, catalogue_of, encode_catalogue, faulty_mark};

/// Some catalogues have no mark, some withdraw no entry, some all of them, and some a part.
#[test]
fn catalogues_with_and_without_a_mark() {
    let (mut unmarked, mut none, mut all, mut some) = (0, 0, 0, 0);
    for seed in 0..2_000 {
        let made = catalogue_of(&mut Rng::new(seed), 70, 1);
        assert_eq!(read_catalogue(&encode_catalogue(&made)), Ok(made.clone()), "seed {seed}");
        *match (made.mark.is_some(), made.present()) {
            (false, _) => &mut unmarked,
            (true, 70) => &mut none,
            (true, 0) => &mut all,
            _ => &mut some,
        } += 1;
    }
    assert!(unmarked > 1_000 && none > 30 && all > 30 && some > 500, "{unmarked}, {none}, {all}, {some}");
}

/// Each fault causes the refusal that it names.
#[test]
fn faults_cause_their_refusals() {
    for fault in MarkFault::ALL {
        let mut had = 0;
        for seed in 0..300 {
            let mut rng = Rng::new(seed);
            let entries = rng.between(0, 20);
            let made = catalogue_of(&mut rng, entries, 2);
            if let Some(bytes) = faulty_mark(&mut rng, &made, fault) {
                assert_eq!(catalogue_word(&bytes), refused(fault.refusal()), "{fault:?}, seed {seed}");
                had += 1;
            }
        }
        assert!(had > 200, "{fault:?} was had {had} times");
    }
}
