//! Bounded runs of the fuzzer; `cargo run --release -p trials --bin fuzz -- SECONDS SEED` goes on for longer.

use trials::Fuzz;

/// So many steps, after which every refusal must have been met.
fn fuzz(seed: u64) {
    let mut fuzz = Fuzz::new(seed);
    for _ in 0..10_000 {
        fuzz.step();
    }
    // 19 is the program's.
    fuzz.seen().assert_each(0..=18, 3);
    fuzz.seen().assert_each(20..=24, 3);
    fuzz.seen().assert_sums(3);
    let (_, answers) = fuzz.progress();
    assert!(answers > 1_000, "{answers} kinds of answers met");
}

#[test]
fn bounded_fuzzing_from_seed_1() {
    fuzz(1);
}

#[test]
fn bounded_fuzzing_from_seed_2() {
    fuzz(2);
}
