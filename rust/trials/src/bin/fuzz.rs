//! Fuzzes every call for some time: `cargo run --release -p trials --bin fuzz -- [SECONDS] [SEED]`.

use std::env;
use std::time::{Duration, Instant};

use trials::Fuzz;

fn main() {
    let mut numbers = env::args().skip(1).map(|word| word.parse::<u64>().expect("SECONDS and SEED are numbers"));
    let length = Duration::from_secs(numbers.next().unwrap_or(60));
    let seed = numbers.next().unwrap_or(1);
    let (start, mut told) = (Instant::now(), Instant::now());
    let mut fuzz = Fuzz::new(seed);
    println!("seed {seed}, {} seconds", length.as_secs());
    while start.elapsed() < length {
        fuzz.step();
        if told.elapsed() >= Duration::from_secs(10) {
            told = Instant::now();
            tell(&fuzz);
        }
    }
    tell(&fuzz);
}

fn tell(fuzz: &Fuzz) {
    let (steps, answers) = fuzz.progress();
    println!("{steps} inputs tried, {answers} kinds of answers met, the engine and the evaluator agree");
}
