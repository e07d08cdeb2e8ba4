use std::ops::RangeInclusive;

use evaluator::refused;
use searchroom::Tally;

use crate::Run;

/// How often each refusal number was answered, so that a test can say that it was not hollow.
pub struct Seen {
    numbers: [u32; 256],
    /// How many runs were refused with 17 for their sum: their tally has its length.
    sums: u32,
}

impl Seen {
    pub fn none() -> Seen {
        Seen { numbers: [0; 256], sums: 0 }
    }

    /// Counts the refusal number of a packed word.
    pub fn count(&mut self, word: u64) {
        self.numbers[usize::from(word as u8)] += 1;
    }

    /// Counts the refusal number of a run's packed word, and apart a 17 for its sum.
    pub fn count_run(&mut self, given: &Run, word: u64) {
        self.count(word);
        self.sums += u32::from(word == refused(17) && given.tally.len() == Tally::BYTES);
    }

    /// Fails unless each of these numbers was answered at least `times`.
    pub fn assert_each(&self, numbers: RangeInclusive<u8>, times: u32) {
        for number in numbers {
            let seen = self.numbers[usize::from(number)];
            assert!(seen >= times, "refusal {number} was reached {seen} times, {times} are wanted");
        }
    }

    /// Fails unless at least so many runs were refused with 17 for their sum.
    pub fn assert_sums(&self, times: u32) {
        assert!(self.sums >= times, "a sum was too large {} times, {times} are wanted", self.sums);
    }
}
