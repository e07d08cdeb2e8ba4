use generator::Rng;

/// The readers are 0 to 15.
pub const READERS: usize = 16;

/// Numbers that are no reader's: just over, and such as are small again once cut short or multiplied by eight.
pub const NOT_READERS: [u64; 10] =
    [16, 17, 1 << 8, 1 << 32, (1 << 32) + 3, 1 << 61, (1 << 61) + 1, 1 << 63, u64::MAX - 15, u64::MAX];

/// Lengths that are no tally's.
const NOT_TALLY_LENGTHS: [usize; 10] = [0, 1, 7, 8, 9, 120, 127, 129, 136, 256];

/// The bytes of the tally that has these numbers, one for each reader.
pub fn encode_tally(numbers: [u64; READERS]) -> Vec<u8> {
    numbers.into_iter().flat_map(u64::to_be_bytes).collect()
}

/// The bytes of a tally of zeros but for one reader's number.
pub fn encode_tally_with(reader: usize, number: u64) -> Vec<u8> {
    let mut numbers = [0; READERS];
    numbers[reader] = number;
    encode_tally(numbers)
}

/// Any reader; in so many cases of a hundred a number that is no reader's.
pub fn any_reader(rng: &mut Rng, percent: usize) -> u64 {
    if !rng.chance(percent) {
        rng.below(READERS) as u64
    } else if rng.chance(10) {
        rng.next_u64()
    } else {
        *rng.pick(&NOT_READERS)
    }
}

/// Any tally for a run of this reader; in so many cases of a hundred nearly full for this reader or for one beside, and in as
/// many of another length than a tally's.
pub fn any_tally(rng: &mut Rng, reader: u64, percent: usize) -> Vec<u8> {
    let mut numbers = any_numbers(rng);
    if rng.chance(percent) {
        let beside = reader as usize % READERS + rng.pick(&[0, 0, 1, READERS - 1]);
        numbers[beside % READERS] = nearly_full(rng);
    }
    let mut tally = encode_tally(numbers);
    if rng.chance(percent) {
        tally.resize(*rng.pick(&NOT_TALLY_LENGTHS), 0);
    }
    tally
}

/// A tally that is nearly full for this reader, if it is one.
pub fn nearly_full_tally(rng: &mut Rng, reader: u64) -> Vec<u8> {
    let mut numbers = any_numbers(rng);
    numbers[reader as usize % READERS] = nearly_full(rng);
    encode_tally(numbers)
}

fn any_numbers(rng: &mut Rng) -> [u64; READERS] {
    [(); READERS].map(|()| rng.next_u64())
}

/// A number that some small runs would pass and others not.
fn nearly_full(rng: &mut Rng) -> u64 {
    u64::MAX - rng.below(40) as u64
}
