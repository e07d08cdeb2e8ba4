//! Order 7: a run names its reader, 0 to 15, and of the sixteen numbers of the lent tally only that reader's grows. Each run is
//! compared with the evaluator's, the tally's start and then its end hard against an unreadable page, the bytes at its other
//! side known.

use std::collections::HashSet;

use evaluator::{Catalogue, Column, Ran, pack, refused};
use generator::{Rng, catalogue_of, encode_catalogue, field, question, running_order};
use searchroom::{Consultation, Refusal, Tally};
use trials::{
    Damaged, FILL, NOT_READERS, PARISH_CATALOGUE, PARISH_ORDER, PARISH_QUESTION, READERS, Run, Seen, compare_run,
    encode_tally, encode_tally_with, fewer, look_count, seeds,
};

/// The looks of the parish's run.
const LOOKS: u64 = 6;

/// The parish's run of a reader with this tally.
fn parish(reader: usize, tally: Vec<u8>) -> Run {
    Run { reader: reader as u64, tally, ..Run::parish(PARISH_ORDER) }
}

/// The run of a reader with this tally over so many entries with a number each, all looked at once: is the number blank?
fn asking(entries: usize, reader: usize, tally: Vec<u8>) -> Run {
    let numbers = Column::Numbers((0..entries as u32).collect());
    let catalogue = encode_catalogue(&Catalogue::unmarked(entries, vec![numbers]));
    Run { reader: reader as u64, tally, ..Run::asking(catalogue, field(80, &[0, 1]), &[0]) }
}

/// Consults the parish as a user of the wrapper does.
fn consult(order: &[u8], reader: u64, tally: &mut Tally) -> Result<Consultation, Refusal> {
    searchroom::consult(PARISH_CATALOGUE, PARISH_QUESTION, order, reader, tally)
}

/// Makes the run, which must be refused with this number and alter nothing.
fn expect_refused(label: &str, given: &Run, number: u8) {
    let ran = compare_run(label, given);
    assert_eq!(ran.word, refused(number), "{label}");
    assert_eq!([&ran.listed, &ran.looks, &ran.tally], [&given.listed, &given.looks, &given.tally], "{label}");
}

#[test]
fn sixteen_readers_and_no_other() {
    for reader in 0..READERS {
        let ran = compare_run(&format!("reader {reader}"), &parish(reader, encode_tally([0; READERS])));
        assert_eq!((ran.word, ran.tally), (pack(2, 0, 6), encode_tally_with(reader, LOOKS)), "reader {reader}");
    }
    for reader in NOT_READERS {
        for byte in [0, FILL, 0xFF] {
            let given = Run { reader, tally: vec![byte; Tally::BYTES], ..Run::parish(PARISH_ORDER) };
            expect_refused(&format!("reader {reader}, tally of bytes {byte}"), &given, 24);
        }
    }
}

#[test]
fn tallies_of_every_length() {
    for reader in [0, 1, 14, 15] {
        for length in (0..=300).filter(|length| !fewer() || length % 8 < 2 || length % 8 == 7) {
            let given = parish(reader, vec![FILL; length]);
            let label = format!("reader {reader}, tally of {length} bytes");
            match length {
                Tally::BYTES => assert_eq!(compare_run(&label, &given).word, pack(2, 0, 6), "{label}"),
                _ => expect_refused(&label, &given, 17),
            }
        }
    }
}

/// The refusals before these are held to each other in run.rs.
#[test]
fn reader_after_tables_and_before_tally() {
    let nobody = parish(READERS, vec![0; 8]);
    let full = vec![0xFF; Tally::BYTES];
    for (label, given, number) in [
        ("24 before 17, a tally of 8 bytes", nobody.clone(), 24),
        ("24 before 17, a tally of no bytes", parish(READERS, vec![]), 24),
        ("24 before 17, a full tally", parish(READERS, full.clone()), 24),
        ("17 alone, a tally of 8 bytes", parish(READERS - 1, vec![0; 8]), 17),
        ("17 alone, a full tally", parish(READERS - 1, full), 17),
        ("16 before 24, the listed table", Run { listed: vec![], ..nobody.clone() }, 16),
        ("16 before 24, the looks table", Run { looks: vec![0; 2], ..nobody.clone() }, 16),
        ("16 before 17", Run { looks: vec![0; 2], ..parish(READERS - 1, vec![0; 8]) }, 16),
        ("15 before 24", Run { order: vec![0, 1, 1], ..nobody }, 15),
    ] {
        expect_refused(label, &given, number);
    }
}

/// Just so many looks as fill the reader's number, and one more; none where there are no entries, however full it is.
#[test]
fn number_is_filled_and_not_passed() {
    for reader in 0..READERS {
        for entries in [0, 1, 8, 200] {
            let looks = entries as u64;
            let with = |number| asking(entries, reader, encode_tally_with(reader, number));
            let label = format!("reader {reader}, {entries} looks");
            let ran = compare_run(&label, &with(u64::MAX - looks));
            assert_eq!((ran.word, ran.tally), (pack(0, 0, entries), encode_tally_with(reader, u64::MAX)), "{label}");
            if let Some(one_less) = looks.checked_sub(1) {
                expect_refused(&format!("{label}, one too many"), &with(u64::MAX - one_less), 17);
                expect_refused(&format!("{label}, full"), &with(u64::MAX), 17);
            }
        }
    }
}

/// One look where the number of reader 5 can grow no more: for reader 5 it is refused, for every other it is not.
#[test]
fn proved_case_11() {
    let full = encode_tally_with(5, u64::MAX);
    for reader in 0..READERS {
        let given = asking(1, reader, full.clone());
        let label = format!("P11, reader {reader}");
        if reader == 5 {
            expect_refused(&label, &given, 17);
        } else {
            let mut due = [0; READERS];
            (due[5], due[reader]) = (u64::MAX, 1);
            let ran = compare_run(&label, &given);
            assert_eq!((ran.word, ran.tally), (pack(0, 0, 1), encode_tally(due)), "{label}");
        }
    }
}

/// Whatever the other numbers are. This reader's is any, or such that the sum carries into each of its bytes.
#[test]
fn only_this_readers_number_grows() {
    let mut rng = Rng::new(7);
    for reader in 0..READERS {
        for carry in 0..=8 {
            let mut numbers = [(); READERS].map(|()| {
                let any = rng.next_u64();
                *rng.pick(&[0, any, u64::MAX])
            });
            numbers[reader] = if carry == 8 { rng.next_u64() >> 1 } else { (1 << (8 * carry)) - 1 };
            let label = format!("reader {reader}, carry {carry}, {numbers:X?}");
            let ran = compare_run(&label, &parish(reader, encode_tally(numbers)));
            numbers[reader] += LOOKS;
            assert_eq!((ran.word, ran.tally), (pack(2, 0, 6), encode_tally(numbers)), "{label}");
        }
    }
}

#[test]
fn run_is_the_same_for_each_reader() {
    for seed in seeds(200) {
        let mut rng = Rng::new(seed);
        let (entries, columns) = (rng.between(0, 70), rng.between(1, 4));
        let made = catalogue_of(&mut rng, entries, columns);
        let asked = question(&mut rng, &made);
        let order = running_order(&mut rng, asked.conditions.len());
        let fit = Run::fitting(&made, &asked, &order);
        let ran: Vec<Ran> = (0..READERS as u64)
            .map(|reader| compare_run(&format!("seed {seed}, reader {reader}"), &Run { reader, ..fit.clone() }))
            .collect();
        for (reader, one) in ran.iter().enumerate() {
            let alike = (one.word, &one.listed, &one.looks) == (ran[0].word, &ran[0].listed, &ran[0].looks);
            assert!(alike, "seed {seed}, reader {reader}: {one:?}\nreader 0: {:?}", ran[0]);
            assert_eq!(one.tally, encode_tally_with(reader, look_count(one) as u64), "seed {seed}, reader {reader}");
        }
    }
}

/// A sequence of runs, each lent the tally as the last left it, and beside it the sums that are due, kept apart.
struct Sequence {
    rng: Rng,
    tally: Vec<u8>,
    sums: [u64; READERS],
    seen: Seen,
}

impl Sequence {
    /// Makes so many runs, one after the other, from a tally of these numbers on.
    fn of(runs: u64, seed: u64, numbers: [u64; READERS]) -> Sequence {
        let mut sequence =
            Sequence { rng: Rng::new(seed), tally: encode_tally(numbers), sums: numbers, seen: Seen::none() };
        for run in 0..runs {
            sequence.run(&format!("seed {seed}, run {run}"));
            assert_eq!(sequence.tally, encode_tally(sequence.sums), "seed {seed}, after run {run}");
        }
        sequence
    }

    /// Makes any run. How many looks it has, or why it is refused, is found out with a tally of zeros, which no run fills. Now
    /// and then it is lent another tally, of a wrong length, and has no part in the sums.
    fn run(&mut self, label: &str) {
        let given = Damaged::new(&mut self.rng).run(&mut self.rng);
        if given.tally.len() != Tally::BYTES {
            return self.seen.count_run(&given, compare_run(label, &given).word);
        }
        let alone = compare_run(label, &Run { tally: encode_tally([0; READERS]), ..given.clone() });
        let given = Run { tally: self.tally.clone(), ..given };
        let ran = compare_run(label, &given);
        let mut due = alone.word;
        if alone.word as u8 == 0 {
            let sum = &mut self.sums[given.reader as usize];
            match sum.checked_add(look_count(&alone) as u64) {
                Some(grown) => *sum = grown,
                None => due = refused(17),
            }
        }
        assert_eq!(ran.word, due, "{label}, {:?}", self.sums);
        self.seen.count_run(&given, ran.word);
        self.tally = ran.tally;
    }
}

/// From zeros every number is the sum of the look counts of that reader's accepted runs, after each of them.
#[test]
fn sums_over_a_sequence_of_runs() {
    let runs = seeds(8_000).end;
    let Sequence { sums, seen, .. } = Sequence::of(runs, 1, [0; READERS]);
    seen.assert_each(0..=0, runs as u32 / 4);
    for number in [1, 7, 15, 16, 17, 24] {
        seen.assert_each(number..=number, runs as u32 / 200);
    }
    assert!(sums.iter().all(|&sum| sum > runs / 16), "some reader has few looks: {sums:?}");
}

/// Numbers that soon can grow no more: a run that would pass one leaves all as they were.
#[test]
fn sums_up_to_full_over_a_sequence_of_runs() {
    let (runs, mut rng) = (seeds(4_000).end, Rng::new(2));
    let near = [(); READERS].map(|()| u64::MAX - rng.between(20, 60) as u64);
    let Sequence { sums, seen, .. } = Sequence::of(runs, 2, near);
    seen.assert_sums(runs as u32 / 10);
    assert!(sums.iter().zip(&near).all(|(sum, start)| sum > start), "{sums:?} from {near:?} on");
}

/// Every second number is full and stays so, the others grow from zero.
#[test]
fn sums_beside_full_numbers_over_a_sequence_of_runs() {
    let mut full = [0; READERS];
    full.iter_mut().step_by(2).for_each(|number| *number = u64::MAX);
    let Sequence { sums, .. } = Sequence::of(seeds(4_000).end, 3, full);
    assert!(sums.iter().zip(full).all(|(&sum, start)| (sum == u64::MAX) == (start == u64::MAX) && sum > 0), "{sums:?}");
}

#[test]
fn wrapper_adds_to_its_readers_number() {
    let mut tally = Tally::default();
    assert_eq!(tally.bytes(), &[0; Tally::BYTES]);
    for (reader, sum) in [(15, 6), (0, 6), (15, 12), (3, 6)] {
        consult(PARISH_ORDER, reader, &mut tally).expect("an accepted run");
        assert_eq!(tally.of(reader), Some(sum));
    }
    let sums = [6, 0, 0, 6, 0, 0, 0, 0, 0, 0, 0, 0, 0, 0, 0, 12];
    assert_eq!(tally.bytes().as_slice(), encode_tally(sums));
    assert_eq!(format!("{tally:?}"), format!("Tally({sums:?})"));
    for (order, reader, refusal) in [
        (PARISH_ORDER, 16, Refusal::NoSuchReader),
        (PARISH_ORDER, u64::MAX, Refusal::NoSuchReader),
        (&[0, 1], 16, Refusal::BadOrder),
    ] {
        let before = tally.clone();
        assert_eq!((consult(order, reader, &mut tally), &tally), (Err(refusal), &before));
    }
    for reader in NOT_READERS {
        assert_eq!(tally.of(reader), None, "reader {reader}");
    }
}

#[test]
fn wrapper_refuses_a_full_number() {
    let with = |number| Tally::try_from(encode_tally_with(9, number).as_slice()).expect("a tally");
    let mut tally = with(u64::MAX - LOOKS + 1);
    let before = tally.clone();
    assert_eq!((consult(PARISH_ORDER, 9, &mut tally), &tally), (Err(Refusal::BadTally), &before));
    assert!(consult(PARISH_ORDER, 8, &mut tally).is_ok());
    let due = [Some(LOOKS), Some(u64::MAX - LOOKS + 1), Some(0)];
    assert_eq!([8, 9, 10].map(|reader| tally.of(reader)), due);
    let mut tally = with(u64::MAX - LOOKS);
    assert!(consult(PARISH_ORDER, 9, &mut tally).is_ok());
    assert_eq!(tally, with(u64::MAX));
}

/// Sixteen numbers of eight different bytes each, in and out by each way that the wrapper has.
#[test]
fn wrapper_gives_back_its_numbers_and_bytes() {
    let numbers: [u64; READERS] = std::array::from_fn(|reader| 0x0102_0304_0506_0708 * (reader as u64 + 1));
    let bytes = encode_tally(numbers);
    let mut tally = Tally::from_numbers(numbers);
    assert_eq!((tally.numbers(), tally.bytes().as_slice()), (numbers, bytes.as_slice()));
    assert_eq!(Tally::try_from(bytes.as_slice()).as_ref(), Ok(&tally));
    for (reader, number) in (0..).zip(numbers) {
        assert_eq!(tally.of(reader), Some(number), "reader {reader}");
    }
    assert_eq!(format!("{tally:?}"), format!("Tally({numbers:?})"));
    tally.bytes_mut()[Tally::BYTES - 1] += 1;
    assert_eq!(tally.of(15), Some(numbers[15] + 1));
}

/// That of eight bytes, as runs took it before there were readers, among them.
#[test]
fn wrapper_takes_no_tally_of_another_length() {
    for length in (0..300).filter(|&length| length != Tally::BYTES) {
        assert_eq!(Tally::try_from(vec![0; length].as_slice()), Err(Refusal::BadTally), "{length} bytes");
    }
}

/// A run is lent the bytes of a `Tally` as `consult` lends them.
#[test]
fn wrapper_lends_the_bytes_of_a_tally() {
    let (mut lent, mut consulted) = (Tally::default(), Tally::default());
    let counts =
        searchroom::run(PARISH_CATALOGUE, PARISH_QUESTION, PARISH_ORDER, 4, &mut [0; 1], &mut [0; 3], lent.bytes_mut());
    let found = consult(PARISH_ORDER, 4, &mut consulted).expect("an accepted run");
    assert_eq!((counts, lent.of(4)), (Ok(found.counts()), Some(LOOKS)));
    // Alike, and so one in a set.
    assert_eq!(HashSet::from([lent, consulted]).len(), 1);
}
