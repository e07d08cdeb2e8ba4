//! The mark that a catalogue may end with (order 6): which bytes are one, and with which refusal every call declines others.

use evaluator::{Catalogue, Column, pack, refused};
use generator::{MarkFault, Rng, catalogue_of, encode_catalogue, encode_mark, faulty_mark, field, text};
use searchroom::{Refusal, Size, Tally, check_catalogue};
use trials::{
    ENTRIES_AT_ENDS, FILL, PARISH_CATALOGUE, Run, Typing, compare_catalogue, compare_copy, compare_every_call,
    compare_outcome, compare_question, compare_run, compare_typed, marked_parish, ones, seeds,
};

/// A run over a catalogue, with tables and tally filled with one byte: is the number in column 0 blank?
fn asking(catalogue: Vec<u8>) -> Run {
    let [listed, looks, tally] = [256, 256, Tally::BYTES].map(|length| vec![FILL; length]);
    Run { listed, looks, tally, ..Run::asking(catalogue, field(80, &[0, 1]), &[0]) }
}

/// So many entries with a number each, none of them blank; then these bytes.
fn catalogue(entries: usize, after_columns: &[u8]) -> Vec<u8> {
    let made = Catalogue::unmarked(entries, vec![Column::Numbers((0..entries as u32).collect())]);
    [encode_catalogue(&made), after_columns.to_vec()].concat()
}

/// The bytes of a row of bits.
fn row(entries: usize) -> usize {
    entries.div_ceil(8)
}

/// A mark that withdraws none of so many entries.
fn zeros(entries: usize) -> Vec<u8> {
    encode_mark(&vec![0; row(entries)])
}

/// Every call declines the catalogue with this number and alters nothing.
fn expect_catalogue_refused(number: u8, label: &str, catalogue: Vec<u8>) {
    let (given, output) = (asking(catalogue), [FILL; 40]);
    let answers = compare_every_call(label, &given, &output);
    assert_eq!(answers.words(), [refused(number); 6], "{label}");
    let after =
        [&answers.ran.listed, &answers.ran.looks, &answers.ran.tally, &answers.copied.output, &answers.typed.output];
    let before = [&given.listed, &given.looks, &given.tally, &output.to_vec(), &output.to_vec()];
    assert_eq!(after, before, "{label}");
}

/// The same for bytes that follow the last column.
fn expect_refused(number: u8, entries: usize, after_columns: &[u8]) {
    let label = format!("{number}: {entries} entries, then {:?}", &after_columns[..after_columns.len().min(12)]);
    expect_catalogue_refused(number, &label, catalogue(entries, after_columns));
}

/// The mark is accepted by every call, and the looks are as many as entries are still in the house.
fn expect_accepted(entries: usize, after_columns: &[u8]) {
    let label = format!("{entries} entries, then {after_columns:?}");
    let answers = compare_every_call(&label, &asking(catalogue(entries, after_columns)), &vec![FILL; 7 * entries + 5]);
    let looks = entries - ones(after_columns.get(3..).unwrap_or_default()) as usize;
    assert_eq!((answers.catalogue, answers.question), (pack(entries, 1, 0), pack(1, 0, 0)), "{label}");
    assert_eq!((answers.ran.word, answers.copied.word), (pack(0, 0, looks), pack(0, 0, 7 * looks)), "{label}");
    assert_eq!(answers.typed.word, pack(0, 0, 5), "{label}");
}

#[test]
fn mark_of_no_entries_has_no_bytes() {
    expect_accepted(0, &[]);
    expect_accepted(0, &[87, 0, 0]);
    expect_refused(23, 0, &[87, 0, 1, 0]);
    expect_refused(6, 0, &[87, 0, 0, 0]);
    expect_refused(6, 0, &[87, 0, 0, 87, 0, 0]);
}

/// One or two bytes are a mark cut short if the first is the mark's tag; any other byte is left over, whatever follows.
#[test]
fn byte_after_the_last_column_decides() {
    for entries in [0, 1, 8] {
        expect_refused(1, entries, &[87]);
        expect_refused(1, entries, &[87, 0]);
        expect_refused(1, entries, &[87, 255]);
        for tag in (0..=255).filter(|&tag| tag != 87) {
            expect_refused(6, entries, &[tag]);
            expect_refused(6, entries, &[tag, 0]);
            expect_refused(6, entries, &field(tag, &vec![0; row(entries)]));
        }
        expect_refused(6, entries, &[0, 87, 0, 0]);
    }
}

#[test]
fn length_that_passes_the_end() {
    for entries in ENTRIES_AT_ENDS {
        let sound = zeros(entries);
        for end in [3, sound.len() - 1] {
            expect_refused(1, entries, &sound[..end]);
        }
        for length in [row(entries) as u16 + 1, 0x0101, 0x7FFF, 0xFFFF] {
            let [high, low] = length.to_be_bytes();
            expect_refused(1, entries, &[&[87, high, low], &sound[3..]].concat());
        }
    }
}

/// Too short or too long, but all of it there: also where one byte of the length is the right one.
#[test]
fn length_that_does_not_fit_the_entries() {
    for entries in [0, 1, 7, 8, 9, 64, 65, 2_040, 2_041, 2_048] {
        let right = row(entries);
        let others = (0..=right + 3).chain([right + 256, 4 * entries, 24 * entries]).filter(|&length| length != right);
        for length in others {
            expect_refused(23, entries, &encode_mark(&vec![0; length]));
        }
    }
}

/// Every byte as the mark's last, with a byte of ones before it or none: the bits after the last entry's are to be zero.
#[test]
fn every_last_byte() {
    for entries in 1..=16 {
        let unused = 8 * row(entries) - entries;
        for last in 0..=255_u8 {
            let mark = encode_mark(&[vec![255; (entries - 1) / 8], vec![last]].concat());
            if last.leading_zeros() as usize >= unused {
                expect_accepted(entries, &mark);
            } else {
                expect_refused(23, entries, &mark);
            }
        }
    }
}

/// Each bit after the last entry's, alone, for every remainder of the entries by eight; and some that are used, alone too.
#[test]
fn stray_bit_anywhere() {
    for entries in (57..=64).chain(2_041..=2_048) {
        let sound = vec![0; row(entries)];
        for stray in entries..8 * sound.len() {
            let mut mark = sound.clone();
            mark[stray / 8] = 1 << (stray % 8);
            expect_refused(23, entries, &encode_mark(&mark));
        }
        for used in [0, 7, 8, entries - 9, entries - 1] {
            let mut mark = sound.clone();
            mark[used / 8] = 1 << (used % 8);
            expect_accepted(entries, &encode_mark(&mark));
        }
    }
}

#[test]
fn bytes_after_the_mark() {
    for entries in [1, 3, 8, 13, 2_048] {
        let sound = zeros(entries);
        for more in [&[0][..], &[87], &[87, 0], &field(78, &[]), &[0; 300], &sound] {
            expect_refused(6, entries, &[&sound, more].concat());
        }
    }
}

/// What is wrong with the mark comes before what follows it; that it is cut comes before both.
#[test]
fn refusal_23_comes_before_6() {
    let stray = encode_mark(&[0b1000]);
    let long = encode_mark(&[0, 0]);
    for unsound in [&stray, &long, &encode_mark(&[])] {
        for more in [&[0][..], &[87], &encode_mark(&[0]), unsound] {
            expect_refused(23, 3, &[unsound, more].concat());
        }
    }
    expect_refused(1, 3, &[87, 0, 2, 0b1000]);
}

/// Where a column stands the mark is none, not even where its length is a column's.
#[test]
fn mark_in_the_place_of_a_column() {
    let (sound, numbers) = (encode_mark(&[0]), field(78, &[0; 12]));
    let head = |entries, columns| field(67, &[0, entries, columns]);
    for (label, parts) in [
        ("of the only column", vec![head(3, 1), sound.clone()]),
        ("of the first column", vec![head(3, 1), sound.clone(), numbers.clone()]),
        ("of the second column", vec![head(3, 2), numbers.clone(), sound.clone()]),
        ("of a column and again", vec![head(3, 1), sound.clone(), sound.clone()]),
        ("with the length of numbers", vec![head(3, 1), encode_mark(&[0; 12])]),
        ("with the length of texts", vec![head(3, 1), encode_mark(&[0; 72])]),
        ("with the length of no numbers", vec![head(0, 1), encode_mark(&[])]),
    ] {
        expect_catalogue_refused(4, label, parts.concat());
    }
    expect_catalogue_refused(3, "without a column", [head(3, 0), sound.clone()].concat());
    expect_catalogue_refused(2, "first of all", [sound, head(3, 1), numbers].concat());
}

/// What is wrong before the mark comes first, what is wrong with all else that a call is given comes after it.
#[test]
fn refusal_23_among_the_others() {
    let mut slot = PARISH_CATALOGUE.to_vec();
    slot[95] = 1;
    expect_catalogue_refused(5, "5 before 23", [slot, encode_mark(&[0b1000])].concat());
    let worse = Run { catalogue: marked_parish(0b1000), ..Run::default() };
    let catalogue = &worse.catalogue;
    let words = [
        compare_question("23 before 7", catalogue, &[]),
        compare_outcome("23 before 7 and 18", catalogue, &[], u64::MAX, u64::MAX),
        compare_run("23 before 7, 15, 16 and 17", &worse).word,
        compare_copy("23 before 7, 15 and 20", &worse.copying(&[])).word,
        compare_typed("23 before 21 and 22", &Typing { catalogue, text: b"x", output: &[] }).word,
    ];
    assert_eq!(words, [refused(23); 5]);
}

#[test]
fn parish_with_a_mark_as_values() {
    let size = Size { entries: 3, columns: 2 };
    for mark in 0..8 {
        assert_eq!(check_catalogue(&marked_parish(mark)), Ok(size));
    }
    for (after_columns, refusal) in [
        (&[87, 0, 1][..], Refusal::CatalogueField),
        (&[87, 0, 1, 8], Refusal::BadMark),
        (&[87, 0, 2, 0, 0], Refusal::BadMark),
        (&[87, 0, 1, 0, 0], Refusal::CatalogueLeftOver),
        (&[86, 0, 1, 0], Refusal::CatalogueLeftOver),
    ] {
        assert_eq!(check_catalogue(&[PARISH_CATALOGUE, after_columns].concat()), Err(refusal), "{after_columns:?}");
    }
}

/// 786,745 bytes, the most that a catalogue can have: 16 columns of 2,048 texts, and a mark.
#[test]
fn largest_catalogue_with_a_mark() {
    let mut rng = Rng::new(6);
    let texts: Vec<Vec<u8>> = (0..2_048).map(|_| text(&mut rng)).collect();
    let mark = Some((0..2_048).map(|_| rng.chance(50)).collect());
    let whole = encode_catalogue(&Catalogue { entries: 2_048, columns: vec![Column::Texts(texts); 16], mark });
    assert_eq!((whole.len(), compare_catalogue("largest", &whole)), (786_745, pack(2_048, 16, 0)));
    assert_eq!(compare_catalogue("largest and a byte", &[whole.as_slice(), &[0]].concat()), refused(6));
    assert_eq!(compare_catalogue("largest, cut by a byte", &whole[..whole.len() - 1]), refused(1));
}

/// Each fault that the generator makes, in catalogues of any columns whose first holds numbers.
#[test]
fn every_fault_of_a_mark() {
    for seed in seeds(400) {
        let mut rng = Rng::new(seed);
        let entries = if seed % 20 == 0 { *rng.pick(&ENTRIES_AT_ENDS) } else { rng.between(0, 40) };
        let columns = rng.between(1, 3);
        let mut made = catalogue_of(&mut rng, entries, columns);
        made.columns[0] = Column::Numbers(vec![7; entries]);
        for fault in MarkFault::ALL {
            if let Some(bytes) = faulty_mark(&mut rng, &made, fault) {
                expect_catalogue_refused(fault.refusal(), &format!("{fault:?}, seed {seed}"), bytes);
            }
        }
    }
}
