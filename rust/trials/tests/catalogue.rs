//! `searchroom_check_catalogue` against the evaluator, and at the edges that document 01 names.

use evaluator::{Catalogue, Column, pack, read_catalogue, refused};
use generator::{Rng, catalogue, catalogue_of, encode_catalogue, encode_texts, field};
use searchroom::{Refusal, Size, check_catalogue};
use trials::{PARISH_CATALOGUE, Seen, compare_catalogue, damage_some};

/// A first field that says `entries` and `columns`.
fn head(entries: u16, columns: u8) -> Vec<u8> {
    let [e1, e2] = entries.to_be_bytes();
    field(67, &[e1, e2, columns])
}

#[test]
fn parish_has_three_entries_and_two_columns() {
    assert_eq!(compare_catalogue("parish", PARISH_CATALOGUE), pack(3, 2, 0));
    assert_eq!(check_catalogue(PARISH_CATALOGUE), Ok(Size { entries: 3, columns: 2 }));
}

#[test]
fn proved_cases_6_7_and_8_as_run() {
    assert_eq!(compare_catalogue("P6", b""), refused(1));
    assert_eq!(compare_catalogue("P7", &[0x43, 0, 3, 0, 0, 1, 0x4E, 0, 0]), pack(0, 1, 0));
    assert_eq!(compare_catalogue("P8", &[0x43, 0, 3, 0x08, 0x01, 1]), refused(3));
}

#[test]
fn wrapper_gives_each_refusal_as_a_value() {
    assert_eq!(check_catalogue(b""), Err(Refusal::CatalogueField));
    assert_eq!(check_catalogue(&[0x43, 0, 3, 0x08, 0x01, 1]), Err(Refusal::CatalogueLimits));
    for refusal in Refusal::ALL {
        assert_eq!(Refusal::from_number(refusal.number()), Some(*refusal));
    }
    assert_eq!(Refusal::from_number(0), None);
}

#[test]
fn entries_and_columns_at_their_limits() {
    let mut rng = Rng::new(1);
    for entries in [0, 1, 7, 8, 9, 2_047, 2_048, 2_049] {
        for columns in [0, 1, 16, 17] {
            for texts in [false, true] {
                let label = format!("{entries} entries, {columns} columns, texts: {texts}");
                let column = |rng: &mut Rng| match texts {
                    true => Column::Texts((0..entries).map(|_| generator::text(rng)).collect()),
                    false => Column::Numbers((0..entries).map(|_| rng.next_u64() as u32).collect()),
                };
                let columns = (0..columns).map(|_| column(&mut rng)).collect::<Vec<_>>();
                let count = columns.len();
                let word = compare_catalogue(&label, &encode_catalogue(&Catalogue::unmarked(entries, columns)));
                let fits = entries <= 2_048 && (1..=16).contains(&count);
                assert_eq!(word, if fits { pack(entries, count, 0) } else { refused(3) }, "{label}");
            }
        }
    }
}

/// With a first field alone, every number of entries: 3 over the limits, else 1 because a column is missing.
#[test]
fn every_number_of_entries() {
    for columns in [0, 1, 16, 17, 255] {
        for entries in 0..=u16::MAX {
            let word = searchroom::raw::check_catalogue(&head(entries, columns)).0;
            let fits = entries <= 2_048 && (1..=16).contains(&columns);
            assert_eq!(word, refused(if fits { 1 } else { 3 }), "{entries} entries, {columns} columns");
        }
    }
}

#[test]
fn each_refusal_alone_and_the_earlier_of_two() {
    let numbers = field(78, &[0; 4]);
    let texts = field(84, &[0; 24]);
    let stray = field(84, &[[0; 23].as_slice(), &[1]].concat());
    let long = field(84, &[[24].as_slice(), &[0; 23]].concat());
    let cases: Vec<(&str, Vec<Vec<u8>>, u64)> = vec![
        ("1 one byte", vec![vec![67]], 1),
        ("1 two bytes", vec![vec![67, 0]], 1),
        ("1 length passes the end", vec![vec![67, 0, 3, 0, 1]], 1),
        ("1 before 2: wrong tag, but cut", vec![vec![66, 0, 3, 0, 1]], 1),
        ("1 before 2: wrong length passes the end", vec![vec![67, 0, 4, 0, 1, 1]], 1),
        ("2 wrong tag", vec![field(66, &[0, 1, 1]), numbers.clone()], 2),
        ("2 length 2", vec![field(67, &[0, 1]), numbers.clone()], 2),
        ("2 length 4", vec![field(67, &[0, 1, 1, 0]), numbers.clone()], 2),
        ("2 length 0", vec![field(67, &[])], 2),
        ("2 length 259, the low byte is 3", vec![field(67, &[1; 259])], 2),
        ("2 before 3", vec![field(66, &[255, 255, 0])], 2),
        ("3 too many entries", vec![head(2_049, 1)], 3),
        ("3 no column", vec![head(1, 0)], 3),
        ("3 too many columns", vec![head(1, 17)], 3),
        ("3 no column, before 6", vec![head(0, 0), vec![0]], 3),
        ("1 no column there", vec![head(1, 1)], 1),
        ("1 column cut in its head", vec![head(1, 1), vec![78, 0]], 1),
        ("1 before 4: wrong tag, but cut", vec![head(1, 1), vec![79, 0, 4, 0, 0, 0]], 1),
        ("1 before 4: wrong length passes the end", vec![head(1, 1), vec![78, 0, 5, 0, 0, 0, 0]], 1),
        ("1 second column missing", vec![head(1, 2), numbers.clone()], 1),
        ("1 before 5 of the same column", vec![head(1, 1), stray[..26].to_vec()], 1),
        ("4 wrong tag", vec![head(1, 1), field(67, &[0; 4])], 4),
        ("4 numbers with a text's length", vec![head(1, 1), field(78, &[0; 24])], 4),
        ("4 texts with a number's length", vec![head(1, 1), field(84, &[0; 4])], 4),
        ("4 one byte short", vec![head(1, 1), field(78, &[0; 3])], 4),
        ("4 one byte over", vec![head(1, 1), field(84, &[0; 25])], 4),
        ("4 no entry, one byte", vec![head(0, 1), field(84, &[0])], 4),
        ("4 before 5 of the same column", vec![head(1, 1), field(84, &[255; 25])], 4),
        ("4 before 6", vec![head(1, 1), field(67, &[0; 4]), vec![0]], 4),
        (
            "4 of the second column, before 5 of the third",
            vec![head(1, 3), numbers.clone(), field(1, &[]), long.clone()],
            4,
        ),
        ("5 of the first column, before 1 at the second", vec![head(1, 2), stray.clone()], 5),
        ("5 of the first column, before 4 of the second", vec![head(1, 2), long.clone(), field(1, &[])], 5),
        ("5 length 24", vec![head(1, 1), long.clone()], 5),
        ("5 last byte not zero", vec![head(1, 1), stray.clone()], 5),
        ("5 before 6", vec![head(1, 1), stray.clone(), vec![0]], 5),
        ("6 one byte", vec![head(1, 1), texts.clone(), vec![0]], 6),
        ("6 a whole column too many", vec![head(1, 1), texts.clone(), numbers.clone()], 6),
        ("accepted", vec![head(1, 3), texts, numbers.clone(), numbers], pack(1, 3, 0)),
    ];
    for (label, parts, expected) in cases {
        assert_eq!(compare_catalogue(label, &parts.concat()), expected, "{label}");
    }
}

#[test]
fn parish_cut_anywhere_and_with_any_byte_changed() {
    for end in 0..PARISH_CATALOGUE.len() {
        let word = compare_catalogue(&format!("parish cut at {end}"), &PARISH_CATALOGUE[..end]);
        assert_eq!(word, refused(1), "cut at {end}");
    }
    let mut bytes = PARISH_CATALOGUE.to_vec();
    for at in 0..bytes.len() {
        for value in 0..=255 {
            bytes[at] = value;
            compare_catalogue(&format!("parish with byte {at} set to {value}"), &bytes);
        }
        bytes[at] = PARISH_CATALOGUE[at];
    }
}

/// A slot of every length, with every byte of it in turn not zero, at the first, a middle and the last entry of both
/// columns: refused exactly where the byte lies after the text.
#[test]
fn stray_byte_anywhere_after_a_text() {
    let entries = 3;
    for column in 0..2 {
        for entry in 0..entries {
            for length in 0..=24_u8 {
                for at in 1..24 {
                    for value in [1, 0x80, 0xFF] {
                        let mut payload = vec![0; 24 * entries];
                        payload[24 * entry] = length;
                        payload[24 * entry + at] = value;
                        let mut columns = [field(84, &vec![0; 24 * entries]), field(84, &vec![0; 24 * entries])];
                        columns[column] = field(84, &payload);
                        let label = format!("column {column} entry {entry} length {length} byte {at} is {value}");
                        let bytes = [head(entries as u16, 2), columns.concat()].concat();
                        let fits = length <= 23 && at <= usize::from(length);
                        let expected = if fits { pack(entries, 2, 0) } else { refused(5) };
                        assert_eq!(searchroom::raw::check_catalogue(&bytes).0, expected, "{label}");
                    }
                }
            }
        }
    }
}

/// A stray byte in the very last slot, one byte too many at the end, and one too few.
#[test]
fn most_columns_and_entries_without_a_mark() {
    let mut rng = Rng::new(2);
    let texts = (0..2_048).map(|_| generator::text(&mut rng)).collect::<Vec<_>>();
    let column = field(84, &encode_texts(&texts));
    let whole = [head(2_048, 16), column.repeat(16)].concat();
    assert_eq!(compare_catalogue("most columns and entries", &whole), pack(2_048, 16, 0));
    let mut blank_end = whole.clone();
    let last_slot = whole.len() - 24;
    blank_end[last_slot..].fill(0);
    for at in 1..24 {
        blank_end[last_slot + at] = 1;
        assert_eq!(compare_catalogue(&format!("stray byte {at} in the last slot"), &blank_end), refused(5));
        blank_end[last_slot + at] = 0;
    }
    assert_eq!(compare_catalogue("most and a byte", &[whole.as_slice(), &[0]].concat()), refused(6));
    assert_eq!(compare_catalogue("most, cut by a byte", &whole[..whole.len() - 1]), refused(1));
}

#[test]
fn random_catalogues_are_accepted() {
    for seed in 0..3_000 {
        let mut rng = Rng::new(seed);
        let made = catalogue(&mut rng);
        let bytes = encode_catalogue(&made);
        assert_eq!(read_catalogue(&bytes).as_ref(), Ok(&made), "the evaluator reads seed {seed} as it was made");
        let word = compare_catalogue(&format!("random catalogue, seed {seed}"), &bytes);
        assert_eq!(word, pack(made.entries, made.columns.len(), 0), "seed {seed}");
    }
}

#[test]
fn damaged_catalogues_reach_every_refusal() {
    let mut seen = Seen::none();
    for seed in 0..60_000 {
        let mut rng = Rng::new(seed);
        let (entries, columns) = (rng.between(0, 12), rng.between(1, 4));
        let mut bytes = encode_catalogue(&catalogue_of(&mut rng, entries, columns));
        for _ in 0..rng.between(1, 2) {
            damage_some(&mut rng, &mut bytes, 100);
        }
        seen.count(compare_catalogue(&format!("damaged catalogue, seed {seed}"), &bytes));
    }
    seen.assert_each(0..=6, 100);
    seen.assert_each(23..=23, 100);
}

#[test]
fn any_bytes_at_all() {
    for seed in 0..20_000 {
        let mut rng = Rng::new(seed);
        let length = rng.below(40);
        let mut bytes = rng.bytes(length);
        if rng.chance(80) {
            bytes.splice(0..bytes.len().min(5), head(rng.below(3) as u16, rng.below(3) as u8));
        }
        compare_catalogue(&format!("any bytes, seed {seed}"), &bytes);
    }
}
