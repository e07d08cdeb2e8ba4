//! The program `consult` as a user runs it: what it prints, byte for byte.

use std::fs;
use std::os::unix::fs::{PermissionsExt, symlink};

use evaluator::{Catalogue, Column, Condition, Question, Test, Tree, refused_register, register};
use generator::{
    Rng, catalogue_of, encode_catalogue, encode_mark, encode_question, faulty_question, field, latin_1, question_of,
    running_order,
};
use trials::{
    ENTRIES_AT_ENDS, OUTSIDE_THE_CENTURY, PARISH_CATALOGUE, PARISH_ORDER, PARISH_QUESTION, Room, Seen,
    damaged_catalogue, marked_parish,
};

const FILES: [(&str, usize); 3] = [("catalogue.bin", 65_536), ("question.bin", 4_096), ("order.bin", 64)];

fn parish() -> Room {
    Room::new(PARISH_CATALOGUE, PARISH_QUESTION, PARISH_ORDER)
}

/// What the program prints for these files, which must be what the evaluator's register is.
fn consult(label: &str, catalogue: &[u8], question: &[u8], order: &[u8]) -> String {
    let printed = Room::new(catalogue, question, order).consult();
    assert_eq!(printed, register(catalogue, question, order), "{label}");
    printed
}

#[test]
fn proved_case_1_prints_the_register_of_document_01() {
    let expected =
        "consultation register\nfound 2\nentry 0\nentry 2\nlooks 6\ncondition 0 3\ncondition 1 1\ncondition 2 2\n";
    assert_eq!(consult("P1", PARISH_CATALOGUE, PARISH_QUESTION, PARISH_ORDER), expected);
    assert_eq!(include_str!("../../../examples/parish/expected"), expected);
}

#[test]
fn proved_case_2_prints_other_looks() {
    let expected =
        "consultation register\nfound 2\nentry 0\nentry 2\nlooks 7\ncondition 0 2\ncondition 1 2\ncondition 2 3\n";
    assert_eq!(consult("P2", PARISH_CATALOGUE, PARISH_QUESTION, &[2, 1, 0]), expected);
}

/// The blank year is looked at and not listed.
#[test]
fn undated_entry_is_not_outside_the_century() {
    let expected = "consultation register\nfound 1\nentry 1\nlooks 3\ncondition 0 3\n";
    assert_eq!(consult("outside the century", PARISH_CATALOGUE, OUTSIDE_THE_CENTURY, &[0]), expected);
}

#[test]
fn found_with_or_without_the_accent() {
    let names = ["Andre", "ANDRÉ", "Andrew", "André"].map(latin_1).to_vec();
    let catalogue = encode_catalogue(&Catalogue::unmarked(4, vec![Column::Texts(names)]));
    let expected = "consultation register\nfound 3\nentry 0\nentry 1\nentry 3\nlooks 4\ncondition 0 4\n";
    for name in ["andre", "André"].map(latin_1) {
        let question = field(80, &[&[0, 2], name.as_slice()].concat());
        assert_eq!(consult("accents", &catalogue, &question, &[0]), expected);
    }
}

/// A withdrawn entry is neither in the list nor in the looks.
#[test]
fn withdrawn_entry_is_not_in_the_register() {
    let expected = "consultation register\nfound 1\nentry 2\nlooks 4\ncondition 0 2\ncondition 1 0\ncondition 2 2\n";
    assert_eq!(consult("entry 0 withdrawn", &marked_parish(0b001), PARISH_QUESTION, PARISH_ORDER), expected);
    let expected = "consultation register\nfound 0\nlooks 0\ncondition 0 0\ncondition 1 0\ncondition 2 0\n";
    assert_eq!(consult("all withdrawn", &marked_parish(0b111), PARISH_QUESTION, PARISH_ORDER), expected);
    let expected = include_str!("../../../examples/parish/expected");
    assert_eq!(consult("none withdrawn", &marked_parish(0b000), PARISH_QUESTION, PARISH_ORDER), expected);
}

/// Ten entries, each found where it is in the house: the first and last of the mark's first byte are not, nor those of its second.
#[test]
fn ends_of_the_mark() {
    let made = Catalogue::unmarked(10, vec![Column::Numbers((0..10).collect())]);
    let catalogue = [encode_catalogue(&made), encode_mark(&[0b1000_0001, 0b11])].concat();
    let entries: String = (1..=6).map(|entry| format!("entry {entry}\n")).collect();
    let expected = format!("consultation register\nfound 6\n{entries}looks 6\ncondition 0 6\n");
    assert_eq!(consult("entries 0, 7, 8 and 9 withdrawn", &catalogue, &field(80, &[0, 129]), &[0]), expected);
}

/// The tally starts at zeros in each consultation, and none leaves anything behind.
#[test]
fn consulting_again_prints_the_same() {
    let room = parish();
    assert_eq!(room.consult(), room.consult());
    let mut names: Vec<_> = fs::read_dir(room.path(".")).unwrap().map(|entry| entry.unwrap().file_name()).collect();
    names.sort();
    assert_eq!(names, ["catalogue.bin", "consult", "order.bin", "question.bin"]);
}

#[test]
fn each_refusal_that_files_can_cause() {
    let (c, q, o) = (PARISH_CATALOGUE, PARISH_QUESTION, PARISH_ORDER);
    let nested = |depth: usize| (0..depth).fold(field(80, &[0, 1]), |inner, _| field(65, &inner));
    let many = |count: u8| field(79, &(0..count).flat_map(|n| field(80, &[1, 2, n])).collect::<Vec<_>>());
    let mut stray = c.to_vec();
    stray[95] = 1;
    type Case<'a> = (&'a [u8], &'a [u8], &'a [u8], u8);
    let cases: [Case; 25] = [
        (b"", q, o, 1),
        (&field(66, &[0, 3, 2]), q, o, 2),
        (&field(67, &[8, 1, 1]), q, o, 3),
        (&[&c[..6], &field(79, &[0; 12])].concat(), q, o, 4),
        (&[&c[..6], &encode_mark(&[0; 12])].concat(), q, o, 4),
        (&stray, q, o, 5),
        (&[c, &[0]].concat(), q, o, 6),
        (&[c, &[87]].concat(), q, o, 1),
        (&[c, &[87, 0]].concat(), q, o, 1),
        (&[c, &[87, 0, 1]].concat(), q, o, 1),
        (&[c, &encode_mark(&[])].concat(), q, o, 23),
        (&[c, &encode_mark(&[0, 0])].concat(), q, o, 23),
        (&[c, &encode_mark(&[0b1000])].concat(), q, o, 23),
        (&[c, &encode_mark(&[0b100]), &[0]].concat(), q, o, 6),
        (&[c, &encode_mark(&[0]), &encode_mark(&[0])].concat(), q, o, 6),
        (c, b"", o, 7),
        (c, &field(1, &[]), o, 8),
        (c, &field(65, &[]), o, 9),
        (c, &nested(9), &[0], 10),
        (c, &field(80, &[0, 6]), o, 11),
        (c, &many(65), o, 12),
        (c, &field(79, &field(80, &[0, 1]).repeat(2)), o, 13),
        (c, &[q, &[0]].concat(), o, 14),
        (c, q, b"", 15),
        (c, q, &[0, 0, 2], 15),
    ];
    for (catalogue, question, order, number) in cases {
        let printed = consult(&format!("refusal {number}"), catalogue, question, order);
        assert_eq!(printed, format!("consultation register\nrefused {number}\n"));
    }
}

#[test]
fn refusal_19_where_a_file_is_missing_or_cannot_be_read() {
    let refused = refused_register(19);
    for (name, _) in FILES {
        let room = parish();
        fs::remove_file(room.path(name)).unwrap();
        assert_eq!(room.consult(), refused, "{name} is missing");
        fs::create_dir(room.path(name)).unwrap();
        assert_eq!(room.consult(), refused, "{name} is a folder");
        fs::remove_dir(room.path(name)).unwrap();
        symlink("nowhere", room.path(name)).unwrap();
        assert_eq!(room.consult(), refused, "{name} leads nowhere");
        fs::remove_file(room.path(name)).unwrap();
        // Opens, but the first read fails.
        symlink("/proc/self/mem", room.path(name)).unwrap();
        assert_eq!(room.consult(), refused, "{name} cannot be read");
        fs::remove_file(room.path(name)).unwrap();
        room.set(name, b"");
        fs::set_permissions(room.path(name), fs::Permissions::from_mode(0o000)).unwrap();
        assert_eq!(room.consult(), refused, "{name} must not be read");
    }
}

/// At its limit a file is read, and refused for what it holds; one byte more is 19, even where all else is refused too.
#[test]
fn files_at_their_limits_and_one_byte_over() {
    let parts = [PARISH_CATALOGUE, PARISH_QUESTION, PARISH_ORDER];
    for (at, number) in [(0, 6), (1, 14), (2, 15)] {
        let (name, limit) = FILES[at];
        for (length, number) in [(limit, number), (limit + 1, 19), (limit + 4_096, 19), (3 * limit, 19)] {
            let room = parish();
            let mut bytes = parts[at].to_vec();
            bytes.resize(length, 0);
            room.set(name, &bytes);
            assert_eq!(room.consult(), refused_register(number), "{name} of {length} bytes");
        }
    }
    let room = Room::new(b"", b"", &[0; 65]);
    assert_eq!(room.consult(), refused_register(19), "19 comes before 1");
}

/// So many entries, in so many columns of numbers and so many of texts.
fn catalogue_in(entries: usize, numbers: u32, texts: usize) -> Catalogue {
    let numbers = (0..numbers).map(|c| Column::Numbers((0..entries as u32).map(|entry| entry % (c + 2)).collect()));
    let text = |entry| vec![b'A' + (entry % 23) as u8; entry % 24];
    let texts = (0..texts).map(|_| Column::Texts((0..entries).map(text).collect()));
    Catalogue::unmarked(entries, numbers.chain(texts).collect())
}

/// 655 entries in seven columns of numbers and three of texts fill 65,536 bytes, and so do 654 in 13 and two with a mark.
#[test]
fn accepted_catalogue_of_exactly_65_536_bytes() {
    let mut rng = Rng::new(6);
    let withdrawn = (0..654).map(|entry| entry % 3 == 1 || entry == 653).collect();
    let marked = Catalogue { mark: Some(withdrawn), ..catalogue_in(654, 13, 2) };
    for made in [catalogue_in(655, 7, 3), marked] {
        let bytes = encode_catalogue(&made);
        assert_eq!(bytes.len(), 65_536);
        let asked = encode_question(&question_of(&mut rng, &made, 9, 3));
        let order: Vec<u8> = (0..9).rev().collect();
        assert!(consult("65,536 bytes", &bytes, &asked, &order).contains("\nfound "));
        assert_eq!(Room::new(&[bytes, vec![0]].concat(), &asked, &order).consult(), refused_register(19));
    }
}

/// 2,048 entries, all listed or none: the longest register that a file can cause.
#[test]
fn two_thousand_and_forty_eight_entries() {
    let texts = Column::Texts((0..2_048).map(|entry: usize| entry.to_string().into_bytes()).collect());
    let made = Catalogue::unmarked(2_048, vec![Column::Numbers((0..2_048).collect()), texts]);
    let bytes = encode_catalogue(&made);
    let range = |low, opposite| Condition { column: 0, test: Test::NumberFrom { low, high: 9_999 }, opposite };
    for opposite in [false, true] {
        let conditions: Vec<_> = (0..64).map(|low| range(low * 10, opposite)).collect();
        let asked = Question { tree: Tree::AnyOf((0..64).map(Tree::Condition).collect()), conditions };
        let order: Vec<u8> = (0..64).rev().collect();
        let printed = consult("2,048 entries, 64 conditions", &bytes, &encode_question(&asked), &order);
        let found = if opposite { 630 } else { 2_048 };
        assert_eq!(printed.lines().nth(1), Some(format!("found {found}").as_str()));
        assert_eq!(printed.lines().count(), 3 + found + 64);
    }
}

#[test]
fn sixty_four_and_sixty_five_conditions_eight_and_nine_nested_groups() {
    let many = |count: u8| field(79, &(0..count).flat_map(|n| field(80, &[1, 2, n])).collect::<Vec<_>>());
    let order: Vec<u8> = (0..64).collect();
    assert!(consult("64 conditions", PARISH_CATALOGUE, &many(64), &order).ends_with("condition 63 3\n"));
    assert_eq!(consult("65 conditions", PARISH_CATALOGUE, &many(65), &order), refused_register(12));
    let nested = |depth: usize| (0..depth).fold(field(80, &[0, 1]), |inner, _| field(65, &inner));
    let expected = "consultation register\nfound 1\nentry 2\nlooks 3\ncondition 0 3\n";
    assert_eq!(consult("8 nested groups", PARISH_CATALOGUE, &nested(8), &[0]), expected);
    assert_eq!(consult("9 nested groups", PARISH_CATALOGUE, &nested(9), &[0]), refused_register(10));
}

/// P7, and the same with a mark, which has no bytes.
#[test]
fn no_entries() {
    let nobody = [field(67, &[0, 0, 1]), field(78, &[])].concat();
    let marked = [nobody.clone(), encode_mark(&[])].concat();
    let expected = "consultation register\nfound 0\nlooks 0\ncondition 0 0\n";
    for (label, catalogue) in [("P7", nobody), ("P7 with a mark", marked)] {
        assert_eq!(consult(label, &catalogue, &field(80, &[0, 1]), &[0]), expected);
    }
}

/// 2,048 entries, twelve conditions three groups deep: `generator`'s second example, without a mark and with one.
#[test]
fn county() {
    let [(_, all), (marked, found)] =
        [generator::county(), generator::marked_county()].map(|(made, question, order)| {
            let printed = consult("county", &encode_catalogue(&made), &encode_question(&question), &order);
            let looks = numbers_after(&printed, "looks ")[0];
            let most = order.len() * made.present();
            assert!(printed.lines().count() > 50 && looks < most / 2, "the example shows little:\n{printed}");
            (made, numbers_after(&printed, "entry "))
        });
    let present: Vec<usize> = all.iter().copied().filter(|&entry| !marked.is_withdrawn(entry)).collect();
    assert_eq!(found, present);
    assert!(found.len() < all.len(), "no deed that was found is withdrawn");
}

#[test]
fn random_consultations() {
    let mut seen = Seen::none();
    for seed in 0..400 {
        let mut rng = Rng::new(seed);
        let (entries, columns) = (rng.between(0, 70), rng.between(1, 4));
        let made = catalogue_of(&mut rng, entries, columns);
        let catalogue = damaged_catalogue(&mut rng, &made, 10);
        let faults = *rng.pick(&[0, 0, 0, 10]);
        let asked = faulty_question(&mut rng, &made, faults);
        let word = evaluator::question_word(&catalogue, &asked);
        let order = running_order(&mut rng, usize::from((word >> 8) as u8));
        if asked.len() <= 4_096 {
            consult(&format!("seed {seed}"), &catalogue, &asked, &order);
            seen.count(word);
        }
    }
    seen.assert_each(0..=0, 100);
    seen.assert_each(23..=23, 4);
}

/// The last number of each line that begins with such a word.
fn numbers_after(printed: &str, word: &str) -> Vec<usize> {
    let after = |line: &str| line.strip_prefix(word).map(|rest| rest.rsplit(' ').next().unwrap().parse().unwrap());
    printed.lines().filter_map(after).collect()
}

/// The lines of the conditions add up to the looks, and found is the number of the entries' lines.
#[test]
fn counts_of_random_consultations() {
    let mut skipped = 0;
    for size in ENTRIES_AT_ENDS {
        for count in [1, 7, 8, 20, 64] {
            let mut rng = Rng::new((100 * size + count) as u64);
            // More columns of so many entries would not fit the file.
            let made = catalogue_of(&mut rng, size, if size > 100 { 1 } else { 4 });
            let asked = encode_question(&question_of(&mut rng, &made, count, 3));
            let order = running_order(&mut rng, count);
            let label = format!("{size} entries, {count} conditions");
            let printed = consult(&label, &encode_catalogue(&made), &asked, &order);
            let [found, entries, looks, conditions] =
                ["found ", "entry ", "looks ", "condition "].map(|word| numbers_after(&printed, word));
            assert_eq!((found, looks), (vec![entries.len()], vec![conditions.iter().sum()]), "{label}");
            assert_eq!(conditions.len(), count, "{label}");
            skipped += made.present() * count - conditions.iter().sum::<usize>();
        }
    }
    assert!(skipped > 50_000, "{skipped} looks skipped");
}

/// All of ranges that every number is in, or any of ranges that none is in: each condition has a look at each entry.
#[test]
fn counts_where_every_look_is_due() {
    for size in ENTRIES_AT_ENDS {
        let made = Catalogue::unmarked(size, vec![Column::Numbers((0..size as u32).collect())]);
        for count in [1, 7, 8, 20, 64] {
            for met in [true, false] {
                let range = |above| Test::NumberFrom { low: 0, high: 2_048 + above as u32 };
                let conditions = (0..count).map(|n| Condition { column: 0, test: range(n), opposite: !met }).collect();
                let members = (0..count).map(Tree::Condition).collect();
                let tree = if met { Tree::AllOf(members) } else { Tree::AnyOf(members) };
                let asked = encode_question(&Question { tree, conditions });
                let order: Vec<u8> = (0..count as u8).collect();
                let label = format!("{size} entries, {count} conditions, met: {met}");
                let printed = consult(&label, &encode_catalogue(&made), &asked, &order);
                let [found, looks, conditions] =
                    ["found ", "looks ", "condition "].map(|word| numbers_after(&printed, word));
                assert_eq!((found, looks), (vec![if met { size } else { 0 }], vec![size * count]), "{label}");
                assert_eq!(conditions, vec![size; count], "{label}");
            }
        }
    }
}
