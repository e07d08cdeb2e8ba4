//! `searchroom_check_question` against the evaluator, and at the edges that document 01 names.

use evaluator::{Catalogue, Column, pack, read_catalogue, read_question, refused};
use generator::{
    Damage, Rng, catalogue, catalogue_of, damage, encode_catalogue, encode_question, faulty_question, field, question,
    question_of,
};
use searchroom::{Refusal, check_question};
use trials::{
    PARISH_CATALOGUE, PARISH_QUESTION, Seen, compare_question, damage_some, damaged_catalogue, marked_parish,
};

/// A condition on the parish's years: from `low` to `high`.
fn years(low: u32, high: u32) -> Vec<u8> {
    field(80, &[&[0, 0], low.to_be_bytes().as_slice(), &high.to_be_bytes()].concat())
}

/// A condition on the parish's names.
fn name(kind: u8, operand: &[u8]) -> Vec<u8> {
    field(80, &[&[1, kind], operand].concat())
}

fn all(members: &[Vec<u8>]) -> Vec<u8> {
    field(65, &members.concat())
}

fn any(members: &[Vec<u8>]) -> Vec<u8> {
    field(79, &members.concat())
}

/// So many different conditions.
fn conditions(count: u32) -> Vec<Vec<u8>> {
    (0..count).map(|low| years(low, 5_000)).collect()
}

/// A member inside so many groups, sorts taking turns.
fn nested(depth: usize, member: Vec<u8>) -> Vec<u8> {
    (0..depth).fold(member, |inner, level| if level % 2 == 0 { all(&[inner]) } else { any(&[inner]) })
}

/// Checks a question against the parish's catalogue, and holds both readers to what is expected.
fn expect(label: &str, question: &[u8], expected: u64) {
    assert_eq!(compare_question(label, PARISH_CATALOGUE, question), expected, "{label}");
}

#[test]
fn parish_has_three_conditions() {
    expect("parish", PARISH_QUESTION, pack(3, 0, 0));
    assert_eq!(check_question(PARISH_CATALOGUE, PARISH_QUESTION), Ok(3));
    assert_eq!(check_question(PARISH_CATALOGUE, b""), Err(Refusal::QuestionField));
}

#[test]
fn sixty_four_conditions_and_one_more() {
    for count in [1, 2, 63, 64] {
        expect(&format!("{count} conditions"), &any(&conditions(count)), pack(count as usize, 0, 0));
    }
    for count in [65, 66, 200] {
        expect(&format!("{count} conditions"), &any(&conditions(count)), refused(12));
    }
    // Spread over groups, the 65th the first of its own.
    let groups = |last: &[Vec<u8>]| any(&[all(&conditions(64)[..32]), all(&conditions(64)[32..]), all(last)]);
    expect("64 in two groups, then a 65th", &groups(&[years(0, 1)]), refused(12));
    expect("64 in two groups, then an empty group", &groups(&[]), refused(9));
}

#[test]
fn proved_case_9_nine_nested_groups() {
    for depth in 0..=8 {
        expect(&format!("{depth} nested groups"), &nested(depth, years(0, 1)), pack(1, 0, 0));
    }
    for depth in [9, 10, 100] {
        expect(&format!("{depth} nested groups"), &nested(depth, years(0, 1)), refused(10));
    }
    expect("the ninth is empty: depth comes first", &nested(8, all(&[])), refused(10));
    expect("the eighth is empty", &nested(7, all(&[])), refused(9));
    // After a deep group the depth is that of the outer one again.
    let beside = any(&[nested(7, years(0, 1)), nested(7, years(0, 2)), years(0, 3), nested(7, years(0, 4))]);
    expect("deep groups beside each other", &beside, pack(4, 0, 0));
    expect("the second of them too deep", &any(&[nested(7, years(0, 1)), nested(8, years(0, 2))]), refused(10));
}

#[test]
fn bare_condition_and_groups_of_one() {
    expect("a bare condition", &years(0, 1), pack(1, 0, 0));
    expect("a group of one", &all(&[years(0, 1)]), pack(1, 0, 0));
    expect("a group of one in a group of one", &any(&[all(&[years(0, 1)])]), pack(1, 0, 0));
}

#[test]
fn longest_questions() {
    let longest = field(80, &[0; 65_535]);
    assert_eq!(longest.len(), 65_538);
    expect("one condition of 65,535 bytes", &longest, refused(11));
    expect("the same and a byte more", &[longest, vec![0]].concat(), refused(11));
    let mut members = conditions(64).concat();
    members.extend(field(80, &vec![0; 65_535 - members.len() - 3]));
    expect("64 conditions and a long 65th", &field(79, &members), refused(12));
    expect("the same and a byte more", &[field(79, &members), vec![0]].concat(), refused(12));
    expect("a group of 65,535 zeros", &field(65, &[0; 65_535]), refused(8));
    expect("a question, and 70,000 bytes more", &[any(&conditions(64)), vec![0; 70_000]].concat(), refused(14));
    // As many groups in each other as the longest question can hold.
    let mut deepest = vec![80, 0, 0];
    while deepest.len() + 3 <= 65_538 {
        deepest = [[65].as_slice(), &(deepest.len() as u16).to_be_bytes(), &deepest].concat();
    }
    expect("21,845 nested groups", &deepest, refused(10));
}

#[test]
fn each_refusal_alone() {
    let good = years(0, 1);
    for (label, question, expected) in [
        ("7 nothing", vec![], 7),
        ("7 one byte", vec![80], 7),
        ("7 two bytes", vec![80, 0], 7),
        ("7 length passes the end", vec![80, 0, 3, 0, 1], 7),
        ("7 member cut in its head", field(65, &[good.as_slice(), &[80, 0]].concat()), 7),
        ("7 member passes its group, but not the question", [field(65, &[80, 0, 3, 0, 1]), vec![0; 9]].concat(), 7),
        ("7 member passes its group into the next member", any(&[field(65, &[80, 0, 3, 0, 1]), good.clone()]), 7),
        ("8 tag 0", field(0, &[]), 8),
        ("8 tag 66", any(&[field(66, &[0, 1])]), 8),
        ("8 a column's tag", all(&[good.clone(), field(78, &[0, 1])]), 8),
        ("9 empty all-of", all(&[]), 9),
        ("9 empty any-of", any(&[]), 9),
        ("9 empty inner group", any(&[good.clone(), all(&[])]), 9),
        ("11 no payload", field(80, &[]), 11),
        ("11 one byte", field(80, &[0]), 11),
        ("11 column 2 of 2", field(80, &[2, 1]), 11),
        ("11 column 255", field(80, &[255, 1]), 11),
        ("11 kind 6", field(80, &[0, 6]), 11),
        ("11 kind 127", field(80, &[0, 127]), 11),
        ("11 kind 134", field(80, &[1, 134]), 11),
        ("11 kind 255", field(80, &[1, 255]), 11),
        ("11 number kind on texts", field(80, &[1, 1]), 11),
        ("11 opposite number kind on texts", field(80, &[1, 129]), 11),
        ("11 text kind on numbers", field(80, &[0, 5]), 11),
        ("11 opposite text kind on numbers", field(80, &[0, 133]), 11),
        ("11 low over high", years(2, 1), 11),
        ("11 high is the blank", years(0, u32::MAX), 11),
        ("11 range of seven bytes", field(80, &[0, 0, 0, 0, 0, 0, 0, 0, 1]), 11),
        ("11 range of nine bytes", field(80, &[0, 0, 0, 0, 0, 0, 0, 0, 0, 1, 1]), 11),
        ("11 blank with an operand", field(80, &[0, 1, 0]), 11),
        ("11 text blank with an operand", name(5, b"a"), 11),
        ("11 equals nothing", name(2, b""), 11),
        ("11 begins with nothing", name(3, b""), 11),
        ("11 contains nothing", name(132, b""), 11),
        ("11 operand of 24 bytes", name(4, &[b'a'; 24]), 11),
        ("13 twice the same", any(&[good.clone(), good.clone()]), 13),
        ("13 of the first, others between", any(&[good.clone(), years(0, 2), years(0, 3), good.clone()]), 13),
        ("13 of a middle one", any(&[years(0, 2), good.clone(), years(0, 3), good.clone()]), 13),
        ("13 across groups", any(&[all(&[name(3, b"a")]), all(&[good.clone(), name(3, b"a")])]), 13),
        ("13 without operand", any(&[field(80, &[0, 1]), field(80, &[0, 1])]), 13),
        ("14 one byte", [good.clone(), vec![0]].concat(), 14),
        ("14 a second question", [good.clone(), years(0, 2)].concat(), 14),
        ("14 after a group", [all(&[good]), vec![80]].concat(), 14),
    ] {
        expect(label, &question, refused(expected));
    }
}

#[test]
fn accepted_at_the_edges() {
    for (label, question, count) in [
        ("low = high = 0", years(0, 0), 1),
        ("the widest range", years(0, u32::MAX - 1), 1),
        ("the highest number alone", years(u32::MAX - 1, u32::MAX - 1), 1),
        ("operands of one byte and of 23", any(&[name(2, &[0]), name(3, &[255; 23]), name(132, &[7; 23])]), 3),
        ("they differ in kind alone", any(&[name(2, b"a"), name(3, b"a"), name(4, b"a"), name(130, b"a")]), 4),
        ("they differ in column alone", any(&[field(80, &[0, 129]), field(80, &[1, 133])]), 2),
        ("they differ in case alone", any(&[name(2, b"a"), name(2, b"A")]), 2),
        ("one begins the other", any(&[name(2, b"a"), name(2, b"ab"), name(2, b"abc")]), 3),
        ("the other way round", any(&[name(2, b"abc"), name(2, b"ab"), name(2, b"a")]), 3),
        ("a condition and its opposite", any(&[field(80, &[0, 1]), field(80, &[0, 129])]), 2),
    ] {
        expect(label, &question, pack(count, 0, 0));
    }
}

#[test]
fn earlier_of_two_refusals_decides() {
    let good = years(0, 1);
    let full = conditions(64);
    let with_65th = |last: Vec<u8>| any(&[full.clone(), vec![last]].concat());
    for (label, question, expected) in [
        ("7 before 8: unknown tag, length passes the end", vec![1, 0, 9, 0], 7),
        ("7 before 14: first field passes the end", vec![80, 0, 9, 0, 1], 7),
        ("8 before 14", [field(1, &[]), vec![0]].concat(), 8),
        ("10 before 9", nested(8, all(&[])), 10),
        ("10 before the 7 inside it", nested(8, field(65, &[80])), 10),
        ("12 before 11 of the same condition", with_65th(field(80, &[])), 12),
        ("12 before 13 of the same condition", with_65th(full[3].clone()), 12),
        ("8 at the place of a 65th", with_65th(field(1, &[])), 8),
        ("9 at the place of a 65th", with_65th(all(&[])), 9),
        ("7 at the place of a 65th", field(65, &[full.concat(), vec![80]].concat()), 7),
        ("11 before 13: the same unsound payload twice", any(&[field(80, &[0, 6]), field(80, &[0, 6])]), 11),
        ("11 before 14", [field(80, &[9, 9]), vec![0]].concat(), 11),
        ("13 before 14", [any(&[good.clone(), good.clone()]), vec![0]].concat(), 13),
        ("13 in front of an 11", any(&[good.clone(), good.clone(), field(80, &[])]), 13),
        ("11 in front of a 13", any(&[good.clone(), field(80, &[]), good.clone()]), 11),
        ("9 in front of a 7", field(65, &[all(&[]), vec![80]].concat()), 9),
        ("8 in front of a 10", any(&[field(1, &[]), nested(9, good.clone())]), 8),
        ("10 in front of an 8", any(&[nested(9, good.clone()), field(1, &[])]), 10),
        ("12 in front of a 14", [any(&conditions(65)), vec![0]].concat(), 12),
    ] {
        expect(label, &question, refused(expected));
    }
}

#[test]
fn catalogue_comes_first() {
    let mut cut = PARISH_CATALOGUE.to_vec();
    cut.pop();
    for question in [b"".as_slice(), PARISH_QUESTION, &[1, 2, 3, 4]] {
        assert_eq!(compare_question("cut catalogue", &cut, question), refused(1));
        assert_eq!(compare_question("no catalogue", b"", question), refused(1));
        assert_eq!(compare_question("9 entries short", &[67, 0, 3, 0, 9, 1, 78, 0, 0], question), refused(4));
        let over = [PARISH_CATALOGUE, &[0]].concat();
        assert_eq!(compare_question("bytes left over", &over, question), refused(6));
        assert_eq!(compare_question("stray bit in the mark", &marked_parish(0b1000), question), refused(23));
    }
}

#[test]
fn last_of_sixteen_columns() {
    let columns = [Column::Numbers(vec![]), Column::Texts(vec![])];
    for count in [1, 2, 15, 16] {
        let columns = columns.iter().cycle().take(count).cloned().collect::<Vec<_>>();
        let catalogue = encode_catalogue(&Catalogue::unmarked(0, columns));
        for column in 0..=17 {
            for kind in [1, 5] {
                let fits = column < count && (kind == 1) == (column % 2 == 0);
                let label = format!("column {column} of {count}, kind {kind}");
                let word = compare_question(&label, &catalogue, &field(80, &[column as u8, kind]));
                assert_eq!(word, if fits { pack(1, 0, 0) } else { refused(11) }, "{label}");
            }
        }
    }
}

#[test]
fn every_kind_with_every_operand_length() {
    for column in 0..=2 {
        for kind in 0..=255 {
            for length in 0..=25 {
                let payload = [&[column, kind], vec![0; length].as_slice()].concat();
                let label = format!("column {column}, kind {kind}, operand of {length} zeros");
                compare_question(&label, PARISH_CATALOGUE, &field(80, &payload));
            }
        }
    }
}

#[test]
fn parish_cut_anywhere_and_with_any_byte_changed() {
    let mut bytes = PARISH_QUESTION.to_vec();
    for end in 0..bytes.len() {
        expect(&format!("parish cut at {end}"), &bytes[..end], refused(7));
    }
    for at in 0..bytes.len() {
        for value in 0..=255 {
            bytes[at] = value;
            compare_question(&format!("parish with byte {at} set to {value}"), PARISH_CATALOGUE, &bytes);
        }
        bytes[at] = PARISH_QUESTION[at];
    }
}

#[test]
fn random_questions_are_accepted() {
    for seed in 0..4_000 {
        let mut rng = Rng::new(seed);
        let made = catalogue(&mut rng);
        let asked = if seed % 40 == 0 { question_of(&mut rng, &made, 64, 8) } else { question(&mut rng, &made) };
        let bytes = encode_question(&asked);
        assert_eq!(read_question(&made, &bytes).as_ref(), Ok(&asked), "the evaluator reads seed {seed} as it was made");
        let word = compare_question(&format!("random question, seed {seed}"), &encode_catalogue(&made), &bytes);
        assert_eq!(word, pack(asked.conditions.len(), 0, 0), "seed {seed}");
    }
}

#[test]
fn faulty_and_damaged_inputs_reach_every_refusal() {
    let mut seen = Seen::none();
    for seed in 0..60_000 {
        let mut rng = Rng::new(seed);
        let (entries, columns) = (rng.below(4), rng.between(1, 4));
        let made = catalogue_of(&mut rng, entries, columns);
        let catalogue = damaged_catalogue(&mut rng, &made, 8);
        let faults = *rng.pick(&[0, 2, 5, 20]);
        let mut question = faulty_question(&mut rng, &made, faults);
        damage_some(&mut rng, &mut question, 50);
        seen.count(compare_question(&format!("faulty question, seed {seed}"), &catalogue, &question));
    }
    seen.assert_each(0..=14, 30);
    seen.assert_each(23..=23, 30);
}

/// A damaged catalogue may still be accepted with other columns: the question is then read against those.
#[test]
fn swapped_columns_change_what_fits() {
    let mut refused_11 = 0;
    for seed in 0..2_000 {
        let mut rng = Rng::new(seed);
        let made = catalogue_of(&mut rng, 2, 3);
        let mut bytes = encode_catalogue(&made);
        let asked = question_of(&mut rng, &made, 3, 2);
        damage(&mut rng, &mut bytes, Damage::FieldsSwapped);
        let word = compare_question(&format!("swapped columns, seed {seed}"), &bytes, &encode_question(&asked));
        refused_11 += u32::from(read_catalogue(&bytes).is_ok() && word == refused(11));
    }
    assert!(refused_11 > 100, "{refused_11} questions did not fit the swapped columns");
}
