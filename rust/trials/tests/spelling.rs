//! The spelling that `searchroom_typed` takes, and that it takes no other: held to bytes worked by hand and to the evaluator.

use evaluator::{Catalogue, Column, spelling};
use generator::{encode_catalogue, field};
use trials::{PARISH_CATALOGUE, PARISH_QUESTION, PARISH_TEXT, compare_reading, fewer};

/// The bytes that a text is read into on the parish's columns, years and names, or the refusal's number.
fn read(text: impl AsRef<[u8]>) -> Result<Vec<u8>, u8> {
    compare_reading(PARISH_CATALOGUE, text)
}

/// Each of these texts, between which stands a `|`, is misspelled.
fn expect_misspelled(texts: &str) {
    for text in texts.split('|') {
        assert_eq!(read(text), Err(21), "{text:?}");
    }
}

fn condition(payload: &[u8]) -> Result<Vec<u8>, u8> {
    Ok(field(80, payload))
}

/// Does a byte stand for itself in quotes?
fn is_plain(byte: u8) -> bool {
    (32..=126).contains(&byte) && !b"\"\\".contains(&byte)
}

#[test]
fn parish_question() {
    assert_eq!(read(PARISH_TEXT).as_deref(), Ok(PARISH_QUESTION));
    assert_eq!(include_str!("../../../examples/parish/question.txt"), format!("{PARISH_TEXT}\n"));
    for page in [include_str!("../../../README.md"), include_str!("../../../examples/parish/README.md")] {
        assert!(page.contains(&format!("\n\n    {PARISH_TEXT}\n\n")), "a page shows another text");
    }
}

#[test]
fn each_condition_and_its_opposite() {
    for (text, payload) in [
        ("c0 in 1700..1799", b"\x00\x00\x00\x00\x06\xA4\x00\x00\x07\x07".as_slice()),
        ("c0 blank", b"\x00\x01"),
        (r#"c1 is "ash""#, b"\x01\x02ash"),
        (r#"c1 starts "ash""#, b"\x01\x03ash"),
        (r#"c1 has "ash""#, b"\x01\x04ash"),
        ("c1 blank", b"\x01\x05"),
    ] {
        assert_eq!(read(text), condition(payload), "{text}");
        let mut opposite = payload.to_vec();
        opposite[1] += 128;
        assert_eq!(read(format!("not {text}")), condition(&opposite), "not {text}");
        let both = [field(80, payload), field(80, &opposite)].concat();
        assert_eq!(read(format!("all({text},not {text})")), Ok(field(65, &both)), "all of both: {text}");
        assert_eq!(read(format!("any({text},not {text})")), Ok(field(79, &both)), "any of both: {text}");
    }
}

#[test]
fn groups_in_groups() {
    let [a, b, c] = [&[0, 1][..], &[1, 5], &[0, 129]].map(|payload| field(80, payload));
    let (all, any) =
        (|members: &[&[u8]]| field(65, &members.concat()), |members: &[&[u8]]| field(79, &members.concat()));
    for (text, expected) in [
        ("all(c0 blank)", all(&[&a])),
        ("any(any(c0 blank))", any(&[&any(&[&a])])),
        ("any(all(c0 blank),c1 blank,not c0 blank)", any(&[&all(&[&a]), &b, &c])),
        ("all(c0 blank,any(c1 blank),not c0 blank)", all(&[&a, &any(&[&b]), &c])),
        ("any(c0 blank,c1 blank,all(all(not c0 blank)))", any(&[&a, &b, &all(&[&all(&[&c])])])),
        ("all(any(c0 blank,c1 blank),all(not c0 blank))", all(&[&any(&[&a, &b]), &all(&[&c])])),
    ] {
        assert_eq!(read(text), Ok(expected), "{text}");
    }
}

#[test]
fn groups_misspelled() {
    expect_misspelled("|all|any|all(|any(|all()|any()|all(any())|all(c0 blank,any())|all(any(),c0 blank)");
    expect_misspelled("(|)|()|,|(c0 blank)|()c0 blank|c0 blank()|c0 blank(|all)c0 blank(|all(all)|all(c0 blank)(");
    expect_misspelled("all(c0 blank|c0 blank)|all(c0 blank))|all(any(c0 blank)|any(c0 blank,all(c1 blank)");
    expect_misspelled(
        "all(c0 blank,)|all(,c0 blank)|all(,)|all(c0 blank,,c1 blank)|all(all(c0 blank),)|all(all(c0 blank,))",
    );
    expect_misspelled(
        "c0 blank,|,c0 blank|c0 blank,c1 blank|all(c0 blank),|all(c0 blank),c1 blank|c0 blank,all(c1 blank)",
    );
    expect_misspelled(
        "all(c0 blank)c1 blank|all(c0 blank)all(c1 blank)|all(c0 blank all(c1 blank))|all(c0 blank)not c1 blank",
    );
    expect_misspelled(
        "all(c0 blank;c1 blank)|all(c0 blank&c1 blank)|all[c0 blank]|all{c0 blank}|all<c0 blank>|all\"c0 blank\"",
    );
    expect_misspelled(
        "All(c0 blank)|ALL(c0 blank)|Any(c0 blank)|alll(c0 blank)|al(c0 blank)|l(c0 blank)|none(c0 blank)",
    );
    expect_misspelled(
        "not all(c0 blank)|not any(c0 blank)|all(not any(c0 blank))|not(c0 blank)|not (c0 blank)|all(not all())",
    );
    expect_misspelled(
        "not|not |not not c0 blank|notc0 blank|not  c0 blank|Not c0 blank|NOT c0 blank|!c0 blank|c0 not blank",
    );
}

#[test]
fn conditions_misspelled() {
    expect_misspelled(
        "c|c |c0|c0 |0 blank| blank|blank|c blank|C0 blank|d0 blank|c0blank|c0\tblank|c0_blank|column 0 blank",
    );
    expect_misspelled(
        "c0 Blank|c0 BLANK|c0 blan|c0 blankk|c0 blank0|c0 blank c1|c0 blank c1 blank|c0 is blank|c0 blank \"\"",
    );
    expect_misspelled("c0 in|c0 in |c0 in 1|c0 in 1.|c0 in 1..|c0 in 1.2|c0 in 1...2|c0 in ..2|c0 in ..|c0 in 1..2..3");
    expect_misspelled(
        "c0 in 1..2.|c0 in 1,2|c0 in 1-2|c0 in 1..b|c0 in a..2|c0 in 0x1..2|c0 In 1..2|c0 IN 1..2|c0 in1..2",
    );
    expect_misspelled(
        "c0 in \"1\"..2|c0 in 1..2\"|c0 in \"1..2\"|c0 is 1|c0 is 1..2|c0 = 1|c0 in 1 ..2|c0 in 1.. 2|c0 in 1. .2",
    );
    expect_misspelled(
        r#"c1 is|c1 is |c1 is "|c1 is ash|c1 is "ash|c1 is ash"|c1 is"ash"|c1 is 'ash'|c1 is `ash`|c1 is(ash)"#,
    );
    expect_misspelled(
        r#"c1 Is "ash"|c1 Starts "ash"|c1 HAS "ash"|c1 start "ash"|c1 begins "ash"|c1 contains "ash"|c1 "ash""#,
    );
    expect_misspelled(
        r#"c1 is "ash""|c1 is """|c1 is "a"b"|c1 is "ash"ash|c1 is "ash" "ash"|"ash"|c1 is ""ash""|c1 is "ash"#,
    );
}

/// A byte more at any place of the parish's text: a space in quotes is one of its bytes, and a newline, a tab or a zero is
/// nowhere taken.
#[test]
fn byte_more_at_any_place() {
    let quotes: Vec<usize> = PARISH_TEXT.match_indices('"').map(|(at, _)| at).collect();
    for at in 0..=PARISH_TEXT.len() {
        for byte in [b' ', b'\n', b'\r', b'\t', 0, 127, 128, 255] {
            let text = [&PARISH_TEXT.as_bytes()[..at], &[byte], &PARISH_TEXT.as_bytes()[at..]].concat();
            let in_quotes = quotes[0] < at && at <= quotes[1];
            assert_eq!(read(&text).is_ok(), in_quotes && byte == b' ', "byte {byte} at {at}");
        }
    }
}

#[test]
fn parish_text_cut_and_with_any_byte_changed_or_removed() {
    let whole = PARISH_TEXT.as_bytes();
    for at in 0..whole.len() {
        assert_eq!(read(&whole[..at]), Err(21), "cut at {at}");
        read([&whole[..at], &whole[at + 1..]].concat()).ok();
        for value in (0..=255).step_by(if fewer() { 15 } else { 1 }) {
            let mut text = whole.to_vec();
            text[at] = value;
            if let Ok(question) = read(&text) {
                assert_eq!(spelling(&question).map(String::into_bytes), Some(text), "byte {at} set to {value}");
            }
        }
    }
}

/// Numbers and texts in turn.
fn columns(count: usize) -> Vec<u8> {
    let column = |column| if column % 2 == 0 { Column::Numbers(vec![]) } else { Column::Texts(vec![]) };
    encode_catalogue(&Catalogue::unmarked(0, (0..count).map(column).collect()))
}

/// A blank takes its kind from the column. Every number of a column is spelled well, and refused later if there is no such
/// column.
#[test]
fn every_column() {
    for count in [1, 2, 15, 16] {
        let catalogue = columns(count);
        for column in 0..=255_u8 {
            let is_there = usize::from(column) < count;
            let kind = if column % 2 == 0 { 1 } else { 5 };
            for (not, opposite) in [("", 0), ("not ", 128)] {
                let expected = if is_there { condition(&[column, kind + opposite]) } else { Err(11) };
                assert_eq!(
                    compare_reading(&catalogue, format!("{not}c{column} blank")),
                    expected,
                    "{column} of {count}"
                );
            }
        }
    }
}

#[test]
fn columns_misspelled() {
    for column in
        [256, 257, 265, 300, 511, 512, 999, 1_000, 2_550, 25_600, 65_536, 65_537, 1 << 32, (1 << 32) + 1, u64::MAX]
    {
        assert_eq!(read(format!("c{column} blank")), Err(21), "{column}");
    }
    expect_misspelled("c00 blank|c01 blank|c000 blank|c001 blank|c010 blank|c0255 blank|c00000000000 blank");
    expect_misspelled(
        "c-0 blank|c+0 blank|c-1 blank|c+1 blank|c 0 blank|c0. blank|c0_0 blank|cA blank|c0x1 blank|c1e1 blank",
    );
    // Two to the 64th, and what is small again once that is taken off.
    expect_misspelled(
        "c18446744073709551616 blank|c18446744073709551617 blank|c340282366920938463463374607431768211456 blank",
    );
}

/// As low, as high, and as both: the largest numbers are spelled well, and refused later if they are out of range.
#[test]
fn numbers_up_to_the_limit() {
    const BLANK: u32 = u32::MAX;
    let range = |low: u32, high: u32| condition(&[&[0, 0], low.to_be_bytes().as_slice(), &high.to_be_bytes()].concat());
    for number in [0, 1, 9, 10, 99, 100, 255, 256, 65_535, 65_536, 999_999_999, 1_000_000_000, 4_294_967_293, BLANK - 1]
    {
        assert_eq!(read(format!("c0 in {number}..{number}")), range(number, number), "{number}");
        assert_eq!(read(format!("c0 in 0..{number}")), range(0, number), "to {number}");
        assert_eq!(read(format!("c0 in {number}..4294967294")), range(number, BLANK - 1), "from {number}");
        assert_eq!(read(format!("c0 in {number}..{BLANK}")), Err(11), "from {number} to the blank");
        assert_eq!(read(format!("c0 in {BLANK}..{number}")), Err(11), "from the blank to {number}");
    }
    assert_eq!(read("c0 in 4294967295..4294967295"), Err(11));
    assert_eq!(read("c0 in 1..0"), Err(11));
    assert_eq!(read("c0 in 4294967294..4294967293"), Err(11));
}

/// Numbers just beyond the limit, and such as are small again once cut to four or eight bytes.
#[test]
fn numbers_misspelled() {
    const FOUR_BYTES: u128 = 1 << 32;
    const EIGHT_BYTES: u128 = 1 << 64;
    let beyond = [FOUR_BYTES, FOUR_BYTES + 1_700, 4_294_967_300, 9_999_999_999, 10_000_000_000, 42_949_672_950];
    let wrapping = [EIGHT_BYTES - 1, EIGHT_BYTES, EIGHT_BYTES + 1, EIGHT_BYTES + 1_700, 10 * EIGHT_BYTES, u128::MAX];
    for number in beyond.into_iter().chain(wrapping).chain([10_u128.pow(19), 10_u128.pow(24) + 1_700]) {
        assert_eq!(read(format!("c0 in {number}..1799")), Err(21), "{number} as low");
        assert_eq!(read(format!("c0 in 1700..{number}")), Err(21), "{number} as high");
    }
    for number in [
        "00",
        "01",
        "01700",
        "0001700",
        "00000000000000000000000",
        "04294967295",
        "+1",
        "-1",
        "1_700",
        "1 700",
        "1700.",
    ] {
        assert_eq!(read(format!("c0 in {number}..1799")), Err(21), "{number} as low");
        assert_eq!(read(format!("c0 in 0..{number}")), Err(21), "{number} as high");
    }
    expect_misspelled("c0 in 01..2|c0 in 1..02|c0 in 00..1|c0 in 1..4294967296|c0 in 4294967296..4294967297");
    let digits = "1".repeat(16_000);
    assert_eq!(read(format!("c0 in 0..{digits}")), Err(21), "16,000 digits");
    assert_eq!(read(format!("c0 in 0..{}", digits.replace('1', "0"))), Err(21), "16,000 zeros");
}

/// Each byte as itself and escaped: one of the two is its spelling. An escape with small letters never is.
#[test]
fn every_byte_in_quotes() {
    for byte in 0..=255 {
        let expected = |is_spelled| if is_spelled { condition(&[1, 2, b'a', byte, b'z']) } else { Err(21) };
        assert_eq!(read([b"c1 is \"a", [byte].as_slice(), b"z\""].concat()), expected(is_plain(byte)), "byte {byte}");
        assert_eq!(read(format!("c1 is \"a\\{byte:02X}z\"")), expected(!is_plain(byte)), "byte {byte}, escaped");
        let has_letter = byte % 16 > 9 || byte / 16 > 9;
        let small = expected(!is_plain(byte) && !has_letter);
        assert_eq!(read(format!("c1 is \"a\\{byte:02x}z\"")), small, "byte {byte}, escaped in small letters");
    }
}

/// Every two bytes behind a backslash.
#[test]
fn every_escape() {
    let digit = |byte: u8| char::from(byte).to_digit(16).filter(|_| !byte.is_ascii_lowercase());
    for first in 0..=255 {
        for second in (0..=255).step_by(if fewer() { 7 } else { 1 }) {
            let byte = digit(first).zip(digit(second)).map(|(high, low)| (16 * high + low) as u8);
            let expected = match byte {
                Some(byte) if !is_plain(byte) => condition(&[1, 4, byte]),
                _ => Err(21),
            };
            assert_eq!(
                read([b"c1 has \"\\", [first, second].as_slice(), b"\""].concat()),
                expected,
                "{first}, {second}"
            );
        }
    }
}

#[test]
fn escapes_cut_and_beside_each_other() {
    expect_misspelled(
        r#"c1 is "\41"|c1 is "\20"|c1 is "\7E"|c1 is "\0a"|c1 is "\e9"|c1 is "\eF"|c1 is "\5c"|c1 is "\G0""#,
    );
    expect_misspelled(r#"c1 is "\|c1 is "\"|c1 is "\E|c1 is "\E"|c1 is "\E9|c1 is "\ E9"|c1 is "\E 9"|c1 is "\E9"""#);
    expect_misspelled(r#"c1 is "\\"|c1 is "\""|c1 is "\n"|c1 is "\xE9"|c1 is "\u00E9"|c1 is "\\E9"|c1 is "\/"#);
    for (text, operand) in [
        (r#""\22""#, b"\"".as_slice()),
        (r#""\5C""#, b"\\"),
        (r#""\5C\5C22""#, b"\\\\22"),
        (r#""\22ash\22""#, b"\"ash\""),
        (r#""\E9\E9""#, b"\xE9\xE9"),
        (r#""E9\E99E""#, b"E9\xE99E"),
        (r#""\00\0A\7F\80\FF""#, b"\x00\n\x7F\x80\xFF"),
        (r#"" !#[]^~""#, b" !#[]^~"),
        (r#""all(c0 blank),any(""#, b"all(c0 blank),any("),
        (r#""c1 is ""#, b"c1 is "),
    ] {
        let payload = [&[1, 3], operand].concat();
        assert_eq!(read(format!("c1 starts {text}")), condition(&payload), "{text}");
    }
}

/// Of none to 290 bytes in quotes, as themselves and escaped: all are spelled well, and 1 to 23 are accepted. Those of more than
/// 256 have a length that would be sound again without its first byte.
#[test]
fn every_length_in_quotes() {
    for (word, kind) in [("is", 2), ("starts", 3), ("has", 4)] {
        for length in 0..=290 {
            for (spelled, byte) in [("a", b'a'), ("\\E9", 0xE9)] {
                let payload = [&[1, kind], vec![byte; length].as_slice()].concat();
                let expected = if (1..=23).contains(&length) { condition(&payload) } else { Err(11) };
                assert_eq!(
                    read(format!("c1 {word} \"{}\"", spelled.repeat(length))),
                    expected,
                    "{length} bytes, {word}"
                );
            }
        }
    }
}
