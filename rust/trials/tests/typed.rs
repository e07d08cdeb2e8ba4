//! `searchroom_typed`: what it writes, which refusal comes first, limits, and random texts against the evaluator. The spelling
//! itself is tried in spelling.rs.

use evaluator::{Catalogue, Column, pack, read_catalogue, read_question, read_typed, refused, spelling};
use generator::{
    Misspelling, Rng, catalogue, catalogue_of, encode_catalogue, encode_question, field, misspell, question,
    question_of, typable_question,
};
use searchroom::{MAX_TYPED, Refusal, TYPED_BYTES, Tally, check_question, consult, typed, typed_question};
use trials::{
    FILL, PARISH_CATALOGUE, PARISH_ORDER, PARISH_QUESTION, PARISH_TEXT, Seen, Typing, compare_reading, compare_typed,
    damaged_catalogue, fewer, marked_parish, seeds,
};

/// Reads a text on the parish's columns into so many bytes, by the engine and by the evaluator: the word and the output.
fn into_bytes(text: &str, length: usize) -> (u64, Vec<u8>) {
    let given = Typing { catalogue: PARISH_CATALOGUE, text: text.as_bytes(), output: &vec![FILL; length] };
    let read = compare_typed(&format!("output of {length} bytes"), &given);
    (read.word, read.output)
}

/// The text is refused with this number, and none of the output's bytes is altered, however many there are.
fn expect_refused(number: u8, text: &str) {
    for length in [0, 1, 100, TYPED_BYTES, 20_000] {
        let label = format!("output of {length} bytes: {}", &text[..text.len().min(200)]);
        assert_eq!(into_bytes(text, length), (refused(number), vec![FILL; length]), "{label}");
    }
}

/// A condition on the parish's years.
fn year(number: usize) -> String {
    format!("c0 in {number}..5000")
}

/// So many different conditions, parted by commas.
fn years(count: usize) -> String {
    (0..count).map(year).collect::<Vec<_>>().join(",")
}

/// A member inside so many groups, sorts taking turns.
fn nested(depth: usize, member: &str) -> String {
    let sorts: String = ["all(", "any("].into_iter().cycle().take(depth).collect();
    format!("{sorts}{member}{}", ")".repeat(depth))
}

/// 64 conditions as long as can be, each in seven groups of its own, all in one: the longest text that is accepted, if the
/// catalogue has a column of texts numbered 15.
fn longest_accepted() -> String {
    let condition = |number| format!("not c15 starts \"\\{:02X}{}\"", number + 128, "\\FF".repeat(22));
    let members: Vec<String> = (0..64).map(|number| nested(7, &condition(number))).collect();
    format!("any({})", members.join(","))
}

#[test]
fn parish_into_outputs_of_every_length() {
    for length in 0..32 {
        assert_eq!(into_bytes(PARISH_TEXT, length), (refused(22), vec![FILL; length]));
    }
    for further in [0, 1, 2, 100, 16_384, 70_000] {
        let expected = [PARISH_QUESTION, &vec![FILL; further]].concat();
        assert_eq!(into_bytes(PARISH_TEXT, 32 + further), (pack(0, 0, 32), expected));
    }
}

#[test]
fn wrapper_gives_the_parish_as_values() {
    let mut output = [FILL; 33];
    assert_eq!(typed(PARISH_CATALOGUE, PARISH_TEXT.as_bytes(), &mut output), Ok(32));
    assert_eq!((&output[..32], output[32]), (PARISH_QUESTION, FILL));
    assert_eq!(typed(PARISH_CATALOGUE, PARISH_TEXT.as_bytes(), &mut output[..31]), Err(Refusal::ShortTypedOutput));
    assert_eq!(typed_question(PARISH_CATALOGUE, PARISH_TEXT.as_bytes()).as_deref(), Ok(PARISH_QUESTION));
    assert_eq!(typed_question(PARISH_CATALOGUE, b"c0 blank\n"), Err(Refusal::Misspelled));
    assert_eq!(typed_question(PARISH_CATALOGUE, b"c2 blank"), Err(Refusal::BadCondition));
    assert_eq!(typed_question(b"", PARISH_TEXT.as_bytes()), Err(Refusal::CatalogueField));
}

/// What is typed can be asked at once.
#[test]
fn typed_question_is_run() {
    let found = |text: &str, order: &[u8]| {
        let question = typed_question(PARISH_CATALOGUE, text.as_bytes()).expect("an accepted text");
        let found = consult(PARISH_CATALOGUE, &question, order, 0, &mut Tally::default()).expect("an accepted run");
        found.listed().collect::<Vec<_>>()
    };
    assert_eq!(found(PARISH_TEXT, PARISH_ORDER), [0, 2]);
    assert_eq!(found("not c0 in 1700..1799", &[0]), [1]);
    assert_eq!(found("c1 blank", &[0]), [2]);
    assert_eq!(found("not c1 blank", &[0]), [0, 1]);
    assert_eq!(found(r#"c1 has "SH""#, &[0]), [0, 1]);
}

#[test]
fn refused_as_the_question_is() {
    for text in [
        "c2 blank",
        "c255 blank",
        "c2 in 1..2",
        r#"c16 is "ash""#,
        "c1 in 1700..1799",
        r#"c0 is "ash""#,
        r#"not c0 has "ash""#,
        "c0 in 1799..1700",
        "c0 in 0..4294967295",
        r#"c1 is """#,
        r#"not c1 starts """#,
        r#"c1 has "123456789012345678901234""#,
        "all(c0 blank,any(c1 blank,c2 blank))",
    ] {
        expect_refused(11, text);
    }
    expect_refused(13, "any(c0 blank,c0 blank)");
    expect_refused(13, r#"any(c1 is "a",all(c0 blank,not c1 is "a",c1 is "a"))"#);
    expect_refused(12, &format!("any({})", years(65)));
    expect_refused(12, &format!("any(all({}),all(c1 blank))", years(64)));
    for depth in [9, 10, 100] {
        expect_refused(10, &nested(depth, "c0 blank"));
    }
}

/// The first refusal in walking order, whatever stands behind it.
#[test]
fn earlier_of_two_refusals_decides() {
    let (deep, full) = (nested(8, "c0 blank"), years(64));
    expect_refused(11, &format!("any(c2 blank,{deep})"));
    expect_refused(10, &format!("any({deep},c2 blank)"));
    expect_refused(10, &nested(9, "c2 blank"));
    expect_refused(10, &format!("any(c0 blank,{deep},c0 blank)"));
    expect_refused(13, &format!("any(c0 blank,c0 blank,{deep})"));
    expect_refused(13, "any(c0 blank,c0 blank,c2 blank)");
    expect_refused(11, "any(c0 blank,c2 blank,c0 blank)");
    expect_refused(11, "any(c2 blank,c2 blank)");
    expect_refused(12, &format!("any({full},c2 blank)"));
    expect_refused(12, &format!("any({full},{})", year(3)));
    expect_refused(12, &format!("any({full},c1 blank,{deep})"));
    expect_refused(10, &format!("any({full},{deep})"));
    expect_refused(11, &format!("any(c2 blank,{full},c1 blank)"));
}

/// The whole text is read before its question is judged.
#[test]
fn misspelled_before_the_question_is_refused() {
    let (deep, full) = (nested(9, "c0 blank"), years(65));
    for text in ["c2 blank", "any(c0 blank,c0 blank)", &deep, &format!("any({full})")] {
        for more in [" ", "\n", ")", ",", "0", "\0", ",c0 blank", "\"", "(c0 blank)"] {
            expect_refused(21, &format!("{text}{more}"));
        }
        expect_refused(21, &format!("all({text}"));
        expect_refused(21, &format!("all({text},c0 blank,)"));
        expect_refused(21, &format!("all({text},all())"));
        expect_refused(21, &format!(" {text}"));
    }
    expect_refused(21, &deep[..deep.len() - 1]);
}

/// A catalogue that is refused, each with its number.
#[test]
fn catalogue_comes_first() {
    let cut = &PARISH_CATALOGUE[..95];
    let mut slot = PARISH_CATALOGUE.to_vec();
    slot[95] = 1;
    let over = [PARISH_CATALOGUE, &[0]].concat();
    let catalogues: [(u8, &[u8]); 8] = [
        (1, b""),
        (1, cut),
        (2, &[66, 0, 3, 0, 0, 1, 78, 0, 0]),
        (3, &[67, 0, 3, 0, 0, 17, 78, 0, 0]),
        (4, &[67, 0, 3, 0, 9, 1, 78, 0, 0]),
        (5, &slot),
        (6, &over),
        (23, &marked_parish(0b1000)),
    ];
    let texts = ["", PARISH_TEXT, "c2 blank", "all(", &"all(".repeat(5_000), &nested(9, "c0 blank")];
    for (number, catalogue) in catalogues {
        for text in texts {
            for output in [&[][..], &[FILL; 40]] {
                let given = Typing { catalogue, text: text.as_bytes(), output };
                assert_eq!(compare_typed(&format!("{number} comes first"), &given).word, refused(number));
            }
        }
    }
}

/// `blank` is read by the columns of the catalogue that is given.
#[test]
fn blank_on_other_columns() {
    let (numbers, texts) = (Column::Numbers(vec![]), Column::Texts(vec![]));
    for (columns, expected) in [
        (vec![numbers.clone(), numbers.clone()], Ok([1, 129])),
        (vec![numbers.clone(), texts.clone()], Ok([1, 133])),
        (vec![texts.clone(), numbers.clone()], Ok([5, 129])),
        (vec![texts.clone(), texts.clone()], Ok([5, 133])),
        (vec![numbers], Err(11)),
        (vec![texts], Err(11)),
    ] {
        let catalogue = encode_catalogue(&Catalogue::unmarked(0, columns));
        let expected = expected.map(|[a, b]| field(65, &[field(80, &[0, a]), field(80, &[1, b])].concat()));
        assert_eq!(compare_reading(&catalogue, "all(c0 blank,not c1 blank)"), expected);
    }
}

#[test]
fn sixty_four_conditions_eight_deep() {
    for count in [1, 2, 63, 64] {
        let text = format!("any({})", years(count));
        assert_eq!(into_bytes(&text, TYPED_BYTES).0, pack(0, 0, 3 + 13 * count), "{count} conditions");
    }
    for depth in 0..=8 {
        assert_eq!(into_bytes(&nested(depth, "c0 blank"), 100).0, pack(0, 0, 5 + 3 * depth), "{depth} nested groups");
    }
    // After a deep group the depth is that of the outer one again.
    let beside = format!("any({},{},c1 blank)", nested(7, "c0 blank"), nested(7, "not c0 blank"));
    assert_eq!(into_bytes(&beside, 100).0, pack(0, 0, 3 + 26 + 26 + 5));
}

/// A ninth group is refused once the whole text is read, however many there are. Of 16,384 bytes 3,275 can be closed again.
#[test]
fn thousands_of_groups() {
    for depth in [1_000, 3_274, 3_275] {
        let text = nested(depth, "c0 blank");
        expect_refused(10, &text);
        expect_refused(21, &text[..text.len() - 1]);
        expect_refused(21, &text[1..]);
        expect_refused(21, &format!("{text})"));
        expect_refused(21, &nested(depth, ""));
        expect_refused(21, &nested(depth, "c0 blank,"));
    }
    expect_refused(21, &nested(3_276, "c0 blank"));
    expect_refused(21, &"all(".repeat(4_096));
    expect_refused(21, &format!("{}c0 blank", "any(".repeat(4_094)));
    expect_refused(21, &")".repeat(16_384));
    expect_refused(21, &",".repeat(16_384));
    expect_refused(21, &"\"".repeat(16_384));
    // Beside each other, and each closed at once.
    let flat = vec!["all(c0 blank)"; 1_169].join(",");
    expect_refused(13, &format!("any({flat})"));
}

/// Texts that are spelled well, whatever stands in their last quotes: of the most bytes they are refused as the question is,
/// of one byte more for their length.
#[test]
fn longest_texts() {
    let heads = [
        (11, String::new()),
        (13, "c0 blank,c0 blank,".to_string()),
        (10, nested(8, "c0 blank") + ","),
        (12, years(64) + ","),
    ];
    for (number, head) in heads {
        let text = |length: usize| {
            let start = format!("any({head}c1 is \"");
            let filled = "a".repeat(length - start.len() - 2);
            format!("{start}{filled}\")")
        };
        for length in [MAX_TYPED - 1, MAX_TYPED] {
            expect_refused(number, &text(length));
        }
        for length in [MAX_TYPED + 1, 20_000, 32_768, 65_535, 65_536, 65_537, 65_536 + 2_000, 100_000] {
            expect_refused(21, &text(length));
        }
    }
    // One of 65,536 bytes and more is not taken for its front.
    expect_refused(21, &format!("{PARISH_TEXT}{}", " ".repeat(65_536)));
}

/// Ranges and conditions without operands, as many as a text can hold: they are read into far more bytes than are accepted.
#[test]
fn most_conditions_of_a_text() {
    let parish = read_catalogue(PARISH_CATALOGUE).expect("the parish's catalogue");
    for (number, condition, bytes) in [(13, "c0 in 0..0", 13), (13, "c0 blank", 5), (11, "c1 is \"\"", 5)] {
        let count = (MAX_TYPED - "any()".len() + 1) / (condition.len() + 1);
        let text = format!("any({})", vec![condition; count].join(","));
        let question = read_typed(&parish, text.as_bytes()).expect("a text that is spelled well");
        assert_eq!(question.len(), 3 + bytes * count, "{count} times {condition}");
        expect_refused(number, &text);
    }
}

#[test]
fn longest_accepted_text() {
    let text = longest_accepted();
    assert_eq!((text.len(), TYPED_BYTES), (7_812, 3_139));
    let catalogue = encode_catalogue(&Catalogue::unmarked(0, vec![Column::Texts(vec![]); 16]));
    let read = compare_reading(&catalogue, &text).expect("an accepted text");
    assert_eq!((read.len(), check_question(&catalogue, &read)), (TYPED_BYTES, Ok(64)));
    assert_eq!(spelling(&read).as_ref(), Some(&text));
    for (length, word) in [(3_138, refused(22)), (3_139, pack(0, 0, 3_139)), (3_140, pack(0, 0, 3_139))] {
        let given = Typing { catalogue: &catalogue, text: text.as_bytes(), output: &vec![FILL; length] };
        assert_eq!(compare_typed("the longest text", &given).word, word, "output of {length} bytes");
    }
    assert_eq!(compare_reading(&catalogue, format!("all({text})")), Err(10));
    assert_eq!(compare_reading(&catalogue, text.replacen("all(", "c0 blank,all(", 1)), Err(12));
}

/// Typing the spelling of a random accepted question returns its bytes.
#[test]
fn random_questions_return() {
    for seed in seeds(4_000) {
        let mut rng = Rng::new(seed);
        let made = catalogue(&mut rng);
        let asked = if seed % 40 == 0 { question_of(&mut rng, &made, 64, 8) } else { question(&mut rng, &made) };
        let bytes = encode_question(&asked);
        let text = spelling(&bytes).expect("a typed form");
        let catalogue = encode_catalogue(&made);
        assert_eq!(compare_reading(&catalogue, &text).as_ref(), Ok(&bytes), "seed {seed}: {text}");
        for (length, word) in [(bytes.len(), pack(0, 0, bytes.len())), (bytes.len() - 1, refused(22))] {
            let given = Typing { catalogue: &catalogue, text: text.as_bytes(), output: &rng.bytes(length) };
            assert_eq!(compare_typed(&format!("seed {seed}"), &given).word, word, "output of {length} bytes");
        }
    }
}

/// Random texts that may be refused later, spoilt more often than not. What is accepted is the spelling of what was written.
#[test]
fn random_and_misspelled_texts() {
    let mut accepted = 0;
    for seed in seeds(20_000) {
        let mut rng = Rng::new(seed);
        let columns = rng.between(1, 4);
        let made = catalogue_of(&mut rng, 2, columns);
        let faults = *rng.pick(&[0, 0, 5, 20]);
        let mut text = spelling(&typable_question(&mut rng, &made, faults)).expect("a typed form").into_bytes();
        for _ in 0..*rng.pick(&[0, 1, 1, 1, 2, 3]) {
            let how = *rng.pick(&Misspelling::ALL);
            misspell(&mut rng, &mut text, how);
        }
        let Ok(read) = compare_reading(&encode_catalogue(&made), &text) else { continue };
        accepted += 1;
        assert!(read_question(&made, &read).is_ok(), "seed {seed}");
        assert_eq!(spelling(&read).map(String::into_bytes), Some(text), "seed {seed}");
    }
    assert!(accepted > if fewer() { 200 } else { 2_000 }, "{accepted} texts were accepted");
}

#[test]
fn random_and_damaged_inputs_reach_every_refusal() {
    let mut seen = Seen::none();
    for seed in seeds(20_000) {
        let mut rng = Rng::new(seed);
        let (entries, columns) = (rng.below(4), rng.between(1, 4));
        let made = catalogue_of(&mut rng, entries, columns);
        let catalogue = damaged_catalogue(&mut rng, &made, 8);
        let faults = *rng.pick(&[0, 0, 3, 10]);
        let mut text = spelling(&typable_question(&mut rng, &made, faults)).expect("a typed form").into_bytes();
        if rng.chance(20) {
            let how = *rng.pick(&Misspelling::ALL);
            misspell(&mut rng, &mut text, how);
        }
        let fit = (evaluator::typed(&catalogue, &text, &[0; TYPED_BYTES]).word >> 40) as usize;
        let length = match rng.below(10) {
            0 => fit.saturating_sub(1),
            1 => rng.below(fit + 1),
            2..5 => fit + rng.below(9),
            _ => fit,
        };
        let given = Typing { catalogue: &catalogue, text: &text, output: &rng.bytes(length) };
        let word = compare_typed(&format!("seed {seed}"), &given).word;
        assert!(![7, 8, 9, 14].contains(&word), "seed {seed}: {word}");
        seen.count(word);
    }
    let times = if fewer() { 1 } else { 10 };
    for numbers in [0..=6, 10..=13, 21..=23] {
        seen.assert_each(numbers, times);
    }
}
