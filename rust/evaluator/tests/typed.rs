//! The evaluator's own reading and spelling of typed questions, held to the sentences of order 4.

use evaluator::{Catalogue, Column, Typed, pack, read_catalogue, read_question, read_typed, refused, spelling, typed};
use generator::{Misspelling, Rng, catalogue_of, encode_question, field, misspell, question, typable_question};

const CATALOGUE: &[u8] = include_bytes!("../../../examples/parish/catalogue.bin");
const QUESTION: &[u8] = include_bytes!("../../../examples/parish/question.bin");
const TEXT: &str = r#"any(all(c0 in 1700..1799,c1 starts "ash"),c0 blank)"#;

/// The bytes that a text spells on the parish's columns, or 21.
fn read(text: impl AsRef<[u8]>) -> Result<Vec<u8>, u8> {
    read_typed(&read_catalogue(CATALOGUE).expect("the parish's catalogue"), text.as_ref())
}

fn condition(payload: &[u8]) -> Result<Vec<u8>, u8> {
    Ok(field(80, payload))
}

#[test]
fn parish_typed_and_spelled() {
    assert_eq!(read(TEXT).as_deref(), Ok(QUESTION));
    assert_eq!(spelling(QUESTION).as_deref(), Some(TEXT));
    for further in [0, 1, 100] {
        let output = [QUESTION, &vec![9; further]].concat();
        let expected = Typed { word: pack(0, 0, 32), output };
        assert_eq!(typed(CATALOGUE, TEXT.as_bytes(), &vec![9; 32 + further]), expected);
    }
}

#[test]
fn refused_texts_keep_the_output() {
    let deep = format!("{}c0 blank{}", "all(".repeat(9), ")".repeat(9));
    let cases =
        [(TEXT, 31, 22), (TEXT, 0, 22), ("c2 blank", 0, 11), (&deep, 0, 10), ("", 100, 21), ("c2 blank ", 100, 21)];
    for (text, length, number) in cases {
        let expected = Typed { word: refused(number), output: vec![9; length] };
        assert_eq!(typed(CATALOGUE, text.as_bytes(), &vec![9; length]), expected, "{text}");
    }
    assert_eq!(typed(b"", b"", &[]), Typed { word: refused(1), output: vec![] });
}

#[test]
fn each_condition() {
    assert_eq!(read("c0 in 1700..1799"), condition(&[0, 0, 0, 0, 6, 0xA4, 0, 0, 7, 7]));
    assert_eq!(read("c0 in 4294967295..0"), condition(&[0, 0, 255, 255, 255, 255, 0, 0, 0, 0]));
    assert_eq!(read("c0 blank"), condition(&[0, 1]));
    assert_eq!(read("c1 blank"), condition(&[1, 5]));
    assert_eq!(read("c2 blank"), condition(&[2, 1]));
    assert_eq!(read("not c255 blank"), condition(&[255, 129]));
    assert_eq!(read("not c1 blank"), condition(&[1, 133]));
    assert_eq!(read(r#"c1 is "ash""#), condition(b"\x01\x02ash"));
    assert_eq!(read(r#"c1 starts "ash""#), condition(b"\x01\x03ash"));
    assert_eq!(read(r#"c1 has "ash""#), condition(b"\x01\x04ash"));
    assert_eq!(read(r#"not c0 has """#), condition(&[0, 132]));
    assert_eq!(read(r#"c1 is "a,b),\22\5C\00\FFall(""#), condition(b"\x01\x02a,b),\"\\\0\xFFall("));
}

/// What the loose reading lets through: it is told by its spelling, or by brackets that do not match.
#[test]
fn no_other_spelling() {
    for text in ["c+1 blank", "c01 blank", "c0 in +1..2", "c0 in 1..02", "c0 blank ", "c0 blank,", "c0 blank("] {
        assert_eq!(read(text), Err(21), "{text}");
    }
    for text in
        [r#"c1 is "\41""#, r#"c1 is "\e9""#, r#"c1 is "\+1""#, "c1 is \"\t\"", "c1 is \"\u{E9}\"", r#"c1 is "\xe9""#]
    {
        assert_eq!(read(text), Err(21), "{text}");
    }
    for text in ["all()", "all(c0 blank", "c0 blank)", "all(c0 blank))", "c0 blank,c1 blank", "all(c0 blank),c1 blank"]
    {
        assert_eq!(read(text), Err(21), "{text}");
    }
    assert_eq!(read(b"c1 is \"\xE9\""), Err(21));
}

/// 3,275 groups round one condition, which a recursion would take a deep stack for.
#[test]
fn deepest_text() {
    let text = format!("{}c0 blank{}", "any(".repeat(3_275), ")".repeat(3_275));
    let question = (0..3_275).fold(field(80, &[0, 1]), |inner, _| field(79, &inner));
    assert_eq!(text.len(), 16_383);
    assert_eq!(read(&text).as_ref(), Ok(&question));
    assert_eq!(spelling(&question), Some(text));
    assert_eq!(read("all(".repeat(4_096)), Err(21));
    assert_eq!(read(")".repeat(16_384)), Err(21));
}

#[test]
fn longest_text() {
    for (length, expected) in
        [(16_384, condition(&[&[1, 2], vec![b'a'; 16_376].as_slice()].concat())), (16_385, Err(21))]
    {
        let text = format!("c1 is \"{}\"", "a".repeat(length - 8));
        assert_eq!((text.len(), read(&text)), (length, expected));
    }
}

/// Typing what was spelled returns the same bytes, of accepted questions and of others that a text can spell, if it is not too
/// long.
#[test]
fn typing_a_spelling_returns_the_bytes() {
    let mut refused_ones = 0;
    for seed in 0..3_000 {
        let mut rng = Rng::new(seed);
        let columns = rng.between(1, 5);
        let made: Catalogue = catalogue_of(&mut rng, 3, columns);
        let asked = question(&mut rng, &made);
        let faults = *rng.pick(&[0, 5, 20]);
        for bytes in [encode_question(&asked), typable_question(&mut rng, &made, faults)] {
            let text = spelling(&bytes).expect("a typed form");
            refused_ones += u32::from(read_question(&made, &bytes).is_err());
            let expected = if text.len() > 16_384 { Err(21) } else { Ok(bytes) };
            assert!(read_typed(&made, text.as_bytes()) == expected, "seed {seed}: {text}");
        }
    }
    assert!(refused_ones > 500, "{refused_ones} questions were refused");
}

/// A spoilt text is misspelled, or it is the typed form of what it spells. Each way of spoiling leads to misspelled ones.
#[test]
fn misspelled_unless_spelled_so() {
    let mut misspelled = [0; Misspelling::ALL.len()];
    for seed in 0..8_000 {
        let mut rng = Rng::new(seed);
        let made = Catalogue::unmarked(0, vec![Column::Numbers(vec![]), Column::Texts(vec![])]);
        let mut text = spelling(&typable_question(&mut rng, &made, 3)).expect("a typed form").into_bytes();
        let how = rng.below(misspelled.len());
        misspell(&mut rng, &mut text, Misspelling::ALL[how]);
        match read_typed(&made, &text) {
            Ok(bytes) => assert_eq!(spelling(&bytes).map(String::into_bytes), Some(text), "seed {seed}"),
            Err(number) => misspelled[how] += u32::from(number == 21),
        }
    }
    for (how, times) in Misspelling::ALL.into_iter().zip(misspelled) {
        assert!(times > 20, "{how:?} misspelled {times} texts");
    }
}
