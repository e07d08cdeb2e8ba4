//! The operands, and the texts that nearly match them: what they reach, so that trials with them are not hollow.

use std::collections::HashSet;

use generator::{Rng, alike, near_text, operand};

/// The bytes of one letter are more than its two cases.
fn has_accents(byte: u8) -> bool {
    alike(byte).len() > 2
}

/// Of every length: letters that all have accented forms, and one byte alone that has none, at every place.
#[test]
fn operands_with_and_without_accents() {
    let mut rng = Rng::new(1);
    let mut seen = HashSet::new();
    for _ in 0..100_000 {
        let operand = operand(&mut rng);
        let without: Vec<usize> = (0..operand.len()).filter(|&place| !has_accents(operand[place])).collect();
        seen.insert((operand.len(), without));
    }
    for length in 1..=23 {
        for without in (0..length).map(|place| vec![place]).chain([vec![]]) {
            assert!(seen.contains(&(length, without.clone())), "{length} bytes, without accents: {without:?}");
        }
    }
}

/// Texts that are the operand but for accents, and such with one letter that is none of its forms and stands beside one.
#[test]
fn near_texts_differ_by_accents() {
    let mut rng = Rng::new(2);
    let (mut same, mut beside) = (0, 0);
    for _ in 0..20_000 {
        let operand = operand(&mut rng);
        let text = near_text(&mut rng, &operand);
        if text.len() != operand.len() {
            continue;
        }
        let pairs: Vec<(u8, u8)> = operand.into_iter().zip(text).collect();
        match *pairs.iter().filter(|(a, b)| !alike(*a).contains(b)).collect::<Vec<_>>() {
            [] => same += u32::from(pairs.iter().any(|&(a, b)| a != b && a != b ^ 32)),
            [&(a, b)] => beside += u32::from(has_accents(a) && alike(a).iter().any(|form| form.abs_diff(b) == 1)),
            _ => {}
        }
    }
    assert!(same > 1_000 && beside > 200, "{same} the same but for accents, {beside} with a letter beside a form");
}
