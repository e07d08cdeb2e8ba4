use crate::{Rng, alike};

/// The longest text and the longest operand.
const LONGEST: usize = 23;

/// Bytes at the ends of what the fold changes, by case and by each letter's accents, and bytes beside them; those that differ
/// from them in bit 5 alone; and the zero that fills a slot up and lengths.
const ENDS: [u8; 57] = [
    0, 1, 2, 23, 24, 32, 64, 65, 90, 91, 96, 97, 122, 123, 159, 160, 191, 192, 193, 197, 198, 199, 200, 203, 204, 207,
    208, 209, 210, 214, 215, 216, 217, 220, 221, 222, 223, 224, 225, 229, 230, 231, 232, 235, 236, 239, 240, 241, 242,
    246, 247, 248, 249, 252, 253, 254, 255,
];

/// The letters that have accented forms, and bytes that have none.
const WITH_ACCENTS: &[u8; 8] = b"aceinouy";
const WITHOUT_ACCENTS: &[u8; 20] = b"bdkmrstzBDKMRSTZ-\xE6\xD8\xDF";

/// An operand of 1 to 23 bytes, each length as likely: letters that repeat, accented ones and others beside them, ends of the
/// fold, or any bytes; or letters that have accented forms, and none to three bytes among them that have none.
pub fn operand(rng: &mut Rng) -> Vec<u8> {
    let length = rng.between(1, LONGEST);
    let sort = rng.below(8);
    let byte = |rng: &mut Rng| match sort {
        0 => *rng.pick(b"abAB"),
        1 => rng.between(192, 255) as u8,
        2 => *rng.pick(&ENDS),
        3 => rng.byte(),
        _ => {
            let letter = *rng.pick(WITH_ACCENTS);
            *rng.pick(alike(letter))
        }
    };
    let mut operand: Vec<u8> = (0..length).map(|_| byte(rng)).collect();
    let others = sort.saturating_sub(4);
    for _ in 0..others {
        operand[rng.below(length)] = *rng.pick(WITHOUT_ACCENTS);
    }
    operand
}

/// A text of 0 to 23 bytes that matches an operand, or would but for one thing.
pub fn near_text(rng: &mut Rng, operand: &[u8]) -> Vec<u8> {
    let mut text = operand.to_vec();
    let (last, some) = (operand.len() - 1, rng.below(operand.len()));
    match rng.below(16) {
        0 => {}
        1 => text.iter_mut().for_each(|byte| *byte ^= if rng.chance(50) { 32 } else { 0 }),
        2 => change(rng, &mut text[0]),
        3 => change(rng, &mut text[last]),
        4 => change(rng, &mut text[some]),
        // The operand is longer than the text, by a byte that the padding may have.
        5 => drop(text.pop()),
        6 => drop(text.remove(0)),
        7 => text.truncate(rng.below(operand.len() + 1)),
        // The text goes on with zeros, as its padding does.
        8 => text.resize(rng.between(text.len(), LONGEST), 0),
        9 => text.resize(LONGEST, text[last]),
        // At the end of a text of full length, or of any.
        10 => text = [&vec![operand[0]; LONGEST - text.len()], operand].concat(),
        11 => {
            let before = rng.below(LONGEST - text.len() + 1);
            text = [&rng.bytes(before), operand].concat();
        }
        // The first bytes, and then the operand again from its first.
        12 => text = [&operand[..rng.below(operand.len() + 1)], operand].concat(),
        // Its length byte and its text together are the operand.
        13 if (1..=LONGEST).contains(&usize::from(operand[0])) => {
            text = operand[1..].to_vec();
            text.resize(operand[0].into(), 0);
        }
        // First and last byte, and none of those between.
        14 => text[1..last.max(1)].fill(1),
        _ => text.clear(),
    }
    text.truncate(LONGEST);
    // In any case and with any accent: what matched still does.
    if rng.chance(50) {
        text.iter_mut().for_each(|byte| *byte = *rng.pick(alike(*byte)));
    }
    if rng.chance(20) && !text.is_empty() {
        let at = rng.below(text.len());
        text[at] ^= 32;
    }
    text
}

/// One that a search takes for the same, a byte beside such a one, what may only look like the other case, or any.
fn change(rng: &mut Rng, byte: &mut u8) {
    let same = *rng.pick(alike(*byte));
    *byte = match rng.below(5) {
        0 => same,
        1 => same.wrapping_add(1),
        2 => same.wrapping_sub(1),
        3 => *byte ^ 32,
        _ => rng.byte(),
    };
}
