//! The evaluator's own copies, held to the sentences of orders 1 and 2.

use evaluator::{Copied, copy, pack, refused};

const CATALOGUE: &[u8] = include_bytes!("../../../examples/parish/catalogue.bin");
const QUESTION: &[u8] = include_bytes!("../../../examples/parish/question.bin");

/// The parish's six looks, worked by hand: 1701 "Ash", 1822 "ASHBY", and the blanks.
const FIELDS: [[u8; 7]; 6] = [
    [76, 0, 4, 0, 0, 0, 1],
    [76, 0, 4, 0, 0, 1, 1],
    [76, 0, 4, 0, 1, 0, 0],
    [76, 0, 4, 0, 1, 2, 0],
    [76, 0, 4, 0, 2, 0, 2],
    [76, 0, 4, 0, 2, 2, 1],
];

#[test]
fn copy_of_the_parish() {
    for further in [0, 1, 7, 100] {
        let copied = copy(CATALOGUE, QUESTION, &[0, 1, 2], &vec![9; 42 + further]);
        assert_eq!(copied, Copied { word: pack(0, 0, 42), output: [FIELDS.concat(), vec![9; further]].concat() });
    }
}

#[test]
fn refused_copies_keep_the_output() {
    for (order, length, number) in [(&[0, 1, 2][..], 41, 20), (&[0, 1, 2], 0, 20), (&[0, 1], 42, 15), (&[0, 1], 0, 15)]
    {
        let copied = copy(CATALOGUE, QUESTION, order, &vec![9; length]);
        assert_eq!(copied, Copied { word: refused(number), output: vec![9; length] });
    }
}

/// Kind 129 is the opposite of number blank: no at a blank, yes elsewhere. Entry 256 takes both bytes of its number.
#[test]
fn opposites_and_entries_of_two_bytes() {
    let numbers: Vec<u8> =
        (0..300_u32).flat_map(|entry| if entry == 256 { u32::MAX } else { entry }.to_be_bytes()).collect();
    let catalogue = [&[67, 0, 3, 1, 44, 1, 78, 4, 176], numbers.as_slice()].concat();
    let copied = copy(&catalogue, &[80, 0, 2, 0, 129], &[0], &[0; 2_100]);
    assert_eq!(copied.word, pack(0, 0, 2_100));
    assert_eq!(copied.output[7 * 255..7 * 258], [76, 0, 4, 0, 255, 0, 1, 76, 0, 4, 1, 0, 0, 0, 76, 0, 4, 1, 1, 0, 1]);
}

#[test]
fn no_entries_no_fields() {
    let catalogue = [67, 0, 3, 0, 0, 1, 78, 0, 0];
    assert_eq!(copy(&catalogue, &[80, 0, 2, 0, 1], &[0], &[]), Copied { word: 0, output: vec![] });
}
