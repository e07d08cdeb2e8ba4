//! The evaluator's reading of the mark, held to the sentences of order 6.

use evaluator::{catalogue_word, copy, find, outcome_word, pack, read_catalogue, read_question, refused};

const CATALOGUE: &[u8] = include_bytes!("../../../examples/parish/catalogue.bin");
const QUESTION: &[u8] = include_bytes!("../../../examples/parish/question.bin");

/// The parish, whose catalogue goes on with these bytes.
fn parish(more: &[u8]) -> Vec<u8> {
    [CATALOGUE, more].concat()
}

#[test]
fn mark_of_the_parish() {
    for (more, mark, present) in [
        (&[][..], None, 3),
        (&[87, 0, 1, 0], Some(vec![false, false, false]), 3),
        (&[87, 0, 1, 0b001], Some(vec![true, false, false]), 2),
        (&[87, 0, 1, 0b100], Some(vec![false, false, true]), 2),
        (&[87, 0, 1, 0b111], Some(vec![true, true, true]), 0),
    ] {
        let read = read_catalogue(&parish(more)).expect("an accepted catalogue");
        assert_eq!((read.entries, read.columns.len(), read.present()), (3, 2, present), "{more:?}");
        assert_eq!(read.mark, mark, "{more:?}");
    }
}

#[test]
fn first_failing_check_of_the_mark_decides() {
    for (more, number) in [
        (&[86][..], 6),
        (&[88, 0, 1, 0], 6),
        (&[0, 87, 0, 1, 0], 6),
        (&[87], 1),
        (&[87, 0], 1),
        (&[87, 0, 1], 1),
        (&[87, 0, 2, 0b1000], 1),
        (&[87, 0, 0], 23),
        (&[87, 0, 2, 0, 0], 23),
        (&[87, 0, 1, 0b1000], 23),
        (&[87, 0, 1, 0b1000_0001], 23),
        (&[87, 0, 1, 0b1000, 0], 23),
        (&[87, 0, 0, 0], 23),
        (&[87, 0, 1, 0b100, 0], 6),
        (&[87, 0, 1, 0, 87, 0, 1, 0], 6),
    ] {
        assert_eq!(catalogue_word(&parish(more)), refused(number), "{more:?}");
    }
}

#[test]
fn mark_of_no_entries_has_no_bytes() {
    let nobody = [67, 0, 3, 0, 0, 1, 78, 0, 0];
    assert_eq!(catalogue_word(&[&nobody[..], &[87, 0, 0]].concat()), pack(0, 1, 0));
    assert_eq!(catalogue_word(&[&nobody[..], &[87, 0, 1, 0]].concat()), refused(23));
}

/// Entries 0 and 2 meet the question, entry 1 does not; the first is withdrawn, and still answers.
#[test]
fn withdrawn_entry_is_not_listed_and_not_looked_at() {
    let bytes = parish(&[87, 0, 1, 0b001]);
    let catalogue = read_catalogue(&bytes).expect("an accepted catalogue");
    let question = read_question(&catalogue, QUESTION).expect("the parish's question");
    let found = find(&catalogue, &question, &[0, 1, 2]);
    assert_eq!(found.listed, [false, false, true]);
    assert_eq!(found.looks, [[false, true, true], [false, false, false], [false, true, true]]);
    let copied = copy(&bytes, QUESTION, &[0, 1, 2], &[9; 28]);
    assert_eq!((copied.word, &copied.output[..7]), (pack(0, 0, 28), &[76, 0, 4, 0, 1, 0, 0][..]));
    assert_eq!([0, 1, 2].map(|condition| outcome_word(&bytes, QUESTION, 0, condition)), [256, 256, 0]);
}
