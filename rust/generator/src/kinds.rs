use evaluator::Answer::{Blank, No, Yes};
use evaluator::{Answer, BLANK_NUMBER, Catalogue, Column};

/// A kind's number, a condition of it, and what this answers at three entries.
pub struct Kind {
    pub number: u8,
    pub payload: Vec<u8>,
    pub answers: [Answer; 3],
}

/// Years and parishes at three entries, the last of them blank, and each of the twelve kinds, its answers worked by hand. A kind
/// is followed by its opposite.
pub fn twelve_kinds() -> (Catalogue, [Kind; 12]) {
    let years = Column::Numbers(vec![1_750, 1_900, BLANK_NUMBER]);
    let parishes = Column::Texts(vec![b"Ashby".to_vec(), b"Kirk".to_vec(), vec![]]);
    let century = [1_700_u32.to_be_bytes(), 1_799_u32.to_be_bytes()].concat();
    let kinds = [
        (0, 0, century.as_slice(), [Yes, No, Blank]),
        (0, 128, &century, [No, Yes, Blank]),
        (0, 1, b"", [No, No, Yes]),
        (0, 129, b"", [Yes, Yes, No]),
        (1, 2, b"ASHBY", [Yes, No, Blank]),
        (1, 130, b"ASHBY", [No, Yes, Blank]),
        (1, 3, b"ash", [Yes, No, Blank]),
        (1, 131, b"ash", [No, Yes, Blank]),
        (1, 4, b"HB", [Yes, No, Blank]),
        (1, 132, b"HB", [No, Yes, Blank]),
        (1, 5, b"", [No, No, Yes]),
        (1, 133, b"", [Yes, Yes, No]),
    ];
    let kinds = kinds.map(|(column, number, operand, answers)| {
        let payload = [&[column, number], operand].concat();
        Kind { number, payload, answers }
    });
    (Catalogue::unmarked(3, vec![years, parishes]), kinds)
}
