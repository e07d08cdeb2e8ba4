//! Which letters a search takes for the same, told by letters and not by numbers: written apart from the evaluator's fold.

use std::sync::LazyLock;

/// The letters that have accented forms in ISO/IEC 8859-1, each with these forms, all small.
const ACCENTED: [(char, &str); 8] =
    [('a', "àáâãäå"), ('c', "ç"), ('e', "èéêë"), ('i', "ìíîï"), ('n', "ñ"), ('o', "òóôõö"), ('u', "ùúûü"), ('y', "ýÿ")];

/// A text's bytes in ISO/IEC 8859-1, where a byte is the character of that number.
pub fn latin_1(text: &str) -> Vec<u8> {
    text.chars().map(|letter| u8::try_from(letter).expect("a character of ISO/IEC 8859-1")).collect()
}

/// The letter that a byte is when it is small, which Rust knows, and has lost its accent.
pub fn plain_letter(byte: u8) -> char {
    let small = char::from(byte).to_lowercase().next().expect("a character");
    ACCENTED.iter().find(|(_, forms)| forms.contains(small)).map_or(small, |&(letter, _)| letter)
}

/// The bytes that a search takes for the same as this one, itself among them, ascending.
pub fn alike(byte: u8) -> &'static [u8] {
    static ALIKE: LazyLock<Vec<Vec<u8>>> = LazyLock::new(|| {
        let of = |byte| (0..=255).filter(|&other| plain_letter(other) == plain_letter(byte)).collect();
        (0..=255).map(of).collect()
    });
    &ALIKE[usize::from(byte)]
}
