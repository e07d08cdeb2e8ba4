/// Each byte after the fold, by which text and operand are compared.
pub static FOLD: [u8; 256] = fold_table();

const fn fold_table() -> [u8; 256] {
    let mut table = [0; 256];
    let mut byte = 0;
    while byte < 256 {
        table[byte] = fold(byte as u8);
        byte += 1;
    }
    table
}

/// A letter in lower case and without its accent, every other byte as it is.
const fn fold(byte: u8) -> u8 {
    match byte {
        b'A'..=b'Z' | 198 | 208 | 216 | 222 => byte + 32,
        192..=197 | 224..=229 => b'a',
        199 | 231 => b'c',
        200..=203 | 232..=235 => b'e',
        204..=207 | 236..=239 => b'i',
        209 | 241 => b'n',
        210..=214 | 242..=246 => b'o',
        217..=220 | 249..=252 => b'u',
        221 | 253 | 255 => b'y',
        _ => byte,
    }
}
