use crate::field::take_field;
use crate::refusal::{self, Number};

const MARK_TAG: u8 = 87;

/// Reads what follows the last column: nothing, or the mark alone. "where byte 87 follows the last column, 1 comes first, then
/// 23, a wrong length or a stray bit; 6 is for any other byte there, or bytes after the mark."
pub fn read_mark(bytes: &[u8], entries: usize) -> Result<Option<Vec<bool>>, Number> {
    let mut rest = bytes;
    match rest.first() {
        None => return Ok(None),
        Some(&MARK_TAG) => {}
        Some(_) => return Err(refusal::CATALOGUE_LEFT_OVER),
    }
    let field = take_field(&mut rest).ok_or(refusal::CATALOGUE_FIELD)?;
    let withdrawn = read_bits(field.payload, entries).ok_or(refusal::MARK)?;
    if !rest.is_empty() {
        return Err(refusal::CATALOGUE_LEFT_OVER);
    }
    Ok(Some(withdrawn))
}

/// "ceiling(E / 8) bytes, set out like the listed table": entry e is the bit of weight 2^(e mod 8) in byte e div 8, unused
/// bits zero.
fn read_bits(bytes: &[u8], entries: usize) -> Option<Vec<bool>> {
    if bytes.len() != entries.div_ceil(8) {
        return None;
    }
    let bits: Vec<bool> = (0..8 * bytes.len()).map(|bit| bytes[bit / 8] >> (bit % 8) & 1 == 1).collect();
    let (used, unused) = bits.split_at(entries);
    if unused.contains(&true) { None } else { Some(used.to_vec()) }
}
