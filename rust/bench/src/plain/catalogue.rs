/// A catalogue that was checked, its columns and its mark still in its bytes.
pub struct Catalogue<'a> {
    pub entries: usize,
    pub columns: Vec<Column<'a>>,
    /// Empty where there is none.
    mark: &'a [u8],
}

impl Catalogue<'_> {
    /// Is an entry still in the house?
    pub fn is_present(&self, entry: usize) -> bool {
        self.mark.is_empty() || self.mark[entry / 8] >> (entry % 8) & 1 == 0
    }
}

#[derive(Clone, Copy)]
pub enum Column<'a> {
    Numbers(&'a [u8]),
    Texts(&'a [u8]),
}

/// Checks a catalogue in one walk over its bytes.
pub fn check_catalogue(catalogue: &[u8]) -> Result<Catalogue<'_>, u8> {
    let (tag, first, mut rest) = field(catalogue).ok_or(1)?;
    let &[e1, e2, count] = first else { return Err(2) };
    if tag != 67 {
        return Err(2);
    }
    let entries = usize::from(u16::from_be_bytes([e1, e2]));
    if entries > 2_048 || !(1..=16).contains(&count) {
        return Err(3);
    }
    let mut columns = Vec::with_capacity(count.into());
    for _ in 0..count {
        let (tag, payload, after) = field(rest).ok_or(1)?;
        columns.push(match tag {
            78 if payload.len() == 4 * entries => Column::Numbers(payload),
            84 if payload.len() == 24 * entries => {
                if !payload.chunks_exact(24).all(slot_is_sound) {
                    return Err(5);
                }
                Column::Texts(payload)
            }
            _ => return Err(4),
        });
        rest = after;
    }
    Ok(Catalogue { entries, columns, mark: read_mark(rest, entries)? })
}

/// The bytes of the mark, if there is one after the last column.
fn read_mark(after_columns: &[u8], entries: usize) -> Result<&[u8], u8> {
    match after_columns.first() {
        None => return Ok(&[]),
        Some(87) => {}
        Some(_) => return Err(6),
    }
    let (_, mark, rest) = field(after_columns).ok_or(1)?;
    let has_stray_bit = || !entries.is_multiple_of(8) && mark[entries / 8] >> (entries % 8) != 0;
    if mark.len() != entries.div_ceil(8) || has_stray_bit() {
        return Err(23);
    }
    if rest.is_empty() { Ok(mark) } else { Err(6) }
}

/// The tag and payload of the field at the front, and what follows it.
pub fn field(bytes: &[u8]) -> Option<(u8, &[u8], &[u8])> {
    let (&[tag, high, low], rest) = bytes.split_first_chunk()?;
    let (payload, after) = rest.split_at_checked(usize::from(u16::from_be_bytes([high, low])))?;
    Some((tag, payload, after))
}

fn slot_is_sound(slot: &[u8]) -> bool {
    let length = usize::from(slot[0]);
    length < slot.len() && slot[1 + length..].iter().all(|&byte| byte == 0)
}
