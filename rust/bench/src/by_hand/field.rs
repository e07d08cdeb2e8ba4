/// The field at the front of some bytes, and what follows it.
pub struct Field<'a> {
    pub tag: u8,
    pub payload: &'a [u8],
    pub rest: &'a [u8],
}

impl<'a> Field<'a> {
    /// None where fewer than three bytes are left or the field's length passes the end.
    #[inline(always)]
    pub fn first_of(bytes: &'a [u8]) -> Option<Field<'a>> {
        let (&[tag, high, low], behind) = bytes.split_first_chunk()?;
        let (payload, rest) = behind.split_at_checked(u16::from_be_bytes([high, low]).into())?;
        Some(Field { tag, payload, rest })
    }
}
