/// A field: a one-byte tag, a two-byte length, then that many bytes.
pub struct Field<'a> {
    pub tag: u8,
    pub payload: &'a [u8],
}

/// Takes a field off the front of `rest`. None where fewer than three bytes are left or the length passes the end.
pub fn take_field<'a>(rest: &mut &'a [u8]) -> Option<Field<'a>> {
    let (head, after) = rest.split_at_checked(3)?;
    let length = usize::from(u16::from_be_bytes([head[1], head[2]]));
    let (payload, after) = after.split_at_checked(length)?;
    *rest = after;
    Some(Field { tag: head[0], payload })
}

/// The bytes of a field with this tag and payload, which has at most 65,535 bytes.
pub fn field_of(tag: u8, payload: &[u8]) -> Vec<u8> {
    let length = u16::try_from(payload.len()).expect("a payload of at most 65,535 bytes");
    [&[tag], length.to_be_bytes().as_slice(), payload].concat()
}
