/// The ones of some bytes, bit by bit.
pub fn ones(bytes: &[u8]) -> u64 {
    bytes.iter().flat_map(|byte| (0..8).map(move |place| u64::from(byte >> place & 1))).sum()
}
