use std::fmt;

use crate::Refusal;

/// The tally: for each reader the number of looks that the reader's runs made.
///
/// It starts at zeros. Lent to each run as the last left it, it holds for every reader the sum of the look counts of that
/// reader's accepted runs. Its bytes are the numbers of the readers from 0 on, eight bytes each, most significant first, and
/// may be kept in a file.
///
/// ```
/// use searchroom::{Refusal, Tally};
///
/// // The year 1701. Year not blank.
/// let (catalogue, question) = ([67, 0, 3, 0, 1, 1, 78, 0, 4, 0, 0, 6, 0xA5], [80, 0, 2, 0, 129]);
/// let mut tally = Tally::default();
/// searchroom::consult(&catalogue, &question, &[0], 3, &mut tally)?;
/// assert_eq!([tally.of(2), tally.of(3), tally.of(16)], [Some(0), Some(1), None]);
///
/// let file: Vec<u8> = tally.bytes().to_vec();
/// assert_eq!(Tally::try_from(file.as_slice())?, tally);
///
/// // A file from before 0.7.0 has eight bytes, one sum for all: it is kept as one reader's.
/// let old: Vec<u8> = 1_701_u64.to_be_bytes().to_vec();
/// assert_eq!(Tally::try_from(old.as_slice()), Err(Refusal::BadTally));
/// let mut numbers = [0; 16];
/// numbers[0] = u64::from_be_bytes(old.try_into().expect("eight bytes"));
/// assert_eq!(Tally::from_numbers(numbers).of(0), Some(1_701));
/// # Ok::<(), Refusal>(())
/// ```
// Not `Copy`: looks that are added to a copy by mistake are lost.
#[derive(Clone, PartialEq, Eq, Hash)]
pub struct Tally([u8; Tally::BYTES]);

/// The bytes of a reader's number.
const NUMBER: usize = 8;

impl Tally {
    /// The number of readers: they are 0 to 15.
    pub const READERS: u64 = 16;

    /// The bytes of a tally.
    pub const BYTES: usize = Tally::READERS as usize * NUMBER;

    /// The tally that has these numbers, one for each reader from 0 on.
    pub fn from_numbers(numbers: [u64; Tally::READERS as usize]) -> Tally {
        let mut tally = Tally::default();
        for (bytes, number) in tally.0.chunks_exact_mut(NUMBER).zip(numbers) {
            bytes.copy_from_slice(&number.to_be_bytes());
        }
        tally
    }

    /// The number of each reader, from 0 on.
    pub fn numbers(&self) -> [u64; Tally::READERS as usize] {
        let mut numbers = [0; Tally::READERS as usize];
        for (number, bytes) in numbers.iter_mut().zip(self.0.chunks_exact(NUMBER)) {
            *number = bytes.iter().fold(0, |sum, &byte| sum << 8 | u64::from(byte));
        }
        numbers
    }

    /// The number of a reader, if there is such a reader.
    pub fn of(&self, reader: u64) -> Option<u64> {
        self.numbers().get(usize::try_from(reader).ok()?).copied()
    }

    /// The bytes, to keep them; [`Tally::try_from`] reads them again.
    pub fn bytes(&self) -> &[u8; Tally::BYTES] {
        &self.0
    }

    /// The bytes, to lend them to [`run`](crate::run).
    pub fn bytes_mut(&mut self) -> &mut [u8; Tally::BYTES] {
        &mut self.0
    }
}

impl Default for Tally {
    /// Zeros.
    fn default() -> Tally {
        Tally([0; Tally::BYTES])
    }
}

impl TryFrom<&[u8]> for Tally {
    type Error = Refusal;

    /// The tally that has these bytes.
    ///
    /// # Errors
    /// [`Refusal::BadTally`] where they are not [`Tally::BYTES`] of them, as a run refuses them.
    fn try_from(bytes: &[u8]) -> Result<Tally, Refusal> {
        bytes.try_into().map(Tally).map_err(|_| Refusal::BadTally)
    }
}

/// Shows the sixteen numbers.
impl fmt::Debug for Tally {
    fn fmt(&self, f: &mut fmt::Formatter<'_>) -> fmt::Result {
        f.debug_tuple("Tally").field(&self.numbers()).finish()
    }
}
