use crate::Refusal;

/// The eight-byte number in which a call's results travel.
///
/// From the lowest bit: the number of the refusal (8 bits, 0 where the call is accepted), then three results of 16, 16 and
/// 24 bits. What the results are is said at each call; after a refusal they are zero.
#[derive(Clone, Copy, Debug, PartialEq, Eq, Hash)]
pub struct Word(pub u64);

impl Word {
    /// The refusal's number, 0 where the call is accepted.
    pub fn number(self) -> u8 {
        self.0 as u8
    }

    /// The first result.
    pub fn first(self) -> u16 {
        (self.0 >> 8) as u16
    }

    /// The second result.
    pub fn second(self) -> u16 {
        (self.0 >> 24) as u16
    }

    /// The third result.
    pub fn third(self) -> u32 {
        (self.0 >> 40) as u32
    }

    /// The word itself where the call is accepted, else the refusal.
    ///
    /// # Panics
    /// If the archive answers a number that this wrapper does not know: the two are then not of the same release.
    pub fn accepted(self) -> Result<Word, Refusal> {
        match self.number() {
            0 => Ok(self),
            number => Err(Refusal::from_number(number)
                .unwrap_or_else(|| panic!("the archive answered refusal {number}, unknown here"))),
        }
    }
}
