use super::BLOCK;

/// The values of a block of a checked catalogue, and the entries among them at which a look is due: each has a value.
#[derive(Clone, Copy)]
pub struct Due<'a, T> {
    values: &'a [T],
    entries: u64,
}

impl<'a, T: Copy> Due<'a, T> {
    /// # Safety
    /// The column is a checked catalogue's and has such a block, and a value for each of these entries of it.
    #[inline(always)]
    pub unsafe fn of_block(column: &'a [T], block: usize, entries: u64) -> Due<'a, T> {
        // SAFETY: the column has values from the block's first on.
        Due { values: unsafe { column.get_unchecked(BLOCK * block..) }, entries }
    }

    /// The values of the block, where every entry is due.
    #[inline(always)]
    pub fn whole(self) -> Option<&'a [T; BLOCK]> {
        // SAFETY: each of the 64 entries has a value.
        if self.entries == u64::MAX { Some(unsafe { &*self.values.as_ptr().cast() }) } else { None }
    }

    /// Without these entries.
    #[inline(always)]
    pub fn except(self, entries: u64) -> Due<'a, T> {
        Due { entries: self.entries & !entries, ..self }
    }

    /// Those of these entries alone.
    #[inline(always)]
    pub fn among(self, entries: u64) -> Due<'a, T> {
        Due { entries: self.entries & entries, ..self }
    }

    /// The due entries whose value passes a test without branches.
    #[inline(always)]
    pub fn passing(self, test: impl Fn(&T) -> bool) -> u64 {
        match self.whole() {
            Some(block) => all_passing(block, test),
            None => self.each_passing(test),
        }
    }

    /// The same, entry by entry.
    #[inline(always)]
    pub fn each_passing(self, test: impl Fn(&T) -> bool) -> u64 {
        let (mut left, mut passing) = (self.entries, 0);
        while left != 0 {
            let others = left & (left - 1);
            // SAFETY: each of the entries has a value.
            let value = unsafe { self.values.get_unchecked(left.trailing_zeros() as usize) };
            passing |= if test(value) { left ^ others } else { 0 };
            left = others;
        }
        passing
    }
}

/// Eight at a time, so that a byte of answers is gathered in a register before it goes to its place.
#[inline(always)]
fn all_passing<T>(block: &[T; BLOCK], test: impl Fn(&T) -> bool) -> u64 {
    let mut passing = 0;
    for (place, eight) in block.as_chunks::<8>().0.iter().enumerate() {
        let mut byte = 0;
        for (bit, value) in eight.iter().enumerate() {
            byte |= u64::from(test(value)) << bit;
        }
        passing |= byte << (8 * place);
    }
    passing
}
