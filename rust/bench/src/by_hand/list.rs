use std::mem::MaybeUninit;
use std::ops::{Deref, DerefMut};
use std::slice;

/// A list with room for `N` items, none of it written before an item is pushed: clearing the room would cost more than
/// a small call.
#[derive(Clone, Copy)]
pub struct List<T: Copy, const N: usize> {
    items: [MaybeUninit<T>; N],
    count: usize,
}

impl<T: Copy, const N: usize> List<T, N> {
    #[inline(always)]
    pub fn new() -> List<T, N> {
        List { items: [const { MaybeUninit::uninit() }; N], count: 0 }
    }

    /// Panics where there is no room left.
    #[inline(always)]
    pub fn push(&mut self, item: T) {
        self.items[self.count].write(item);
        self.count += 1;
    }
}

impl<T: Copy, const N: usize> Deref for List<T, N> {
    type Target = [T];

    #[inline(always)]
    fn deref(&self) -> &[T] {
        // SAFETY: the first `count` items were written.
        unsafe { slice::from_raw_parts(self.items.as_ptr().cast(), self.count) }
    }
}

impl<T: Copy, const N: usize> DerefMut for List<T, N> {
    #[inline(always)]
    fn deref_mut(&mut self) -> &mut [T] {
        // SAFETY: the first `count` items were written.
        unsafe { slice::from_raw_parts_mut(self.items.as_mut_ptr().cast(), self.count) }
    }
}
