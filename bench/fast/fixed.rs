//! A vector of fixed capacity. What was not pushed is not initialised: clearing it would take longer than many calls.

use std::mem::MaybeUninit;
use std::ops::{Deref, DerefMut};

/// The entries come first, so that an entry's place needs no sum.
#[repr(C)]
pub struct FixedVec<T: Copy, const N: usize> {
    entries: [MaybeUninit<T>; N],
    /// The first `length` entries are initialised.
    length: usize,
}

impl<T: Copy, const N: usize> FixedVec<T, N> {
    #[inline(always)]
    pub fn new() -> Self {
        FixedVec { length: 0, entries: [const { MaybeUninit::uninit() }; N] }
    }

    /// Panics when full.
    #[inline(always)]
    pub fn push(&mut self, entry: T) {
        self.entries[self.length].write(entry);
        self.length += 1;
    }

    /// Adds this many equal entries. Panics when there is no room.
    #[inline(always)]
    pub fn fill(&mut self, entry: T, count: usize) {
        for place in &mut self.entries[self.length..self.length + count] {
            place.write(entry);
        }
        self.length += count;
    }
}

impl<T: Copy, const N: usize> Deref for FixedVec<T, N> {
    type Target = [T];

    #[inline(always)]
    fn deref(&self) -> &[T] {
        // SAFETY: the first `length` entries are initialised, and `length` is at most N.
        unsafe { std::slice::from_raw_parts(self.entries.as_ptr() as *const T, self.length) }
    }
}

impl<T: Copy, const N: usize> DerefMut for FixedVec<T, N> {
    #[inline(always)]
    fn deref_mut(&mut self) -> &mut [T] {
        // SAFETY: as in `deref`.
        unsafe { std::slice::from_raw_parts_mut(self.entries.as_mut_ptr() as *mut T, self.length) }
    }
}
