//! The spare capacity of a `Builder`.
#![allow(unsafe_code)]
use super::Builder;
use std::mem::MaybeUninit;

impl Builder {
    /// Returns how many bytes were put and pushed: `pushable` begins at all that the capacity leaves.
    pub(crate) fn len(&self) -> usize {
        self.inline.len() + (usize::MAX - self.inline.capacity() - self.pushable)
    }

    /// Returns the spare capacity.
    #[inline]
    pub(crate) fn space(&mut self) -> &mut [MaybeUninit<u8>] {
        self.inline.space()
    }

    /// Makes `n` bytes of it readable. Panics if there are fewer.
    ///
    /// # Safety
    /// The caller has written them.
    #[inline]
    #[track_caller]
    pub(crate) unsafe fn fill(&mut self, n: usize) {
        // SAFETY: the caller's duty.
        unsafe { self.inline.fill(n) };
        debug_assert!(self.placed <= self.inline.len(), "the builder's invariant");
    }
}
