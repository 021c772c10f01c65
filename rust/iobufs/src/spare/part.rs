//! The storage of an `IoBufMut`: its spare capacity, as `bytes::BufMut` shows it, its address, and its `Vec`.
#![allow(unsafe_code)]
use super::IoBufMut;
use std::mem::MaybeUninit;
use std::vec::Vec;

impl IoBufMut {
    /// Returns the spare capacity after the readable bytes.
    #[inline]
    pub(crate) fn space(&mut self) -> &mut [MaybeUninit<u8>] {
        self.space.uninit()
    }

    /// Makes the first `n` bytes of the spare capacity readable. Panics if there are fewer.
    ///
    /// # Safety
    /// The caller has written them.
    #[inline]
    #[track_caller]
    pub(crate) unsafe fn fill(&mut self, n: usize) {
        assert!(n <= self.space.spare(), "{}", crate::error::PAST);
        // SAFETY: the test above, and the caller's duty.
        unsafe { self.space.fill(n) }
    }

    /// Returns the address of the first readable byte. The whole capacity may be written from there on.
    #[inline]
    pub(crate) fn address(&mut self) -> *mut u8 {
        self.space.address().wrapping_add(self.start)
    }

    /// Returns the `Vec` of the storage, with the readable bytes moved to its front.
    pub(crate) fn into_vec(self) -> Vec<u8> {
        let (space, start, _) = self.into_space();
        let mut bytes = space.into_vec().0;
        bytes.drain(..start);
        bytes
    }
}
