//! The spare capacity of an `IoBufsMut`, buffer by buffer.
#![allow(unsafe_code)]
use super::{IoBufsMut, Shape};
use crate::proved::iobufs_core::buf::IoBufMut;
use crate::proved::iobufs_core::codec::BufMut;
use std::mem::MaybeUninit;

impl IoBufsMut {
    /// Returns the first buffer with spare capacity.
    #[inline]
    fn next(&mut self) -> Option<&mut IoBufMut> {
        match &mut self.shape {
            Shape::One(part) => Some(part).filter(|part| part.remaining_mut() > 0),
            Shape::Many(parts) => parts.next(),
        }
    }

    /// Returns the readable bytes of each buffer that has some, in order.
    pub(crate) fn filled(&mut self) -> impl Iterator<Item = &mut [u8]> {
        let (one, many) = match &mut self.shape {
            Shape::One(part) => (Some(part), None),
            Shape::Many(parts) => (None, Some(parts.each())),
        };
        let parts = one.into_iter().chain(many.into_iter().flatten());
        parts.map(IoBufMut::as_mut).filter(|bytes| !bytes.is_empty())
    }

    /// Returns the spare capacity of the first buffer that has some; none if no buffer has.
    #[inline]
    pub(crate) fn space(&mut self) -> &mut [MaybeUninit<u8>] {
        self.next().map_or(&mut [], IoBufMut::space)
    }

    /// Makes `n` bytes of the spare capacity readable, the buffers filled in order. Panics if there are fewer.
    ///
    /// # Safety
    /// The caller has written them.
    #[track_caller]
    pub(crate) unsafe fn fill(&mut self, n: usize) {
        assert!(n <= self.remaining_mut(), "{}", crate::error::PAST);
        let mut rest = n;
        while rest > 0 {
            let part = self.next().expect("a buffer with spare capacity");
            let share = rest.min(part.remaining_mut());
            // SAFETY: the caller's duty.
            unsafe { part.fill(share) };
            rest -= share;
        }
        if let Shape::Many(parts) = &mut self.shape {
            parts.count_filled(n);
        }
    }
}
