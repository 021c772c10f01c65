//! The spare capacity of many buffers.
#![forbid(unsafe_code)]
use super::{Several, count_full, settle};
use crate::proved::iobufs_core::buf::IoBufMut;
use crate::proved::iobufs_core::codec::BufMut;

impl Several {
    /// Returns the buffers, in order but for drained ones, which are last.
    pub(crate) fn each(&mut self) -> impl Iterator<Item = &mut IoBufMut> {
        self.row.0.iter_mut()
    }

    /// Returns the first buffer with spare capacity.
    pub(crate) fn next(&mut self) -> Option<&mut IoBufMut> {
        settle(&mut self.row, &mut self.used);
        self.full = count_full(&self.row, self.full);
        self.row.get_mut(self.full)
    }

    /// Counts bytes that became readable.
    pub(crate) fn count_filled(&mut self, n: usize) {
        self.len += n;
        debug_assert!(self.is_kept(), "the deque's invariant");
    }

    /// Returns whether the drained buffers hold no bytes, the full ones have no spare capacity, the sums are those of
    /// all, and each of two or more can hold a byte.
    fn is_kept(&self) -> bool {
        let parts = || self.row.0.iter();
        let in_order = || parts().skip(parts().len() - self.used).chain(parts().take(parts().len() - self.used));
        in_order().take(self.used).all(|part| part.is_empty())
            && in_order().take(self.full).all(|part| part.remaining_mut() == 0)
            && parts().map(IoBufMut::len).sum::<usize>() == self.len
            && parts().map(IoBufMut::capacity).sum::<usize>() == self.capacity
            && (parts().len() < 2 || parts().all(|part| part.capacity() > 0))
    }
}
