//! The number of handles of a shared value.
#![forbid(unsafe_code)]
use super::base::atomic::{AtomicUsize, Ordering};
use std::process;

/// A number of handles, one at first.
pub struct Count(AtomicUsize);

impl Count {
    #[inline]
    pub fn new() -> Count {
        Count(AtomicUsize::new(1))
    }

    /// Counts one more. Ends the process if there are more than `isize::MAX`, as std's `Arc` does: an error would cost
    /// each clone more.
    #[inline]
    pub fn add(&self) {
        // As std's, this doesn't order other reads and writes: a thread that has one handle can make another.
        if self.0.fetch_add(1, Ordering::Relaxed) > isize::MAX as usize {
            process::abort();
        }
    }

    /// Returns whether there is one handle, the caller's. If so, all that others did happened before.
    #[inline]
    pub fn is_one(&self) -> bool {
        self.0.load(Ordering::Acquire) == 1
    }

    /// Counts one fewer, and returns whether none is left. If so, the caller calls `acquire` before it frees the value.
    #[inline]
    pub fn remove(&self) -> bool {
        self.0.fetch_sub(1, Ordering::Release) == 1
    }

    /// Makes all that other handles did happen before, where none is left. A load does so, since sanitizers don't see a
    /// fence.
    #[inline]
    pub fn acquire(&self) {
        self.0.load(Ordering::Acquire);
    }
}
