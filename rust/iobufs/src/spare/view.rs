//! Views that are made in constants, since the proved calls are trait methods, which can't be `const`; and what a view
//! tells of its storage.
#![forbid(unsafe_code)]
use super::{Held, IoBuf};

impl IoBuf {
    /// Makes a view of static bytes, as `From` does.
    #[inline]
    pub(crate) const fn of_static(text: &'static [u8]) -> Self {
        IoBuf { held: Held::of_static(text) }
    }

    /// Returns whether nothing else has a share of the storage. Static bytes and those of an owner count as shared.
    #[inline]
    pub(crate) fn is_only(&self) -> bool {
        self.held.is_only().unwrap_or_else(|bytes| bytes.0.is_unique())
    }
}
