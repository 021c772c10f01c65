//! Borrows a proved buffer as the public one, which is the same in memory.
use crate::proved::iobufs_core::buf as inner;
use crate::{IoBuf, IoBufMut};

impl IoBuf {
    #[inline]
    pub(crate) fn wrap(view: &inner::IoBuf) -> &IoBuf {
        // SAFETY: `IoBuf` has one field, of this type, and is `repr(transparent)`.
        unsafe { &*(&raw const *view).cast() }
    }
}

impl IoBufMut {
    #[inline]
    pub(crate) fn wrap(part: &inner::IoBufMut) -> &IoBufMut {
        // SAFETY: as above.
        unsafe { &*(&raw const *part).cast() }
    }

    #[inline]
    pub(crate) fn wrap_mut(part: &mut inner::IoBufMut) -> &mut IoBufMut {
        // SAFETY: as above.
        unsafe { &mut *(&raw mut *part).cast() }
    }
}
