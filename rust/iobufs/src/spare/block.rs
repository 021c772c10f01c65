//! The space of a block that is used again.
use bytes::BytesMut;

/// Makes all of a block readable, as each byte of its allocation was before: zeroed when it was made, or written since.
/// `bytes::BytesMut::try_reclaim` moves bytes within that allocation, or leaves them: read in version 1.12.1.
#[inline]
pub(super) fn show_again(block: &mut BytesMut) {
    let n = block.capacity();
    // SAFETY: the capacity ends with the allocation, in which each byte is initialized (`kit::bytes::BytesMut::is_shown`).
    unsafe { block.set_len(n) }
}
