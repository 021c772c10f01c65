//! In the place of `iobufs_core/buf/held.rt`, which has a place and a length: a `Bytes`, or an address, a length and a
//! block, of which static bytes have none. Over the crate `bytes` rustc gives both four words, with the address and the
//! length at the same places, so that a read asks neither for the kind of its storage nor for its block: a test says so.
//! By another layout a read would be slower, not wrong.
//!
//! It is sound for any safe caller, whatever the proof says of the callers: a range is tested against the storage as the
//! address is made, and until the storage is given back nothing of it is lent but these bytes, to be read.
use super::base::AllocError;
use super::block::Block;
use super::bytes::Bytes;
use std::ptr::{self, NonNull};

/// A range of a block.
pub struct Native {
    pub block: Block,
    pub len: usize,
    pub start: usize,
}

impl Native {
    /// Returns the bytes of the range. Panics if they aren't there.
    #[inline]
    pub fn as_slice(&self) -> &[u8] {
        &self.block.as_slice()[self.start..][..self.len]
    }
}

// The order of the fields is that of `Bytes`.
#[repr(C)]
struct Own {
    // Bytes of `block`, which nothing writes to while this share of it lives, or static bytes if there is none.
    bytes: NonNull<[u8]>,
    block: Option<Block>,
}

// SAFETY: the address lends `&[u8]` alone, and what it leads to lives as long as the block, or is static.
unsafe impl Send for Own where Block: Send {}
// SAFETY: as above.
unsafe impl Sync for Own where Block: Sync {}

impl Own {
    #[inline]
    fn as_slice(&self) -> &[u8] {
        // SAFETY: by the invariant of `bytes` (the clause of `as_slice`): they are bytes of the block, which is borrowed
        // as long, or static. The address comes from a `&[u8]` of the same block or of a share of it.
        unsafe { self.bytes.as_ref() }
    }

    // These bytes, which are of the storage, with one more share.
    #[inline]
    fn share(&self, bytes: NonNull<[u8]>) -> Result<Held, AllocError> {
        let block = match &self.block {
            Some(block) => Some(block.share()?),
            None => None,
        };
        Ok(Held::own(bytes, block))
    }
}

// Bytes of a `Bytes`, with one more share.
#[inline]
fn share_of(all: &Bytes, from: usize, to: usize) -> Result<Bytes, AllocError> {
    // No bytes have no place in a `Bytes`.
    if from == to { Ok(Bytes::new()) } else { all.slice(from..to) }
}

// Apart, so that a clone of the others is short.
#[inline(never)]
fn clone_of(all: &Bytes) -> Result<Bytes, AllocError> {
    share_of(all, 0, all.len())
}

/// Bytes of a storage, with a share of it.
pub struct Held(Storage);

enum Storage {
    // Exactly these bytes.
    Shared(Bytes),
    Own(Own),
}

// The calls are those of `held.rt`.
#[allow(clippy::len_without_is_empty)]
impl Held {
    #[inline]
    const fn own(bytes: NonNull<[u8]>, block: Option<Block>) -> Held {
        Held(Storage::Own(Own { bytes, block }))
    }

    /// Shows all bytes of a range. Panics if they aren't there.
    #[inline]
    pub fn of_native(native: Native) -> Held {
        let bytes = NonNull::from(native.as_slice());
        Held::own(bytes, Some(native.block))
    }

    /// Shows static bytes.
    #[inline]
    pub const fn of_static(text: &'static [u8]) -> Held {
        match NonNull::new(ptr::from_ref(text).cast_mut()) {
            Some(bytes) => Held::own(bytes, None),
            None => panic!("a reference isn't null"),
        }
    }

    /// Shows all of a `Bytes`.
    #[inline]
    pub fn of_bytes(bytes: Bytes) -> Held {
        Held(Storage::Shared(bytes))
    }

    #[inline]
    pub const fn len(&self) -> usize {
        match &self.0 {
            Storage::Shared(bytes) => bytes.len(),
            Storage::Own(own) => own.bytes.len(),
        }
    }

    /// Returns the bytes.
    #[inline]
    pub fn as_slice(&self) -> &[u8] {
        match &self.0 {
            Storage::Shared(bytes) => bytes.as_slice(),
            Storage::Own(own) => own.as_slice(),
        }
    }

    /// Returns whether the storage is static.
    #[inline]
    pub fn is_static(&self) -> bool {
        matches!(self.0, Storage::Own(Own { block: None, .. }))
    }

    /// Returns whether the storage is a `Bytes`.
    #[inline]
    pub fn is_shared(&self) -> bool {
        matches!(self.0, Storage::Shared(_))
    }

    /// Returns whether nothing else has a share of the storage, unless that is a `Bytes`. Static bytes are shared. For the
    /// Rust crate: `held.rt` has no such call, and `rust/dev/kit` no use of it.
    #[allow(dead_code)]
    #[inline]
    pub(crate) fn is_only(&self) -> Result<bool, &Bytes> {
        match &self.0 {
            Storage::Own(own) => Ok(own.block.as_ref().is_some_and(Block::is_only)),
            Storage::Shared(bytes) => Err(bytes),
        }
    }

    /// Drops the first `n` bytes. Panics if there are fewer.
    #[inline]
    pub fn advance(&mut self, n: usize) {
        let rest = NonNull::from(&self.as_slice()[n..]);
        match &mut self.0 {
            Storage::Shared(bytes) => bytes.advance(n),
            Storage::Own(own) => own.bytes = rest,
        }
    }

    /// Returns the bytes from one place to another, with one more share. Panics if they aren't there.
    #[inline]
    pub fn share(&self, from: usize, to: usize) -> Result<Held, AllocError> {
        let bytes = NonNull::from(&self.as_slice()[from..to]);
        match &self.0 {
            Storage::Own(own) => own.share(bytes),
            Storage::Shared(all) => Ok(Held::of_bytes(share_of(all, from, to)?)),
        }
    }

    /// Returns all of the bytes, with one more share.
    #[inline]
    pub fn try_clone(&self) -> Result<Held, AllocError> {
        match &self.0 {
            Storage::Own(own) => own.share(own.bytes),
            Storage::Shared(all) => Ok(Held::of_bytes(clone_of(all)?)),
        }
    }

    /// Takes the first `n` bytes, with one more share. Panics if there are fewer.
    #[inline(always)]
    pub fn split_to(&mut self, n: usize) -> Result<Held, AllocError> {
        let (front, rest) = self.as_slice().split_at(n);
        let (front, rest) = (NonNull::from(front), NonNull::from(rest));
        match &mut self.0 {
            Storage::Own(own) => {
                let front = own.share(front)?;
                own.bytes = rest;
                Ok(front)
            }
            Storage::Shared(all) => {
                let front = share_of(all, 0, n)?;
                all.advance(n);
                Ok(Held::of_bytes(front))
            }
        }
    }

    /// Returns the range of native storage that has the bytes; bytes of another storage come back.
    #[inline]
    pub fn into_native(self) -> Result<Native, Held> {
        match self.0 {
            Storage::Own(Own { bytes, block: Some(block) }) => {
                let start = bytes.addr().get() - block.as_slice().as_ptr().addr();
                Ok(Native { block, len: bytes.len(), start })
            }
            storage => Err(Held(storage)),
        }
    }

    /// Converts into a `Bytes` without copying; bytes of native storage come back.
    #[inline]
    pub fn into_bytes(self) -> Result<Bytes, Held> {
        match self.0 {
            // SAFETY: without a block the bytes are static (the invariant of `bytes`), and nothing writes to them.
            Storage::Own(Own { bytes, block: None }) => Ok(Bytes::from_static(unsafe { bytes.as_ref() })),
            Storage::Shared(bytes) => Ok(bytes),
            storage => Err(Held(storage)),
        }
    }
}
