//! The kit's `bytes` over the crate `bytes`. An allocation that fails ends the process, so no call here returns an
//! error for it.
#![forbid(unsafe_code)]
use super::base::{self, AllocError, AllocFailed, Global};
use super::spare::show_again;
use super::vec::Vec;
use bytes::Buf as _;
use std::io;
use std::ops::RangeBounds;

/// Whether a failed allocation of a `VecDeque` ends the process, as in std, rather than being an error. Only then a
/// thread keeps space (`few`, `block`).
pub(super) const ENDS_IF_REFUSED: bool = true;

/// What is read from the front.
pub trait Buf {
    /// Returns the number of bytes that are left.
    fn remaining(&self) -> usize;

    /// Returns the first bytes that lie together: none only if none is left.
    fn chunk(&self) -> &[u8];

    /// Drops the first `cnt` bytes, which are there.
    fn advance(&mut self, cnt: usize);

    /// Returns what reads from this.
    #[cfg(test)]
    fn reader(self) -> Reader<Self>
    where
        Self: Sized,
    {
        Reader(self)
    }
}

/// What reads from a `Buf`.
#[cfg(test)]
pub struct Reader<B>(B);

#[cfg(test)]
impl<B: Buf> io::Read for Reader<B> {
    fn read(&mut self, to: &mut [u8]) -> io::Result<usize> {
        let mut n = 0;
        while n < to.len() && self.0.remaining() > 0 {
            let more = self.0.chunk().len().min(to.len() - n);
            to[n..n + more].copy_from_slice(&self.0.chunk()[..more]);
            self.0.advance(more);
            n += more;
        }
        Ok(n)
    }
}

/// What bytes are appended to.
pub trait BufMut {
    /// Returns how many more bytes there can be.
    fn remaining_mut(&self) -> usize;

    /// Makes space for `additional` bytes.
    fn reserve(&mut self, additional: usize) -> Result<(), AllocError>;

    /// Appends bytes. If it fails, nothing changes.
    fn put_slice(&mut self, src: &[u8]) -> Result<(), AllocError>;

    /// Appends `cnt` times a byte. If it fails, nothing changes.
    fn put_bytes(&mut self, val: u8, cnt: usize) -> Result<(), AllocError>;
}

/// Bytes to be read, shared by all clones, slices and splits.
#[derive(Debug, PartialEq, Eq)]
pub struct Bytes(pub(crate) bytes::Bytes);

impl Bytes {
    /// Returns no bytes, without allocating.
    #[inline]
    pub fn new() -> Bytes {
        Bytes(bytes::Bytes::new())
    }

    /// Returns static bytes, without allocating.
    #[inline]
    pub fn from_static(bytes: &'static [u8]) -> Bytes {
        Bytes(bytes::Bytes::from_static(bytes))
    }

    /// Returns a copy of these bytes.
    #[inline]
    pub fn copy_from_slice(_: Global, src: &[u8]) -> Result<Bytes, AllocError> {
        Ok(Bytes(bytes::Bytes::copy_from_slice(src)))
    }

    /// Takes a vector over.
    #[inline]
    pub fn from_vec(vec: Vec<u8>) -> Result<Bytes, AllocFailed<Vec<u8>>> {
        Ok(Bytes(vec.0.into()))
    }

    #[inline]
    pub const fn len(&self) -> usize {
        self.0.len()
    }

    #[inline]
    pub fn is_empty(&self) -> bool {
        self.0.is_empty()
    }

    /// Returns the bytes.
    #[inline]
    pub fn as_slice(&self) -> &[u8] {
        &self.0
    }

    /// Returns the bytes of a range, which ends after its start and within the bytes.
    #[inline]
    pub fn slice(&self, range: impl RangeBounds<usize>) -> Result<Bytes, AllocError> {
        Ok(Bytes(self.0.slice(range)))
    }

    /// Takes the first `at` bytes, which are there.
    #[inline]
    pub fn split_to(&mut self, at: usize) -> Result<Bytes, AllocError> {
        Ok(Bytes(self.0.split_to(at)))
    }

    /// Drops the first `n` bytes, which are there.
    #[inline]
    pub fn advance(&mut self, n: usize) {
        self.0.advance(n);
    }

    /// Drops the bytes after the first `n`.
    #[inline]
    pub fn truncate(&mut self, n: usize) {
        self.0.truncate(n);
    }

    /// Takes the block back, to be written, if nothing else shares it; otherwise returns these bytes.
    #[inline]
    pub fn try_into_mut(self) -> Result<BytesMut, Bytes> {
        self.0.try_into_mut().map(BytesMut::of).map_err(Bytes)
    }
}

impl base::Clone for Bytes {
    /// Shares the bytes.
    #[inline]
    fn clone(&self) -> Result<Bytes, AllocError> {
        Ok(Bytes(self.0.clone()))
    }
}

/// Bytes to be written. All of `block` is readable: after the first `len` it has zeros, or bytes that were there
/// before.
pub struct BytesMut {
    block: bytes::BytesMut,
    len: usize,
    /// Whether each byte of the block's allocation was ever readable.
    is_shown: bool,
}

impl BytesMut {
    #[inline]
    pub(crate) fn of(block: bytes::BytesMut) -> BytesMut {
        let len = block.len();
        BytesMut { block, len, is_shown: false }
    }

    #[inline]
    pub(crate) fn into_inner(mut self) -> bytes::BytesMut {
        self.block.truncate(self.len);
        self.block
    }

    /// Returns no bytes, without allocating.
    #[inline]
    pub fn new(_: Global) -> BytesMut {
        BytesMut::of(bytes::BytesMut::new())
    }

    /// Returns no bytes, and space for at least `n`.
    pub fn with_capacity(_: Global, n: usize) -> Result<BytesMut, AllocError> {
        Ok(BytesMut { block: bytes::BytesMut::zeroed(n), len: 0, is_shown: true })
    }

    #[inline]
    pub fn allocator(&self) -> &Global {
        &Global
    }

    #[inline]
    pub fn len(&self) -> usize {
        self.len
    }

    #[inline]
    pub fn is_empty(&self) -> bool {
        self.len == 0
    }

    /// Returns the length with the space.
    #[inline]
    pub fn capacity(&self) -> usize {
        self.block.len()
    }

    /// Returns the bytes.
    #[inline]
    pub fn as_slice(&self) -> &[u8] {
        &self.block[..self.len]
    }

    /// Returns the bytes, to be overwritten.
    #[inline]
    pub fn as_mut_slice(&mut self) -> &mut [u8] {
        &mut self.block[..self.len]
    }

    /// Makes space for `more` bytes.
    pub fn reserve(&mut self, more: usize) -> Result<(), AllocError> {
        if self.block.is_empty() {
            (self.block, self.is_shown) = (bytes::BytesMut::zeroed(more), true);
        } else if self.capacity() - self.len < more {
            self.block.truncate(self.len);
            self.block.reserve(more);
            self.block.resize(self.block.capacity(), 0);
        }
        Ok(())
    }

    /// Makes space for `more` bytes without allocating, if the front of the block has it and nothing else shares the
    /// block. Returns whether there is so much space.
    pub fn try_reclaim(&mut self, more: usize) -> bool {
        if self.capacity() - self.len >= more {
            return true;
        }
        self.block.truncate(self.len);
        let is_done = self.block.try_reclaim(more);
        if self.is_shown {
            show_again(&mut self.block);
        } else {
            self.block.resize(self.block.capacity(), 0);
        }
        is_done
    }

    /// Appends bytes that fit into the space.
    pub fn extend_reserved(&mut self, src: &[u8]) {
        self.block[self.len..][..src.len()].copy_from_slice(src);
        self.len += src.len();
    }

    /// Drops the bytes after the first `n`, which become space.
    #[inline]
    pub fn truncate(&mut self, n: usize) {
        self.len = self.len.min(n);
    }

    /// Drops the first `n` bytes, which are there.
    #[inline]
    pub fn advance(&mut self, n: usize) {
        self.len -= n;
        self.block.advance(n);
    }

    /// Appends `n` bytes of the space, which are zeros or what was there before.
    #[inline]
    pub fn advance_mut(&mut self, n: usize) {
        assert!(n <= self.capacity() - self.len);
        self.len += n;
    }

    /// Returns the space, to be written.
    #[inline]
    pub(crate) fn space(&mut self) -> &mut [u8] {
        &mut self.block[self.len..]
    }

    /// Moves the first `n` bytes, which are there, into bytes to be read.
    #[inline]
    pub fn freeze_to(&mut self, n: usize) -> Result<Bytes, AllocError> {
        self.len -= n;
        Ok(Bytes(self.block.split_to(n).freeze()))
    }

    /// Returns the bytes, to be read.
    pub fn freeze(self) -> Result<Bytes, AllocError> {
        Ok(Bytes(self.into_inner().freeze()))
    }

    /// Takes the block back as a vector.
    pub fn into_vec(self) -> Result<Vec<u8>, AllocFailed<BytesMut>> {
        Ok(Vec(self.into_inner().into()))
    }

    /// Reads once into the space. Fails if the reader says that it read more than that.
    pub fn read_from<R: io::Read>(&mut self, from: &mut R) -> io::Result<usize> {
        let n = from.read(self.space())?;
        if n > self.capacity() - self.len {
            return Err(io::Error::new(
                io::ErrorKind::InvalidData,
                "a reader says that it read more than it was asked for",
            ));
        }
        self.len += n;
        Ok(n)
    }
}

/// Calls of tests alone.
#[cfg(test)]
impl BytesMut {
    /// Returns a copy of these bytes, without space.
    pub fn copy_from_slice(_: Global, src: &[u8]) -> Result<BytesMut, AllocError> {
        Ok(BytesMut::of(src.into()))
    }

    /// Appends bytes.
    pub fn extend_from_slice(&mut self, src: &[u8]) -> Result<(), AllocError> {
        self.reserve(src.len())?;
        self.extend_reserved(src);
        Ok(())
    }

    /// Moves the bytes from `at` on, and the space, which are there, into another buffer.
    pub fn split_off(&mut self, at: usize) -> Result<BytesMut, AllocError> {
        let back = BytesMut { block: self.block.split_off(at), len: self.len.saturating_sub(at), is_shown: false };
        self.len = self.len.min(at);
        Ok(back)
    }
}
