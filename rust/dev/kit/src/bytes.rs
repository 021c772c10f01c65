//! The kit's `bytes`: handles of ranges of a shared block. All of a block is readable: it has zeros where nothing was
//! written.
//!
//! Two handles of a block may have bytes in common, unless one of them may write: a `Writable` has its bytes alone.
use super::arc::Arc;
use super::base::{self, AllocError, AllocFailed, Global};
use super::vec::Vec;
use block::{Block, Writable};
use std::ops::{Bound, RangeBounds};
use std::{fmt, io, mem, vec};

/// Whether a failed allocation of a `VecDeque` ends the process, as in std, rather than being an error. Only then a
/// thread keeps space (`few`, `block`).
pub(super) const ENDS_IF_REFUSED: bool = false;

/// What is read from the front.
pub trait Buf {
    /// Returns the number of bytes that are left.
    fn remaining(&self) -> usize;

    /// Returns the first bytes that lie together: none only if none is left.
    fn chunk(&self) -> &[u8];

    /// Drops the first `cnt` bytes, which are there.
    fn advance(&mut self, cnt: usize);

    /// Returns what reads from this.
    fn reader(self) -> Reader<Self>
    where
        Self: Sized,
    {
        Reader(self)
    }
}

/// What reads from a `Buf`.
pub struct Reader<B>(B);

impl<B: Buf> io::Read for Reader<B> {
    fn read(&mut self, to: &mut [u8]) -> io::Result<usize> {
        let mut n = 0;
        while n < to.len() && self.0.remaining() > 0 {
            let chunk = self.0.chunk();
            let more = chunk.len().min(to.len() - n);
            to[n..n + more].copy_from_slice(&chunk[..more]);
            self.0.advance(more);
            n += more;
        }
        Ok(n)
    }
}

/// What bytes are appended to.
pub trait BufMut {
    /// Returns how many more bytes there can be.
    fn remaining_mut(&self) -> usize;

    /// Makes space for `additional` bytes.
    fn reserve(&mut self, additional: usize) -> Result<(), AllocError>;

    /// Appends bytes. If it fails, nothing changes.
    fn put_slice(&mut self, src: &[u8]) -> Result<(), AllocError>;

    /// Appends `cnt` times a byte. If it fails, nothing changes.
    fn put_bytes(&mut self, val: u8, cnt: usize) -> Result<(), AllocError>;
}

/// All that is unsafe: a range is always within its block, and the bytes of a `Writable` are in no other range.
#[allow(unsafe_code)]
mod block {
    use super::{AllocError, AllocFailed, Arc, Global, mem, vec};
    use std::slice;

    /// A vector whose bytes are reached by its address alone, while several handles share it.
    struct Shared {
        bytes: vec::Vec<u8>,
        at: *mut u8,
    }

    // SAFETY: `at` is the address of `bytes`; ranges say who reads and who writes there.
    unsafe impl Send for Shared {}
    unsafe impl Sync for Shared {}

    /// A range of a block, to be read.
    pub(super) struct Block {
        shared: Arc<Shared>,
        start: usize,
        len: usize,
    }

    impl Block {
        /// Takes a vector over. If allocation fails, the error has it.
        #[inline]
        pub(super) fn new(mut bytes: vec::Vec<u8>) -> Result<Block, AllocFailed<vec::Vec<u8>>> {
            let (at, len) = (bytes.as_mut_ptr(), bytes.len());
            match Arc::new(Global, Shared { bytes, at }) {
                Ok(shared) => Ok(Block { shared, start: 0, len }),
                Err(refused) => Err(AllocFailed { value: refused.value.bytes }),
            }
        }

        #[inline]
        pub(super) const fn len(&self) -> usize {
            self.len
        }

        #[inline]
        pub(super) fn as_slice(&self) -> &[u8] {
            // SAFETY: the range is within the block, and no other handle writes to it.
            unsafe { slice::from_raw_parts(self.shared.at.add(self.start), self.len) }
        }

        #[inline]
        pub(super) fn advance(&mut self, n: usize) {
            assert!(n <= self.len);
            self.start += n;
            self.len -= n;
        }

        #[inline]
        pub(super) fn truncate(&mut self, n: usize) {
            self.len = self.len.min(n);
        }

        /// Returns the first `n` bytes as one more range.
        #[inline]
        pub(super) fn front(&self, n: usize) -> Result<Block, AllocError> {
            assert!(n <= self.len);
            Ok(Block { shared: Arc::try_clone(&self.shared)?, start: self.start, len: n })
        }
    }

    /// A range of a block that has no byte in common with another.
    pub(super) struct Writable(Block);

    impl Writable {
        /// Takes a vector over. If allocation fails, the error has it.
        #[inline]
        pub(super) fn new(bytes: vec::Vec<u8>) -> Result<Writable, AllocFailed<vec::Vec<u8>>> {
            Block::new(bytes).map(Writable)
        }

        /// Takes a range over, if the block has no other.
        #[inline]
        pub(super) fn of(mut block: Block) -> Result<Writable, Block> {
            match Arc::get_mut(&mut block.shared) {
                Some(_) => Ok(Writable(block)),
                None => Err(block),
            }
        }

        #[inline]
        pub(super) fn len(&self) -> usize {
            self.0.len
        }

        #[inline]
        pub(super) fn as_slice(&self) -> &[u8] {
            self.0.as_slice()
        }

        #[inline]
        pub(super) fn as_mut_slice(&mut self) -> &mut [u8] {
            // SAFETY: the range is within the block, and no other handle has a byte of it.
            unsafe { slice::from_raw_parts_mut(self.0.shared.at.add(self.0.start), self.0.len) }
        }

        #[inline]
        pub(super) fn advance(&mut self, n: usize) {
            self.0.advance(n);
        }

        /// Moves the first `n` bytes into a range to be read.
        #[inline]
        pub(super) fn split_to(&mut self, n: usize) -> Result<Block, AllocError> {
            let front = self.0.front(n)?;
            self.0.advance(n);
            Ok(front)
        }

        /// Returns the first `n` bytes, and the others: two ranges without a byte in common.
        pub(super) fn split(&mut self, n: usize) -> Result<(Writable, Writable), AllocError> {
            let (front, mut rest) = (self.0.front(n)?, self.0.front(self.0.len)?);
            rest.advance(n);
            *self = Writable(self.0.front(0)?);
            Ok((Writable(front), Writable(rest)))
        }

        /// Moves the first `n` bytes to the block's front, which then is the range as a whole, if the block has no
        /// other range, these bytes don't overlap there, and `least` bytes fit. Returns whether it did.
        pub(super) fn rewind(&mut self, n: usize, least: usize) -> bool {
            let Block { shared, start, len } = &mut self.0;
            assert!(n <= *len);
            let Some(shared) = Arc::get_mut(shared) else {
                return false;
            };
            if *start < n || shared.bytes.len() < least {
                return false;
            }
            shared.bytes.copy_within(*start..*start + n, 0);
            shared.at = shared.bytes.as_mut_ptr();
            (*start, *len) = (0, shared.bytes.len());
            true
        }

        /// Adds at least `n` zeros, if the range begins its block, which has no other. Returns whether it did.
        pub(super) fn grow(&mut self, n: usize) -> Result<bool, AllocError> {
            let Block { shared, start: 0, len } = &mut self.0 else {
                return Ok(false);
            };
            let Some(shared) = Arc::get_mut(shared) else {
                return Ok(false);
            };
            shared.bytes.truncate(*len);
            let reserved = shared.bytes.try_reserve(n);
            if reserved.is_ok() {
                shared.bytes.resize(shared.bytes.capacity(), 0);
            }
            shared.at = shared.bytes.as_mut_ptr();
            *len = shared.bytes.len();
            reserved.map(|()| true).map_err(|_| AllocError)
        }

        /// Takes the vector with the first `n` bytes of the range at its front, if the block has no other range. An
        /// empty block is left.
        pub(super) fn take_vec(&mut self, n: usize) -> Option<vec::Vec<u8>> {
            assert!(n <= self.0.len);
            let shared = Arc::get_mut(&mut self.0.shared)?;
            let mut bytes = mem::take(&mut shared.bytes);
            shared.at = shared.bytes.as_mut_ptr();
            let start = mem::take(&mut self.0.start);
            self.0.len = 0;
            if start > 0 {
                bytes.copy_within(start..start + n, 0);
            }
            bytes.truncate(n);
            Some(bytes)
        }
    }
}

/// Bytes to be read, shared by all clones, slices and splits.
pub struct Bytes(Kind);

enum Kind {
    Static(&'static [u8]),
    Block(Block),
}

const NONE: Bytes = Bytes(Kind::Static(&[]));

impl Bytes {
    /// Returns no bytes, without allocating.
    #[inline]
    pub fn new() -> Bytes {
        NONE
    }

    /// Returns static bytes, without allocating.
    #[inline]
    pub fn from_static(bytes: &'static [u8]) -> Bytes {
        Bytes(Kind::Static(bytes))
    }

    /// Returns a copy of these bytes.
    #[inline]
    pub fn copy_from_slice(alloc: Global, src: &[u8]) -> Result<Bytes, AllocError> {
        Ok(Bytes::from_vec(Vec::from_slice(alloc, src)?)?)
    }

    /// Takes a vector over. If allocation fails, the error has it. Cannot fail if it is empty.
    #[inline]
    pub fn from_vec(vec: Vec<u8>) -> Result<Bytes, AllocFailed<Vec<u8>>> {
        if vec.is_empty() {
            return Ok(NONE);
        }
        match Block::new(vec.0) {
            Ok(block) => Ok(Bytes(Kind::Block(block))),
            Err(refused) => Err(AllocFailed { value: Vec(refused.value) }),
        }
    }

    /// Returns the number of bytes.
    #[inline]
    pub const fn len(&self) -> usize {
        match &self.0 {
            Kind::Static(bytes) => bytes.len(),
            Kind::Block(block) => block.len(),
        }
    }

    /// Returns whether there are no bytes.
    #[inline]
    pub fn is_empty(&self) -> bool {
        self.len() == 0
    }

    /// Returns the bytes.
    #[inline]
    pub fn as_slice(&self) -> &[u8] {
        match &self.0 {
            Kind::Static(bytes) => bytes,
            Kind::Block(block) => block.as_slice(),
        }
    }

    // The first `n` bytes, which are there.
    #[inline]
    fn front(&self, n: usize) -> Result<Bytes, AllocError> {
        Ok(Bytes(match &self.0 {
            Kind::Static(bytes) => Kind::Static(&bytes[..n]),
            Kind::Block(block) => Kind::Block(block.front(n)?),
        }))
    }

    /// Returns the bytes of a range, which ends after its start and within the bytes. Cannot fail if it is empty.
    pub fn slice(&self, range: impl RangeBounds<usize>) -> Result<Bytes, AllocError> {
        let start = match range.start_bound() {
            Bound::Included(n) => *n,
            Bound::Excluded(n) => n + 1,
            Bound::Unbounded => 0,
        };
        let end = match range.end_bound() {
            Bound::Included(n) => n + 1,
            Bound::Excluded(n) => *n,
            Bound::Unbounded => self.len(),
        };
        assert!(start <= end && end <= self.len());
        if start == end {
            return Ok(NONE);
        }
        let mut bytes = self.front(end)?;
        bytes.advance(start);
        Ok(bytes)
    }

    /// Takes the first `at` bytes, which are there. If it fails, nothing changes. Cannot fail if these are none or all.
    #[inline]
    pub fn split_to(&mut self, at: usize) -> Result<Bytes, AllocError> {
        if at == self.len() {
            return Ok(mem::replace(self, NONE));
        }
        if at == 0 {
            return Ok(NONE);
        }
        let front = self.front(at)?;
        self.advance(at);
        Ok(front)
    }

    /// Drops the first `n` bytes, which are there.
    #[inline]
    pub fn advance(&mut self, n: usize) {
        match &mut self.0 {
            Kind::Static(bytes) => *bytes = &bytes[n..],
            Kind::Block(block) => block.advance(n),
        }
    }

    /// Drops the bytes after the first `n`.
    #[inline]
    pub fn truncate(&mut self, n: usize) {
        match &mut self.0 {
            Kind::Static(bytes) => *bytes = &bytes[..n.min(bytes.len())],
            Kind::Block(block) => block.truncate(n),
        }
    }

    /// Takes the block back, to be written, if nothing else shares it; otherwise returns these bytes.
    #[inline]
    pub fn try_into_mut(self) -> Result<BytesMut, Bytes> {
        match self.0 {
            Kind::Static(_) => Err(self),
            Kind::Block(block) => match Writable::of(block) {
                Ok(block) => Ok(BytesMut { len: block.len(), block: Some(block) }),
                Err(block) => Err(Bytes(Kind::Block(block))),
            },
        }
    }
}

impl Default for Bytes {
    /// Returns no bytes.
    #[inline]
    fn default() -> Bytes {
        NONE
    }
}

impl base::Clone for Bytes {
    /// Shares the bytes.
    #[inline]
    fn clone(&self) -> Result<Bytes, AllocError> {
        self.front(self.len())
    }
}

impl fmt::Debug for Bytes {
    fn fmt(&self, f: &mut fmt::Formatter<'_>) -> fmt::Result {
        self.as_slice().fmt(f)
    }
}

impl PartialEq for Bytes {
    fn eq(&self, other: &Bytes) -> bool {
        self.as_slice() == other.as_slice()
    }
}

impl Eq for Bytes {}

/// Bytes to be written: the first `len` of a range, and space after them.
pub struct BytesMut {
    block: Option<Writable>,
    len: usize,
}

impl BytesMut {
    /// Returns no bytes, without allocating.
    #[inline]
    pub fn new(_: Global) -> BytesMut {
        BytesMut { block: None, len: 0 }
    }

    /// Returns no bytes, and space for at least `n`.
    pub fn with_capacity(alloc: Global, n: usize) -> Result<BytesMut, AllocError> {
        if n == 0 {
            return Ok(BytesMut::new(alloc));
        }
        let bytes = Vec::from_elem(alloc, 0, n)?;
        Ok(BytesMut { block: Some(Writable::new(bytes.0)?), len: 0 })
    }

    /// Returns a copy of these bytes, without space.
    pub fn copy_from_slice(alloc: Global, src: &[u8]) -> Result<BytesMut, AllocError> {
        let mut copy = BytesMut::with_capacity(alloc, src.len())?;
        copy.extend_reserved(src);
        Ok(copy)
    }

    /// Appends bytes. If it fails, nothing changes.
    pub fn extend_from_slice(&mut self, src: &[u8]) -> Result<(), AllocError> {
        self.reserve(src.len())?;
        self.extend_reserved(src);
        Ok(())
    }

    /// Moves the bytes from `at` on, and the space, which are there, into another buffer.
    pub fn split_off(&mut self, at: usize) -> Result<BytesMut, AllocError> {
        assert!(at <= self.capacity());
        let len = self.len;
        let Some(block) = &mut self.block else {
            return Ok(BytesMut { block: None, len: 0 });
        };
        let (front, rest) = block.split(at)?;
        let mut back = BytesMut { block: Some(rest), len: len.saturating_sub(at) };
        self.block = Some(front);
        self.len = len.min(at);
        if back.capacity() == 0 {
            back.block = None;
        }
        Ok(back)
    }

    /// Returns the allocator.
    #[inline]
    pub fn allocator(&self) -> &Global {
        &Global
    }

    /// Returns the number of bytes.
    #[inline]
    pub fn len(&self) -> usize {
        self.len
    }

    /// Returns whether there are no bytes.
    #[inline]
    pub fn is_empty(&self) -> bool {
        self.len == 0
    }

    /// Returns the length with the space.
    #[inline]
    pub fn capacity(&self) -> usize {
        self.block.as_ref().map_or(0, Writable::len)
    }

    /// Returns the bytes.
    #[inline]
    pub fn as_slice(&self) -> &[u8] {
        match &self.block {
            Some(block) => &block.as_slice()[..self.len],
            None => &[],
        }
    }

    /// Returns the bytes, to be overwritten.
    #[inline]
    pub fn as_mut_slice(&mut self) -> &mut [u8] {
        match &mut self.block {
            Some(block) => &mut block.as_mut_slice()[..self.len],
            None => &mut [],
        }
    }

    /// Makes space for `more` bytes. If it fails, the bytes and the space don't change.
    pub fn reserve(&mut self, more: usize) -> Result<(), AllocError> {
        if self.try_reclaim(more) {
            return Ok(());
        }
        let lacking = more - (self.capacity() - self.len);
        let is_grown = match &mut self.block {
            Some(block) => block.grow(lacking)?,
            None => false,
        };
        if is_grown {
            return Ok(());
        }
        let mut copy = BytesMut::with_capacity(Global, self.len.checked_add(more).ok_or(AllocError)?)?;
        copy.extend_reserved(self.as_slice());
        *self = copy;
        Ok(())
    }

    /// Makes space for `more` bytes without allocating, if the front of the block has it and nothing else shares the
    /// block. Returns whether it has that space.
    pub fn try_reclaim(&mut self, more: usize) -> bool {
        if self.capacity() - self.len >= more {
            return true;
        }
        let len = self.len;
        self.block.as_mut().is_some_and(|block| block.rewind(len, len.saturating_add(more)))
    }

    /// Appends bytes that fit into the space.
    pub fn extend_reserved(&mut self, src: &[u8]) {
        self.space()[..src.len()].copy_from_slice(src);
        self.len += src.len();
    }

    /// Drops the bytes after the first `n`, which become space.
    #[inline]
    pub fn truncate(&mut self, n: usize) {
        self.len = self.len.min(n);
    }

    /// Drops the first `n` bytes, which are there.
    #[inline]
    pub fn advance(&mut self, n: usize) {
        assert!(n <= self.len);
        if let Some(block) = &mut self.block {
            block.advance(n);
            self.len -= n;
        }
    }

    /// Appends `n` bytes of the space, which are zeros or what was there before.
    #[inline]
    pub fn advance_mut(&mut self, n: usize) {
        assert!(n <= self.capacity() - self.len);
        self.len += n;
    }

    /// Returns the space, to be written.
    #[inline]
    pub(crate) fn space(&mut self) -> &mut [u8] {
        match &mut self.block {
            Some(block) => &mut block.as_mut_slice()[self.len..],
            None => &mut [],
        }
    }

    /// Takes the first `n` bytes, which are there, to be read. The space stays. If it fails, nothing changes.
    #[inline]
    pub fn freeze_to(&mut self, n: usize) -> Result<Bytes, AllocError> {
        assert!(n <= self.len);
        match &mut self.block {
            Some(block) if n > 0 => {
                let front = block.split_to(n)?;
                self.len -= n;
                Ok(Bytes(Kind::Block(front)))
            }
            _ => Ok(NONE),
        }
    }

    /// Returns all bytes, to be read.
    pub fn freeze(mut self) -> Result<Bytes, AllocFailed<BytesMut>> {
        match self.freeze_to(self.len) {
            Ok(bytes) => Ok(bytes),
            Err(_) => Err(AllocFailed { value: self }),
        }
    }

    /// Returns the bytes as a vector. Allocates only if something else shares the block; if that fails, the error has
    /// the bytes.
    pub fn into_vec(mut self) -> Result<Vec<u8>, AllocFailed<BytesMut>> {
        let len = self.len;
        if let Some(bytes) = self.block.as_mut().and_then(|block| block.take_vec(len)) {
            return Ok(Vec(bytes));
        }
        match Vec::from_slice(Global, self.as_slice()) {
            Ok(bytes) => Ok(bytes),
            Err(_) => Err(AllocFailed { value: self }),
        }
    }

    /// Reads once into the space, and returns the number of bytes. Returns an error, and changes nothing, if the reader
    /// does, or says that it read more than the space.
    pub fn read_from<R: io::Read>(&mut self, from: &mut R) -> io::Result<usize> {
        let n = from.read(self.space())?;
        if n > self.capacity() - self.len {
            return Err(io::ErrorKind::InvalidData.into());
        }
        self.len += n;
        Ok(n)
    }
}

impl From<Vec<u8>> for BytesMut {
    /// Takes a vector over, with its capacity. Ends the process if an allocation fails twice: the kit's makes none.
    fn from(vec: Vec<u8>) -> BytesMut {
        let len = vec.len();
        let mut bytes = vec.0;
        bytes.resize(bytes.capacity(), 0);
        let block = Writable::new(bytes).or_else(|refused| Writable::new(refused.value));
        let block = block.unwrap_or_else(|_| std::process::abort());
        BytesMut { block: Some(block), len }
    }
}
