//! `IoBufMut`.
use crate::IoBuf;
use crate::calls::{derefs, equals_bytes, puts, reads, shown};
use crate::error::{AllocError, LAYOUT, ZEROED, made, shared, tried};
use crate::kit::{self, Global};
use crate::proved::iobufs_core::{self as inner, codec as core};
use bytes::Bytes;
use std::alloc::Layout;
use std::mem::{self, MaybeUninit};
use std::num::NonZeroUsize;

/// One chunk of storage to write, which no other buffer shares.
///
/// ```
/// let mut buf = iobufs::IoBufMut::with_capacity(4);
/// buf.put_slice(b"done");
/// assert_eq!(buf.freeze(), b"done");
/// ```
///
/// It never grows: a put that doesn't fit panics, and as a writer of std it takes the bytes that fit.
/// [`freeze`](Self::freeze) makes an [`IoBuf`] of it, and [`IoBuf::try_into_mut`] goes back.
#[repr(transparent)]
pub struct IoBufMut(pub(crate) inner::IoBufMut);

impl IoBufMut {
    /// Makes a buffer without capacity. It allocates nothing.
    ///
    /// ```
    /// assert_eq!(iobufs::IoBufMut::new().capacity(), 0);
    /// ```
    #[inline]
    pub fn new() -> Self {
        Self::default()
    }

    /// Makes an empty buffer of this capacity, in bytes.
    ///
    /// ```
    /// let buf = iobufs::IoBufMut::with_capacity(4);
    /// assert_eq!((buf.len(), buf.capacity()), (0, 4));
    /// ```
    ///
    /// # Panics
    /// Panics above `isize::MAX`. If the storage can't be allocated, the process ends.
    #[inline]
    #[track_caller]
    pub fn with_capacity(capacity: usize) -> Self {
        IoBufMut(made(inner::IoBufMut::with_capacity(Global, capacity), Some(capacity), LAYOUT))
    }

    /// Makes an empty buffer of this capacity, whose first byte has this alignment, in bytes.
    ///
    /// ```
    /// let mut page = iobufs::IoBufMut::with_alignment(4096, 512.try_into().unwrap());
    /// assert_eq!(page.as_mut_ptr().addr() % 512, 0);
    /// ```
    ///
    /// # Panics
    /// Panics if the alignment isn't a power of two, or the capacity, rounded up to it, passes `isize::MAX`, unless the
    /// capacity is 0. If the storage can't be allocated, the process ends.
    #[track_caller]
    pub fn with_alignment(capacity: usize, alignment: NonZeroUsize) -> Self {
        Self::aligned(capacity, alignment.get(), LAYOUT)
    }

    #[track_caller]
    fn aligned(capacity: usize, align: usize, outside: &str) -> Self {
        if align == 1 || capacity == 0 {
            return IoBufMut(made(inner::IoBufMut::with_capacity(Global, capacity), Some(capacity), outside));
        }
        assert!(Layout::from_size_align(capacity, align).is_ok(), "{outside}");
        let mut block: Vec<u8> = Vec::with_capacity(capacity + align - 1);
        let gap = block.as_ptr().align_offset(align);
        block.resize(gap, 0);
        let part = inner::IoBufMut::behind(kit::prelude::Vec(block), capacity);
        IoBufMut(part.expect("the gap is shorter than the alignment"))
    }

    /// Makes a buffer of `len` zeros, all of them readable.
    ///
    /// ```
    /// let mut buf = iobufs::IoBufMut::zeroed(3);
    /// buf[1] = 7;
    /// assert_eq!(buf, [0, 7, 0]);
    /// ```
    ///
    /// # Panics
    /// Panics above `isize::MAX`. If the storage can't be allocated, the process ends.
    #[track_caller]
    pub fn zeroed(len: usize) -> Self {
        IoBufMut(made(inner::IoBufMut::zeroed(Global, len), Some(len), ZEROED))
    }

    /// Makes a buffer of `len` zeros, whose first byte has this alignment, in bytes.
    ///
    /// ```
    /// let page = iobufs::IoBufMut::zeroed_with_alignment(4096, 512.try_into().unwrap());
    /// assert_eq!(page.as_ptr().addr() % 512, 0);
    /// assert_eq!(page, [0; 4096]);
    /// ```
    ///
    /// # Panics
    /// Panics as [`with_alignment`](Self::with_alignment) does.
    #[track_caller]
    pub fn zeroed_with_alignment(len: usize, alignment: NonZeroUsize) -> Self {
        let mut zeros = Self::aligned(len, alignment.get(), ZEROED);
        zeros.put_bytes(0, len);
        zeros
    }

    /// Makes an empty buffer of this capacity, in bytes.
    ///
    /// ```
    /// use iobufs::IoBufMut;
    ///
    /// assert_eq!(IoBufMut::try_with_capacity(4)?.capacity(), 4);
    /// assert_eq!(IoBufMut::try_with_capacity(usize::MAX).unwrap_err().bytes, usize::MAX);
    /// # Ok::<(), iobufs::AllocError>(())
    /// ```
    ///
    /// # Errors
    /// Returns [`AllocError`] if the storage can't be allocated, or no storage is that large.
    pub fn try_with_capacity(capacity: usize) -> Result<Self, AllocError> {
        tried(inner::IoBufMut::with_capacity(Global, capacity), capacity, IoBufMut)
    }

    /// Makes a buffer of `len` zeros, all of them readable.
    ///
    /// ```
    /// assert_eq!(iobufs::IoBufMut::try_zeroed(3)?, [0; 3]);
    /// # Ok::<(), iobufs::AllocError>(())
    /// ```
    ///
    /// # Errors
    /// Returns [`AllocError`] if the storage can't be allocated, or no storage is that large.
    pub fn try_zeroed(len: usize) -> Result<Self, AllocError> {
        tried(inner::IoBufMut::zeroed(Global, len), len, IoBufMut)
    }

    /// Copies these bytes into storage of their own, which has no spare capacity.
    ///
    /// ```
    /// assert_eq!(iobufs::IoBufMut::try_copy_from_slice(b"one")?, "one");
    /// # Ok::<(), iobufs::AllocError>(())
    /// ```
    ///
    /// # Errors
    /// Returns [`AllocError`] if the storage can't be allocated.
    pub fn try_copy_from_slice(data: &[u8]) -> Result<Self, AllocError> {
        tried(inner::IoBufMut::copy_from_slice(Global, data), data.len(), IoBufMut)
    }

    /// Returns the number of readable bytes.
    ///
    /// ```
    /// let mut buf = iobufs::IoBufMut::with_capacity(4);
    /// buf.put_u8(7);
    /// assert_eq!(buf.len(), 1);
    /// ```
    #[inline]
    pub fn len(&self) -> usize {
        self.0.len()
    }

    /// Returns whether no byte is readable.
    ///
    /// ```
    /// assert!(iobufs::IoBufMut::with_capacity(4).is_empty());
    /// ```
    #[inline]
    pub fn is_empty(&self) -> bool {
        self.0.is_empty()
    }

    /// Returns how many bytes fit, counted from the first readable one: [`advance`](Self::advance) lowers it.
    ///
    /// ```
    /// let mut buf = iobufs::IoBufMut::with_capacity(4);
    /// buf.put_slice(b"abc");
    /// buf.advance(2);
    /// assert_eq!((buf.len(), buf.capacity()), (1, 2));
    /// ```
    #[inline]
    pub const fn capacity(&self) -> usize {
        self.0.capacity()
    }

    /// Returns the address of the first byte. The whole capacity may be written from there on;
    /// [`set_len`](Self::set_len) makes that readable.
    ///
    /// ```
    /// let mut buf = iobufs::IoBufMut::with_capacity(2);
    /// // SAFETY: two bytes are within the capacity.
    /// unsafe { buf.as_mut_ptr().copy_from_nonoverlapping(b"ok".as_ptr(), 2) };
    /// // SAFETY: both are written.
    /// unsafe { buf.set_len(2) };
    /// assert_eq!(buf.freeze(), "ok");
    /// ```
    #[inline]
    pub fn as_mut_ptr(&mut self) -> *mut u8 {
        self.0.address()
    }

    /// Makes the first `n` bytes readable: more than before, or fewer.
    ///
    /// ```
    /// let mut buf = iobufs::IoBufMut::with_capacity(4);
    /// buf.put_slice(b"abcd");
    /// // SAFETY: all bytes are written.
    /// unsafe { buf.set_len(2) };
    /// assert_eq!(buf, "ab");
    /// ```
    ///
    /// # Safety
    /// Each of the first `n` bytes must be readable before the call, or have been written at
    /// [`as_mut_ptr`](Self::as_mut_ptr).
    ///
    /// # Panics
    /// Panics if `n` is above the capacity.
    #[inline]
    #[track_caller]
    #[allow(unsafe_code)]
    pub unsafe fn set_len(&mut self, n: usize) {
        assert!(n <= self.capacity(), "set_len({n}) exceeds capacity({})", self.capacity());
        match n.checked_sub(self.len()) {
            // SAFETY: the caller's duty.
            Some(more) => unsafe { self.0.fill(more) },
            None => self.truncate(n),
        }
    }

    /// Returns the spare capacity after the readable bytes. Bytes that are written there become readable by
    /// [`set_len`](Self::set_len).
    ///
    /// ```
    /// let mut buf = iobufs::IoBufMut::with_capacity(4);
    /// buf.put_u8(b'o');
    /// buf.spare_capacity_mut()[0].write(b'k');
    /// // SAFETY: two bytes are written.
    /// unsafe { buf.set_len(2) };
    /// assert_eq!(buf, "ok");
    /// ```
    #[inline]
    pub fn spare_capacity_mut(&mut self) -> &mut [MaybeUninit<u8>] {
        self.0.space()
    }

    /// Keeps at most the first `len` bytes, and the capacity.
    ///
    /// ```
    /// let mut buf = iobufs::IoBufMut::from(b"hello");
    /// buf.truncate(4);
    /// assert_eq!((&buf[..], buf.capacity()), (&b"hell"[..], 5));
    /// ```
    #[inline]
    pub fn truncate(&mut self, len: usize) {
        self.0.truncate(len)
    }

    /// Keeps no byte, and the capacity.
    ///
    /// ```
    /// let mut buf = iobufs::IoBufMut::from(b"hello");
    /// buf.clear();
    /// assert_eq!((buf.len(), buf.capacity()), (0, 5));
    /// ```
    #[inline]
    pub fn clear(&mut self) {
        self.0.clear()
    }

    /// Puts a copy of bytes, as [`put_slice`](Self::put_slice) does.
    ///
    /// ```
    /// let mut buf = iobufs::IoBufMut::with_capacity(3);
    /// buf.extend_from_slice(b"abc");
    /// assert_eq!(buf, "abc");
    /// ```
    ///
    /// # Panics
    /// Panics if they don't fit.
    #[inline]
    #[track_caller]
    pub fn extend_from_slice(&mut self, bytes: &[u8]) {
        self.put_slice(bytes);
    }

    /// Keeps the first `len` bytes, or puts `value` until there are `len`.
    ///
    /// ```
    /// let mut buf = iobufs::IoBufMut::with_capacity(4);
    /// buf.resize(3, b'-');
    /// assert_eq!(buf, "---");
    /// buf.resize(1, b'-');
    /// assert_eq!(buf, "-");
    /// ```
    ///
    /// # Panics
    /// Panics if `len` is above the capacity.
    #[track_caller]
    pub fn resize(&mut self, len: usize, value: u8) {
        self.put_bytes(value, len.saturating_sub(self.len()));
        self.truncate(len);
    }

    /// Freezes the buffer to a view of its readable bytes, without a copy.
    ///
    /// ```
    /// let mut buf = iobufs::IoBufMut::with_capacity(4);
    /// buf.put_slice(b"abcd");
    /// let at = buf.as_ptr();
    /// assert_eq!(buf.freeze().as_ptr(), at);
    /// ```
    #[inline]
    #[must_use]
    pub fn freeze(self) -> IoBuf {
        IoBuf(shared(self.0.freeze()))
    }

    /// Takes the first `n` bytes: all of them without a copy, and with the capacity; fewer as a copy (`Buf`).
    ///
    /// ```
    /// let mut buf = iobufs::IoBufMut::from(b"hello");
    /// assert_eq!(buf.copy_to_bytes(2), "he");
    /// assert_eq!(buf, "llo");
    /// ```
    ///
    /// # Panics
    /// Panics if there are fewer bytes.
    #[track_caller]
    pub fn copy_to_bytes(&mut self, n: usize) -> Bytes {
        if n > 0 && n == self.len() {
            return mem::take(self).freeze().into();
        }
        let front = Bytes::copy_from_slice(self.get(..n).expect("copy_to_bytes out of bounds"));
        self.advance(n);
        front
    }

    reads! { crate::error::too_short, "let mut buf = iobufs::IoBufMut::from(b\"hello\");" }

    puts! { crate::error::full, "let mut buf = iobufs::IoBufMut::with_capacity(8);", "freeze" }
}

impl Default for IoBufMut {
    #[inline]
    fn default() -> Self {
        IoBufMut(inner::IoBufMut::new(Global))
    }
}

/// Copies the bytes into a buffer of the same capacity.
impl Clone for IoBufMut {
    fn clone(&self) -> Self {
        let mut copy = Self::with_capacity(self.capacity());
        copy.put_slice(self);
        copy
    }
}

impl FromIterator<u8> for IoBufMut {
    fn from_iter<I: IntoIterator<Item = u8>>(bytes: I) -> Self {
        Self::from(Vec::from_iter(bytes))
    }
}

impl<'a> FromIterator<&'a u8> for IoBufMut {
    fn from_iter<I: IntoIterator<Item = &'a u8>>(bytes: I) -> Self {
        bytes.into_iter().copied().collect()
    }
}

/// Puts each byte. Panics if it doesn't fit.
impl Extend<u8> for IoBufMut {
    fn extend<I: IntoIterator<Item = u8>>(&mut self, bytes: I) {
        bytes.into_iter().for_each(|byte| self.put_u8(byte));
    }
}

/// Puts each byte. Panics if it doesn't fit.
impl<'a> Extend<&'a u8> for IoBufMut {
    fn extend<I: IntoIterator<Item = &'a u8>>(&mut self, bytes: I) {
        self.extend(bytes.into_iter().copied());
    }
}

impl AsRef<[u8]> for IoBufMut {
    #[inline]
    fn as_ref(&self) -> &[u8] {
        self.0.as_ref()
    }
}

impl AsMut<[u8]> for IoBufMut {
    #[inline]
    fn as_mut(&mut self) -> &mut [u8] {
        self.0.as_mut()
    }
}

derefs!(IoBufMut);
equals_bytes!(IoBufMut);
shown!(IoBufMut, len: len, cap: capacity);

impl std::ops::DerefMut for IoBufMut {
    #[inline]
    fn deref_mut(&mut self) -> &mut [u8] {
        self.as_mut()
    }
}

impl From<&[u8]> for IoBufMut {
    fn from(bytes: &[u8]) -> Self {
        IoBufMut(made(inner::IoBufMut::copy_from_slice(Global, bytes), Some(bytes.len()), ""))
    }
}

impl<const N: usize> From<&[u8; N]> for IoBufMut {
    fn from(bytes: &[u8; N]) -> Self {
        Self::from(&bytes[..])
    }
}

impl<const N: usize> From<[u8; N]> for IoBufMut {
    fn from(bytes: [u8; N]) -> Self {
        Self::from(&bytes[..])
    }
}

/// Keeps the `Vec`, and its capacity.
impl From<Vec<u8>> for IoBufMut {
    #[inline]
    fn from(bytes: Vec<u8>) -> Self {
        IoBufMut(inner::IoBufMut::from(kit::prelude::Vec(bytes)))
    }
}

/// Recovers the storage as `IoBuf::try_into_mut` does, or copies. By way of a `Bytes`, storage of a `Bytes` is kept
/// too, if no other handle shares it, and it is neither static nor an owner's:
///
/// ```
/// use bytes::Bytes;
/// use iobufs::{IoBuf, IoBufMut};
///
/// let bytes = Bytes::from(vec![1, 2, 3]);
/// let at = bytes.as_ptr();
/// let buf = IoBufMut::from(Bytes::from(IoBuf::from(bytes)));
/// assert_eq!(buf.as_ref().as_ptr(), at);
/// ```
impl From<IoBuf> for IoBufMut {
    #[inline]
    fn from(view: IoBuf) -> Self {
        IoBufMut(shared(inner::IoBufMut::from_view(Global, view.0)))
    }
}

/// Keeps the storage, with the bytes moved to its front.
impl From<IoBufMut> for Vec<u8> {
    fn from(part: IoBufMut) -> Self {
        part.0.into_vec()
    }
}
