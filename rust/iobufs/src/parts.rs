//! `IoBufsMut` and `Builder`.
#![forbid(unsafe_code)]
use crate::calls::{equals_bytes, puts, reads, shown};
use crate::error::{LAYOUT, made, shared};
use crate::kit::Global;
use crate::proved::iobufs as inner;
use crate::proved::iobufs_core::codec as core;
use crate::{IoBuf, IoBufMut, IoBufs};
use bytes::Bytes;
use std::any::Any;
use std::io::{IoSlice, IoSliceMut};
use std::{fmt, mem};

/// Writable buffers as one, read from the front and filled in order.
///
/// ```
/// use iobufs::{IoBufMut, IoBufsMut};
/// let mut bufs = IoBufsMut::from([IoBufMut::with_capacity(2), IoBufMut::with_capacity(2)]);
/// bufs.put_slice(b"abc");
/// assert_eq!(bufs.freeze(), "abc");
/// ```
///
/// A put fills the first buffer with spare capacity, even if later buffers have readable bytes, which follow then.
///
/// It never grows: its capacity is that of its buffers. For a vectored read, call
/// [`set_len`](Self::set_len), and then [`io_slices_mut`](Self::io_slices_mut).
pub struct IoBufsMut(pub(crate) inner::IoBufsMut);

impl IoBufsMut {
    /// Returns the number of readable bytes.
    ///
    /// ```
    /// let mut bufs = iobufs::IoBufsMut::from([1, 2].map(iobufs::IoBufMut::with_capacity));
    /// bufs.put_slice(b"ab");
    /// assert_eq!(bufs.len(), 2);
    /// ```
    #[inline]
    pub fn len(&self) -> usize {
        self.0.len()
    }

    /// Returns whether no byte is readable.
    ///
    /// ```
    /// assert!(iobufs::IoBufsMut::default().is_empty());
    /// ```
    #[inline]
    pub fn is_empty(&self) -> bool {
        self.0.is_empty()
    }

    /// Returns whether there is just one buffer.
    ///
    /// ```
    /// assert!(iobufs::IoBufsMut::from(*b"one").is_single());
    /// ```
    #[inline]
    pub fn is_single(&self) -> bool {
        self.0.is_single()
    }

    /// Returns the only buffer, if there is just one.
    ///
    /// ```
    /// let bufs = iobufs::IoBufsMut::from(*b"one");
    /// assert_eq!(*bufs.as_single().unwrap(), "one");
    /// ```
    #[inline]
    pub fn as_single(&self) -> Option<&IoBufMut> {
        self.0.as_single().map(IoBufMut::wrap)
    }

    /// Returns the only buffer, if there is just one, to change it.
    ///
    /// ```
    /// let mut bufs = iobufs::IoBufsMut::from(*b"one");
    /// bufs.as_single_mut().unwrap().truncate(2);
    /// assert_eq!(bufs.freeze(), "on");
    /// ```
    #[inline]
    pub fn as_single_mut(&mut self) -> Option<&mut IoBufMut> {
        self.0.as_single_mut().map(IoBufMut::wrap_mut)
    }

    /// Returns the sum of the buffers' capacities. A drained buffer counts with its spare capacity.
    ///
    /// ```
    /// let bufs = iobufs::IoBufsMut::from([1, 2].map(iobufs::IoBufMut::with_capacity));
    /// assert_eq!(bufs.capacity(), 3);
    /// ```
    #[inline]
    pub fn capacity(&self) -> usize {
        self.0.capacity()
    }

    /// Makes `n` bytes readable: the first buffer to its capacity, then the second, and so on. Bytes that were not
    /// readable are zero. A buffer loses readable bytes that are above its share of the `n`.
    ///
    /// ```
    /// use iobufs::IoBufMut;
    ///
    /// let mut bufs = iobufs::IoBufsMut::from([1, 2].map(IoBufMut::with_capacity));
    /// bufs.put_u8(7);
    /// bufs.set_len(3);
    /// assert_eq!(bufs.freeze(), [7, 0, 0]);
    ///
    /// let mut parts = [4, 4].map(IoBufMut::with_capacity);
    /// parts.iter_mut().for_each(|part| part.put_u8(7));
    /// let mut bufs = iobufs::IoBufsMut::from(parts);
    /// bufs.set_len(2);
    /// assert_eq!(bufs.freeze(), [7, 0]); // all of the first buffer, and no byte of the second
    /// ```
    ///
    /// # Panics
    /// Panics if `n` is above the capacity.
    #[track_caller]
    pub fn set_len(&mut self, n: usize) {
        assert!(self.0.try_set_len(n), "set_len({n}) exceeds capacity({})", self.capacity());
    }

    /// Writes over the readable bytes.
    ///
    /// ```
    /// let mut bufs = iobufs::IoBufsMut::from([b"a", b"b"].map(iobufs::IoBufMut::from));
    /// bufs.copy_from_slice(b"cd");
    /// assert_eq!(bufs.freeze(), "cd");
    /// ```
    ///
    /// # Panics
    /// Panics if `src` hasn't as many bytes as are readable.
    #[track_caller]
    pub fn copy_from_slice(&mut self, src: &[u8]) {
        assert_eq!(src.len(), self.len(), "source slice length must match buffer length");
        self.0.try_copy_from_slice(src);
    }

    /// Calls `visit` on each chunk that holds bytes, in order, to change them in place.
    ///
    /// ```
    /// let mut bufs = iobufs::IoBufsMut::from([b"ab", b"cd"].map(iobufs::IoBufMut::from));
    /// bufs.for_each_chunk_mut(|chunk| chunk.make_ascii_uppercase());
    /// assert_eq!(bufs.freeze(), "ABCD");
    /// ```
    #[inline]
    pub fn for_each_chunk_mut(&mut self, visit: impl FnMut(&mut [u8])) {
        self.0.for_each_chunk_mut(visit);
    }

    /// Returns the chunks that hold bytes, in order, to be written over by vectored reads.
    ///
    /// ```
    /// use std::io::Read;
    ///
    /// let mut bufs = iobufs::IoBufsMut::from([2, 3].map(iobufs::IoBufMut::zeroed));
    /// let n = (&b"hello"[..]).read_vectored(&mut bufs.io_slices_mut())?;
    /// assert_eq!(n, 5);
    /// assert_eq!(bufs.freeze(), "hello");
    /// # Ok::<(), std::io::Error>(())
    /// ```
    pub fn io_slices_mut(&mut self) -> Vec<IoSliceMut<'_>> {
        self.0.filled().map(IoSliceMut::new).collect()
    }

    /// Freezes the buffers that hold bytes to the chunks of one [`IoBufs`], without a copy.
    ///
    /// ```
    /// let bufs = iobufs::IoBufsMut::from([b"ab", b"cd"].map(iobufs::IoBufMut::from));
    /// let bufs = bufs.freeze();
    /// assert_eq!(bufs, "abcd");
    /// assert_eq!(bufs.chunk_count(), 2);
    /// ```
    #[inline]
    #[must_use]
    pub fn freeze(self) -> IoBufs {
        IoBufs(shared(self.0.freeze(Global)))
    }

    /// Coalesces the buffers into one: a single buffer as it is. The bytes of several are copied, perhaps into the
    /// storage of the first that isn't drained.
    ///
    /// ```
    /// let bufs = iobufs::IoBufsMut::from([b"ab", b"cd"].map(iobufs::IoBufMut::from));
    /// assert_eq!(bufs.coalesce(), "abcd");
    /// ```
    ///
    /// # Panics
    /// Panics if the bytes of several pass `isize::MAX`. If the copy can't be allocated, the process ends.
    #[track_caller]
    #[must_use]
    pub fn coalesce(self) -> IoBufMut {
        let len = self.len();
        IoBufMut(made(self.0.coalesce(Global), Some(len), "the bytes are too many for one buffer"))
    }

    /// Returns the only buffer.
    ///
    /// ```
    /// assert_eq!(iobufs::IoBufsMut::from(*b"one").try_into_single().unwrap(), "one");
    /// ```
    ///
    /// # Errors
    /// Returns the buffers themselves if there isn't just one.
    pub fn try_into_single(self) -> Result<IoBufMut, Self> {
        self.0.try_into_single().map(IoBufMut).map_err(IoBufsMut)
    }

    /// Fills `dst` with the first chunks of the readable bytes, and returns how many (`Buf`).
    ///
    /// ```
    /// use std::io::IoSlice;
    ///
    /// let bufs = iobufs::IoBufsMut::from([b"ab", b"cd"].map(iobufs::IoBufMut::from));
    /// let mut slices = [IoSlice::new(&[]); 4];
    /// assert_eq!(bufs.chunks_vectored(&mut slices), 2);
    /// assert_eq!(&slices[1][..], b"cd");
    /// ```
    pub fn chunks_vectored<'a>(&'a self, dst: &mut [IoSlice<'a>]) -> usize {
        dst.iter_mut().zip(self.each_chunk()).map(|(slot, chunk)| *slot = IoSlice::new(chunk)).count()
    }

    /// Takes the first `n` bytes (`Buf`). If they are all bytes of a single buffer, they are shared, and it has no
    /// capacity left. Of several buffers, the bytes of one without spare capacity may be shared, if it holds just
    /// these. All others are copied.
    ///
    /// ```
    /// let mut bufs = iobufs::IoBufsMut::from([b"ab", b"cd"].map(iobufs::IoBufMut::from));
    /// assert_eq!(bufs.copy_to_bytes(2), "ab"); // shared
    /// assert_eq!(bufs.copy_to_bytes(1), "c"); // a copy
    /// assert_eq!(bufs.chunk(), b"d");
    /// ```
    ///
    /// # Panics
    /// Panics if there are fewer bytes.
    #[track_caller]
    pub fn copy_to_bytes(&mut self, n: usize) -> Bytes {
        if let Some(part) = self.as_single_mut() {
            return part.copy_to_bytes(n);
        }
        assert!(n <= self.len(), "IoBufsMut::copy_to_bytes: not enough data");
        made(core::Buf::copy_to_bytes(&mut self.0, Global, n), Some(n), "").0
    }

    reads! {
        crate::error::short_chunks,
        "let mut buf = iobufs::IoBufsMut::from([&b\"he\"[..], b\"llo\"].map(iobufs::IoBufMut::from));"
    }

    puts! {
        crate::error::past,
        "let mut buf = iobufs::IoBufsMut::from([3, 5].map(iobufs::IoBufMut::with_capacity));",
        "freeze"
    }

    /// Returns the chunks of the readable bytes, in order.
    pub(crate) fn each_chunk(&self) -> impl Iterator<Item = &[u8]> {
        let parts = (0..self.0.part_count()).filter_map(|i| self.0.part_at(i));
        parts.map(|part| part.as_ref()).filter(|chunk| !chunk.is_empty())
    }

    fn has(&self, bytes: &[u8]) -> bool {
        let mut rest = Some(bytes);
        self.each_chunk().for_each(|chunk| rest = rest.and_then(|it| it.strip_prefix(chunk)));
        rest.is_some_and(<[u8]>::is_empty)
    }
}

impl Default for IoBufsMut {
    #[inline]
    fn default() -> Self {
        IoBufsMut(inner::IoBufsMut::new(Global))
    }
}

equals_bytes!(IoBufsMut);
shown!(IoBufsMut, len: len, cap: capacity);

impl From<IoBufMut> for IoBufsMut {
    #[inline]
    fn from(part: IoBufMut) -> Self {
        IoBufsMut(part.0.into())
    }
}

/// Keeps the `Vec`, and its capacity.
impl From<Vec<u8>> for IoBufsMut {
    fn from(bytes: Vec<u8>) -> Self {
        IoBufMut::from(bytes).into()
    }
}

impl<const N: usize> From<[u8; N]> for IoBufsMut {
    fn from(bytes: [u8; N]) -> Self {
        IoBufMut::from(bytes).into()
    }
}

/// The buffers that can hold a byte. Panics if their capacities pass `usize::MAX`.
impl FromIterator<IoBufMut> for IoBufsMut {
    #[track_caller]
    fn from_iter<I: IntoIterator<Item = IoBufMut>>(parts: I) -> Self {
        IoBufsMut(made(
            inner::IoBufsMut::from_parts(Global, parts.into_iter().map(|part| part.0)),
            None,
            "capacity overflow",
        ))
    }
}

impl From<Vec<IoBufMut>> for IoBufsMut {
    fn from(parts: Vec<IoBufMut>) -> Self {
        parts.into_iter().collect()
    }
}

impl<const N: usize> From<[IoBufMut; N]> for IoBufsMut {
    fn from(parts: [IoBufMut; N]) -> Self {
        parts.into_iter().collect()
    }
}

impl From<IoBufsMut> for IoBufs {
    fn from(parts: IoBufsMut) -> Self {
        parts.freeze()
    }
}

/// Returns an [`IoBuf`] as it is. Converts anything else into a `Bytes`, and makes a view of that.
fn claimed<T: Into<Bytes> + 'static>(chunk: T) -> IoBuf {
    let mut chunk = Some(chunk);
    match (&mut chunk as &mut dyn Any).downcast_mut() {
        Some(view) => mem::take::<Option<IoBuf>>(view).unwrap_or_default(),
        None => chunk.map(|it| IoBuf::from(it.into())).unwrap_or_default(),
    }
}

/// Encoded bytes and existing buffers, put together as one [`IoBufs`].
///
/// ```
/// use iobufs::PutLength;
///
/// let mut builder = iobufs::Builder::new(1);
/// builder.put_length(5);
/// builder.push("world"); // not copied
/// assert_eq!(builder.finish(), "\x05world");
/// ```
///
/// [`encode_iobufs`](crate::codec::Encode::encode_iobufs) builds a whole value so.
pub struct Builder(pub(crate) inner::Builder);

impl Builder {
    /// Makes a builder for `capacity` bytes that are put. Those that are pushed don't count.
    ///
    /// ```
    /// let mut builder = iobufs::Builder::new(2);
    /// builder.put_u16(7);
    /// assert_eq!(builder.remaining_mut(), 0);
    /// ```
    ///
    /// # Panics
    /// Panics above `isize::MAX`. If the storage can't be allocated, the process ends.
    #[track_caller]
    pub fn new(capacity: usize) -> Self {
        Builder(made(inner::Builder::new(Global, capacity), Some(capacity), LAYOUT))
    }

    /// Returns how many bytes were put and pushed.
    ///
    /// ```
    /// let mut builder = iobufs::Builder::new(2);
    /// builder.put_u8(7);
    /// builder.push("abc");
    /// assert_eq!(builder.len(), 4);
    /// ```
    pub fn len(&self) -> usize {
        self.0.len()
    }

    /// Returns whether no byte was put or pushed.
    ///
    /// ```
    /// assert!(iobufs::Builder::new(2).is_empty());
    /// ```
    pub fn is_empty(&self) -> bool {
        self.len() == 0
    }

    /// Finishes the builder to all that was put and pushed, in order. It copies nothing.
    ///
    /// ```
    /// let mut builder = iobufs::Builder::new(2);
    /// builder.put_u8(b'<');
    /// builder.push("body");
    /// builder.put_u8(b'>');
    /// let bufs = builder.finish();
    /// assert_eq!(bufs, "<body>");
    /// assert_eq!(bufs.chunk_count(), 3);
    /// ```
    #[must_use]
    pub fn finish(self) -> IoBufs {
        IoBufs(shared(self.0.finish()))
    }

    /// Pushes a buffer, which isn't copied (`BufsMut`): an [`IoBuf`], or what becomes a [`Bytes`].
    ///
    /// ```
    /// let body = iobufs::IoBuf::from(b"body".to_vec());
    /// let mut builder = iobufs::Builder::new(0);
    /// builder.push(body.clone());
    /// builder.push(bytes::Bytes::from_static(b", static"));
    /// let bufs = builder.finish();
    /// assert_eq!(bufs.chunk().as_ptr(), body.as_ptr());
    /// assert_eq!(bufs, "body, static");
    /// ```
    ///
    /// # Panics
    /// Panics if the capacity and all that is pushed pass `usize::MAX`.
    #[inline]
    #[track_caller]
    pub fn push(&mut self, chunk: impl Into<Bytes> + 'static) {
        made(core::BufsMut::push(&mut self.0, claimed(chunk).0), None, "length overflow");
    }

    puts! { crate::error::past, "let mut buf = iobufs::Builder::new(8);", "finish" }
}

/// A builder for no bytes that are put.
impl Default for Builder {
    fn default() -> Self {
        Self::new(0)
    }
}

impl fmt::Debug for Builder {
    fn fmt(&self, f: &mut fmt::Formatter<'_>) -> fmt::Result {
        f.debug_struct("Builder").field("len", &self.len()).finish_non_exhaustive()
    }
}
