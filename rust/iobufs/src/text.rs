//! `IoBufs` and `Frames`.
#![forbid(unsafe_code)]
use crate::calls::{bounds, equals_bytes, gets, outside, reads, shown, split_outside};
use crate::error::{fault, made, shared};
use crate::io::Honest;
use crate::kit::{Clone as _, Global};
use crate::proved::iobufs::bufs::row::NewRow;
use crate::proved::iobufs_core::codec as core;
use crate::proved::{iobufs as inner, iobufs_frames};
use crate::{Error, IoBuf, IoBufMut, Layout, Whole};
use bytes::{Bytes, BytesMut};
use std::io::{self, IoSlice, Write};
use std::iter::FusedIterator;
use std::ops::{Range, RangeBounds};
use std::{fmt, mem};

/// Read-only bytes in chunks. Joining and splitting copy none of them.
///
/// ```
/// let mut bufs = iobufs::IoBufs::from(["ab".into(), "cde".into(), "f".into()]);
/// bufs.advance(1);
/// assert_eq!(bufs.split_to(3), "bcd");
/// assert_eq!(bufs.chunk_count(), 2);
/// ```
///
/// Clones, slices and splits share the storage of each chunk. They and appends may allocate a list of several chunks. It
/// has space for four at least, 160 bytes; each thread keeps the last such space that it frees, for its next list.
/// Two buffers are equal if their bytes are, for every chunking.
#[derive(Default)]
pub struct IoBufs(pub(crate) inner::IoBufs);

impl IoBufs {
    /// Makes one without bytes. It allocates nothing.
    ///
    /// ```
    /// assert!(iobufs::IoBufs::new().is_empty());
    /// ```
    pub fn new() -> Self {
        Self::default()
    }

    /// Makes a view of these bytes, which aren't copied. It allocates nothing.
    ///
    /// ```
    /// assert_eq!(iobufs::IoBufs::from_static(b"one"), "one");
    /// ```
    pub fn from_static(bytes: &'static [u8]) -> Self {
        Self::from(bytes)
    }

    /// Returns the number of bytes.
    ///
    /// ```
    /// assert_eq!(iobufs::IoBufs::from(["ab".into(), "c".into()]).len(), 3);
    /// ```
    #[inline]
    pub fn len(&self) -> usize {
        self.0.len()
    }

    /// Returns whether there are no bytes.
    ///
    /// ```
    /// assert!(iobufs::IoBufs::from("").is_empty());
    /// ```
    #[inline]
    pub const fn is_empty(&self) -> bool {
        self.0.is_empty()
    }

    /// Returns how many chunks have a [`Bytes`] as storage: those of an owner ([`IoBuf::from_owner`]), of a `Bytes` or
    /// a `BytesMut`, and bodies from a [`FrameReader`](crate::FrameReader). A single chunk that is read to its end
    /// counts, if it is still held.
    ///
    /// ```
    /// let bufs = iobufs::IoBufs::from(["ab".into(), iobufs::IoBuf::from_owner(vec![1, 2])]);
    /// assert_eq!(bufs.owners(), 1);
    /// ```
    pub fn owners(&self) -> usize {
        owners(&self.0)
    }

    /// Returns whether all bytes are in one chunk.
    ///
    /// ```
    /// let mut bufs = iobufs::IoBufs::from(["ab".into(), "c".into()]);
    /// assert!(!bufs.is_single());
    /// bufs.advance(2);
    /// assert!(bufs.is_single());
    /// ```
    #[inline]
    pub fn is_single(&self) -> bool {
        self.0.is_single()
    }

    /// Returns the number of chunks that hold bytes.
    ///
    /// ```
    /// assert_eq!(iobufs::IoBufs::from(["ab".into(), "".into(), "c".into()]).chunk_count(), 2);
    /// ```
    #[inline]
    pub fn chunk_count(&self) -> usize {
        self.0.chunk_count()
    }

    /// Returns the bytes of the chunk of an index, if there is one.
    ///
    /// ```
    /// let bufs = iobufs::IoBufs::from(["ab".into(), "c".into()]);
    /// assert_eq!(bufs.chunk_at(1), Some(&b"c"[..]));
    /// assert_eq!(bufs.chunk_at(2), None);
    /// ```
    #[inline]
    pub fn chunk_at(&self, index: usize) -> Option<&[u8]> {
        self.0.chunk_at(index)
    }

    /// Returns the chunks that hold bytes, in order.
    ///
    /// ```
    /// let bufs = iobufs::IoBufs::from(["ab".into(), "cde".into()]);
    /// assert_eq!(bufs.chunks().map(<[u8]>::len).collect::<Vec<_>>(), [2, 3]);
    /// ```
    #[inline]
    pub fn chunks(&self) -> Chunks<'_> {
        Chunks { bufs: &self.0, indices: 0..self.chunk_count() }
    }

    /// Returns the only chunk, if there is at most one; it is empty if there is none.
    ///
    /// ```
    /// assert_eq!(*iobufs::IoBufs::from("ab").as_single().unwrap(), "ab");
    /// assert!(iobufs::IoBufs::from(["ab".into(), "c".into()]).as_single().is_none());
    /// ```
    #[inline]
    pub fn as_single(&self) -> Option<&IoBuf> {
        self.0.as_single().map(IoBuf::wrap)
    }

    /// Returns the byte at an offset, if there is one. It compares about log n stored ends of n chunks.
    ///
    /// ```
    /// let bufs = iobufs::IoBufs::from(["ab".into(), "cde".into()]);
    /// assert_eq!(bufs.byte_at(3), Some(b'd'));
    /// assert_eq!(bufs.byte_at(5), None);
    /// ```
    pub fn byte_at(&self, i: usize) -> Option<u8> {
        core::Buf::byte_at(&self.0, i)
    }

    /// Returns the index of the chunk that contains an offset, and the distance from its start. It compares about log n
    /// stored ends of n chunks.
    ///
    /// ```
    /// let bufs = iobufs::IoBufs::from(["ab".into(), "cde".into()]);
    /// assert_eq!(bufs.locate(3), Some((1, 1)));
    /// assert_eq!(bufs.locate(5), None);
    /// ```
    pub fn locate(&self, at: usize) -> Option<(usize, usize)> {
        self.0.try_locate(at).map(|place| (place.index, place.offset))
    }

    /// Returns the offset of the first byte that is `byte`, if there is one.
    ///
    /// ```
    /// let mut bufs = iobufs::IoBufs::from(["GET /".into(), "\r\n".into()]);
    /// let end = bufs.find_byte(b'\n').unwrap();
    /// assert_eq!(bufs.split_to(end + 1), "GET /\r\n");
    /// ```
    pub fn find_byte(&self, byte: u8) -> Option<usize> {
        let mut start = 0;
        for chunk in self.chunks() {
            if let Some(i) = chunk.iter().position(|it| *it == byte) {
                return Some(start + i);
            }
            start += chunk.len();
        }
        None
    }

    /// Returns the first offset at which `bytes` are, within a chunk or across chunks. No bytes are at 0. It compares
    /// each place with `bytes`, so it may take time in the product of both lengths.
    ///
    /// ```
    /// let bufs = iobufs::IoBufs::from(["a: b\r".into(), "\n\r\nbody".into()]);
    /// assert_eq!(bufs.find(b"\r\n\r\n"), Some(4));
    /// assert_eq!(bufs.find(b"\n\n"), None);
    /// ```
    pub fn find(&self, bytes: &[u8]) -> Option<usize> {
        let Some((first, rest)) = bytes.split_first() else {
            return Some(0);
        };
        let (mut start, mut chunks) = (0, self.chunks());
        while let Some(chunk) = chunks.next() {
            let mut places = (0..chunk.len()).filter(|i| chunk[*i] == *first);
            if let Some(i) = places.find(|i| begins(&chunk[i + 1..], chunks.clone(), rest)) {
                return Some(start + i);
            }
            start += chunk.len();
        }
        None
    }

    /// Fills `dst` with the bytes from an offset on, which stay, and returns whether there are as many; otherwise `dst`
    /// is unchanged. It allocates nothing.
    ///
    /// ```
    /// let bufs = iobufs::IoBufs::from(["ab".into(), "cde".into()]);
    /// let mut two = [0; 2];
    /// assert!(bufs.peek_slice(1, &mut two));
    /// assert_eq!(&two, b"bc");
    /// assert!(!bufs.peek_slice(4, &mut two));
    /// ```
    pub fn peek_slice(&self, at: usize, dst: &mut [u8]) -> bool {
        core::Peek::try_peek_slice(&self.0, at, dst)
    }

    /// Returns the bytes of a range, which share their storage.
    ///
    /// ```
    /// let bufs = iobufs::IoBufs::from(["ab".into(), "cde".into()]);
    /// let slice = bufs.slice(1..4);
    /// assert_eq!(slice, "bcd");
    /// assert_eq!(slice.chunk().as_ptr(), bufs.chunk()[1..].as_ptr()); // nothing is copied
    /// ```
    ///
    /// # Panics
    /// Panics if the range isn't within the bytes.
    #[inline]
    #[track_caller]
    #[must_use]
    pub fn slice(&self, range: impl RangeBounds<usize>) -> Self {
        let (lo, hi) = bounds(range, || self.len());
        match self.0.try_slice(Global, lo..hi) {
            Some(slice) => IoBufs(shared(slice)),
            None => outside(lo, hi),
        }
    }

    /// Keeps at most the first `len` bytes. Chunks that lose all their bytes by it are dropped.
    ///
    /// ```
    /// let mut bufs = iobufs::IoBufs::from(["ab".into(), "cde".into()]);
    /// bufs.truncate(2);
    /// assert_eq!(bufs, "ab");
    /// assert!(bufs.is_single());
    /// ```
    #[inline]
    pub fn truncate(&mut self, len: usize) {
        shared(self.0.truncate(Global, len))
    }

    /// Keeps no byte, and drops its chunks.
    ///
    /// ```
    /// let mut bufs = iobufs::IoBufs::from("hello");
    /// bufs.clear();
    /// assert!(bufs.is_empty());
    /// ```
    pub fn clear(&mut self) {
        *self = Self::default();
    }

    /// Returns a copy of all bytes.
    ///
    /// ```
    /// assert_eq!(iobufs::IoBufs::from(["ab".into(), "c".into()]).to_vec(), b"abc");
    /// ```
    pub fn to_vec(&self) -> Vec<u8> {
        shared(self.0.to_vec(Global)).0
    }

    /// Takes the bytes from `at` on, in the same storage. The first `at` bytes stay.
    ///
    /// ```
    /// let mut bufs = iobufs::IoBufs::from(["ab".into(), "cde".into()]);
    /// assert_eq!(bufs.split_off(3), "de");
    /// assert_eq!(bufs, "abc");
    /// ```
    ///
    /// # Panics
    /// Panics if there are fewer bytes.
    #[track_caller]
    #[must_use = "`truncate` drops the other half"]
    pub fn split_off(&mut self, at: usize) -> Self {
        let front = self.split_to(at);
        mem::replace(self, front)
    }

    /// Calls `visit` with each chunk that holds bytes, in order.
    ///
    /// ```
    /// let mut sum = 0;
    /// iobufs::IoBufs::from(["ab".into(), "cde".into()]).for_each_chunk(|chunk| sum += chunk.len());
    /// assert_eq!(sum, 5);
    /// ```
    #[inline]
    pub fn for_each_chunk(&self, visit: impl FnMut(&[u8])) {
        self.0.for_each_chunk(visit)
    }

    /// Adds a buffer at the end, which isn't copied.
    ///
    /// ```
    /// let body = iobufs::IoBuf::from(b"world".to_vec());
    /// let mut bufs = iobufs::IoBufs::from("hello ");
    /// bufs.append(body.clone());
    /// assert_eq!(bufs, "hello world");
    /// assert_eq!(bufs.chunk_at(1).unwrap().as_ptr(), body.as_ptr());
    /// ```
    ///
    /// # Panics
    /// Panics if the length of all passes `usize::MAX`.
    #[inline]
    #[track_caller]
    pub fn append(&mut self, chunk: IoBuf) {
        made(self.0.append(Global, chunk.0), None, "length overflow");
    }

    /// Adds the chunks of another one at the end, which aren't copied.
    ///
    /// ```
    /// let mut bufs = iobufs::IoBufs::from("ab");
    /// bufs.append_all(["cde".into(), "f".into()].into());
    /// assert_eq!(bufs, "abcdef");
    /// assert_eq!(bufs.chunk_count(), 3);
    /// ```
    ///
    /// # Panics
    /// Panics if the length of all passes `usize::MAX`.
    #[track_caller]
    pub fn append_all(&mut self, other: IoBufs) {
        self.extend(other);
    }

    /// Adds a buffer at the front, which isn't copied.
    ///
    /// ```
    /// let mut bufs = iobufs::IoBufs::from("world");
    /// bufs.prepend("hello ".into());
    /// assert_eq!(bufs, "hello world");
    /// ```
    ///
    /// # Panics
    /// Panics if the length of all passes `usize::MAX`.
    #[inline]
    #[track_caller]
    pub fn prepend(&mut self, chunk: IoBuf) {
        made(self.0.prepend(Global, chunk.0), None, "length overflow");
    }

    /// Takes the first `at` bytes, in the same storage. The rest stays.
    ///
    /// ```
    /// let mut bufs = iobufs::IoBufs::from(["ab".into(), "cde".into()]);
    /// assert_eq!(bufs.split_to(3), "abc");
    /// assert_eq!(bufs, "de");
    /// ```
    ///
    /// # Panics
    /// Panics if there are fewer bytes.
    #[inline]
    #[track_caller]
    #[must_use = "`advance` drops the front"]
    pub fn split_to(&mut self, at: usize) -> Self {
        match self.0.try_split_to(Global, at) {
            Some(front) => IoBufs(shared(front)),
            None => split_outside(at, self.len()),
        }
    }

    /// Coalesces the chunks into one view: a single chunk as it is, several as a copy.
    ///
    /// ```
    /// assert_eq!(iobufs::IoBufs::from(["ab".into(), "cde".into()]).coalesce(), "abcde");
    /// ```
    ///
    /// # Panics
    /// Panics if the bytes pass `isize::MAX`. If the copy can't be allocated, the process ends.
    #[inline]
    #[track_caller]
    #[must_use]
    pub fn coalesce(self) -> IoBuf {
        let len = self.len();
        IoBuf(made(self.0.coalesce(Global), Some(len), "the bytes are too many for one buffer"))
    }

    /// Returns the only chunk; it is empty if there is none.
    ///
    /// ```
    /// assert_eq!(iobufs::IoBufs::from("ab").try_into_single().unwrap(), "ab");
    /// let bufs = iobufs::IoBufs::from(["ab".into(), "cde".into()]);
    /// assert_eq!(bufs.try_into_single().unwrap_err(), "abcde");
    /// ```
    ///
    /// # Errors
    /// Returns the `IoBufs` itself if it has several chunks.
    pub fn try_into_single(self) -> Result<IoBuf, Self> {
        self.0.try_into_single().map(IoBuf).map_err(IoBufs)
    }

    /// Fills `dst` with the first chunks, and returns how many (`Buf`).
    ///
    /// ```
    /// use std::io::IoSlice;
    ///
    /// let bufs = iobufs::IoBufs::from(["ab".into(), "cde".into()]);
    /// let mut slices = [IoSlice::new(&[]); 4];
    /// assert_eq!(bufs.chunks_vectored(&mut slices), 2);
    /// assert_eq!(&slices[1][..], b"cde");
    /// ```
    pub fn chunks_vectored<'a>(&'a self, dst: &mut [IoSlice<'a>]) -> usize {
        self.0.fill_slices(dst)
    }

    /// Returns the first chunks, at most `N`, as they are handed to `writev`, and how many they are.
    ///
    /// ```
    /// use std::io::Write;
    ///
    /// let bufs = iobufs::IoBufs::from(["ab".into(), "cde".into()]);
    /// let (slices, n) = bufs.slices::<8>();
    /// let mut to = Vec::new();
    /// to.write_vectored(&slices[..n])?;
    /// assert_eq!(to, b"abcde");
    /// # Ok::<(), std::io::Error>(())
    /// ```
    pub fn slices<const N: usize>(&self) -> ([IoSlice<'_>; N], usize) {
        let mut slices = [IoSlice::new(&[]); N];
        let n = self.chunks_vectored(&mut slices);
        (slices, n)
    }

    /// Returns all chunks, as they are handed to `writev`.
    ///
    /// ```
    /// assert_eq!(iobufs::IoBufs::from(["ab".into(), "cde".into()]).io_slices().len(), 2);
    /// ```
    pub fn io_slices(&self) -> Vec<IoSlice<'_>> {
        self.chunks().map(IoSlice::new).collect()
    }

    /// Writes all bytes by as many vectored writes as the writer needs, each of up to 64 chunks, and drops them as they
    /// are taken.
    ///
    /// ```
    /// let mut bufs = iobufs::IoBufs::from(["ab".into(), "cde".into()]);
    /// let mut to = Vec::new();
    /// bufs.write_to(&mut to)?;
    /// assert_eq!(to, b"abcde");
    /// assert!(bufs.is_empty());
    /// # Ok::<(), std::io::Error>(())
    /// ```
    ///
    /// # Errors
    /// Returns the writer's error, [`WriteZero`](io::ErrorKind::WriteZero) if the writer takes no byte, and
    /// [`Other`](io::ErrorKind::Other) if it says that it took more than the chunks of one vectored write have. After
    /// an error the bytes that weren't taken are left. An [`Interrupted`](io::ErrorKind::Interrupted) write is tried
    /// again.
    pub fn write_to(&mut self, to: &mut (impl Write + ?Sized)) -> io::Result<()> {
        self.0.write_to(&mut Honest { to, took: false })
    }

    /// Takes the first `n` bytes, as [`take_view`](Self::take_view) does, as a [`Bytes`] (`Buf`).
    ///
    /// ```
    /// let mut bufs = iobufs::IoBufs::from(["ab".into(), "cde".into()]);
    /// assert_eq!(bufs.copy_to_bytes(3), "abc");
    /// assert_eq!(bufs, "de");
    /// ```
    ///
    /// # Panics
    /// Panics if there are fewer bytes.
    #[inline]
    #[track_caller]
    pub fn copy_to_bytes(&mut self, n: usize) -> Bytes {
        let is_single = self.is_single();
        let outside = if is_single { "copy_to_bytes out of bounds" } else { "IoBufs::copy_to_bytes: not enough data" };
        self.taken(n).expect(outside).into()
    }

    reads! { crate::error::short_chunks, "let mut buf = iobufs::IoBufs::from([\"he\".into(), \"llo\".into()]);" }

    gets! { "IoBufs" }

    #[inline]
    pub(crate) fn each_chunk(&self) -> Chunks<'_> {
        self.chunks()
    }

    fn has(&self, bytes: &[u8]) -> bool {
        self.0.eq_bytes(bytes)
    }
}

impl Clone for IoBufs {
    #[inline]
    fn clone(&self) -> Self {
        IoBufs(shared(self.0.clone()))
    }
}

/// Compares the bytes, for every chunking.
impl PartialEq for IoBufs {
    fn eq(&self, other: &Self) -> bool {
        self.0 == other.0
    }
}

impl Eq for IoBufs {}
equals_bytes!(IoBufs);
shown!(IoBufs, len: len, chunks: chunk_count);

impl From<IoBuf> for IoBufs {
    #[inline]
    fn from(view: IoBuf) -> Self {
        IoBufs(view.0.into())
    }
}

/// Conversions by way of an `IoBuf`, as the one chunk.
macro_rules! of_one_chunk {
    ($([$($param:tt)*] $from:ty),*) => {$(
        impl<$($param)*> From<$from> for IoBufs {
            #[inline]
            fn from(bytes: $from) -> Self {
                IoBuf::from(bytes).into()
            }
        }
    )*};
}

of_one_chunk! {
    [] IoBufMut, [] Vec<u8>, [] Box<[u8]>, [] String, [] Bytes, [] BytesMut, [] &'static [u8], [] &'static str,
    [const N: usize] &'static [u8; N]
}

/// The bytes: several chunks are copied, and one is converted as an `IoBuf` is.
impl From<IoBufs> for Vec<u8> {
    fn from(bufs: IoBufs) -> Self {
        bufs.coalesce().into()
    }
}

/// The bytes, with a copy of several chunks.
impl From<IoBufs> for Bytes {
    fn from(bufs: IoBufs) -> Self {
        bufs.coalesce().into()
    }
}

/// The most further chunks of an iterator for which a list has space at once.
const MOST_HINTED: usize = 4094;

impl FromIterator<IoBuf> for IoBufs {
    fn from_iter<I: IntoIterator<Item = IoBuf>>(chunks: I) -> Self {
        let mut chunks = chunks.into_iter();
        let Some(first) = chunks.find(|chunk| !chunk.is_empty()) else {
            return IoBufs::default();
        };
        let Some(second) = chunks.find(|chunk| !chunk.is_empty()) else {
            return first.into();
        };
        // At once the space that appends would come to; a hint may be too high.
        let n = 2 + chunks.size_hint().0.min(MOST_HINTED);
        let mut row = shared(NewRow::with_room(Global, n.next_power_of_two()));
        // Two lengths, each at most `isize::MAX`, have a sum.
        row.add(first.0);
        row.add(second.0);
        let mut bufs = IoBufs(inner::IoBufs::from_row(row.finish()));
        bufs.extend(chunks);
        bufs
    }
}

impl Extend<IoBuf> for IoBufs {
    fn extend<I: IntoIterator<Item = IoBuf>>(&mut self, chunks: I) {
        chunks.into_iter().for_each(|chunk| self.append(chunk));
    }
}

/// Adds each at the end. Nothing is copied.
impl Extend<Bytes> for IoBufs {
    fn extend<I: IntoIterator<Item = Bytes>>(&mut self, chunks: I) {
        self.extend(chunks.into_iter().map(IoBuf::from));
    }
}

/// Whether chunks, of which the first is cut, begin with these bytes.
fn begins<'a>(mut chunk: &'a [u8], mut chunks: Chunks<'a>, mut bytes: &[u8]) -> bool {
    while bytes.len() > chunk.len() {
        let (Some(front), Some(next)) = (bytes.strip_prefix(chunk), chunks.next()) else {
            return false;
        };
        (bytes, chunk) = (front, next);
    }
    chunk.starts_with(bytes)
}

/// The chunks that hold bytes, in order: what [`IoBufs::chunks`] returns.
///
/// ```
/// let bufs = iobufs::IoBufs::from(["ab".into(), "cde".into()]);
/// assert_eq!(bufs.chunks().len(), 2);
/// assert_eq!(bufs.chunks().next_back(), Some(&b"cde"[..]));
/// ```
#[derive(Clone)]
pub struct Chunks<'a> {
    bufs: &'a inner::IoBufs,
    indices: Range<usize>,
}

impl<'a> Iterator for Chunks<'a> {
    type Item = &'a [u8];

    #[inline]
    fn next(&mut self) -> Option<&'a [u8]> {
        self.bufs.chunk_at(self.indices.next()?)
    }

    fn size_hint(&self) -> (usize, Option<usize>) {
        self.indices.size_hint()
    }

    fn nth(&mut self, n: usize) -> Option<&'a [u8]> {
        self.bufs.chunk_at(self.indices.nth(n)?)
    }
}

impl DoubleEndedIterator for Chunks<'_> {
    fn next_back(&mut self) -> Option<Self::Item> {
        self.bufs.chunk_at(self.indices.next_back()?)
    }
}

impl ExactSizeIterator for Chunks<'_> {}

impl FusedIterator for Chunks<'_> {}

impl fmt::Debug for Chunks<'_> {
    fn fmt(&self, f: &mut fmt::Formatter<'_>) -> fmt::Result {
        f.debug_struct("Chunks").field("left", &self.len()).finish_non_exhaustive()
    }
}

impl<'a> IntoIterator for &'a IoBufs {
    type Item = &'a [u8];
    type IntoIter = Chunks<'a>;

    fn into_iter(self) -> Chunks<'a> {
        self.chunks()
    }
}

/// The chunks that hold bytes, as views: an [`IoBufs`] as an iterator.
///
/// ```
/// let bufs = iobufs::IoBufs::from(["ab".into(), "cde".into()]);
/// let last: iobufs::IoBuf = bufs.into_iter().last().unwrap();
/// assert_eq!(last, "cde");
/// ```
#[derive(Clone, Debug)]
pub struct IntoIter(IoBufs);

impl Iterator for IntoIter {
    type Item = IoBuf;

    fn next(&mut self) -> Option<IoBuf> {
        let n = self.0.chunk().len();
        (n > 0).then(|| self.0.take_view(n))
    }

    fn size_hint(&self) -> (usize, Option<usize>) {
        (self.0.chunk_count(), Some(self.0.chunk_count()))
    }
}

impl ExactSizeIterator for IntoIter {}

impl FusedIterator for IntoIter {}

impl IntoIterator for IoBufs {
    type Item = IoBuf;
    type IntoIter = IntoIter;

    fn into_iter(self) -> IntoIter {
        IntoIter(self)
    }
}

impl From<Vec<IoBuf>> for IoBufs {
    fn from(views: Vec<IoBuf>) -> Self {
        views.into_iter().collect()
    }
}

/// Nothing is copied.
impl From<Vec<Bytes>> for IoBufs {
    fn from(chunks: Vec<Bytes>) -> Self {
        chunks.into_iter().map(IoBuf::from).collect()
    }
}

impl<const N: usize> From<[IoBuf; N]> for IoBufs {
    #[inline]
    fn from(views: [IoBuf; N]) -> Self {
        let sum = views.iter().try_fold(0_usize, |sum, view| sum.checked_add(view.len()));
        if sum.is_none() || views.iter().filter(|view| !view.is_empty()).count() < 2 {
            return views.into_iter().collect();
        }
        let mut row = shared(NewRow::with_room(Global, N));
        views.into_iter().for_each(|view| row.add(view.0));
        IoBufs(inner::IoBufs::from_row(row.finish()))
    }
}

/// How a frame's length is written, which comes before its body.
///
/// ```
/// use iobufs::{Frames, Prefix};
///
/// let mut frames = Frames::new(Prefix::U24Le);
/// frames.feed(b"\x02\0\0ok".into());
/// assert_eq!(frames.next(..=1024)?.unwrap(), "ok");
/// # Ok::<(), iobufs::Error>(())
/// ```
#[derive(Clone, Copy, Debug, Default, PartialEq, Eq, Hash)]
#[non_exhaustive]
pub enum Prefix {
    /// A varint: seven bits a byte, the lowest first.
    #[default]
    Varint,
    /// Two bytes, the highest first.
    U16Be,
    /// Four bytes, the highest first.
    U32Be,
    /// Eight bytes, the highest first.
    U64Be,
    /// Two bytes, the lowest first.
    U16Le,
    /// Four bytes, the lowest first.
    U32Le,
    /// Eight bytes, the lowest first.
    U64Le,
    /// One byte.
    U8,
    /// Three bytes, the highest first.
    U24Be,
    /// Three bytes, the lowest first.
    U24Le,
}

impl Prefix {
    #[inline]
    pub(crate) fn inner(self) -> iobufs_frames::Prefix {
        use iobufs_frames::{ByteOrder::*, Prefix::*, Width};
        match self {
            Prefix::Varint => Spelled,
            Prefix::U16Be => Fixed(Width::U16, Big),
            Prefix::U32Be => Fixed(Width::U32, Big),
            Prefix::U64Be => Fixed(Width::U64, Big),
            Prefix::U16Le => Fixed(Width::U16, Little),
            Prefix::U32Le => Fixed(Width::U32, Little),
            Prefix::U64Le => Fixed(Width::U64, Little),
            Prefix::U8 => Fixed(Width::U8, Big),
            Prefix::U24Be => Fixed(Width::U24, Big),
            Prefix::U24Le => Fixed(Width::U24, Little),
        }
    }

    /// Encodes the length `n`. Returns `None` if it doesn't fit.
    ///
    /// ```
    /// use iobufs::Prefix;
    ///
    /// assert_eq!(Prefix::U16Be.written(300).unwrap(), [1, 44]);
    /// assert!(Prefix::U8.written(300).is_none());
    /// ```
    pub fn written(self, n: usize) -> Option<IoBufMut> {
        let prefix = self.inner();
        prefix.fits(n).then(|| IoBufMut::from(prefix.head(n).as_slice()))
    }
}

/// Frames of bytes that come in chunks: each is a header followed by a body.
///
/// ```
/// let mut frames = iobufs::Frames::new(iobufs::Prefix::U16Be);
/// frames.feed(b"\0\x02o".into());
/// assert!(frames.next(..)?.is_none());
/// frames.feed(b"k\0".into());
/// assert_eq!(frames.next(..)?.unwrap(), "ok");
/// # Ok::<(), iobufs::Error>(())
/// ```
///
/// It reads nothing itself: [`FrameReader`](crate::FrameReader) takes frames from a reader of std,
/// [`FrameCodec`](crate::FrameCodec) from a `BytesMut`, and the crate `iobufs-tokio` from a reader of tokio.
#[derive(Default)]
pub struct Frames(iobufs_frames::Frames);

impl Frames {
    /// Makes frames to which nothing was fed, with headers of a [`Layout`], or of a [`Prefix`] alone.
    ///
    /// ```
    /// assert!(iobufs::Frames::new(iobufs::Prefix::U32Be).is_empty());
    /// ```
    pub fn new(layout: impl Into<Layout>) -> Self {
        Frames(iobufs_frames::Frames::with_layout(layout.into().inner()))
    }

    /// Sets the layout by which headers are decoded, from the next frame on.
    ///
    /// ```
    /// use iobufs::{Frames, Prefix};
    ///
    /// let mut frames = Frames::default();
    /// frames.feed(b"\x02ok\0\x02ok".into());
    /// assert_eq!(frames.next(..=1024)?.unwrap(), "ok");
    /// frames.set_layout(Prefix::U16Be);
    /// assert_eq!(frames.next(..=1024)?.unwrap(), "ok");
    /// # Ok::<(), iobufs::Error>(())
    /// ```
    pub fn set_layout(&mut self, layout: impl Into<Layout>) {
        self.0.layout = layout.into().inner();
    }

    /// Adds bytes at the end, which aren't copied.
    ///
    /// ```
    /// let mut frames = iobufs::Frames::default();
    /// frames.feed(b"\x02ok\x05wo".into()); // a frame, and a part of one
    /// assert_eq!(frames.next(..=1024)?.unwrap(), "ok");
    /// assert_eq!(frames.next(..=1024)?, None);
    /// assert_eq!(frames.len(), 3);
    /// # Ok::<(), iobufs::Error>(())
    /// ```
    ///
    /// Each chunk that is held takes 40 to 80 bytes besides its storage, even if it has one byte; the list keeps its
    /// space until at most one chunk is left. A peer whose bytes come one by one therefore decides how much memory a
    /// frame takes: bound the number of chunks too, or take frames by a [`FrameReader`](crate::FrameReader) or a
    /// [`FrameCodec`](crate::FrameCodec), whose bytes are in one block.
    ///
    /// # Panics
    /// Panics if the length of all that is held passes `usize::MAX`.
    #[inline]
    #[track_caller]
    pub fn feed(&mut self, chunk: IoBuf) {
        made(self.0.feed(Global, chunk.0), None, "length overflow");
    }

    /// Takes the body of the first frame if its length is in `range`; `None` if the frame isn't whole yet. The body is
    /// shared within a chunk, and copied across chunks.
    ///
    /// ```
    /// let mut frames = iobufs::Frames::default();
    /// frames.feed(b"\x05hel".into());
    /// assert_eq!(frames.next(..=1024)?, None);
    /// frames.feed(b"lo".into());
    /// assert_eq!(frames.next(..=4), Err(iobufs::Error::InvalidLength(5)));
    /// assert_eq!(frames.next(..=1024)?.unwrap(), "hello");
    /// # Ok::<(), iobufs::Error>(())
    /// ```
    ///
    /// # Errors
    /// Returns [`Error::InvalidVarint`] or [`Error::InvalidLength`] if the length is invalid or outside the range. Then
    /// nothing changes. After `InvalidLength`, a wider range may accept the frame.
    pub fn next(&mut self, range: impl RangeBounds<usize>) -> Result<Option<IoBuf>, Error> {
        let body = self.0.next(Global, &core::RangeCfg::new(range)).map_err(fault)?;
        Ok(body.map(IoBuf))
    }

    /// Takes the first frame with its header, as [`next`](Self::next) takes its body: its chunks aren't copied.
    ///
    /// ```
    /// let mut frames = iobufs::Frames::default();
    /// frames.feed(b"\x02ok".into());
    /// let whole = frames.next_whole(..=1024)?.unwrap();
    /// assert_eq!(whole.header_len(), 1);
    /// assert_eq!(whole.into_body(), "ok");
    /// # Ok::<(), iobufs::Error>(())
    /// ```
    ///
    /// # Errors
    /// Returns the errors of `next`.
    pub fn next_whole(&mut self, range: impl RangeBounds<usize>) -> Result<Option<Whole<IoBufs>>, Error> {
        let whole = self.0.next_whole(Global, &core::RangeCfg::new(range)).map_err(fault)?;
        Ok(whole.map(|(header, frame)| Whole::of(self.0.layout, header, IoBufs(frame))))
    }

    /// Returns how many bytes were fed and not taken.
    ///
    /// ```
    /// let mut frames = iobufs::Frames::default();
    /// frames.feed(b"\x05hel".into());
    /// assert_eq!(frames.len(), 4);
    /// ```
    #[inline]
    pub fn len(&self) -> usize {
        self.0.rest().len()
    }

    /// Returns whether all that was fed was taken.
    ///
    /// ```
    /// assert!(iobufs::Frames::default().is_empty());
    /// ```
    #[inline]
    pub fn is_empty(&self) -> bool {
        self.0.rest().is_empty()
    }

    /// Returns how many chunks have a [`Bytes`] as storage: those of an owner ([`IoBuf::from_owner`]), of a `Bytes` or
    /// a `BytesMut`, and bodies from a [`FrameReader`](crate::FrameReader).
    ///
    /// ```
    /// let mut frames = iobufs::Frames::default();
    /// frames.feed(iobufs::IoBuf::from_owner(b"\x05hel"));
    /// assert_eq!(frames.owners(), 1);
    /// ```
    pub fn owners(&self) -> usize {
        owners(self.0.rest())
    }
}

impl fmt::Debug for Frames {
    fn fmt(&self, f: &mut fmt::Formatter<'_>) -> fmt::Result {
        f.debug_struct("Frames").field("len", &self.len()).finish_non_exhaustive()
    }
}

/// Counts the chunks whose storage is a `Bytes`.
fn owners(bufs: &inner::IoBufs) -> usize {
    (0..).map_while(|i| bufs.view_at(i)).filter(|view| view.is_shared()).count()
}
