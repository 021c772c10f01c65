//! Frames over std's readers and writers.
#![forbid(unsafe_code)]
use crate::error::{fault, out_of_memory, shared};
use crate::io::Honest;
use crate::kit::{Global, bytes as kit};
use crate::proved::iobufs_core::codec::{BufError, RangeCfg};
use crate::proved::iobufs_frames as inner;
use crate::{Error, IoBuf, IoBufs, Layout, Prefix, Whole};
use bytes::{Buf, Bytes, BytesMut};
use std::io::{self, ErrorKind, Read, Write};
use std::ops::RangeBounds;
use std::{error, fmt, mem};

/// Why no frame is taken from a reader, or encoded by `iobufs-tokio`.
///
/// ```
/// use iobufs::{FrameError, FrameReader};
///
/// let mut from = FrameReader::new(&b"\x05wo"[..], ..=1024);
/// assert!(matches!(from.next(), Err(FrameError::Cut)));
/// ```
#[derive(Debug)]
#[non_exhaustive]
pub enum FrameError {
    /// No frame of the range begins here, whatever follows: `Error::InvalidVarint` or `Error::InvalidLength`.
    Bad(Error),
    /// The input ends inside a frame.
    Cut,
    /// The error of the reader, or in `iobufs-tokio` also of the writer. A [`FrameReader`] reads again after
    /// `ErrorKind::Interrupted`, and gives `InvalidData` if the reader says that it read more than it was asked for.
    Io(io::Error),
}

impl fmt::Display for FrameError {
    fn fmt(&self, f: &mut fmt::Formatter<'_>) -> fmt::Result {
        match self {
            FrameError::Bad(error) => write!(f, "bad frame: {error}"),
            FrameError::Cut => f.write_str("the input ends inside a frame"),
            FrameError::Io(error) => error.fmt(f),
        }
    }
}

impl error::Error for FrameError {
    fn source(&self) -> Option<&(dyn error::Error + 'static)> {
        match self {
            FrameError::Bad(error) => Some(error),
            FrameError::Cut => None,
            FrameError::Io(error) => Some(error),
        }
    }
}

impl From<inner::FrameError> for FrameError {
    fn from(error: inner::FrameError) -> Self {
        match error {
            inner::FrameError::Frame(error) => FrameError::Bad(fault(error)),
            inner::FrameError::Cut => FrameError::Cut,
            inner::FrameError::Io(error) => FrameError::Io(error),
        }
    }
}

impl From<Error> for FrameError {
    fn from(error: Error) -> Self {
        FrameError::Bad(error)
    }
}

impl From<io::Error> for FrameError {
    fn from(error: io::Error) -> Self {
        FrameError::Io(error)
    }
}

/// The reader's error as it is; `ErrorKind::UnexpectedEof` of `Cut`, `ErrorKind::InvalidData` of `Bad`.
impl From<FrameError> for io::Error {
    fn from(error: FrameError) -> Self {
        match error {
            FrameError::Io(error) => error,
            FrameError::Cut => io::Error::new(ErrorKind::UnexpectedEof, error),
            FrameError::Bad(_) => io::Error::new(ErrorKind::InvalidData, error),
        }
    }
}

/// Takes frames from the front of a [`BytesMut`], and puts them at its end, for readers and writers that have such a
/// buffer. The crate `iobufs-tokio` makes it a codec of `tokio_util::codec::Framed`.
///
/// ```
/// use bytes::{Buf, Bytes, BytesMut};
/// let codec = iobufs::FrameCodec::new(iobufs::Prefix::U16Be, ..=1024);
/// let mut bytes = BytesMut::new();
/// codec.encode(&"hello".into(), &mut bytes)?;
/// assert_eq!(&bytes[..], b"\0\x05hello");
/// assert_eq!(codec.decode(&mut bytes)?.unwrap(), "hello");
/// # Ok::<(), iobufs::Error>(())
/// ```
#[derive(Clone, Copy, Debug, PartialEq, Eq)]
pub struct FrameCodec {
    layout: inner::Layout,
    range: RangeCfg,
}

impl FrameCodec {
    /// Makes a codec of frames with bodies of lengths in `range`, and headers of a [`Layout`], or of a [`Prefix`]
    /// alone.
    ///
    /// ```
    /// use iobufs::{FrameCodec, Prefix};
    ///
    /// const LONGEST: usize = 1024;
    /// let codec = FrameCodec::new(Prefix::Varint, 1..=LONGEST); // no empty frame
    /// assert!(codec.decode(&mut b"\0"[..].into()).is_err());
    /// ```
    pub fn new(layout: impl Into<Layout>, range: impl RangeBounds<usize>) -> Self {
        FrameCodec { layout: layout.into().inner(), range: RangeCfg::new(range) }
    }

    /// Takes the first body, which shares the storage of `src`; `None` if its frame isn't whole yet. Unless a frame is
    /// taken, `src` is unchanged.
    ///
    /// ```
    /// use bytes::{Buf, Bytes, BytesMut};
    ///
    /// let codec = iobufs::FrameCodec::new(iobufs::Prefix::Varint, ..=1024);
    /// let mut src = BytesMut::from("\x02ok\x05wo");
    /// assert_eq!(codec.decode(&mut src)?.unwrap(), "ok");
    /// assert_eq!(codec.decode(&mut src)?, None);
    /// src.extend_from_slice(b"rld");
    /// assert_eq!(codec.decode(&mut src)?.unwrap(), "world");
    /// # Ok::<(), iobufs::Error>(())
    /// ```
    ///
    /// # Errors
    /// Returns [`Error::InvalidVarint`] or [`Error::InvalidLength`] if the length is invalid or outside the range.
    pub fn decode(&self, src: &mut BytesMut) -> Result<Option<IoBuf>, Error> {
        Ok(self.take(src)?.map(|(header, mut frame)| {
            frame.advance(header);
            frame.into()
        }))
    }

    /// Takes the first frame with its header, as [`decode`](Self::decode) takes its body.
    ///
    /// ```
    /// use iobufs::{FrameCodec, Layout, Prefix};
    ///
    /// let codec = FrameCodec::new(Layout::new(Prefix::U16Be).before(1), ..=1024);
    /// let mut src = bytes::BytesMut::from("Q\0\x02ok");
    /// let whole = codec.decode_whole(&mut src)?.unwrap();
    /// assert_eq!(whole.header(), b"Q\0\x02");
    /// assert_eq!(whole.into_body(), "ok");
    /// # Ok::<(), iobufs::Error>(())
    /// ```
    ///
    /// # Errors
    /// Returns the errors of `decode`.
    pub fn decode_whole(&self, src: &mut BytesMut) -> Result<Option<Whole<IoBuf>>, Error> {
        Ok(self.take(src)?.map(|(header, frame)| Whole::of(self.layout, header, frame.into())))
    }

    /// Takes the first frame, and returns it with the number of its header's bytes.
    #[inline(always)]
    fn take(&self, src: &mut BytesMut) -> Result<Option<(usize, Bytes)>, Error> {
        let found = self.layout.frame_in(src, &self.range).map_err(fault)?;
        Ok(found.map(|(header, size)| (header, src.split_to(size).freeze())))
    }

    /// Appends the frame of a body, which is copied.
    ///
    /// ```
    /// use bytes::{Buf, Bytes, BytesMut};
    /// use iobufs::{Error, FrameCodec, Prefix};
    ///
    /// let codec = FrameCodec::new(Prefix::U8, ..=1024);
    /// let mut dst = BytesMut::new();
    /// codec.encode(&"ok".into(), &mut dst)?;
    /// assert_eq!(&dst[..], b"\x02ok");
    /// assert_eq!(codec.encode(&vec![0; 300].into(), &mut dst), Err(Error::InvalidLength(300)));
    /// # Ok::<(), iobufs::Error>(())
    /// ```
    ///
    /// # Errors
    /// Returns [`Error::InvalidLength`] if the length is outside the range, or no header can have it, or headers have
    /// bytes around their lengths, or `dst` would have more than `isize::MAX` bytes. Then `dst` is unchanged.
    pub fn encode(&self, body: &IoBufs, dst: &mut BytesMut) -> Result<(), Error> {
        self.begin(&[], &[], body.len(), dst)?;
        body.for_each_chunk(|chunk| dst.extend_from_slice(chunk));
        Ok(())
    }

    /// Appends a frame as [`encode`](Self::encode) does, with these bytes before its length and after it.
    ///
    /// ```
    /// use iobufs::{FrameCodec, Layout, Prefix};
    ///
    /// let codec = FrameCodec::new(Layout::new(Prefix::U16Be).before(1), ..=1024);
    /// let mut dst = bytes::BytesMut::new();
    /// codec.encode_with(b"Q", &[], &"ok".into(), &mut dst)?;
    /// assert_eq!(&dst[..], b"Q\0\x02ok");
    /// # Ok::<(), iobufs::Error>(())
    /// ```
    ///
    /// # Errors
    /// Returns [`Error::InvalidLength`] if the length is outside the range, or no header can have it, or the layout has
    /// another number of bytes before or after the length, or more than 22, or `dst` would have more than `isize::MAX`
    /// bytes. Then `dst` is unchanged.
    pub fn encode_with(&self, before: &[u8], after: &[u8], body: &IoBufs, dst: &mut BytesMut) -> Result<(), Error> {
        self.begin(before, after, body.len(), dst)?;
        body.for_each_chunk(|chunk| dst.extend_from_slice(chunk));
        Ok(())
    }

    /// Appends the frame of these bytes, as [`encode`](Self::encode) does.
    ///
    /// ```
    /// let codec = iobufs::FrameCodec::new(iobufs::Prefix::U16Le, ..=1024);
    /// let mut dst = bytes::BytesMut::new();
    /// codec.encode_slice(b"ok", &mut dst)?;
    /// assert_eq!(&dst[..], b"\x02\0ok");
    /// # Ok::<(), iobufs::Error>(())
    /// ```
    ///
    /// # Errors
    /// Returns the errors of `encode`.
    pub fn encode_slice(&self, body: &[u8], dst: &mut BytesMut) -> Result<(), Error> {
        self.begin(&[], &[], body.len(), dst)?;
        dst.extend_from_slice(body);
        Ok(())
    }

    /// Appends the header of a body, and reserves space for the body.
    #[inline(always)]
    fn begin(&self, before: &[u8], after: &[u8], len: usize, dst: &mut BytesMut) -> Result<(), Error> {
        let head = self.layout.header_within(before, after, len, &self.range).ok_or(Error::InvalidLength(len))?;
        // More than `isize::MAX` bytes are in no `BytesMut`.
        if head.len() + len > isize::MAX as usize - dst.len() {
            return Err(Error::InvalidLength(len));
        }
        dst.reserve(head.len() + len);
        dst.extend_from_slice(head.as_slice());
        Ok(())
    }
}

/// Takes frames from a reader: lengths, or headers of a [`Layout`], each followed by a body. Reads go into one
/// block, which the bodies share: they aren't copied, unless [`set_layout`](Self::set_layout) is called inside a frame
/// above 64 KiB. A body keeps at most its own frame or 64 KiB, whichever is more. Copy a small body that you keep, by
/// [`IoBuf::copy_from_slice`].
///
/// ```
/// use iobufs::{FrameReader, FrameWriter};
/// let mut to = FrameWriter::new(Vec::new(), ..=1024);
/// to.put("hello")?;
/// to.send()?;
/// let mut from = FrameReader::new(&to.get_ref()[..], ..=1024);
/// assert_eq!(from.next()?.unwrap(), "hello");
/// assert!(from.next()?.is_none());
/// # Ok::<(), Box<dyn std::error::Error>>(())
/// ```
///
/// `examples/server.rs` echoes frames over TCP, with a reader and a writer.
///
/// As an iterator it takes bodies by [`next`](Self::next). It ends with the input, and after an error, unless that is a
/// read's `WouldBlock` or `TimedOut`; [`set_range`](Self::set_range) and [`set_layout`](Self::set_layout) let it go on.
///
/// ```
/// let mut from = iobufs::FrameReader::new(&b"\x02ok\x02no\x05w"[..], ..=1024);
/// assert_eq!(from.by_ref().map_while(Result::ok).collect::<Vec<_>>(), ["ok", "no"]);
/// assert!(from.try_next()?.is_none());
/// # Ok::<(), iobufs::Error>(())
/// ```
pub struct FrameReader<R> {
    inner: inner::FrameReader<Counted<R>>,
    layout: inner::Layout,
    /// Whether the iterator ended.
    ended: bool,
}

/// A reader, and how many bytes were read from it.
struct Counted<R> {
    from: R,
    count: u64,
}

impl<R: Read> Read for Counted<R> {
    #[inline]
    fn read(&mut self, dst: &mut [u8]) -> io::Result<usize> {
        let n = self.from.read(dst)?;
        self.count = self.count.wrapping_add(n as u64);
        Ok(n)
    }
}

impl<R> FrameReader<R> {
    /// Makes a reader of frames with varint lengths in `range`.
    ///
    /// ```
    /// let mut from = iobufs::FrameReader::new(&b"\x02ok"[..], ..=1024);
    /// assert_eq!(from.next()?.unwrap(), "ok");
    /// # Ok::<(), iobufs::FrameError>(())
    /// ```
    pub fn new(from: R, range: impl RangeBounds<usize>) -> Self {
        Self::with_prefix(from, Prefix::Varint, range)
    }

    /// Makes a reader of frames with bodies of lengths in `range`, and headers of a [`Layout`], or of a [`Prefix`]
    /// alone.
    ///
    /// ```
    /// use iobufs::{FrameReader, Prefix};
    ///
    /// let mut from = FrameReader::with_prefix(&b"\0\x02ok"[..], Prefix::U16Be, ..=1024);
    /// assert_eq!(from.next()?.unwrap(), "ok");
    /// # Ok::<(), iobufs::FrameError>(())
    /// ```
    pub fn with_prefix(from: R, layout: impl Into<Layout>, range: impl RangeBounds<usize>) -> Self {
        let (layout, range) = (layout.into().inner(), RangeCfg::new(range));
        let from = Counted { from, count: 0 };
        let inner = shared(inner::FrameReader::with_layout(Global, from, layout, range));
        FrameReader { inner, layout, ended: false }
    }

    /// Sets the layout by which headers are decoded, from the next frame on.
    ///
    /// ```
    /// use iobufs::{FrameReader, Prefix};
    ///
    /// let mut from = FrameReader::new(&b"\x02ok\0\x02ok"[..], ..=1024);
    /// assert_eq!(from.next()?.unwrap(), "ok");
    /// from.set_layout(Prefix::U16Be);
    /// assert_eq!(from.next()?.unwrap(), "ok");
    /// # Ok::<(), iobufs::FrameError>(())
    /// ```
    pub fn set_layout(&mut self, layout: impl Into<Layout>) {
        self.layout = layout.into().inner();
        self.ended = false;
        self.inner.set_layout(self.layout);
    }

    /// Takes the next body if its whole frame was read, without a read; otherwise returns `None`.
    ///
    /// ```
    /// let mut from = iobufs::FrameReader::new(&b"\x02ok\x02no"[..], ..=1024);
    /// assert_eq!(from.try_next()?, None); // nothing was read
    /// assert_eq!(from.next()?.unwrap(), "ok");
    /// assert_eq!(from.try_next()?.unwrap(), "no"); // by the same read
    /// # Ok::<(), iobufs::FrameError>(())
    /// ```
    ///
    /// # Errors
    /// Returns [`Error::InvalidVarint`] or [`Error::InvalidLength`] if the length is invalid or outside the range.
    pub fn try_next(&mut self) -> Result<Option<IoBuf>, Error> {
        let body = self.inner.try_next().map_err(fault)?;
        Ok(body.map(IoBuf))
    }

    /// Takes the next frame with its header if it was read whole, without a read.
    ///
    /// ```
    /// let mut from = iobufs::FrameReader::new(&b"\x02ok"[..], ..=1024);
    /// assert!(from.try_next_whole()?.is_none()); // nothing was read
    /// # Ok::<(), iobufs::Error>(())
    /// ```
    ///
    /// # Errors
    /// Returns the errors of [`try_next`](Self::try_next).
    pub fn try_next_whole(&mut self) -> Result<Option<Whole<IoBuf>>, Error> {
        let whole = self.inner.try_next_whole().map_err(fault)?;
        Ok(whole.map(|(header, frame)| Whole::of(self.layout, header, IoBuf(frame))))
    }

    /// Returns the reader.
    ///
    /// ```
    /// let from = iobufs::FrameReader::new(&b"\x02ok"[..], ..=1024);
    /// assert_eq!(from.get_ref().len(), 3); // nothing was read
    /// ```
    pub fn get_ref(&self) -> &R {
        &self.inner.from.from
    }

    /// Returns the reader. Bytes that are read from it are missing from the frames.
    ///
    /// ```
    /// use std::io::Read;
    ///
    /// let mut from = iobufs::FrameReader::new(&b"v1\x02ok"[..], ..=1024);
    /// let mut version = [0; 2];
    /// from.get_mut().read_exact(&mut version)?;
    /// assert_eq!(from.next()?.unwrap(), "ok");
    /// # Ok::<(), Box<dyn std::error::Error>>(())
    /// ```
    pub fn get_mut(&mut self) -> &mut R {
        &mut self.inner.from.from
    }

    /// Accepts lengths in `range` for the frames that are taken after this, as after a login.
    ///
    /// ```
    /// let mut from = iobufs::FrameReader::new(&b"\x02ok\x05hello"[..], ..=4);
    /// assert_eq!(from.next()?.unwrap(), "ok");
    /// assert!(from.try_next().is_err());
    /// from.set_range(..=1024);
    /// assert_eq!(from.next()?.unwrap(), "hello");
    /// # Ok::<(), iobufs::FrameError>(())
    /// ```
    pub fn set_range(&mut self, range: impl RangeBounds<usize>) {
        self.ended = false;
        self.inner.range = RangeCfg::new(range);
    }

    /// Returns how many bytes of frames were taken, headers among them: the offset after the last one, if no bytes were
    /// read by [`get_mut`](Self::get_mut), and the reader never said that it read more than it was asked for.
    ///
    /// ```
    /// let mut log = iobufs::FrameReader::new(&b"\x02ok\x05hel"[..], ..=1024);
    /// assert_eq!(log.next()?.unwrap(), "ok");
    /// assert!(log.next().is_err()); // the last record is cut
    /// assert_eq!(log.taken(), 3);
    /// # Ok::<(), iobufs::FrameError>(())
    /// ```
    pub fn taken(&self) -> u64 {
        self.inner.from.count.wrapping_sub(self.inner.held.len() as u64)
    }

    /// Returns the reader. Bytes that were read and not taken are dropped; [`into_parts`](Self::into_parts) keeps them.
    ///
    /// ```
    /// let from = iobufs::FrameReader::new(&b"\x02ok"[..], ..=1024);
    /// assert_eq!(from.into_inner(), b"\x02ok");
    /// ```
    pub fn into_inner(self) -> R {
        self.inner.from.from
    }

    /// Returns the reader, and the bytes that were read and not taken, for the protocol that follows.
    ///
    /// ```
    /// let mut from = iobufs::FrameReader::new(&b"\x02okGET /"[..], ..=1024);
    /// assert_eq!(from.next()?.unwrap(), "ok");
    /// let (rest, held) = from.into_parts();
    /// assert_eq!((rest, &held[..]), (&b""[..], &b"GET /"[..]));
    /// # Ok::<(), iobufs::FrameError>(())
    /// ```
    pub fn into_parts(mut self) -> (R, BytesMut) {
        let held = mem::replace(self.inner.held.block_mut(), kit::BytesMut::new(Global));
        (self.inner.from.from, held.into_inner())
    }
}

impl<R: Read> FrameReader<R> {
    /// Takes the next body; `None` at the end of the input. It starts no read while a whole frame is held.
    ///
    /// ```
    /// let mut from = iobufs::FrameReader::new(&b"\x02ok\x05hel"[..], ..=1024);
    /// assert_eq!(from.next()?.unwrap(), "ok");
    /// assert!(matches!(from.next(), Err(iobufs::FrameError::Cut)));
    /// # Ok::<(), iobufs::FrameError>(())
    /// ```
    ///
    /// # Errors
    /// Returns [`FrameError::Bad`] if the length is invalid or outside the range, [`FrameError::Cut`] if the input ends
    /// inside a frame, and [`FrameError::Io`] with the error of a read. After an error no byte is lost, and `next` may
    /// be called again.
    #[allow(clippy::should_implement_trait)]
    pub fn next(&mut self) -> Result<Option<IoBuf>, FrameError> {
        Ok(self.inner.next()?.map(IoBuf))
    }

    /// Takes the next frame with its header, as [`next`](Self::next) takes its body.
    ///
    /// ```
    /// let mut from = iobufs::FrameReader::new(&b"\x02ok"[..], ..=1024);
    /// assert_eq!(from.next_whole()?.unwrap().header(), [2]);
    /// # Ok::<(), iobufs::FrameError>(())
    /// ```
    ///
    /// # Errors
    /// Returns the errors of `next`.
    pub fn next_whole(&mut self) -> Result<Option<Whole<IoBuf>>, FrameError> {
        let whole = self.inner.next_whole()?;
        Ok(whole.map(|(header, frame)| Whole::of(self.layout, header, IoBuf(frame))))
    }
}

impl<R: Read> Iterator for FrameReader<R> {
    type Item = Result<IoBuf, FrameError>;

    fn next(&mut self) -> Option<Self::Item> {
        if self.ended {
            return None;
        }
        let taken = FrameReader::next(self).transpose();
        self.ended = match &taken {
            Some(Err(FrameError::Io(error))) => !matches!(error.kind(), ErrorKind::WouldBlock | ErrorKind::TimedOut),
            Some(Err(_)) | None => true,
            Some(Ok(_)) => false,
        };
        taken
    }
}

impl<R: fmt::Debug> fmt::Debug for FrameReader<R> {
    fn fmt(&self, f: &mut fmt::Formatter<'_>) -> fmt::Result {
        f.debug_struct("FrameReader")
            .field("from", &self.inner.from.from)
            .field("held", &self.inner.held.len())
            .finish_non_exhaustive()
    }
}

/// Sends frames to a writer: lengths, or headers of a [`Layout`], each followed by a body. Chunks aren't copied, except
/// those of short bodies that wait after another frame (see [`put`](Self::put)). Once all is sent, a writer keeps the
/// space of its list of frames, and a block for copies of at most 4 KiB.
///
/// ```
/// let mut to = iobufs::FrameWriter::new(Vec::new(), ..=1024);
/// to.put("hello")?;
/// to.put(vec![b'!'])?;
/// to.send()?; // both frames
/// assert_eq!(to.get_ref(), b"\x05hello\x01!");
/// # Ok::<(), Box<dyn std::error::Error>>(())
/// ```
///
/// `examples/server.rs` echoes frames over TCP, with a reader and a writer.
pub struct FrameWriter<W>(inner::FrameWriter<Honest<W>>);

impl<W> FrameWriter<W> {
    /// Makes a writer of frames with varint lengths in `range`. It allocates nothing.
    ///
    /// ```
    /// let to = iobufs::FrameWriter::new(Vec::<u8>::new(), ..=1024);
    /// assert!(to.is_sent());
    /// ```
    pub fn new(to: W, range: impl RangeBounds<usize>) -> Self {
        Self::with_prefix(to, Prefix::Varint, range)
    }

    /// Makes a writer of frames with bodies of lengths in `range`, and headers of a [`Layout`], or of a [`Prefix`]
    /// alone.
    ///
    /// ```
    /// use iobufs::{FrameWriter, Prefix};
    ///
    /// let mut to = FrameWriter::with_prefix(Vec::new(), Prefix::U32Le, ..=1024);
    /// to.put("ok")?;
    /// to.send()?;
    /// assert_eq!(to.into_inner(), b"\x02\0\0\0ok");
    /// # Ok::<(), Box<dyn std::error::Error>>(())
    /// ```
    pub fn with_prefix(to: W, layout: impl Into<Layout>, range: impl RangeBounds<usize>) -> Self {
        let to = Honest { to, took: false };
        FrameWriter(inner::FrameWriter::with_layout(Global, to, layout.into().inner(), RangeCfg::new(range)))
    }

    /// Sets the layout of the headers, from the next `put` on.
    ///
    /// ```
    /// use iobufs::{FrameWriter, Prefix};
    ///
    /// let mut to = FrameWriter::new(Vec::new(), ..=1024);
    /// to.put("ok")?;
    /// to.set_layout(Prefix::U16Be);
    /// to.put("ok")?;
    /// to.send()?;
    /// assert_eq!(to.get_ref(), b"\x02ok\0\x02ok");
    /// # Ok::<(), Box<dyn std::error::Error>>(())
    /// ```
    pub fn set_layout(&mut self, layout: impl Into<Layout>) {
        self.0.layout = layout.into().inner();
    }

    /// Puts a frame of this body after those that aren't sent yet; nothing is written. From the second unsent frame on
    /// it may allocate space for the list of frames, or for copies. A body of one chunk and at most 256 bytes is
    /// copied, unless all is sent, or the list has frames, or the copies have more than 16 KiB. Making an [`IoBufs`] of
    /// the body may allocate too.
    ///
    /// ```
    /// let mut to = iobufs::FrameWriter::new(Vec::<u8>::new(), ..=4);
    /// to.put(["o".into(), "k".into()])?;
    /// assert_eq!(to.put("hello"), Err(iobufs::Error::InvalidLength(5)));
    /// assert_eq!(to.unsent(), 3);
    /// # Ok::<(), iobufs::Error>(())
    /// ```
    ///
    /// # Errors
    /// Returns [`Error::InvalidLength`] if the length is outside the range, or no header can have it, or headers have
    /// bytes around their lengths, or more than `usize::MAX` bytes would wait. Then nothing is put.
    ///
    /// # Panics
    /// If the `Drop` of the body's owner panics. An owner is dropped here if the body is copied or refused. If it was
    /// copied, its frame is put.
    pub fn put(&mut self, body: impl Into<IoBufs>) -> Result<(), Error> {
        self.put_with(&[], &[], body)
    }

    /// Puts a frame as [`put`](Self::put) does, with these bytes before its length and after it.
    ///
    /// ```
    /// use iobufs::{FrameWriter, Layout, Prefix};
    ///
    /// let layout = Layout::new(Prefix::U16Be).before(1);
    /// let mut to = FrameWriter::with_prefix(Vec::new(), layout, ..=1024);
    /// to.put_with(b"Q", &[], "ok")?;
    /// to.send()?;
    /// assert_eq!(to.get_ref(), b"Q\0\x02ok");
    /// # Ok::<(), Box<dyn std::error::Error>>(())
    /// ```
    ///
    /// # Errors
    /// Returns [`Error::InvalidLength`] if the length is outside the range, or no header can have it, or the layout has
    /// another number of bytes before or after the length, or more than 22, or more than `usize::MAX` bytes would wait.
    /// Then nothing is put.
    ///
    /// # Panics
    /// If the `Drop` of the body's owner panics, as in [`put`](Self::put).
    #[inline]
    pub fn put_with(&mut self, before: &[u8], after: &[u8], body: impl Into<IoBufs>) -> Result<(), Error> {
        self.0.put_with(before, after, body.into().0).map_err(|refused| match refused.cause {
            BufError::TooLong => Error::InvalidLength(refused.value.len()),
            _ => out_of_memory(None),
        })
    }

    /// Returns whether all that was put is written.
    ///
    /// ```
    /// let mut to = iobufs::FrameWriter::new(Vec::<u8>::new(), ..=1024);
    /// to.put("ok").unwrap();
    /// assert!(!to.is_sent());
    /// ```
    pub fn is_sent(&self) -> bool {
        self.0.rest.is_empty()
    }

    /// Returns how many bytes of frames were put and are not written.
    ///
    /// ```
    /// let mut to = iobufs::FrameWriter::new(Vec::<u8>::new(), ..=1024);
    /// to.put("ok").unwrap();
    /// assert_eq!(to.unsent(), 3); // the length, and the body
    /// ```
    pub fn unsent(&self) -> usize {
        self.0.unsent()
    }

    /// Returns the writer.
    ///
    /// ```
    /// assert!(iobufs::FrameWriter::new(Vec::<u8>::new(), ..=1024).get_ref().is_empty());
    /// ```
    pub fn get_ref(&self) -> &W {
        &self.0.to.to
    }

    /// Returns the writer. Bytes that are written to it come between those that are sent.
    ///
    /// ```
    /// let mut to = iobufs::FrameWriter::new(Vec::new(), ..=1024);
    /// to.get_mut().extend_from_slice(b"v1");
    /// to.put("ok")?;
    /// to.send()?;
    /// assert_eq!(to.get_ref(), b"v1\x02ok");
    /// # Ok::<(), Box<dyn std::error::Error>>(())
    /// ```
    pub fn get_mut(&mut self) -> &mut W {
        &mut self.0.to.to
    }

    /// Returns the writer. Frames that aren't sent are dropped.
    ///
    /// ```
    /// let mut to = iobufs::FrameWriter::new(Vec::<u8>::new(), ..=1024);
    /// to.put("ok").unwrap();
    /// assert!(to.into_inner().is_empty());
    /// ```
    pub fn into_inner(self) -> W {
        self.0.to.to
    }
}

impl<W: Write> FrameWriter<W> {
    /// Writes the frames that were put, by vectored writes of up to 64 chunks, and flushes the writer.
    ///
    /// ```
    /// let mut space = [0; 4];
    /// let mut to = iobufs::FrameWriter::new(&mut space[..], ..=1024);
    /// to.put("hello")?;
    /// let error = to.send().unwrap_err(); // four bytes are taken
    /// assert_eq!(error.kind(), std::io::ErrorKind::WriteZero);
    /// assert_eq!(to.unsent(), 2);
    /// # Ok::<(), iobufs::Error>(())
    /// ```
    ///
    /// # Errors
    /// Returns the writer's error, [`WriteZero`](ErrorKind::WriteZero) if the writer takes no byte, and
    /// [`Other`](ErrorKind::Other) if it says that it took more than the chunks of one vectored write have: then it is
    /// given the same again.
    /// After another error no byte is lost or written twice, and `send` may be called again.
    ///
    /// # Panics
    /// If the `Drop` of a body's owner panics, its bytes were sent. Then nothing more is written, and each `send`
    /// returns an error. The owner of a body that was copied is dropped in [`put`](Self::put).
    pub fn send(&mut self) -> io::Result<()> {
        if self.0.to.took {
            return Err(io::Error::other("an owner of sent bytes panicked as it was dropped"));
        }
        let sent = self.0.send();
        self.0.to.took = false;
        sent?;
        self.0.to.flush()
    }
}

impl<W: fmt::Debug> fmt::Debug for FrameWriter<W> {
    fn fmt(&self, f: &mut fmt::Formatter<'_>) -> fmt::Result {
        f.debug_struct("FrameWriter").field("to", &self.0.to.to).field("unsent", &self.unsent()).finish_non_exhaustive()
    }
}
