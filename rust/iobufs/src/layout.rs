//! Headers of frames that are more than a length, and frames that are taken with them.
#![forbid(unsafe_code)]
use crate::proved::iobufs_frames as inner;
use crate::{IoBuf, IoBufs, Prefix};

/// Where a frame's length is in its header, how it is written, and what it counts. A `Prefix` is the layout of a header
/// that is its length alone.
///
/// A header that is written has at most 22 bytes around its length.
///
/// ```
/// use iobufs::{FrameReader, FrameWriter, Layout, Prefix};
/// /// PostgreSQL: a type, then a length that counts its own four bytes.
/// const POSTGRES: Layout = Layout::new(Prefix::U32Be).before(1).counts(4);
/// /// HTTP/2: a length, then type, flags and stream.
/// const HTTP2: Layout = Layout::new(Prefix::U24Be).after(6);
///
/// let mut to = FrameWriter::with_prefix(Vec::new(), POSTGRES, ..=1024);
/// to.put_with(b"Q", &[], "SELECT 1\0")?;
/// to.send()?;
/// assert_eq!(to.get_ref(), b"Q\0\0\0\x0dSELECT 1\0");
///
/// let mut from = FrameReader::with_prefix(&to.get_ref()[..], POSTGRES, ..=1024);
/// let query = from.next_whole()?.unwrap();
/// assert_eq!(query.header()[0], b'Q');
/// assert_eq!(query.into_body(), "SELECT 1\0");
/// # let _ = HTTP2;
/// # Ok::<(), Box<dyn std::error::Error>>(())
/// ```
#[derive(Clone, Copy, Debug, Default, PartialEq, Eq, Hash)]
pub struct Layout {
    before: u8,
    prefix: Prefix,
    after: u8,
    counts: u8,
}

impl Layout {
    /// Makes the layout of a header that is its length alone, which counts the body.
    pub const fn new(prefix: Prefix) -> Self {
        Layout { before: 0, prefix, after: 0, counts: 0 }
    }

    /// Sets how many bytes are before the length.
    pub const fn before(mut self, n: u8) -> Self {
        self.before = n;
        self
    }

    /// Sets how many bytes are between the length and the body.
    pub const fn after(mut self, n: u8) -> Self {
        self.after = n;
        self
    }

    /// Sets how many bytes the length counts besides those of the body.
    pub const fn counts(mut self, n: u8) -> Self {
        self.counts = n;
        self
    }

    #[inline]
    pub(crate) fn inner(self) -> inner::Layout {
        let Layout { before, prefix, after, counts } = self;
        inner::Layout { before, prefix: prefix.inner(), after, counts }
    }
}

impl From<Prefix> for Layout {
    fn from(prefix: Prefix) -> Self {
        Layout::new(prefix)
    }
}

/// A frame with its header, as an `IoBuf` or an `IoBufs`.
///
/// ```
/// use iobufs::{FrameReader, Layout, Prefix};
///
/// let layout = Layout::new(Prefix::Varint).before(1).after(2);
/// let mut from = FrameReader::with_prefix(&b"Q\x05abhello"[..], layout, ..=1024);
/// let whole = from.next_whole()?.unwrap();
/// assert_eq!((whole.before(), whole.after(), whole.header()), (&b"Q"[..], &b"ab"[..], &b"Q\x05ab"[..]));
/// assert_eq!(whole.into_body(), "hello");
/// # Ok::<(), iobufs::FrameError>(())
/// ```
#[derive(Clone, Debug)]
pub struct Whole<T> {
    header: usize,
    before: usize,
    after: usize,
    frame: T,
}

impl<T> Whole<T> {
    /// A frame of a layout, with how many bytes its header has.
    pub(crate) fn of(layout: inner::Layout, header: usize, frame: T) -> Self {
        Whole { header, before: layout.before.into(), after: layout.after.into(), frame }
    }

    /// Returns how many bytes the header has.
    pub fn header_len(&self) -> usize {
        self.header
    }

    /// Borrows header and body.
    pub fn get_ref(&self) -> &T {
        &self.frame
    }

    /// Returns header and body.
    pub fn into_inner(self) -> T {
        self.frame
    }
}

impl Whole<IoBuf> {
    /// Borrows the bytes of the header, the length among them.
    pub fn header(&self) -> &[u8] {
        &self.frame[..self.header]
    }

    /// Borrows the bytes of the header before the length.
    pub fn before(&self) -> &[u8] {
        &self.frame[..self.before]
    }

    /// Borrows the bytes of the header after the length.
    pub fn after(&self) -> &[u8] {
        &self.frame[self.header - self.after..self.header]
    }

    /// Returns the body, which shares the frame's storage.
    pub fn into_body(mut self) -> IoBuf {
        self.frame.advance(self.header);
        self.frame
    }
}

impl Whole<IoBufs> {
    /// Returns the bytes of the header before the length, in the frame's storage.
    pub fn before(&self) -> IoBufs {
        self.frame.slice(..self.before)
    }

    /// Returns the bytes of the header after the length, in the frame's storage.
    pub fn after(&self) -> IoBufs {
        self.frame.slice(self.header - self.after..self.header)
    }

    /// Returns the body, which shares the frame's storage.
    pub fn into_body(mut self) -> IoBufs {
        self.frame.advance(self.header);
        self.frame
    }
}
