#![doc = include_str!("../README.md")]
#![forbid(unsafe_code)]
#![warn(missing_docs)]
use bytes::{Bytes, BytesMut};
use iobufs::{FrameError, IoBuf, IoBufs, Layout, Whole};
use std::io;
use std::ops::RangeBounds;
use std::pin::Pin;
use std::task::{Context, Poll};
use tokio::io::{AsyncBufRead, AsyncRead, ReadBuf};
use tokio_util::codec::{Decoder, Encoder};

/// A codec of frames, over [`iobufs::FrameCodec`]. A body that is decoded shares the block that it was read into; one that
/// is encoded is copied.
#[derive(Clone, Copy, Debug, PartialEq, Eq)]
pub struct FrameCodec(iobufs::FrameCodec);

impl FrameCodec {
    /// Makes a codec of frames with bodies of lengths in `range`, and headers that are laid out so: as a [`Prefix`], or a
    /// [`Layout`].
    ///
    /// ```
    /// use iobufs_tokio::FrameCodec;
    /// use tokio_util::codec::FramedRead;
    ///
    /// let codec = FrameCodec::new(iobufs::Prefix::Varint, ..=1024);
    /// let bodies = FramedRead::new(&b"\x05hello"[..], codec); // a `Stream` of them
    /// # let _ = bodies;
    /// ```
    ///
    /// [`Prefix`]: iobufs::Prefix
    pub fn new(layout: impl Into<Layout>, range: impl RangeBounds<usize>) -> Self {
        FrameCodec(iobufs::FrameCodec::new(layout, range))
    }

    /// Returns a codec of such frames with their headers.
    pub fn whole(self) -> WholeCodec {
        WholeCodec(self.0)
    }
}

impl Decoder for FrameCodec {
    type Item = IoBuf;
    type Error = FrameError;

    fn decode(&mut self, src: &mut BytesMut) -> Result<Option<IoBuf>, FrameError> {
        Ok(self.0.decode(src)?)
    }

    /// Fails with `FrameError::Cut` if the input ends inside a frame.
    fn decode_eof(&mut self, src: &mut BytesMut) -> Result<Option<IoBuf>, FrameError> {
        match self.0.decode(src)? {
            None if !src.is_empty() => Err(FrameError::Cut),
            body => Ok(body),
        }
    }
}

impl Encoder<IoBufs> for FrameCodec {
    type Error = FrameError;

    /// Fails with `FrameError::Bad` of `Error::InvalidLength` if the body can't be sent; then `dst` is unchanged.
    fn encode(&mut self, body: IoBufs, dst: &mut BytesMut) -> Result<(), FrameError> {
        Ok(self.0.encode(&body, dst)?)
    }
}

macro_rules! encoders {
    ($($body:ty)*) => {$(
        impl Encoder<$body> for FrameCodec {
            type Error = FrameError;

            /// Fails with `FrameError::Bad` of `Error::InvalidLength` if the body can't be sent; then `dst` is
            /// unchanged.
            fn encode(&mut self, body: $body, dst: &mut BytesMut) -> Result<(), FrameError> {
                Ok(self.0.encode_slice(body.as_ref(), dst)?)
            }
        }
    )*};
}

encoders! { IoBuf Bytes &[u8] }

/// A codec of frames with their headers: a frame that is decoded shares the block that it was read into. One is encoded
/// of the bytes before its length, those after it, and its body.
///
/// ```
/// use bytes::BytesMut;
/// use iobufs::{IoBufs, Layout, Prefix};
/// use iobufs_tokio::FrameCodec;
/// use tokio_util::codec::{Decoder, Encoder};
///
/// let mut mqtt = FrameCodec::new(Layout::new(Prefix::Varint).before(1), ..=268_435_455).whole();
/// let mut bytes = BytesMut::new();
/// mqtt.encode((&[0x30][..], &[][..], IoBufs::from("hello")), &mut bytes)?;
/// assert_eq!(&bytes[..], b"\x30\x05hello");
/// assert_eq!(mqtt.decode(&mut bytes)?.unwrap().header(), b"\x30\x05");
/// # Ok::<(), iobufs::FrameError>(())
/// ```
#[derive(Clone, Copy, Debug, PartialEq, Eq)]
pub struct WholeCodec(iobufs::FrameCodec);

impl Decoder for WholeCodec {
    type Item = Whole<IoBuf>;
    type Error = FrameError;

    fn decode(&mut self, src: &mut BytesMut) -> Result<Option<Whole<IoBuf>>, FrameError> {
        Ok(self.0.decode_whole(src)?)
    }

    /// Fails with `FrameError::Cut` if the input ends inside a frame.
    fn decode_eof(&mut self, src: &mut BytesMut) -> Result<Option<Whole<IoBuf>>, FrameError> {
        match self.0.decode_whole(src)? {
            None if !src.is_empty() => Err(FrameError::Cut),
            whole => Ok(whole),
        }
    }
}

impl Encoder<(&[u8], &[u8], IoBufs)> for WholeCodec {
    type Error = FrameError;

    /// Fails with `FrameError::Bad` of `Error::InvalidLength` if the frame can't be sent; then `dst` is unchanged.
    fn encode(&mut self, frame: (&[u8], &[u8], IoBufs), dst: &mut BytesMut) -> Result<(), FrameError> {
        let (before, after, body) = frame;
        Ok(self.0.encode_with(before, after, &body, dst)?)
    }
}

/// The bytes of an [`IoBufs`] as a reader, which never waits.
///
/// ```
/// use iobufs::IoBufs;
///
/// let reader = iobufs_tokio::Reader(IoBufs::from(["ab".into(), "cde".into()]));
/// # fn is_reader(_: impl tokio::io::AsyncBufRead) {}
/// is_reader(reader);
/// ```
#[derive(Clone, Debug, Default)]
pub struct Reader(pub IoBufs);

impl AsyncRead for Reader {
    fn poll_read(mut self: Pin<&mut Self>, _: &mut Context<'_>, to: &mut ReadBuf<'_>) -> Poll<io::Result<()>> {
        let n = to.remaining().min(self.0.len());
        self.0.copy_to_slice(to.initialize_unfilled_to(n));
        to.advance(n);
        Poll::Ready(Ok(()))
    }
}

impl AsyncBufRead for Reader {
    fn poll_fill_buf(self: Pin<&mut Self>, _: &mut Context<'_>) -> Poll<io::Result<&[u8]>> {
        Poll::Ready(Ok(self.get_mut().0.chunk()))
    }

    fn consume(mut self: Pin<&mut Self>, n: usize) {
        self.0.advance(n);
    }
}
