//! The traits of the crate `commonware-codec` for the buffers (feature `commonware-codec`).
#![forbid(unsafe_code)]
use crate::{Builder, IoBuf, IoBufMut, IoBufs, IoBufsMut};
use bytes::{BufMut, Bytes};
use commonware_codec::{Buf, BufsMut, EncodeSize, Error, Input, OwnedBytes, RangeCfg, Read, Write};

impl OwnedBytes for IoBuf {
    fn from_bytes(bytes: Bytes) -> Self {
        bytes.into()
    }
}

/// Takes a view, or what is made of one, without a copy of bytes in one chunk.
fn owned<T: OwnedBytes>(view: IoBuf) -> T {
    T::claim(view).unwrap_or_else(|view| T::from_bytes(view.into()))
}

impl Buf for IoBuf {
    fn take_owned<T: OwnedBytes>(&mut self, n: usize) -> T {
        owned(IoBuf::take_view(self, n))
    }
}

impl Buf for IoBufs {
    fn take_owned<T: OwnedBytes>(&mut self, n: usize) -> T {
        owned(IoBufs::take_view(self, n))
    }
}

impl Input for IoBufMut {
    type Buf = IoBuf;
}

impl Input for IoBufsMut {
    type Buf = IoBufs;
}

impl BufsMut for Builder {
    fn push(&mut self, chunk: impl Into<Bytes> + 'static) {
        Builder::push(self, chunk);
    }
}

impl EncodeSize for IoBuf {
    fn encode_size(&self) -> usize {
        self.encode_inline_size().checked_add(self.len()).expect("length overflow")
    }

    fn encode_inline_size(&self) -> usize {
        self.len().encode_size()
    }
}

impl Write for IoBuf {
    fn write(&self, buf: &mut impl BufMut) {
        self.len().write(buf);
        buf.put_slice(self.as_ref());
    }

    fn write_bufs(&self, buf: &mut impl BufsMut) {
        self.len().write(buf);
        buf.push(self.clone());
    }
}

impl Read for IoBuf {
    type Cfg = RangeCfg<usize>;

    fn read_cfg(buf: &mut impl Buf, range: &Self::Cfg) -> Result<Self, Error> {
        let n = usize::read_cfg(buf, range)?;
        buf.try_take_owned(n).map_err(|_| Error::EndOfBuffer)
    }
}

/// Encoding into an [`IoBufs`], which copies no view: of the values of the crate `commonware-codec`.
///
/// ```
/// use iobufs::EncodeExt;
///
/// assert_eq!(iobufs::IoBuf::from("hello").encode_iobufs(), "\x05hello");
/// ```
pub trait EncodeExt: EncodeSize + Write {
    /// Writes the value into an [`IoBufs`], without copying its views.
    ///
    /// ```
    /// use iobufs::EncodeExt;
    ///
    /// let body = iobufs::IoBuf::from(b"hello".to_vec());
    /// assert_eq!(body.encode_iobufs().chunk_at(1).unwrap().as_ptr(), body.as_ptr());
    /// ```
    ///
    /// # Panics
    /// Panics if the value writes more or fewer bytes than its `encode_size`.
    fn encode_iobufs(&self) -> IoBufs {
        let mut to = Builder::new(self.encode_inline_size());
        self.write_bufs(&mut to);
        let made = to.finish();
        assert_eq!(made.len(), self.encode_size(), "write_bufs() must write exactly encode_size() bytes");
        made
    }
}

impl<T: EncodeSize + Write> EncodeExt for T {}
