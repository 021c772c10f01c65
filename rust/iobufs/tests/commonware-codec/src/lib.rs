//! The traits of commonware-codec that `iobufs` implements, in their shapes, for tests without a registry.
use bytes::{BufMut, Bytes};
use std::any::Any;
use std::ops::{Bound, RangeBounds};

/// Why a value was not read.
#[derive(Debug, PartialEq, Eq)]
pub enum Error {
    EndOfBuffer,
    InvalidVarint,
    InvalidLength(usize),
    ExtraData(usize),
}

/// Bytes that are taken out of a buffer.
pub trait OwnedBytes: Sized + 'static {
    fn from_bytes(bytes: Bytes) -> Self;

    /// Returns a value of this very type as it is.
    fn claim<T: 'static>(value: T) -> Result<Self, T> {
        let mut slot = Some(value);
        match (&mut slot as &mut dyn Any).downcast_mut::<Option<Self>>() {
            Some(found) => Ok(found.take().expect("a value was put")),
            None => Err(slot.expect("a value was put")),
        }
    }
}

impl OwnedBytes for Bytes {
    fn from_bytes(bytes: Bytes) -> Self {
        bytes
    }
}

/// A source of bytes that are taken.
pub trait Buf: bytes::Buf {
    fn take_owned<T: OwnedBytes>(&mut self, n: usize) -> T;

    fn try_take_owned<T: OwnedBytes>(&mut self, n: usize) -> Result<T, Error> {
        if n > self.remaining() {
            return Err(Error::EndOfBuffer);
        }
        Ok(self.take_owned(n))
    }
}

/// A destination that takes whole buffers.
pub trait BufsMut: BufMut {
    fn push(&mut self, chunk: impl Into<Bytes> + 'static);
}

pub trait EncodeSize {
    fn encode_size(&self) -> usize;

    fn encode_inline_size(&self) -> usize {
        self.encode_size()
    }
}

pub trait Write {
    fn write(&self, buf: &mut impl BufMut);

    fn write_bufs(&self, buf: &mut impl BufsMut) {
        self.write(buf);
    }
}

pub trait Read: Sized {
    type Cfg;

    fn read_cfg(buf: &mut impl Buf, cfg: &Self::Cfg) -> Result<Self, Error>;
}

/// Bytes of which a value is decoded.
pub trait Input: Into<Self::Buf> {
    type Buf: Buf;
}

/// A buffer is its own source.
impl<T: Buf> Input for T {
    type Buf = T;
}

pub trait Decode: Read {
    fn decode_cfg(buf: impl Input, cfg: &Self::Cfg) -> Result<Self, Error> {
        let mut buf = buf.into();
        let value = Self::read_cfg(&mut buf, cfg)?;
        match bytes::Buf::remaining(&buf) {
            0 => Ok(value),
            n => Err(Error::ExtraData(n)),
        }
    }
}

impl<T: Read> Decode for T {}

/// The lengths from a least to a greatest one.
pub struct RangeCfg<T>(T, T);

impl<R: RangeBounds<usize>> From<R> for RangeCfg<usize> {
    fn from(range: R) -> Self {
        let lo = match range.start_bound() {
            Bound::Included(n) => *n,
            Bound::Excluded(n) => n + 1,
            Bound::Unbounded => 0,
        };
        let hi = match range.end_bound() {
            Bound::Included(n) => *n,
            Bound::Excluded(n) => n - 1,
            Bound::Unbounded => usize::MAX,
        };
        RangeCfg(lo, hi)
    }
}

/// Seven bits a byte, the lowest first, in the shortest form.
impl EncodeSize for usize {
    fn encode_size(&self) -> usize {
        (usize::BITS - (self | 1).leading_zeros()).div_ceil(7) as usize
    }
}

impl Write for usize {
    fn write(&self, buf: &mut impl BufMut) {
        let mut rest = *self;
        while rest >= 128 {
            buf.put_u8(rest as u8 | 128);
            rest >>= 7;
        }
        buf.put_u8(rest as u8);
    }
}

impl Read for usize {
    type Cfg = RangeCfg<usize>;

    fn read_cfg(buf: &mut impl Buf, range: &Self::Cfg) -> Result<Self, Error> {
        let mut n = 0;
        for place in 0..10 {
            let byte = buf.try_get_u8().map_err(|_| Error::EndOfBuffer)?;
            n |= usize::from(byte & 127) << (7 * place);
            if byte < 128 {
                let is_long = (byte == 0 && place > 0) || (place == 9 && byte > 1);
                let is_within = range.0 <= n && n <= range.1;
                return if is_long {
                    Err(Error::InvalidVarint)
                } else {
                    is_within.then_some(n).ok_or(Error::InvalidLength(n))
                };
            }
        }
        Err(Error::InvalidVarint)
    }
}
