//! Lengths at the front of any `Buf`, and put into any `BufMut`.
#![forbid(unsafe_code)]
use crate::Error;
use crate::error::fault;
use crate::kit::{Global, bytes as kit, prelude};
use crate::proved::iobufs_core::codec as core;
use crate::proved::iobufs_frames::Prefix;
use bytes::{Buf, BufMut};
use std::io::IoSlice;
use std::ops::RangeBounds;

/// How many bytes the longest varint has.
const LONGEST: usize = 10;

/// Reads lengths from the front of any [`Buf`], which are varints of [`length_size`](crate::length_size) bytes.
///
/// The trait is imported by name, so that a trait of one's own may have a `read_length` too.
pub trait ReadLength: Buf {
    /// Reads the length at the front if it is in the range (`usize::read_cfg`).
    ///
    /// ```
    /// use iobufs::{Error, ReadLength};
    ///
    /// let mut buf = iobufs::IoBufs::from([b"\xac".into(), b"\x02ok".into()]);
    /// assert_eq!(buf.read_length(..=255), Err(Error::InvalidLength(300)));
    /// assert_eq!(buf.read_length(..=1024), Ok(300));
    /// assert_eq!(buf, "ok");
    /// ```
    ///
    /// # Errors
    /// Returns [`Error::InvalidVarint`] if no varint of 64 bits begins here, [`Error::InvalidLength`] if the length is
    /// outside the range, and [`Error::EndOfBuffer`] if the bytes end inside the varint. Then nothing changes, unless
    /// the `Buf` has several chunks and [`chunks_vectored`](Buf::chunks_vectored) doesn't show them: the bytes of the
    /// varint are dropped.
    fn read_length(&mut self, range: impl RangeBounds<usize>) -> Result<usize, Error>;
}

impl<B: Buf + ?Sized> ReadLength for B {
    #[inline]
    fn read_length(&mut self, range: impl RangeBounds<usize>) -> Result<usize, Error> {
        let (range, first) = (core::RangeCfg::new(range), self.chunk());
        if first.len() < LONGEST && first.len() < self.remaining() {
            return across_chunks(self, &range);
        }
        let (value, len) = core::peek_length(&Front(first), 0, &range).map_err(fault)?;
        self.advance(len);
        Ok(value)
    }
}

/// Reads a length of which the first chunk may have only a part.
#[cold]
fn across_chunks<B: Buf + ?Sized>(buf: &mut B, range: &core::RangeCfg) -> Result<usize, Error> {
    let mut slices = [IoSlice::new(&[]); LONGEST];
    let count = buf.chunks_vectored(&mut slices);
    let mut front = [0; LONGEST];
    let shown = slices[..count].iter().flat_map(|it| it.iter()).zip(&mut front).map(|(byte, to)| *to = *byte).count();
    if shown < LONGEST.min(buf.remaining()) {
        return byte_by_byte(buf, range);
    }
    let (value, len) = core::peek_length(&Front(&front[..shown]), 0, range).map_err(fault)?;
    buf.advance(len);
    Ok(value)
}

/// Reads a length of which not all bytes can be seen.
fn byte_by_byte<B: Buf + ?Sized>(buf: &mut B, range: &core::RangeCfg) -> Result<usize, Error> {
    let (mut front, mut len) = ([0; LONGEST], 0);
    while len < LONGEST && buf.has_remaining() && (len == 0 || front[len - 1] >= 128) {
        front[len] = buf.get_u8();
        len += 1;
    }
    core::peek_length(&Front(&front[..len]), 0, range).map(|(value, _)| value).map_err(fault)
}

/// Puts lengths into any [`BufMut`], as varints of [`length_size`](crate::length_size) bytes.
///
/// The trait is imported by name, so that a trait of one's own may have a `put_length` too.
pub trait PutLength: BufMut {
    /// Puts a length (`usize::write`).
    ///
    /// ```
    /// use iobufs::PutLength;
    ///
    /// let mut buf = iobufs::IoBufMut::with_capacity(2);
    /// buf.put_length(300);
    /// assert_eq!(buf, [0xac, 0x02]);
    /// ```
    ///
    /// # Panics
    /// Panics if it doesn't fit.
    fn put_length(&mut self, n: usize);
}

impl<B: BufMut + ?Sized> PutLength for B {
    #[inline]
    #[track_caller]
    fn put_length(&mut self, n: usize) {
        self.put_slice(Prefix::Spelled.head(n).as_slice());
    }
}

/// Bytes of which the proved call reads a length.
struct Front<'a>(&'a [u8]);

impl core::Buf for Front<'_> {
    #[inline]
    fn remaining(&self) -> usize {
        self.0.len()
    }

    #[inline]
    fn chunk(&self) -> &[u8] {
        self.0
    }

    #[inline]
    fn byte_at(&self, i: usize) -> Option<u8> {
        self.0.get(i).copied()
    }

    fn advance(&mut self, n: usize) {
        self.0 = &self.0[n..];
    }

    fn copy_to_slice(&mut self, _: &mut [u8]) {
        unreachable!("a length is read by its bytes")
    }

    fn copy_to_bytes(&mut self, _: Global, _: usize) -> Result<kit::Bytes, core::BufError> {
        unreachable!("a length is read by its bytes")
    }

    fn chunks_vectored(&self, _: Global, _: usize) -> Result<prelude::Vec<&[u8]>, core::BufError> {
        unreachable!("a length is read by its bytes")
    }
}
