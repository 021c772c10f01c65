//! Buffers as readers and writers of std.
#![forbid(unsafe_code)]
use crate::{Builder, IoBuf, IoBufMut, IoBufs, IoBufsMut};
use std::fmt;
use std::io::{self, BufRead, IoSlice, Read, Result, Write};

macro_rules! reads {
    ($($buffer:ident, |$self:ident, $dst:ident| $read:expr;)*) => {$(
        impl Read for $buffer {
            fn read(&mut $self, $dst: &mut [u8]) -> Result<usize> {
                $read
            }
        }

        impl BufRead for $buffer {
            fn fill_buf(&mut self) -> Result<&[u8]> {
                Ok(self.chunk())
            }

            fn consume(&mut self, n: usize) {
                self.advance(n);
            }
        }
    )*};
}

reads! {
    IoBuf, |self, dst| self.0.read(dst);
    IoBufMut, |self, dst| self.0.read(dst);
    IoBufs, |self, dst| self.0.read(dst);
    IoBufsMut, |self, dst| {
        let n = dst.len().min(self.len());
        self.copy_to_slice(&mut dst[..n]);
        Ok(n)
    };
}

macro_rules! writes {
    ($($buffer:ident, |$self:ident, $src:ident| $write:expr;)*) => {$(
        /// Takes what fits.
        impl Write for $buffer {
            fn write(&mut $self, $src: &[u8]) -> Result<usize> {
                $write
            }

            fn flush(&mut self) -> Result<()> {
                Ok(())
            }
        }

        /// Takes a string that fits, or nothing.
        impl fmt::Write for $buffer {
            fn write_str(&mut self, text: &str) -> fmt::Result {
                self.try_put(text.as_bytes()).then_some(()).ok_or(fmt::Error)
            }
        }
    )*};
}

writes! {
    IoBufMut, |self, src| self.0.write(src);
    IoBufsMut, |self, src| {
        let n = src.len().min(self.remaining_mut());
        self.put_slice(&src[..n]);
        Ok(n)
    };
    Builder, |self, src| self.0.write(src);
}

/// A writer that returns an error if the inner writer's count is above the sum of the chunks' lengths. The proved calls
/// assume that a writer takes no more than it was given. A writer without a vectored write is given the first chunk
/// alone; a count above that, but not above the sum, isn't noticed.
pub(crate) struct Honest<W> {
    pub(crate) to: W,
    /// Whether it took bytes that aren't dropped yet. It stays so if the drop of an owner panics.
    pub(crate) took: bool,
}

impl<W: Write> Write for Honest<W> {
    fn write(&mut self, bytes: &[u8]) -> Result<usize> {
        self.write_vectored(&[IoSlice::new(bytes)])
    }

    #[inline(always)]
    fn write_vectored(&mut self, chunks: &[IoSlice<'_>]) -> Result<usize> {
        self.took = false;
        let given = chunks.iter().fold(0, |sum: usize, chunk| sum.saturating_add(chunk.len()));
        let n = self.to.write_vectored(chunks)?;
        if n > given {
            return Err(io::Error::other("a writer says that it took more than it was given"));
        }
        self.took = true;
        Ok(n)
    }

    fn flush(&mut self) -> Result<()> {
        self.to.flush()
    }
}
