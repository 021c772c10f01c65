//! Readers and writers: std's traits, and buffers whose allocation may fail.
#![forbid(unsafe_code)]
use super::base::Global;
use super::vec::Vec;
pub use std::io::*;

/// A reader with a buffer.
pub trait BufRead: Read {
    /// Returns the bytes of the buffer, after one read into it if it is empty. They are empty only at the end.
    fn fill_buf(&mut self) -> Result<&[u8]>;

    /// Drops the first `amount` bytes of the buffer, which has them.
    fn consume(&mut self, amount: usize);

    /// Appends the bytes up to the first that equals `byte`, with it, or up to the end, and returns their number. A
    /// read that is interrupted is made again. If allocation fails, the error's kind is `OutOfMemory`.
    fn read_until(&mut self, byte: u8, to: &mut Vec<u8>) -> Result<usize> {
        let mut count = 0;
        loop {
            let chunk = match self.fill_buf() {
                Err(error) if error.kind() == ErrorKind::Interrupted => continue,
                chunk => chunk?,
            };
            let end = chunk.iter().position(|it| *it == byte);
            let n = end.map_or(chunk.len(), |index| index + 1);
            to.extend_from_slice(&chunk[..n])?;
            self.consume(n);
            count += n;
            if end.is_some() || n == 0 {
                return Ok(count);
            }
        }
    }
}

impl BufRead for &[u8] {
    fn fill_buf(&mut self) -> Result<&[u8]> {
        Ok(self)
    }

    fn consume(&mut self, amount: usize) {
        *self = &self[amount..];
    }
}

/// A reader that reads a block at once.
pub struct BufReader<R> {
    inner: R,
    block: Vec<u8>,
    // The bytes of the block that were read, and not consumed.
    start: usize,
    end: usize,
}

impl<R: Read> BufReader<R> {
    /// Reads at most `n` bytes at once. If allocation fails, the error's kind is `OutOfMemory`, and the reader is
    /// dropped.
    pub fn with_capacity(alloc: Global, n: usize, inner: R) -> Result<BufReader<R>> {
        Ok(BufReader { inner, block: Vec::from_elem(alloc, 0, n)?, start: 0, end: 0 })
    }

    /// Returns the bytes that were read, and not consumed.
    #[inline]
    pub fn buffer(&self) -> &[u8] {
        &self.block[self.start..self.end]
    }
}

impl<R: Read> Read for BufReader<R> {
    /// Takes bytes from the buffer, after one read into it if it is empty. Space for a whole block is read into
    /// directly.
    fn read(&mut self, to: &mut [u8]) -> Result<usize> {
        if self.start == self.end && to.len() >= self.block.len() {
            return self.inner.read(to);
        }
        let bytes = self.fill_buf()?;
        let n = to.len().min(bytes.len());
        to[..n].copy_from_slice(&bytes[..n]);
        self.consume(n);
        Ok(n)
    }
}

impl<R: Read> BufRead for BufReader<R> {
    #[inline]
    fn fill_buf(&mut self) -> Result<&[u8]> {
        if self.start == self.end {
            (self.start, self.end) = (0, 0);
            self.end = self.inner.read(self.block.as_mut_slice())?.min(self.block.len());
        }
        Ok(self.buffer())
    }

    #[inline]
    fn consume(&mut self, amount: usize) {
        debug_assert!(amount <= self.end - self.start);
        self.start = self.end.min(self.start + amount);
    }
}

/// A writer that writes a block at once. Drops what isn't flushed.
pub struct BufWriter<W> {
    inner: W,
    block: Vec<u8>,
}

impl<W: Write> BufWriter<W> {
    /// Gathers fewer than `n` bytes for one write; `n` or more are written directly. If allocation fails, the error's
    /// kind is `OutOfMemory`, and the writer is dropped.
    pub fn with_capacity(alloc: Global, n: usize, inner: W) -> Result<BufWriter<W>> {
        Ok(BufWriter { inner, block: Vec::with_capacity(alloc, n)? })
    }

    // Writes the block. If it fails, what wasn't written stays. A write that is interrupted is made again.
    fn write_block(&mut self) -> Result<()> {
        let mut written = 0;
        let mut result = Ok(());
        while written < self.block.len() && result.is_ok() {
            match self.inner.write(&self.block[written..]) {
                Ok(0) => result = Err(ErrorKind::WriteZero.into()),
                Ok(n) => written += n,
                Err(error) if error.kind() == ErrorKind::Interrupted => {}
                Err(error) => result = Err(error),
            }
        }
        self.block.0.drain(..written.min(self.block.len()));
        result
    }

    // Stands apart, so that the test for space is inlined.
    #[cold]
    #[inline(never)]
    fn write_rest(&mut self, bytes: &[u8]) -> Result<usize> {
        if bytes.len() > self.block.capacity() - self.block.len() {
            self.write_block()?;
        }
        if bytes.len() >= self.block.capacity() {
            return self.inner.write(bytes);
        }
        self.block.extend_from_slice(bytes)?;
        Ok(bytes.len())
    }
}

impl<W: Write> Write for BufWriter<W> {
    #[inline]
    fn write(&mut self, bytes: &[u8]) -> Result<usize> {
        if bytes.len() < self.block.capacity() - self.block.len() {
            self.block.0.extend_from_slice(bytes);
            return Ok(bytes.len());
        }
        self.write_rest(bytes)
    }

    /// Writes all bytes of the block, and flushes the writer.
    fn flush(&mut self) -> Result<()> {
        self.write_block()?;
        self.inner.flush()
    }
}
