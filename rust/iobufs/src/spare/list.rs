//! The values of a list, borrowed, without their count.
#![forbid(unsafe_code)]
use super::*;

impl<T: Write> List<T> {
    /// Returns the values as one.
    pub(crate) fn each(values: &[T]) -> impl Write {
        Each(values)
    }
}

struct Each<'a, T>(&'a [T]);

impl<T: EncodeSize> EncodeSize for Each<'_, T> {
    fn encode_size(&self) -> Option<usize> {
        each_size(self.0)
    }

    fn encode_inline_size(&self) -> usize {
        each_inline_size(self.0)
    }
}

impl<T: Write> Write for Each<'_, T> {
    fn write<B: BufMut>(&self, buf: &mut B) {
        write_each(self.0, buf)
    }

    fn write_bufs<B: BufsMut>(&self, buf: &mut B) -> Result<(), Error> {
        write_each_bufs(self.0, buf)
    }
}
