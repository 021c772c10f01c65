//! The original by the names of the Rust crate, as far as its example `bench` has them.
pub use commonware_runtime::iobuf::{Builder, IoBuf, IoBufMut, IoBufs, IoBufsMut};

pub mod codec {
    pub use commonware_codec::Read as Decode;
    pub use commonware_runtime::iobuf::EncodeExt as Encode;
}

/// The traits of the original's calls, and our calls of an `IoBufs` that it lacks.
pub mod calls {
    use super::{IoBuf, IoBufs};
    pub use bytes::Buf as _;
    use bytes::Bytes;
    pub use commonware_codec::{Buf as _, BufsMut as _};
    use commonware_codec::{Error, Read as _};
    use std::ops::RangeToInclusive;

    pub trait Calls: commonware_codec::Buf + Sized {
        fn read_length(&mut self, range: RangeToInclusive<usize>) -> Result<usize, Error> {
            usize::read_cfg(self, &(0..=range.end).into())
        }

        fn read_view(&mut self, range: RangeToInclusive<usize>) -> Result<IoBuf, Error> {
            IoBuf::read_cfg(self, &(0..=range.end).into())
        }

        /// The original's own call for this gives a `Bytes`.
        fn take_view(&mut self, n: usize) -> Bytes {
            self.copy_to_bytes(n)
        }

        fn locate(&self, at: usize) -> Option<(usize, usize)>;
    }

    impl Calls for IoBufs {
        fn locate(&self, mut at: usize) -> Option<(usize, usize)> {
            let mut index = 0;
            loop {
                let len = self.chunk_at(index)?.len();
                if at < len {
                    return Some((index, at));
                }
                at -= len;
                index += 1;
            }
        }
    }
}

/// A number and a view of up to so many bytes, written one after the other.
#[macro_export]
macro_rules! fields {
    ($name:ident { $number:ident: u32, $body:ident: IoBuf = ..=$most:literal }) => {
        impl commonware_codec::EncodeSize for $name {
            fn encode_size(&self) -> usize {
                4 + self.$body.encode_size()
            }

            fn encode_inline_size(&self) -> usize {
                4 + self.$body.encode_inline_size()
            }
        }

        impl commonware_codec::Write for $name {
            fn write(&self, buf: &mut impl bytes::BufMut) {
                buf.put_u32(self.$number);
                self.$body.write(buf);
            }

            fn write_bufs(&self, buf: &mut impl commonware_codec::BufsMut) {
                buf.put_u32(self.$number);
                self.$body.write_bufs(buf);
            }
        }

        impl commonware_codec::Read for $name {
            type Cfg = ();

            fn read_cfg(buf: &mut impl commonware_codec::Buf, _: &()) -> Result<Self, commonware_codec::Error> {
                let $number = buf.try_get_u32().or(Err(commonware_codec::Error::EndOfBuffer))?;
                let $body = IoBuf::read_cfg(buf, &(0..=$most).into())?;
                Ok($name { $number, $body })
            }
        }
    };
}
