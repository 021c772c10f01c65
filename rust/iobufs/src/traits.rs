//! The traits of the crate `bytes`, and conversions from `Bytes` and `BytesMut`, and to `Bytes`. Those of one
//! chunk to a view or a `Bytes` copy nothing; one to a buffer to write may copy.
use crate::kit::bytes as kit;
use crate::proved::iobufs_core as inner;
use crate::{Builder, IoBuf, IoBufMut, IoBufs, IoBufsMut};
use bytes::buf::UninitSlice;
use bytes::{Buf, BufMut, Bytes, BytesMut};
use std::io::IoSlice;

macro_rules! reads {
    ($($buffer:ident { $($more:tt)* })*) => {$(
        impl Buf for $buffer {
            #[inline]
            fn remaining(&self) -> usize {
                self.len()
            }

            #[inline]
            fn chunk(&self) -> &[u8] {
                <$buffer>::chunk(self)
            }

            #[inline]
            #[track_caller]
            fn advance(&mut self, n: usize) {
                <$buffer>::advance(self, n)
            }

            #[inline]
            #[track_caller]
            fn copy_to_slice(&mut self, dst: &mut [u8]) {
                <$buffer>::copy_to_slice(self, dst)
            }

            #[inline]
            #[track_caller]
            fn copy_to_bytes(&mut self, n: usize) -> Bytes {
                <$buffer>::copy_to_bytes(self, n)
            }

            $($more)*
        }
    )*};
}

macro_rules! chunks {
    ($buffer:ident) => {
        fn chunks_vectored<'a>(&'a self, dst: &mut [IoSlice<'a>]) -> usize {
            <$buffer>::chunks_vectored(self, dst)
        }
    };
}

/// Numbers at the front.
macro_rules! gets {
    ($($get:ident $little:ident $signed:ident $little_signed:ident $number:ty, $integer:ty;)+) => {
        #[inline]
        #[track_caller]
        fn get_u8(&mut self) -> u8 {
            Self::get_u8(self)
        }

        #[inline]
        #[track_caller]
        fn get_i8(&mut self) -> i8 {
            Self::get_u8(self) as i8
        }
        $(
            #[inline]
            #[track_caller]
            fn $get(&mut self) -> $number {
                Self::$get(self)
            }

            #[inline]
            #[track_caller]
            fn $little(&mut self) -> $number {
                Self::$get(self).swap_bytes()
            }

            #[inline]
            #[track_caller]
            fn $signed(&mut self) -> $integer {
                Self::$get(self) as $integer
            }

            #[inline]
            #[track_caller]
            fn $little_signed(&mut self) -> $integer {
                Self::$get(self).swap_bytes() as $integer
            }
        )*
    };
    () => {
        gets! {
            get_u16 get_u16_le get_i16 get_i16_le u16, i16;
            get_u32 get_u32_le get_i32 get_i32_le u32, i32;
            get_u64 get_u64_le get_i64 get_i64_le u64, i64;
        }
    };
}

reads! {
    IoBuf { gets! {} }
    IoBufMut {}
    IoBufs { gets! {} chunks! { IoBufs } }
    IoBufsMut { chunks! { IoBufsMut } }
}

/// Takes the storage over, or copies, as `Vec::from` does.
pub(crate) fn vec_of(bytes: Bytes) -> Vec<u8> {
    match bytes.try_into_mut() {
        Ok(bytes) => bytes.into(),
        Err(bytes) => bytes.to_vec(),
    }
}

macro_rules! conversions {
    ($($(#[$said:meta])* $from:ty => $to:ty, $make:expr;)*) => {$(
        $(#[$said])*
        impl From<$from> for $to {
            fn from(bytes: $from) -> Self {
                $make(bytes)
            }
        }
    )*};
}

conversions! {
    Bytes => IoBuf, |bytes| IoBuf(inner::IoBuf::from(kit::Bytes(bytes)));
    BytesMut => IoBuf, |bytes: BytesMut| IoBuf::from(bytes.freeze());
    /// Takes the whole storage over, if no other handle shares it, and it is neither static nor an owner's; else
    /// copies.
    Bytes => IoBufMut, |bytes| IoBufMut::from(vec_of(bytes));
    /// Takes the whole storage over, if no other handle shares it; else copies, with the capacity.
    BytesMut => IoBufMut, |bytes: BytesMut| {
        let least = bytes.capacity();
        let mut storage = Vec::from(bytes);
        storage.reserve_exact(least - storage.len().min(least));
        IoBufMut::from(storage)
    };
    BytesMut => IoBufsMut, |bytes: BytesMut| IoBufMut::from(bytes).into();
    /// Copies nothing: a `Bytes` comes back as it was, and other bytes are kept by the view. An empty view drops its
    /// share of the storage.
    IoBuf => Bytes, |view: IoBuf| if view.is_empty() {
        Bytes::new()
    } else {
        match view.0.into_shared() {
            Ok(bytes) => bytes.0,
            Err(view) => Bytes::from_owner(IoBuf(view)),
        }
    };
    IoBufMut => Bytes, |part: IoBufMut| part.freeze().into();
}

/// `BufMut`, which is an unsafe trait, of buffers that panic by a function if what is put doesn't fit.
macro_rules! buf_mut {
    ($($buffer:ident $past:path;)*) => {$(
        buf_mut! { $buffer, $past, put_slice(src: &[u8]), put_bytes(value: u8, n: usize), put_u8(n: u8), put_u16(n: u16),
            put_u32(n: u32), put_u64(n: u64) }
    )*};
    ($buffer:ident, $past:path, $($put:ident($($arg:ident: $type:ty),*)),*) => {
        // SAFETY: `space` is within the capacity, and `fill` counts no more than that.
        #[allow(unsafe_code)]
        unsafe impl BufMut for $buffer {
            #[inline]
            fn remaining_mut(&self) -> usize {
                <$buffer>::remaining_mut(self)
            }

            #[inline]
            #[track_caller]
            unsafe fn advance_mut(&mut self, n: usize) {
                // SAFETY: the caller's duty.
                unsafe { self.0.fill(n) }
            }

            #[inline]
            fn chunk_mut(&mut self) -> &mut UninitSlice {
                UninitSlice::uninit(self.0.space())
            }

            #[inline]
            #[track_caller]
            fn put<B: Buf>(&mut self, mut src: B) {
                if src.remaining() > self.remaining_mut() {
                    $past(src.remaining(), self.remaining_mut());
                }
                while src.has_remaining() {
                    let chunk = src.chunk();
                    let n = chunk.len();
                    self.put_slice(chunk);
                    src.advance(n);
                }
            }
            $(
                #[inline]
                #[track_caller]
                fn $put(&mut self, $($arg: $type),*) {
                    <$buffer>::$put(self, $($arg),*)
                }
            )*
        }
    };
}

buf_mut! { IoBufMut crate::error::full; IoBufsMut crate::error::past; Builder crate::error::past; }
