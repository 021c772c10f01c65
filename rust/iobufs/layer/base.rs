//! The allocator and the kit's traits.
#![forbid(unsafe_code)]
// By this name, so that tests can put a model of it in its place.
pub(crate) use std::sync::atomic;
use std::{fmt, io};

/// The allocator.
#[derive(Clone, Copy, Debug)]
pub struct Global;

/// An allocation failed.
#[derive(Clone, Copy, Debug, PartialEq, Eq)]
pub struct AllocError;

/// An allocation failed, and the argument comes back.
pub struct AllocFailed<T> {
    pub value: T,
}

impl<T> fmt::Debug for AllocFailed<T> {
    fn fmt(&self, f: &mut fmt::Formatter<'_>) -> fmt::Result {
        f.write_str("AllocFailed")
    }
}

impl<T> From<AllocFailed<T>> for AllocError {
    #[inline]
    fn from(_: AllocFailed<T>) -> AllocError {
        AllocError
    }
}

impl From<AllocError> for io::Error {
    #[inline]
    fn from(_: AllocError) -> io::Error {
        io::ErrorKind::OutOfMemory.into()
    }
}

impl<T> From<AllocFailed<T>> for io::Error {
    #[inline]
    fn from(_: AllocFailed<T>) -> io::Error {
        AllocError.into()
    }
}

/// A type whose values may be dropped. Each of Rust's may.
pub trait Drop {}

impl<T: ?Sized> Drop for T {}

/// A clone, which may fail to allocate.
pub trait Clone: Sized {
    fn clone(&self) -> Result<Self, AllocError>;
}

/// A collection made of items, which may fail to allocate.
pub trait FromIterator<T>: Sized {
    type Alloc;

    fn from_iter<I: IntoIterator<Item = T>>(alloc: Self::Alloc, iter: I) -> Result<Self, AllocError>;
}

/// Numbers of one size with and without a sign: rustc has these calls from 1.87 on.
pub trait CastSign {
    /// The number of the other kind with the same bits.
    type Other;

    fn cast_signed(self) -> Self::Other;

    fn cast_unsigned(self) -> Self::Other;
}

macro_rules! casts {
    ($($number:ty, $other:ty;)*) => {$(
        impl CastSign for $number {
            type Other = $other;

            #[inline]
            fn cast_signed(self) -> $other {
                self as $other
            }

            #[inline]
            fn cast_unsigned(self) -> $other {
                self as $other
            }
        }
    )*};
}

casts! { u8, i8; u16, i16; u32, i32; u64, i64; u128, i128; i8, u8; i16, u16; i32, u32; i64, u64; i128, u128; }
