//! Values that are written and read, by calls with the names of the original's codec.
//!
//! | value | bytes | [`Cfg`](Decode::Cfg) |
//! |---|---|---|
//! | `u8` to `u128`, `i8` to `i128` | the highest byte first | `()` |
//! | `usize` | a length: a varint | a [`RangeCfg`] |
//! | `bool` | 0 or 1 | `()` |
//! | `[u8; N]` | as they are | `()` |
//! | [`IoBuf`], [`Bytes`], `String` | their length, then their bytes | a [`RangeCfg`] |
//! | `Option<T>` | a `bool`, then the value if there is one | that of `T` |
//! | `Vec<T>` | the number of items as a length, then each item | a [`RangeCfg`], and that of `T` |
//! | a tuple of two to six | each value | a tuple of theirs |
//!
//! A view that is read shares the buffer's storage, if it is in one chunk. **A value is read whole: if that fails, the
//! buffer is unchanged.**
//!
//! A struct of a caller is written and read field by field, by [`fields!`](crate::fields). An enum is a byte that says
//! which variant it is, and then the variant's fields, by [`kinds!`](crate::kinds):
//!
//! ```
//! use iobufs::IoBuf;
//! use iobufs::codec::{Decode, Encode};
//!
//! #[derive(Debug, PartialEq)]
//! struct Entry { number: u32, time: i64, note: String, body: IoBuf }
//! iobufs::fields! { Entry { number: u32, time: i64, note: String = ..=32, body: IoBuf = ..=1024 } }
//!
//! #[derive(Debug, PartialEq)]
//! enum Event { Put(Entry), Drop(u32, bool), Flush }
//! iobufs::kinds! { Event { 0 => Put(entry: Entry), 1 => Drop(number: u32, all: bool), 2 => Flush } }
//!
//! let events = vec![Event::Put(Entry { number: 1, time: -2, note: "3".into(), body: b"4".into() }), Event::Flush];
//! let mut bufs = events.encode_iobufs();
//! assert_eq!(Vec::<Event>::read_cfg(&mut bufs, &((..9).into(), ())), Ok(events));
//! assert!(Event::read_cfg(&mut IoBuf::from(b"\x01\0\0\0\x07\x05"), &()).is_err()); // an invalid `bool`
//! ```
//!
//! `kinds!` has `TAG => Variant(name: Type, ..)` for each variant, with a name for each field, although the enum's own
//! fields have none; a variant without fields has no brackets. In both macros a field whose `Cfg` isn't `()` has it
//! after a `=`: a range of lengths, as `..=32`, or for a list the range of its count beside the `Cfg` of its items:
//!
//! ```
//! # use iobufs::codec::Encode;
//! struct Batch { numbers: Vec<u16>, names: Vec<String> }
//! iobufs::fields! { Batch {
//!     numbers: Vec<u16> = ((..=8).into(), ()),
//!     names: Vec<String> = ((..=8).into(), (..=32).into()),
//! } }
//! assert_eq!(Batch { numbers: vec![1], names: vec!["a".into()] }.encode(), "\x01\0\x01\x01\x01a");
//! ```
//!
//! Both macros write an impl of [`ByParts`]. A type that needs more implements it itself. `examples/client.rs` sends
//! such records in frames, and keeps them in pages.
#![forbid(unsafe_code)]
use crate::error::{LAYOUT, PAST, fault, out_of_memory};
use crate::kit::{Global, bytes as kit};
use crate::proved::iobufs_codec::{self as values, List, Signed};
use crate::proved::iobufs_core::{buf as inner, codec as core};
use crate::{Builder, Error, IoBuf, IoBufMut, IoBufs, IoBufsMut};
use bytes::{Buf, BufMut, Bytes, BytesMut};
use std::cell::Cell;
use std::ops::RangeBounds;

pub use core::RangeCfg;
pub use values::{Either, Kind};

/// The proved traits, for values that no tuple describes, and the types that they name. An implementation has to do
/// what each method's comment says.
pub mod proved {
    pub use crate::kit::Global;
    pub use crate::proved::iobufs_codec::{Fault, Look};
    pub use crate::proved::iobufs_core::codec::{BufMut, BufsMut, EncodeSize, Error, Peek, Write};
}

impl RangeCfg {
    /// Accepts this length alone.
    ///
    /// ```
    /// use iobufs::codec::{Decode, RangeCfg};
    ///
    /// let mut buf = iobufs::IoBuf::from(b"\x03one");
    /// assert!(String::read_cfg(&mut buf, &RangeCfg::exact(2)).is_err());
    /// assert_eq!(String::read_cfg(&mut buf, &RangeCfg::exact(3)), Ok("one".into()));
    /// ```
    pub fn exact(n: usize) -> Self {
        RangeCfg { lo: n, hi: n }
    }
}

impl<R: RangeBounds<usize>> From<R> for RangeCfg {
    fn from(range: R) -> Self {
        RangeCfg::new(range)
    }
}

/// A source of values: [`IoBuf`] and [`IoBufs`].
///
/// ```
/// use iobufs::codec::{Decode, Source};
///
/// fn pair(from: &mut impl Source) -> Result<(u16, u8), iobufs::Error> {
///     Decode::read_cfg(from, &((), ()))
/// }
/// assert_eq!(pair(&mut iobufs::IoBuf::from(b"\0\x07\x08")), Ok((7, 8)));
/// ```
pub trait Source: Buf {
    #[doc(hidden)]
    type Inner: core::Peek;

    #[doc(hidden)]
    fn inner(&mut self) -> &mut Self::Inner;
}

/// A destination of values: [`IoBufMut`], [`IoBufsMut`] and [`Builder`].
///
/// ```
/// use iobufs::codec::{Encode, Sink};
///
/// fn put_pair(to: &mut impl Sink) {
///     (7u16, 8u8).write(to);
/// }
/// let mut buf = iobufs::IoBufMut::with_capacity(3);
/// put_pair(&mut buf);
/// assert_eq!(buf, [0, 7, 8]);
/// ```
pub trait Sink: BufMut {
    #[doc(hidden)]
    type Inner: core::BufMut;

    #[doc(hidden)]
    fn inner(&mut self) -> &mut Self::Inner;
}

macro_rules! wrapped {
    ($($kind:ident $buffer:ident $inner:ty;)*) => {$(
        impl $kind for $buffer {
            type Inner = $inner;

            fn inner(&mut self) -> &mut $inner {
                &mut self.0
            }
        }
    )*};
}

wrapped! {
    Source IoBuf inner::IoBuf;
    Source IoBufs crate::proved::iobufs::IoBufs;
    Sink IoBufMut inner::IoBufMut;
    Sink IoBufsMut crate::proved::iobufs::IoBufsMut;
    Sink Builder crate::proved::iobufs::Builder;
}

/// A source of one whole value, for [`Decode::decode_cfg`]: any buffer of this crate, a [`Bytes`] or a [`BytesMut`]. A
/// buffer to write is frozen first.
///
/// ```
/// use iobufs::codec::Decode;
///
/// assert_eq!(u16::decode_cfg(iobufs::IoBufMut::from(b"\0\x07"), &()), Ok(7));
/// assert_eq!(u16::decode_cfg(bytes::Bytes::from_static(b"\0\x07"), &()), Ok(7));
/// ```
pub trait Input: Into<Self::Buf> {
    /// The source that it becomes.
    type Buf: Source;
}

macro_rules! inputs {
    ($($from:ident $to:ident)*) => {$(
        impl Input for $from {
            type Buf = $to;
        }
    )*};
}

inputs! { IoBuf IoBuf IoBufMut IoBuf Bytes IoBuf BytesMut IoBuf IoBufs IoBufs IoBufsMut IoBufs }

/// A value that can be written. A type of a caller becomes one by [`fields!`](crate::fields),
/// [`kinds!`](crate::kinds) or [`by_parts!`](crate::by_parts).
///
/// Generic code names the trait [`Encode`] or [`Decode`] in each call: methods of the proved traits come before theirs.
///
/// ```
/// fn size(value: &impl iobufs::codec::Written) -> usize {
///     iobufs::codec::Encode::encode_size(value)
/// }
/// assert_eq!(size(&(7u16, true, [0u8; 4])), 7);
/// ```
pub trait Written: core::Write {}

impl<T: core::Write> Written for T {}

/// A value that can be written and read. A type of a caller becomes one as it becomes [`Written`].
///
/// ```
/// use iobufs::codec::{Decode, Encode, Value};
///
/// fn is_read_back<T: Value + PartialEq>(value: T, cfg: &<T as Decode>::Cfg) -> bool {
///     <T as Decode>::decode_cfg(value.encode(), cfg).is_ok_and(|read| read == value)
/// }
/// assert!(is_read_back((7u16, "one".to_string()), &((), (..=32).into())));
/// ```
pub trait Value: Written + values::Look {}

impl<T: Written + values::Look> Value for T {}

/// Writing a value. Each [`Written`] has it.
///
/// ```
/// use iobufs::codec::Encode;
///
/// assert_eq!((7u16, "one".to_string()).encode(), "\0\x07\x03one");
/// ```
pub trait Encode {
    /// Returns how many bytes the encoded value has.
    ///
    /// ```
    /// # use iobufs::codec::Encode;
    /// assert_eq!((7u16, 300usize).encode_size(), 4); // 300 as a varint has two bytes
    /// ```
    ///
    /// # Panics
    /// Panics if they are more than `usize::MAX`.
    fn encode_size(&self) -> usize;

    /// Returns how many of the value's bytes [`write_bufs`](Self::write_bufs) puts inline, and doesn't push.
    ///
    /// ```
    /// # use iobufs::codec::Encode;
    /// let value = (7u16, iobufs::IoBuf::from("hello"));
    /// assert_eq!((value.encode_size(), value.encode_inline_size()), (8, 3));
    /// ```
    ///
    /// # Panics
    /// Panics if the value has more bytes than `usize::MAX`.
    fn encode_inline_size(&self) -> usize;

    /// Puts the value into a buffer.
    ///
    /// ```
    /// # use iobufs::codec::Encode;
    /// let mut buf = iobufs::IoBufMut::with_capacity(8);
    /// (7u16, true).write(&mut buf);
    /// assert_eq!(buf, [0, 7, 1]);
    /// ```
    ///
    /// # Panics
    /// Panics if the value doesn't fit: then nothing is put.
    fn write(&self, buf: &mut impl Sink);

    /// Puts the value into a builder, with its views pushed and not copied.
    ///
    /// ```
    /// # use iobufs::codec::Encode;
    /// let value = (7u16, iobufs::IoBuf::from("hello"));
    /// let mut builder = iobufs::Builder::new(value.encode_inline_size());
    /// value.write_bufs(&mut builder);
    /// assert_eq!(builder.finish(), "\0\x07\x05hello");
    /// ```
    ///
    /// # Panics
    /// Panics if the bytes that aren't pushed don't fit, or the value has more than `usize::MAX` bytes: then nothing is
    /// put. Panics as [`Builder::push`] does: then a part may be put.
    fn write_bufs(&self, buf: &mut Builder);

    /// Writes the value into a buffer of exactly its size.
    ///
    /// ```
    /// # use iobufs::codec::Encode;
    /// assert_eq!(vec![7u16, 8].encode(), &[2, 0, 7, 0, 8][..]);
    /// ```
    ///
    /// # Panics
    /// Panics if the value has more bytes than `isize::MAX`.
    fn encode(&self) -> Bytes;

    /// Writes the value into an [`IoBufs`], without copying its views.
    ///
    /// ```
    /// # use iobufs::codec::Encode;
    /// let body = iobufs::IoBuf::from(b"hello".to_vec());
    /// let bufs = (7u16, body.clone()).encode_iobufs();
    /// assert_eq!(bufs, "\0\x07\x05hello");
    /// assert_eq!(bufs.chunk_at(1).unwrap().as_ptr(), body.as_ptr());
    /// ```
    ///
    /// # Panics
    /// Panics if the value has more bytes than `usize::MAX`.
    fn encode_iobufs(&self) -> IoBufs;
}

impl<T: core::Write> Encode for T {
    #[inline]
    #[track_caller]
    fn encode_size(&self) -> usize {
        core::EncodeSize::encode_size(self).expect("length overflow")
    }

    #[inline]
    #[track_caller]
    fn encode_inline_size(&self) -> usize {
        Encode::encode_size(self);
        core::EncodeSize::encode_inline_size(self)
    }

    #[inline]
    #[track_caller]
    fn write(&self, buf: &mut impl Sink) {
        assert!(Encode::encode_size(self) <= buf.remaining_mut(), "{PAST}");
        core::Write::write(self, buf.inner());
    }

    #[inline]
    #[track_caller]
    fn write_bufs(&self, buf: &mut Builder) {
        assert!(Encode::encode_inline_size(self) <= buf.remaining_mut(), "{PAST}");
        written(core::Write::write_bufs(self, &mut buf.0));
    }

    #[inline]
    #[track_caller]
    fn encode(&self) -> Bytes {
        IoBufMut(written(core::Encode::encode(self, Global))).into()
    }

    #[inline]
    #[track_caller]
    fn encode_iobufs(&self) -> IoBufs {
        IoBufs(written(<T as crate::proved::iobufs::EncodeExt>::encode_iobufs(self, Global)))
    }
}

/// Returns what was written. Ends the process if an allocation failed, else panics.
#[track_caller]
fn written<T>(made: Result<T, core::Error>) -> T {
    match made {
        Ok(made) => made,
        Err(core::Error::BadLayout) => panic!("{LAYOUT}"),
        Err(core::Error::TooLong) => panic!("length overflow"),
        Err(_) => out_of_memory(None),
    }
}

/// Reading a value. Each [`Value`] has it.
///
/// ```
/// use iobufs::IoBuf;
/// use iobufs::codec::Decode;
///
/// let mut buf = IoBuf::from(b"\0\x07\x03one");
/// assert_eq!(u16::read_cfg(&mut buf, &()), Ok(7));
/// assert_eq!(String::read_cfg(&mut buf, &(..=32).into()), Ok("one".into()));
/// ```
pub trait Decode: Sized {
    /// The requirement of a value: `()`, a [`RangeCfg`], a tuple of these, or what [`ByParts::Cfg`] is.
    type Cfg;

    /// Reads a value from the front, whole.
    ///
    /// ```
    /// # use iobufs::{Error, IoBufs, codec::Decode};
    /// let mut buf = IoBufs::from(b"\0\x07\x05");
    /// assert_eq!(<(u16, bool)>::read_cfg(&mut buf, &((), ())), Err(Error::InvalidBool));
    /// assert_eq!(buf, "\0\x07\x05"); // nothing changed
    /// ```
    ///
    /// # Errors
    /// Returns the [`Error`] that says what is wrong. Then the buffer is unchanged.
    fn read_cfg(buf: &mut impl Source, cfg: &Self::Cfg) -> Result<Self, Error>;

    /// Reads the value that is all of the buffer.
    ///
    /// ```
    /// # use iobufs::{Error, IoBuf, codec::Decode};
    /// assert_eq!(u16::decode_cfg(IoBuf::from(b"\0\x07"), &()), Ok(7));
    /// assert_eq!(u16::decode_cfg(IoBuf::from(b"\0\x07\x08"), &()), Err(Error::ExtraData(1)));
    /// ```
    ///
    /// # Errors
    /// Returns the errors of [`read_cfg`](Self::read_cfg), and [`Error::ExtraData`] if bytes are left after the value.
    fn decode_cfg(buf: impl Input, cfg: &Self::Cfg) -> Result<Self, Error>;
}

impl<T: values::Look> Decode for T {
    type Cfg = <T as values::Look>::Cfg;

    #[inline]
    fn read_cfg(buf: &mut impl Source, cfg: &Self::Cfg) -> Result<Self, Error> {
        <T as values::Look>::read_whole(Global, buf.inner(), cfg).map_err(Error::from)
    }

    #[inline]
    fn decode_cfg(buf: impl Input, cfg: &Self::Cfg) -> Result<Self, Error> {
        <T as values::Look>::decode_cfg(Global, buf.into().inner(), cfg).map_err(Error::from)
    }
}

thread_local! {
    /// Why a type refused its parts: a `Fault` has no text, since the prover doesn't follow its lifetime.
    static REFUSED: Cell<(&'static str, &'static str)> = const { Cell::new(("", "")) };
}

impl From<values::Fault> for Error {
    fn from(error: values::Fault) -> Self {
        match error {
            values::Fault::Codec(error) => fault(error),
            values::Fault::InvalidBool => Error::InvalidBool,
            values::Fault::InvalidEnum(tag) => Error::InvalidEnum(tag),
            values::Fault::Invalid => {
                let (name, reason) = REFUSED.get();
                Error::Invalid(name, reason)
            }
            values::Fault::ExtraData(n) => Error::ExtraData(n),
        }
    }
}

impl From<Error> for values::Fault {
    fn from(error: Error) -> Self {
        match error {
            Error::EndOfBuffer => values::Fault::Codec(core::Error::EndOfBuffer),
            Error::InvalidVarint => values::Fault::Codec(core::Error::InvalidVarint),
            Error::InvalidLength(n) => values::Fault::Codec(core::Error::InvalidLength(n)),
            Error::InvalidBool => values::Fault::InvalidBool,
            Error::InvalidEnum(tag) => values::Fault::InvalidEnum(tag),
            Error::Invalid(name, reason) => {
                REFUSED.set((name, reason));
                values::Fault::Invalid
            }
            Error::ExtraData(n) => values::Fault::ExtraData(n),
        }
    }
}

/// A type that is written and read as another value, such as a tuple of its fields, or an `Either` of kinds.
/// `by_parts!` makes it a value itself. `from_parts` must return the value whose `parts` were written.
///
/// ```
/// use iobufs::codec::{ByParts, Decode, Encode, Written};
/// use iobufs::Error;
///
/// struct Even(u32);
///
/// impl ByParts for Even {
///     type Parts = u32;
///     type Cfg = ();
///
///     fn cfg(_: &()) {}
///
///     fn from_parts(n: u32) -> Result<Self, Error> {
///         if n % 2 == 0 { Ok(Even(n)) } else { Err(Error::Invalid("Even", "it is odd")) }
///     }
///
///     fn parts(&self) -> impl Written {
///         self.0
///     }
/// }
/// iobufs::by_parts! { Even }
///
/// assert_eq!(Even::decode_cfg(Even(8).encode(), &()).map(|it| it.0), Ok(8));
/// ```
pub trait ByParts: Sized {
    /// The value as which it is read.
    type Parts: Value;
    /// The requirement of the value, of any type: often `()`, a [`RangeCfg`], or that of the parts.
    type Cfg;

    /// Returns the requirement of the parts.
    ///
    /// ```
    /// use iobufs::codec::{ByParts, Decode, RangeCfg, Written};
    /// use iobufs::{Error, IoBuf};
    ///
    /// struct Name(String);
    ///
    /// impl ByParts for Name {
    ///     type Parts = String;
    ///     type Cfg = RangeCfg;
    ///
    ///     fn cfg(lengths: &RangeCfg) -> RangeCfg {
    ///         lengths.clone()
    ///     }
    ///
    ///     fn from_parts(name: String) -> Result<Self, Error> {
    ///         Ok(Name(name))
    ///     }
    ///
    ///     fn parts(&self) -> impl Written {
    ///         &self.0
    ///     }
    /// }
    /// iobufs::by_parts! { Name }
    ///
    /// assert!(Name::decode_cfg(IoBuf::from(b"\x03Eve"), &(..=2).into()).is_err());
    /// assert!(Name::decode_cfg(IoBuf::from(b"\x03Eve"), &(..=32).into()).is_ok());
    /// ```
    fn cfg(cfg: &Self::Cfg) -> <Self::Parts as values::Look>::Cfg;

    /// Makes the value of its parts.
    ///
    /// # Errors
    /// Returns [`Error::Invalid`] with the type's name and a reason if it doesn't accept the parts.
    fn from_parts(parts: Self::Parts) -> Result<Self, Error>;

    /// Returns the value that is written: one, such as a tuple of references, with the bytes of `Parts`.
    fn parts(&self) -> impl Written;
}

/// Makes a type that is [`ByParts`](crate::codec::ByParts) a value: `by_parts! { Type }`, or
/// `by_parts! { impl[T: Value] Type<T> }`.
///
/// ```
/// use iobufs::codec::{ByParts, Encode, Value, Written};
///
/// struct Pair<T>(T, T);
///
/// impl<T: Value<Cfg: Clone>> ByParts for Pair<T> {
///     type Parts = (T, T);
///     type Cfg = <(T, T) as iobufs::codec::proved::Look>::Cfg;
///
///     fn cfg(cfg: &Self::Cfg) -> Self::Cfg {
///         cfg.clone()
///     }
///
///     fn from_parts(parts: (T, T)) -> Result<Self, iobufs::Error> {
///         Ok(Pair(parts.0, parts.1))
///     }
///
///     fn parts(&self) -> impl Written {
///         (&self.0, &self.1)
///     }
/// }
/// iobufs::by_parts! { impl[T: Value<Cfg: Clone>] Pair<T> }
///
/// assert_eq!(Pair(7u16, 8).encode(), &[0, 7, 0, 8][..]);
/// ```
#[macro_export]
macro_rules! by_parts {
    ($type:ty) => { $crate::by_parts! { impl[] $type } };
    (impl[$($param:tt)*] $type:ty) => {
        impl<$($param)*> $crate::codec::proved::EncodeSize for $type {
            #[inline]
            fn encode_size(&self) -> Option<usize> {
                $crate::codec::proved::EncodeSize::encode_size(&$crate::codec::ByParts::parts(self))
            }

            #[inline]
            fn encode_inline_size(&self) -> usize {
                $crate::codec::proved::EncodeSize::encode_inline_size(&$crate::codec::ByParts::parts(self))
            }
        }

        impl<$($param)*> $crate::codec::proved::Write for $type {
            #[inline]
            fn write<B: $crate::codec::proved::BufMut>(&self, buf: &mut B) {
                $crate::codec::proved::Write::write(&$crate::codec::ByParts::parts(self), buf)
            }

            #[inline]
            fn write_bufs<B: $crate::codec::proved::BufsMut>(
                &self,
                buf: &mut B,
            ) -> Result<(), $crate::codec::proved::Error> {
                $crate::codec::proved::Write::write_bufs(&$crate::codec::ByParts::parts(self), buf)
            }
        }

        impl<$($param)*> $crate::codec::proved::Look for $type {
            type Cfg = <$type as $crate::codec::ByParts>::Cfg;

            #[inline]
            fn look<B: $crate::codec::proved::Peek>(
                alloc: $crate::codec::proved::Global,
                buf: &B,
                skip: usize,
                cfg: &Self::Cfg,
            ) -> Result<(Self, usize), $crate::codec::proved::Fault> {
                let cfg = <$type as $crate::codec::ByParts>::cfg(cfg);
                let (parts, len) = $crate::codec::proved::Look::look(alloc, buf, skip, &cfg)?;
                Ok((<$type as $crate::codec::ByParts>::from_parts(parts)?, len))
            }
        }
    };
}

/// Makes a struct of named fields, without type parameters, a value, field by field. A field's requirement is after its
/// `=`: a range of lengths, or for a `Vec<u16>` such as `((..=8).into(), ())`. A field without one requires `()`. The
/// [`Parts`](crate::codec::ByParts::Parts) of three fields and more are pairs in pairs, as `(u8, (u16, u32))`.
///
/// ```
/// use iobufs::codec::{Decode, Encode};
/// use iobufs::{Error, IoBuf};
///
/// #[derive(Debug, PartialEq)]
/// struct Entry {
///     number: u32,
///     body: IoBuf,
/// }
/// iobufs::fields! { Entry { number: u32, body: IoBuf = ..=1024 } }
///
/// let entry = Entry { number: 7, body: "hello".into() };
/// let bytes = entry.encode();
/// assert_eq!(bytes, "\0\0\0\x07\x05hello");
/// assert_eq!(Entry::decode_cfg(bytes, &()), Ok(entry));
/// assert_eq!(Entry::decode_cfg(IoBuf::from(b"\0\0\0\x07\x81\x08"), &()), Err(Error::InvalidLength(1025)));
/// ```
#[macro_export]
macro_rules! fields {
    ($name:ident { $($field:ident: $type:ty $(= $cfg:expr)?),+ $(,)? }) => {
        impl $crate::codec::ByParts for $name {
            type Parts = $crate::pairs!($([$type])+);
            type Cfg = ();

            fn cfg(_: &()) -> <Self::Parts as $crate::codec::proved::Look>::Cfg {
                $crate::pairs!($([$crate::required!($type $(, $cfg)?)])+)
            }

            #[inline]
            fn from_parts($crate::pairs!($([$field])+): Self::Parts) -> Result<Self, $crate::Error> {
                Ok($name { $($field),+ })
            }

            #[inline]
            fn parts(&self) -> impl $crate::codec::Written {
                $crate::pairs!($([&self.$field])+)
            }
        }

        $crate::by_parts! { $name }
    };
}

/// Makes an enum a value: a byte that says which variant it is, and then the variant's fields.
///
/// ```
/// use iobufs::codec::{Decode, Encode};
/// use iobufs::{Error, IoBuf};
///
/// #[derive(Debug, PartialEq)]
/// enum Event {
///     Put(u32, IoBuf),
///     Flush,
/// }
/// iobufs::kinds! { Event { 0 => Put(key: u32, body: IoBuf = ..=1024), 1 => Flush } }
///
/// assert_eq!(Event::Put(7, "hi".into()).encode(), "\0\0\0\0\x07\x02hi");
/// assert_eq!(Event::decode_cfg(IoBuf::from(b"\x01"), &()), Ok(Event::Flush));
/// assert_eq!(Event::decode_cfg(IoBuf::from(b"\x02"), &()), Err(Error::InvalidEnum(2)));
/// ```
#[macro_export]
macro_rules! kinds {
    ($name:ident { $($tag:literal => $kind:ident $(($($field:ident: $type:ty $(= $cfg:expr)?),+))?),+ $(,)? }) => {
        #[allow(unreachable_patterns)]
        impl $crate::codec::ByParts for $name {
            type Parts = $crate::kinds!(@type $([$tag $crate::pairs!($($([$type])+)?)])+);
            type Cfg = ();

            fn cfg(_: &()) -> <Self::Parts as $crate::codec::proved::Look>::Cfg {
                $crate::kinds!(@cfg $([$crate::pairs!($($([$crate::required!($type $(, $cfg)?)])+)?)])+)
            }

            #[inline]
            fn from_parts(parts: Self::Parts) -> Result<Self, $crate::Error> {
                Ok($crate::kinds!(@from parts $([[$($([$field])+)?] ($name::$kind $(($($field),+))?)])+))
            }

            #[inline]
            fn parts(&self) -> impl $crate::codec::Written {
                $crate::kinds!(@to self, $([$tag [$($([$field])+)?] ($name::$kind $(($($field),+))?)])+)
            }
        }

        $crate::by_parts! { $name }
    };
    (@type [$tag:literal $type:ty]) => { $crate::codec::Kind<$tag, $type> };
    (@type [$tag:literal $type:ty] $($rest:tt)+) => {
        $crate::codec::Either<$crate::codec::Kind<$tag, $type>, $crate::kinds!(@type $($rest)+)>
    };
    (@cfg [$cfg:expr]) => { $cfg };
    (@cfg [$cfg:expr] $($rest:tt)+) => { ($cfg, $crate::kinds!(@cfg $($rest)+)) };
    (@from $parts:ident [[$($fields:tt)*] ($($made:tt)+)]) => {{
        let $crate::codec::Kind { value: $crate::pairs!($($fields)*) } = $parts;
        $($made)+
    }};
    (@from $parts:ident [[$($fields:tt)*] ($($made:tt)+)] $($rest:tt)+) => {
        match $parts {
            $crate::codec::Either::First($crate::codec::Kind { value: $crate::pairs!($($fields)*) }) => $($made)+,
            $crate::codec::Either::Second(rest) => $crate::kinds!(@from rest $($rest)+),
        }
    };
    (@to $value:expr, [$tag:literal [$($fields:tt)*] ($($made:tt)+)]) => {
        match $value {
            $($made)+ => $crate::codec::Kind::<$tag, _> { value: $crate::pairs!($($fields)*) },
            _ => unreachable!(),
        }
    };
    (@to $value:expr, [$tag:literal [$($fields:tt)*] ($($made:tt)+)] $($rest:tt)+) => {
        match $value {
            $($made)+ => {
                $crate::codec::Either::First($crate::codec::Kind::<$tag, _> { value: $crate::pairs!($($fields)*) })
            }
            rest => $crate::codec::Either::Second($crate::kinds!(@to rest, $($rest)+)),
        }
    };
}

/// Pairs in pairs: of types, patterns or values, each in brackets.
#[doc(hidden)]
#[macro_export]
macro_rules! pairs {
    () => { () };
    ([$($last:tt)+]) => { $($last)+ };
    ([$($first:tt)+] $($rest:tt)+) => { ($($first)+, $crate::pairs!($($rest)+)) };
}

/// What is required of a field.
#[doc(hidden)]
#[macro_export]
macro_rules! required {
    ($type:ty) => {
        ()
    };
    ($type:ty, $cfg:expr) => {
        <$type as $crate::codec::Decode>::Cfg::from($cfg)
    };
}

/// Tuples of three values and more, as pairs in pairs.
macro_rules! tuples {
    ($([$($of:ident $at:tt)+])*) => {$(
        impl<$($of: core::EncodeSize),+> core::EncodeSize for ($($of),+) {
            #[inline]
            fn encode_size(&self) -> Option<usize> {
                core::EncodeSize::encode_size(&pairs!($([&self.$at])+))
            }

            #[inline]
            fn encode_inline_size(&self) -> usize {
                core::EncodeSize::encode_inline_size(&pairs!($([&self.$at])+))
            }
        }

        impl<$($of: core::Write),+> core::Write for ($($of),+) {
            #[inline]
            fn write<Z: core::BufMut>(&self, buf: &mut Z) {
                core::Write::write(&pairs!($([&self.$at])+), buf)
            }

            #[inline]
            fn write_bufs<Z: core::BufsMut>(&self, buf: &mut Z) -> Result<(), core::Error> {
                core::Write::write_bufs(&pairs!($([&self.$at])+), buf)
            }
        }

        #[allow(non_snake_case)]
        impl<$($of: values::Look),+> values::Look for ($($of),+) {
            type Cfg = ($($of::Cfg),+);

            #[inline]
            fn look<Z: core::Peek>(
                alloc: Global,
                buf: &Z,
                skip: usize,
                cfg: &Self::Cfg,
            ) -> Result<(Self, usize), values::Fault> {
                let end = skip;
                $(
                    let ($of, len) = $of::look(alloc, buf, end, &cfg.$at)?;
                    let end = end + len;
                )+
                Ok((($($of),+), end - skip))
            }
        }
    )*};
}

tuples! {
    [A 0 B 1 C 2]
    [A 0 B 1 C 2 D 3]
    [A 0 B 1 C 2 D 3 E 4]
    [A 0 B 1 C 2 D 3 E 4 F 5]
}

/// Values that are written and read as others.
macro_rules! values {
    ($([$($param:tt)*] $type:ty, $parts:ty, |$read:pat_param| $of:expr, |$self:ident| $to:expr;)*) => {$(
        impl<$($param)*> ByParts for $type {
            type Parts = $parts;
            type Cfg = <$parts as values::Look>::Cfg;

            #[inline]
            fn cfg(cfg: &Self::Cfg) -> Self::Cfg {
                cfg.clone()
            }

            #[inline]
            fn from_parts($read: $parts) -> Result<Self, Error> {
                $of
            }

            #[inline]
            fn parts(&$self) -> impl Written {
                $to
            }
        }

        by_parts! { impl[$($param)*] $type }
    )*};
}

/// Bytes as they are.
struct Plain<'a>(&'a [u8]);

impl core::EncodeSize for Plain<'_> {
    fn encode_size(&self) -> Option<usize> {
        Some(self.0.len())
    }

    fn encode_inline_size(&self) -> usize {
        self.0.len()
    }
}

impl core::Write for Plain<'_> {
    fn write<B: core::BufMut>(&self, buf: &mut B) {
        buf.put_slice(self.0)
    }

    fn write_bufs<B: core::BufsMut>(&self, buf: &mut B) -> Result<(), core::Error> {
        buf.put_slice(self.0);
        Ok(())
    }
}

values! {
    [] IoBuf, inner::IoBuf, |view| Ok(IoBuf(view)), |self| &self.0;
    [] Bytes, inner::IoBuf, |view| Ok(IoBuf(view).into()), |self| kit::Bytes(self.clone());
    [] i8, Signed<i8>, |signed| Ok(signed.value), |self| Signed { value: *self };
    [] i16, Signed<i16>, |signed| Ok(signed.value), |self| Signed { value: *self };
    [] i32, Signed<i32>, |signed| Ok(signed.value), |self| Signed { value: *self };
    [] i64, Signed<i64>, |signed| Ok(signed.value), |self| Signed { value: *self };
    [] i128, Signed<i128>, |signed| Ok(signed.value), |self| Signed { value: *self };
    [] String, inner::IoBuf, |view| text(view), |self| (self.len(), Plain(self.as_bytes()));
    [T: Value<Cfg: Clone>] Vec<T>, List<T>, |list| Ok(list.values.0), |self| (self.len(), List::each(self));
}

/// Copies a `String` out of a view.
fn text(view: inner::IoBuf) -> Result<String, Error> {
    let text = std::str::from_utf8(view.as_ref()).map_err(|_| Error::Invalid("String", "not UTF-8"))?;
    Ok(text.to_string())
}
