#![doc = include_str!("../README.md")]
//! # Where to begin
//! - Bytes in one chunk: [`IoBuf`], and [`IoBufMut`] to write them.
//! - Bytes in several chunks: [`IoBufs`], [`IoBufsMut`], and [`Builder`] to encode them.
//! - Frames: [`Frames`] over chunks, [`FrameReader`] and [`FrameWriter`] over a socket or a file, [`FrameCodec`] over a
//!   `BytesMut`; [`Prefix`] says how a length is written, [`Layout`] what else a header has.
//! - A struct or an enum of one's own: [`codec`], by [`fields!`] and [`kinds!`].
//!
//! The buffers are [`Buf`]s and [`BufMut`]s, the traits of the crate [`bytes`]. Values of [`codec`] are read from a
//! [`codec::Source`], a `Buf` that gives views, and written to a [`codec::Sink`], a `BufMut` that takes them.
//!
//! A name in brackets, as `Buf` or `usize::write`, is the original's trait or call.
#![deny(unsafe_code)]
#![warn(missing_docs, clippy::missing_errors_doc, clippy::missing_panics_doc)]

#[cfg(not(target_pointer_width = "64"))]
compile_error!("the proofs are of 64 bits");

mod calls;
pub mod codec;
#[cfg(feature = "commonware-codec")]
mod commonware;
mod error;
mod io;
#[cfg(feature = "keys")]
mod keys;
#[allow(dead_code, missing_docs, clippy::new_without_default)]
mod kit;
mod layout;
mod lengths;
#[allow(unsafe_code)]
mod lent;
mod part;
mod parts;
/// The proved sources, without their contracts, and the modules of `spare` in them.
#[allow(dead_code, unreachable_pub, unstable_name_collisions, unused, missing_docs, clippy::all, clippy::pedantic)]
mod proved {
    include!(concat!(env!("OUT_DIR"), "/proved.rs"));
}
mod streams;
mod text;
mod traits;
mod view;

/// The crate whose traits and types the calls name.
pub use bytes;
#[doc(no_inline)]
pub use bytes::{Buf, BufMut};
#[cfg(feature = "commonware-codec")]
pub use commonware::EncodeExt;
pub use error::{AllocError, Error, TryGetError};
pub use layout::{Layout, Whole};
pub use lengths::{PutLength, ReadLength};
pub use part::IoBufMut;
pub use parts::{Builder, IoBufsMut};
pub use streams::{FrameCodec, FrameError, FrameReader, FrameWriter};
pub use text::{Chunks, Frames, IntoIter, IoBufs, Prefix};
pub use view::IoBuf;

/// Returns how many bytes a length has as a varint.
///
/// ```
/// assert_eq!([0, 127, 128, usize::MAX].map(iobufs::length_size), [1, 1, 2, 10]);
/// ```
pub fn length_size(n: usize) -> usize {
    proved::iobufs_frames::Prefix::Spelled.head(n).len()
}
