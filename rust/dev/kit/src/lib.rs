//! The calls of the kit's std and `bytes` that the proved sources make, over Rust's std alone. Each has the kit's
//! signature: it takes an allocator, and returns an error if an allocation fails. Its comment is the kit's contract in
//! words.
//!
//! No file names the crate's root, so that another crate can have these files as modules of a module `kit`, with a
//! `bytes.rs` of its own. `unsafe` code is in `arc`, `block`, `deque`, `few`, `held` and `vec`, and in one module of `bytes`.
#![deny(unsafe_code)]

#[allow(unsafe_code)]
mod arc;
#[path = "../../../iobufs/layer/base.rs"]
mod base;
#[allow(unsafe_code)]
#[path = "../../../iobufs/layer/block.rs"]
pub mod block;
pub mod bytes;
#[path = "../../../iobufs/layer/count.rs"]
mod count;
#[allow(unsafe_code)]
#[path = "../../../iobufs/layer/deque.rs"]
mod deque;
#[allow(unsafe_code)]
#[path = "../../../iobufs/layer/few.rs"]
mod few;
pub mod fs;
#[allow(unsafe_code)]
#[path = "../../../iobufs/layer/held.rs"]
pub mod held;
pub mod hex;
mod host;
#[path = "../../../iobufs/layer/io.rs"]
pub mod io;
mod map;
pub mod memchr;
#[path = "../../../iobufs/layer/names.rs"]
mod names;
mod program;
pub mod test;
pub mod text;
#[allow(unsafe_code)]
#[path = "../../../iobufs/layer/vec.rs"]
mod vec;

pub use program::{prelude, std};
