//! The layer of calls over the crate `bytes`, by the tests of the one that the program and the C library have, and by
//! those of the proved sources.
#![cfg(test)]
#![allow(dead_code, clippy::new_without_default)]
extern crate self as kit;

#[path = "../../kit/src/arc.rs"]
mod arc;
#[path = "../../../iobufs/layer/base.rs"]
mod base;
#[path = "../../../iobufs/layer/block.rs"]
pub mod block;
#[path = "../../kit/tests/block.rs"]
mod block_tests;
#[path = "../../../iobufs/src/kit/bytes.rs"]
pub mod bytes;
#[path = "../../kit/tests/bytes.rs"]
mod bytes_tests;
#[path = "../../kit/tests/collections.rs"]
mod collections_tests;
#[path = "../../../iobufs/layer/count.rs"]
mod count;
#[path = "../../../iobufs/layer/deque.rs"]
mod deque;
#[path = "../../../iobufs/layer/few.rs"]
mod few;
#[path = "../../kit/src/fs.rs"]
pub mod fs;
#[path = "../../../iobufs/layer/held.rs"]
pub mod held;
#[path = "../../kit/tests/held.rs"]
mod held_tests;
#[path = "../../kit/src/hex.rs"]
pub mod hex;
#[path = "../../kit/src/host.rs"]
mod host;
#[path = "../../../iobufs/layer/io.rs"]
pub mod io;
#[path = "../../kit/src/map.rs"]
mod map;
#[path = "../../kit/src/memchr.rs"]
pub mod memchr;
#[path = "../../../iobufs/layer/names.rs"]
mod names;
#[path = "../../kit/src/program.rs"]
mod program;
#[path = "../../../iobufs/src/spare/block.rs"]
mod spare;
#[path = "../../kit/src/test.rs"]
pub mod test;
#[path = "../../kit/src/text.rs"]
pub mod text;
#[path = "../../../iobufs/layer/vec.rs"]
mod vec;

pub use program::{prelude, std};

#[allow(unused_imports, unused_macros, unused_variables, unstable_name_collisions, clippy::all)]
#[forbid(unsafe_code)]
mod proved {
    include!(concat!(env!("OUT_DIR"), "/proved.rs"));
}
