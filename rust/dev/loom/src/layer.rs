//! The layer, over atomics that are logged. Storage leaves it to the `Bytes` of rust/dev/kit.
#![allow(dead_code, unused_imports, clippy::all)]

use super::sync;

#[path = "../../kit/src/arc.rs"]
pub mod arc;
pub mod atomic;
#[path = "../../../iobufs/layer/block.rs"]
pub mod block;
#[path = "../../../iobufs/layer/count.rs"]
mod count;
#[path = "../../../iobufs/layer/few.rs"]
mod few;
#[path = "../../../iobufs/layer/held.rs"]
pub mod held;
#[path = "../../kit/src/bytes.rs"]
mod of_kit;
#[path = "../../../iobufs/layer/base.rs"]
mod of_std;
#[path = "../../../iobufs/layer/vec.rs"]
pub mod vec;

pub mod base {
    pub use super::atomic;
    pub use super::of_std::{AllocError, AllocFailed, Clone, Global};
}

pub mod bytes {
    pub use super::of_kit::Bytes;
    pub use super::sync::ENDS_IF_REFUSED;
}
