//! The layer over loom's atomics, in each interleaving of a few threads that the memory model admits.
mod arc;
#[path = "handles.rs"]
mod handles;
#[path = "layer.rs"]
mod layer;
mod sync;
mod views;
