//! The layer over std's atomics, in real threads.
#[path = "handles.rs"]
mod handles;
#[path = "layer.rs"]
mod layer;
mod rounds;
mod sync;
