//! The layer's sharing of storage (`block.rs`, `count.rs`, `held.rs`), over atomics that log each access of a count.
//! The proved owner machine, as cargo compiles it, executes the log: a change of a count is a step of it, with the same
//! count and reply, and storage is freed if and only if the machine frees its block. docs/OWNER.md says what is
//! compared.
//!
//! - `log`, `allocator`: what threads do, in one order. `order`, `machine`: how the machine executes that.
//! - `layer`, `atomic`, `handles`: the layer, and calls of it that are logged. They are here twice, since their atomics
//!   are std's in `threads`, and loom's in `models`.
//! - `threads`: real threads, whose choices are drawn.
//! - `models`: each interleaving of a few threads that the memory model admits; loom also compares reads and writes of
//!   storage. One model is of the `Arc` of rust/dev/kit.
#![cfg(test)]
#![allow(clippy::duplicate_mod)]
use ::kit;

mod allocator;
mod log;
mod machine;
mod models;
mod order;
mod threads;

#[allow(dead_code, unused_imports, unused_variables, clippy::all)]
#[forbid(unsafe_code)]
mod proved {
    include!(concat!(env!("OUT_DIR"), "/proved.rs"));
}
