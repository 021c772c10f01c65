//! Std's atomics, of which one is accessed at a time, so that the entries of a log are in the order of the accesses.
#![forbid(unsafe_code)]

use super::rounds::below;
pub use std::sync::atomic::{AtomicBool, AtomicUsize};
use std::sync::{Mutex, MutexGuard, PoisonError};
use std::thread;

/// A thread keeps the place of a count.
pub const ENDS_IF_REFUSED: bool = true;

/// Waits for this thread's turn; draws whether others go first.
pub fn turn() -> MutexGuard<'static, ()> {
    static TURN: Mutex<()> = Mutex::new(());
    if below(4) == 0 {
        thread::yield_now();
    }
    TURN.lock().unwrap_or_else(PoisonError::into_inner)
}

/// The memory of storage, whose reads and writes nothing compares here.
#[derive(Clone)]
pub struct Memory;

impl Memory {
    pub fn new() -> Memory {
        Memory
    }

    pub fn read(&self) {}

    pub fn write(&self) {}
}
