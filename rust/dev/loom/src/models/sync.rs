//! Loom's atomics.
#![forbid(unsafe_code)]

use loom::cell::UnsafeCell;
pub use loom::sync::atomic::{AtomicBool, AtomicUsize};
use std::rc::Rc;

/// Nothing is kept in a thread local: loom's threads share those of std.
pub const ENDS_IF_REFUSED: bool = false;

/// Loom runs another thread before an access, and not after it.
pub fn turn() {}

/// The memory of a value: loom panics if two accesses of which one writes aren't ordered.
#[derive(Clone)]
pub struct Memory(Rc<UnsafeCell<()>>);

impl Memory {
    pub fn new() -> Memory {
        Memory(Rc::new(UnsafeCell::new(())))
    }

    pub fn read(&self) {
        self.0.with(|_| ());
    }

    pub fn write(&self) {
        self.0.with_mut(|_| ());
    }

    /// Whether this is the only clone.
    pub fn is_only(&self) -> bool {
        Rc::strong_count(&self.0) == 1
    }
}
