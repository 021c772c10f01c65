//! An atomic number whose accesses are logged, and a flag whose accesses aren't: they are no steps of the machine.
#![forbid(unsafe_code)]

use super::sync::{AtomicBool as Flag, AtomicUsize as Inner, turn};
use crate::log::{Event, note, unlogged};
pub use std::sync::atomic::Ordering;

pub struct AtomicBool(Flag);

impl AtomicBool {
    pub fn new(is: bool) -> AtomicBool {
        AtomicBool(unlogged(|| Flag::new(is)))
    }

    pub fn load(&self, order: Ordering) -> bool {
        let _turn = turn();
        unlogged(|| self.0.load(order))
    }

    pub fn swap(&self, is: bool, order: Ordering) -> bool {
        let _turn = turn();
        unlogged(|| self.0.swap(is, order))
    }
}

pub struct AtomicUsize(Inner);

impl AtomicUsize {
    pub fn new(n: usize) -> AtomicUsize {
        AtomicUsize(unlogged(|| Inner::new(n)))
    }

    pub fn load(&self, order: Ordering) -> usize {
        self.logged(|it| it.load(order), Event::Load)
    }

    /// Stores a number, which the layer never does.
    pub fn store(&self, n: usize, order: Ordering) {
        self.logged(|it| it.store(n, order), |at, ()| Event::Change(at, n, n));
    }

    pub fn fetch_add(&self, n: usize, order: Ordering) -> usize {
        self.logged(|it| it.fetch_add(n, order), |at, old| Event::Change(at, old, old.wrapping_add(n)))
    }

    pub fn fetch_sub(&self, n: usize, order: Ordering) -> usize {
        self.logged(|it| it.fetch_sub(n, order), |at, old| Event::Change(at, old, old.wrapping_sub(n)))
    }

    fn logged<R: Copy>(&self, access: impl FnOnce(&Inner) -> R, event: impl FnOnce(usize, R) -> Event) -> R {
        let _turn = turn();
        let result = unlogged(|| access(&self.0));
        note(event((&raw const *self).addr(), result));
        result
    }
}
