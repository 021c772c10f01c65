//! An allocator that logs what the layer allocates in its calls, and where that and storage is freed.
use crate::log::{note_allocated, note_freed};
use std::alloc::{GlobalAlloc, Layout, System};

struct Logging;

#[global_allocator]
static LOGGING: Logging = Logging;

// SAFETY: each call is one of `System`'s, but the free of memory that is watched, which stays allocated.
unsafe impl GlobalAlloc for Logging {
    unsafe fn alloc(&self, layout: Layout) -> *mut u8 {
        // SAFETY: the caller's duty.
        let at = unsafe { System.alloc(layout) };
        note_allocated(at.addr(), layout.size());
        at
    }

    unsafe fn dealloc(&self, at: *mut u8, layout: Layout) {
        if !note_freed(at.addr()) {
            // SAFETY: the caller's duty.
            unsafe { System.dealloc(at, layout) }
        }
    }
}
