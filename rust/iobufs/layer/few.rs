//! Space for four items: each thread keeps the last such space that it frees, 160 bytes, for its next list, and frees it
//! as it ends. A list of fewer items has that space too, so a kept clone of two chunks holds 160 bytes.
use super::bytes::ENDS_IF_REFUSED;
use std::cell::Cell;
use std::mem::{ManuallyDrop, MaybeUninit};
use std::ptr;
use std::vec::Vec;

/// The number of items that have space.
pub(crate) const FEW: usize = 4;

// A chunk with its end, and a buffer, have the layout of this.
type Item = [u64; 5];
type Space = Box<[MaybeUninit<Item>; FEW]>;

thread_local! {
    /// The last space that this thread freed. Where a refused allocation is an error it stays empty, so that each call
    /// has the same allocations each time, and the thread registers no destructor.
    static SPARE: Cell<Option<Space>> = const { Cell::new(None) };
}

/// Whether a thread keeps space for items of a type.
pub(crate) const fn fits<T>() -> bool {
    ENDS_IF_REFUSED && size_of::<T>() == size_of::<Item>() && align_of::<T>() == align_of::<Item>()
}

/// Returns the space that this thread kept.
#[inline]
pub(crate) fn kept<T>() -> Option<Vec<T>> {
    if !fits::<T>() {
        return None;
    }
    let space = SPARE.try_with(Cell::take).ok()??;
    // SAFETY: it was allocated with the layout of `FEW` items of this size and alignment, and nothing else has it.
    Some(unsafe { Vec::from_raw_parts(Box::into_raw(space).cast(), 0, FEW) })
}

/// Drops items, and keeps their space if it is for `FEW`; else frees it.
#[inline]
pub(crate) fn keep<T>(items: Vec<T>) {
    if !fits::<T>() || items.capacity() != FEW {
        return;
    }
    let mut items = ManuallyDrop::new(items);
    // SAFETY: it was allocated with the layout of `FEW` items of this size and alignment. The vector isn't used any more,
    // nor dropped, so its items are dropped once; if one panics, the space is freed.
    let space = unsafe {
        let mut space: Space = Box::from_raw(items.as_mut_ptr().cast());
        ptr::drop_in_place(ptr::slice_from_raw_parts_mut(space.as_mut_ptr().cast::<T>(), items.len()));
        space
    };
    // At its end a thread keeps none.
    let _ = SPARE.try_with(|spare| spare.set(Some(space)));
}
