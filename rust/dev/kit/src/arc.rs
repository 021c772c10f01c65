//! A shared value whose allocation may fail: `Arc::try_new` of std isn't stable.
//!
//! A handle points to a block with the number of handles and the value. The last one to be dropped frees the block.
use super::base::{AllocError, AllocFailed, Global};
use super::count::Count;
use std::alloc::{Layout, alloc};
use std::ops::Deref;
use std::ptr::NonNull;

struct Shared<T> {
    handles: Count,
    value: T,
}

/// A handle of a shared value.
pub struct Arc<T>(NonNull<Shared<T>>);

// SAFETY: handles in several threads lend `&T`, and the last one drops `T` in its thread, as those of std's `Arc`.
unsafe impl<T: Send + Sync> Send for Arc<T> {}
unsafe impl<T: Send + Sync> Sync for Arc<T> {}

impl<T> Arc<T> {
    /// Shares a value. If allocation fails, the error has the value.
    #[inline]
    pub fn new(_: Global, value: T) -> Result<Arc<T>, AllocFailed<T>> {
        // SAFETY: the layout isn't empty, since it has the number of handles.
        let block = unsafe { alloc(Layout::new::<Shared<T>>()) };
        let Some(block) = NonNull::new(block.cast::<Shared<T>>()) else {
            return Err(AllocFailed { value });
        };
        // SAFETY: the block is new, and has the layout of what is written.
        unsafe { block.write(Shared { handles: Count::new(), value }) };
        Ok(Arc(block))
    }

    /// Returns one more handle.
    #[inline]
    pub fn try_clone(this: &Arc<T>) -> Result<Arc<T>, AllocError> {
        this.shared().handles.add();
        Ok(Arc(this.0))
    }

    /// Returns the value if there is no other handle.
    #[inline]
    pub fn get_mut(this: &mut Arc<T>) -> Option<&mut T> {
        if !this.shared().handles.is_one() {
            return None;
        }
        // SAFETY: this is the only handle, it is borrowed by the result, and `is_one` is after all that others did.
        Some(unsafe { &mut this.0.as_mut().value })
    }

    #[inline]
    fn shared(&self) -> &Shared<T> {
        // SAFETY: the block lives as long as a handle.
        unsafe { self.0.as_ref() }
    }

    // Stands apart, so that a drop is short where it is inlined.
    #[cold]
    #[inline(never)]
    fn free(block: NonNull<Shared<T>>) {
        // SAFETY: no handle is left, and `new` allocated the block as a `Box` does.
        unsafe {
            block.as_ref().handles.acquire();
            drop(Box::from_raw(block.as_ptr()));
        }
    }
}

impl<T> Drop for Arc<T> {
    #[inline]
    fn drop(&mut self) {
        if self.shared().handles.remove() {
            Arc::free(self.0);
        }
    }
}

impl<T> Deref for Arc<T> {
    type Target = T;

    #[inline]
    fn deref(&self) -> &T {
        &self.shared().value
    }
}
