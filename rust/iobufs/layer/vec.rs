//! A vector. Std promises at least the capacity that is asked for, where the kit promises exactly that; an item is put
//! without an allocation into either.
//!
//! It is sound for any safe caller: what puts without an allocation tests the capacity itself, once.
use super::base::{AllocError, AllocFailed, Global};
use super::few;
use std::alloc::{Layout, alloc};
use std::mem::ManuallyDrop;
use std::ops::{Deref, DerefMut, RangeFrom};
use std::{fmt, io, vec};

/// A vector, whose capacity never shrinks.
#[derive(PartialEq, Eq)]
pub struct Vec<T>(pub(crate) vec::Vec<T>);

impl<T> Vec<T> {
    /// Returns no items, without allocating.
    #[inline]
    pub fn new(_: Global) -> Vec<T> {
        Vec(vec::Vec::new())
    }

    /// Returns no items, and a capacity of `n`; of four for one to four chunks or buffers (`few`).
    #[inline]
    pub fn with_capacity(_: Global, n: usize) -> Result<Vec<T>, AllocError> {
        if few::fits::<T>() && 0 < n && n <= few::FEW {
            return Ok(Vec(few::kept().unwrap_or_else(|| vec::Vec::with_capacity(few::FEW))));
        }
        let layout = Layout::array::<T>(n).map_err(|_| AllocError)?;
        if layout.size() == 0 {
            return Ok(Vec(vec::Vec::new()));
        }
        // SAFETY: the layout isn't empty.
        let at = unsafe { alloc(layout) };
        if at.is_null() {
            return Err(AllocError);
        }
        // SAFETY: it was allocated with the layout of a `Vec` of this capacity.
        Ok(Vec(unsafe { vec::Vec::from_raw_parts(at.cast(), 0, n) }))
    }

    /// Returns the items of an array.
    pub fn from_array<const N: usize>(alloc: Global, array: [T; N]) -> Result<Vec<T>, AllocError> {
        let mut items = Vec::with_capacity(alloc, N)?;
        items.0.extend(array);
        Ok(items)
    }

    /// Returns the items, which are never freed.
    pub fn leak(self) -> &'static mut [T]
    where
        T: 'static,
    {
        self.0.leak()
    }

    /// Returns the allocator.
    #[inline]
    pub fn allocator(&self) -> &Global {
        &Global
    }

    /// Returns how many items there are without another allocation.
    #[inline]
    pub fn capacity(&self) -> usize {
        self.0.capacity()
    }

    /// Returns the items.
    #[inline]
    pub fn as_slice(&self) -> &[T] {
        &self.0
    }

    /// Returns the items, to be changed.
    #[inline]
    pub fn as_mut_slice(&mut self) -> &mut [T] {
        &mut self.0
    }

    /// Returns the items from an index on, which is at most the length, to be changed.
    #[inline]
    pub fn slice_mut(&mut self, range: RangeFrom<usize>) -> &mut [T] {
        &mut self.0[range]
    }

    /// Appends an item. If it fails, the vector was full, it stays as it was, and the error has the item.
    #[inline]
    pub fn push(&mut self, item: T) -> Result<(), AllocFailed<T>> {
        if self.0.len() == self.0.capacity() && self.0.try_reserve(1).is_err() {
            return Err(AllocFailed { value: item });
        }
        self.0.push(item);
        Ok(())
    }

    /// Appends an item to a vector that isn't full. Panics if it is.
    #[inline]
    pub fn push_reserved(&mut self, item: T) {
        // If the test fails, the item is leaked: a drop for that case would keep it in memory each time.
        let item = ManuallyDrop::new(item);
        let len = self.0.len();
        assert!(len < self.0.capacity(), "the capacity has no space for it");
        // SAFETY: the capacity has space for an item after the others.
        unsafe {
            self.0.as_mut_ptr().add(len).write(ManuallyDrop::into_inner(item));
            self.0.set_len(len + 1);
        }
    }

    /// Drops all items.
    #[inline]
    pub fn clear(&mut self) {
        self.0.clear();
    }

    /// Drops the items after the first `n`.
    #[inline]
    pub fn truncate(&mut self, n: usize) {
        self.0.truncate(n);
    }

    /// Moves the items from the index `at` on into another vector; `at` is at most the length. If it fails, nothing
    /// changes.
    #[inline]
    pub fn split_off(&mut self, at: usize) -> Result<Vec<T>, AllocError> {
        let mut rest = vec::Vec::new();
        rest.try_reserve_exact(self.0.len() - at).map_err(|_| AllocError)?;
        rest.extend(self.0.drain(at..));
        Ok(Vec(rest))
    }
}

impl<T: Clone> Vec<T> {
    /// Returns a copy of these items.
    #[inline]
    pub fn from_slice(_: Global, items: &[T]) -> Result<Vec<T>, AllocError> {
        let mut copy = vec::Vec::new();
        copy.try_reserve_exact(items.len()).map_err(|_| AllocError)?;
        copy.extend_from_slice(items);
        Ok(Vec(copy))
    }

    /// Returns `n` copies of an item.
    pub fn from_elem(_: Global, item: T, n: usize) -> Result<Vec<T>, AllocError> {
        let mut items = vec::Vec::new();
        items.try_reserve_exact(n).map_err(|_| AllocError)?;
        items.resize(n, item);
        Ok(Vec(items))
    }

    /// Appends copies of these items. If it fails, they don't fit into the capacity, and nothing changes.
    #[inline]
    pub fn extend_from_slice(&mut self, items: &[T]) -> Result<(), AllocError> {
        self.0.try_reserve(items.len()).map_err(|_| AllocError)?;
        self.0.extend_from_slice(items);
        Ok(())
    }

    /// Drops the items after the first `n`, or appends copies of `item` up to a length of `n`. If it fails, nothing
    /// changes.
    #[inline]
    pub fn resize(&mut self, n: usize, item: T) -> Result<(), AllocError> {
        self.0.try_reserve(n.saturating_sub(self.0.len())).map_err(|_| AllocError)?;
        self.0.resize(n, item);
        Ok(())
    }
}

impl<T: fmt::Debug> fmt::Debug for Vec<T> {
    fn fmt(&self, f: &mut fmt::Formatter<'_>) -> fmt::Result {
        self.0.fmt(f)
    }
}

impl<T> Deref for Vec<T> {
    type Target = [T];

    #[inline]
    fn deref(&self) -> &[T] {
        &self.0
    }
}

impl<T> DerefMut for Vec<T> {
    #[inline]
    fn deref_mut(&mut self) -> &mut [T] {
        &mut self.0
    }
}

impl<T> IntoIterator for Vec<T> {
    type Item = T;
    type IntoIter = vec::IntoIter<T>;

    #[inline]
    fn into_iter(self) -> vec::IntoIter<T> {
        self.0.into_iter()
    }
}

impl<'a, T> IntoIterator for &'a Vec<T> {
    type Item = &'a T;
    type IntoIter = std::slice::Iter<'a, T>;

    #[inline]
    fn into_iter(self) -> Self::IntoIter {
        self.0.iter()
    }
}

/// Appends all bytes of each write. If allocation fails, the error's kind is `OutOfMemory`, and nothing changes.
impl io::Write for Vec<u8> {
    #[inline]
    fn write(&mut self, bytes: &[u8]) -> io::Result<usize> {
        self.extend_from_slice(bytes)?;
        Ok(bytes.len())
    }

    fn flush(&mut self) -> io::Result<()> {
        Ok(())
    }
}
