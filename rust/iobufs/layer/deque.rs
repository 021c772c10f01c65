//! A deque. If it has up to four chunks or buffers, its thread may keep its space (`few`).
use super::base::{self, AllocError, AllocFailed, Global};
use super::bytes::ENDS_IF_REFUSED;
use super::few;
use super::vec::Vec;
use std::collections::{self, vec_deque};
use std::mem::ManuallyDrop;
use std::ops::{Index, IndexMut};
use std::process;

/// A deque, whose capacity never shrinks.
pub struct VecDeque<T>(pub(crate) ManuallyDrop<collections::VecDeque<T>>);

impl<T> VecDeque<T> {
    #[inline]
    fn of(items: collections::VecDeque<T>) -> VecDeque<T> {
        VecDeque(ManuallyDrop::new(items))
    }

    // Returns the items, which aren't dropped here.
    #[inline]
    fn into_items(self) -> collections::VecDeque<T> {
        let mut this = ManuallyDrop::new(self);
        // SAFETY: `this` isn't used any more, nor dropped, so the items are taken once.
        unsafe { ManuallyDrop::take(&mut this.0) }
    }

    /// Returns no items, without allocating.
    #[inline]
    pub fn new(_: Global) -> VecDeque<T> {
        VecDeque::of(collections::VecDeque::new())
    }

    /// Returns no items, and a capacity of at least `n`.
    #[inline]
    pub fn with_capacity(alloc: Global, n: usize) -> Result<VecDeque<T>, AllocError> {
        if few::fits::<T>() && n <= few::FEW {
            return Ok(VecDeque::from_vec(Vec::with_capacity(alloc, n)?));
        }
        if ENDS_IF_REFUSED {
            return Ok(VecDeque::of(collections::VecDeque::with_capacity(n)));
        }
        let mut items = collections::VecDeque::new();
        items.try_reserve_exact(n).map_err(|_| AllocError)?;
        Ok(VecDeque::of(items))
    }

    /// Takes the items of a vector over, and its capacity.
    #[inline]
    pub fn from_vec(items: Vec<T>) -> VecDeque<T> {
        VecDeque::of(items.0.into())
    }

    /// Returns the items as a vector of the same capacity.
    #[inline]
    pub fn into_vec(self) -> Vec<T> {
        Vec(self.into_items().into())
    }

    /// Returns the allocator.
    #[inline]
    pub fn allocator(&self) -> &Global {
        &Global
    }

    /// Returns the number of items.
    #[inline]
    pub fn len(&self) -> usize {
        self.0.len()
    }

    /// Returns whether there are no items.
    #[inline]
    pub fn is_empty(&self) -> bool {
        self.0.is_empty()
    }

    /// Returns how many items there are without another allocation.
    #[inline]
    pub fn capacity(&self) -> usize {
        self.0.capacity()
    }

    /// Makes space for `n` more items. If it fails, there wasn't enough, and nothing changes.
    #[inline]
    pub fn try_reserve(&mut self, n: usize) -> Result<(), AllocError> {
        self.0.try_reserve(n).map_err(|_| AllocError)
    }

    /// Returns the item at an index below the length.
    #[inline]
    pub fn get(&self, i: usize) -> Option<&T> {
        self.0.get(i)
    }

    /// Returns the item at an index below the length, to be changed.
    #[inline]
    pub fn get_mut(&mut self, i: usize) -> Option<&mut T> {
        self.0.get_mut(i)
    }

    /// Returns the first item, if there is one.
    #[inline]
    pub fn front(&self) -> Option<&T> {
        self.0.front()
    }

    /// Returns the first item, if there is one, to be changed.
    #[inline]
    pub fn front_mut(&mut self) -> Option<&mut T> {
        self.0.front_mut()
    }

    /// Returns the last item, if there is one.
    #[inline]
    pub fn back(&self) -> Option<&T> {
        self.0.back()
    }

    /// Returns two slices that have all items in order. If the first is empty, so is the deque.
    #[inline]
    pub fn as_slices(&self) -> (&[T], &[T]) {
        self.0.as_slices()
    }

    /// Appends an item. If it fails, the deque was full, it stays as it was, and the error has the item.
    #[inline]
    pub fn push_back(&mut self, item: T) -> Result<(), AllocFailed<T>> {
        if self.0.len() == self.0.capacity() && self.0.try_reserve(1).is_err() {
            return Err(AllocFailed { value: item });
        }
        self.0.push_back(item);
        Ok(())
    }

    /// Appends an item to a deque that isn't full. Panics if it is.
    #[inline]
    pub fn push_back_reserved(&mut self, item: T) {
        // As in `Vec::push_reserved`.
        let item = ManuallyDrop::new(item);
        assert!(self.0.len() < self.0.capacity(), "the capacity has no space for it");
        self.0.push_back(ManuallyDrop::into_inner(item));
    }

    /// Prepends an item to a deque that isn't full. Panics if it is.
    #[inline]
    pub fn push_front_reserved(&mut self, item: T) {
        // As in `Vec::push_reserved`.
        let item = ManuallyDrop::new(item);
        assert!(self.0.len() < self.0.capacity(), "the capacity has no space for it");
        self.0.push_front(ManuallyDrop::into_inner(item));
    }

    /// Takes the first item, if there is one.
    #[inline]
    pub fn pop_front(&mut self) -> Option<T> {
        self.0.pop_front()
    }

    /// Takes the last item, if there is one.
    #[inline]
    pub fn pop_back(&mut self) -> Option<T> {
        self.0.pop_back()
    }

    /// Moves the items from the index `at` on into another deque; `at` is at most the length. If it fails, nothing
    /// changes.
    #[inline]
    pub fn split_off(&mut self, at: usize) -> Result<VecDeque<T>, AllocError> {
        if few::fits::<T>() && self.0.len() - at <= few::FEW {
            let mut rest = VecDeque::with_capacity(Global, self.0.len() - at)?;
            // The last one first: shorter than a `drain` for so few.
            for _ in at..self.0.len() {
                if let Some(item) = self.0.pop_back() {
                    rest.push_front_reserved(item);
                }
            }
            return Ok(rest);
        }
        if ENDS_IF_REFUSED {
            return Ok(VecDeque::of(self.0.split_off(at)));
        }
        let mut rest = collections::VecDeque::new();
        rest.try_reserve_exact(self.0.len() - at).map_err(|_| AllocError)?;
        rest.extend(self.0.drain(at..));
        Ok(VecDeque::of(rest))
    }

    /// Moves the last `n` items to the front; `n` is at most the length.
    #[inline]
    pub fn rotate_right(&mut self, n: usize) {
        self.0.rotate_right(n);
    }
}

impl<T> Drop for VecDeque<T> {
    #[inline]
    fn drop(&mut self) {
        let is_few = few::fits::<T>() && self.0.capacity() == few::FEW;
        // SAFETY: a deque is dropped once and not used any more, and `into_items` drops none, so the items are taken once.
        let items = unsafe { ManuallyDrop::take(&mut self.0) };
        // Others are dropped where they are: a vector has them from its front on.
        if is_few {
            few::keep(items.into());
        }
    }
}

/// Returns clones of all items in order.
impl<T: base::Clone> base::Clone for VecDeque<T> {
    #[inline]
    fn clone(&self) -> Result<VecDeque<T>, AllocError> {
        let n = self.0.len();
        if !few::fits::<T>() || n == 0 || n > few::FEW {
            return Ok(VecDeque::from_vec(self.clone_any()?));
        }
        let mut items = Vec::with_capacity(Global, few::FEW)?;
        for i in 0..n {
            items.push_reserved(self.0[i].clone()?);
        }
        Ok(VecDeque::from_vec(items))
    }
}

impl<T: base::Clone> VecDeque<T> {
    // Stands apart, so that a clone of few is short.
    #[inline(never)]
    fn clone_any(&self) -> Result<Vec<T>, AllocError> {
        let (front, rest) = self.0.as_slices();
        let mut items = Vec::with_capacity(Global, self.0.len())?.0;
        if ENDS_IF_REFUSED {
            // Std trusts the length of these iterators: no test of the capacity for each item.
            let cloned = |item: &T| item.clone().unwrap_or_else(|_| process::abort());
            items.extend(front.iter().map(cloned));
            if !rest.is_empty() {
                items.extend(rest.iter().map(cloned));
            }
            return Ok(Vec(items));
        }
        for item in front.iter().chain(rest) {
            items.push(item.clone()?);
        }
        Ok(Vec(items))
    }
}

impl<T> Index<usize> for VecDeque<T> {
    type Output = T;

    #[inline]
    fn index(&self, i: usize) -> &T {
        &self.0[i]
    }
}

impl<T> IndexMut<usize> for VecDeque<T> {
    #[inline]
    fn index_mut(&mut self, i: usize) -> &mut T {
        &mut self.0[i]
    }
}

impl<'a, T> IntoIterator for &'a VecDeque<T> {
    type Item = &'a T;
    type IntoIter = vec_deque::Iter<'a, T>;

    #[inline]
    fn into_iter(self) -> Self::IntoIter {
        self.0.iter()
    }
}
