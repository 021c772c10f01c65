//! `IoBuf`.
#![forbid(unsafe_code)]
use crate::IoBufMut;
use crate::calls::{bounds, derefs, equals_bytes, gets, outside, reads, shown, split_outside};
use crate::error::{AllocError, made, shared, tried};
use crate::kit::{self, Clone as _, Global};
use crate::proved::iobufs_core::{self as inner, codec as core};
use crate::traits::vec_of;
use bytes::Bytes;
use std::mem;
use std::ops::{Bound, RangeBounds};

/// Read-only bytes in one chunk. Clones, slices and both sides of a split share their storage, if they have bytes.
///
/// ```
/// let mut view = iobufs::IoBuf::from(vec![1, 2, 3]);
/// assert_eq!(view.split_to(1), [1]);
/// assert_eq!(view.slice(1..), [3]);
/// ```
///
/// A clone, a slice and a split of a view allocate nothing, except that the first of a [`Bytes`] made of a `Vec`, a box
/// or a `BytesMut` may allocate. The storage lives until its last view is dropped. [`IoBufs`](crate::IoBufs) joins
/// several views; [`try_into_mut`](Self::try_into_mut) makes one writable.
///
/// Without the feature `keys` a view has no order and no hash, as in the original. A key of a map then says which it
/// has:
///
/// ```
/// use std::{borrow::Borrow, collections::HashMap, hash::{Hash, Hasher}};
///
/// #[derive(PartialEq, Eq)]
/// struct Key(iobufs::IoBuf);
///
/// impl Hash for Key {
///     fn hash<H: Hasher>(&self, state: &mut H) {
///         self.0.as_ref().hash(state);
///     }
/// }
///
/// impl Borrow<[u8]> for Key {
///     fn borrow(&self) -> &[u8] {
///         self.0.as_ref()
///     }
/// }
///
/// let numbers = HashMap::from([(Key("one".into()), 1)]);
/// assert_eq!(numbers.get(&b"one"[..]), Some(&1));
/// ```
#[derive(Default)]
#[repr(transparent)]
pub struct IoBuf(pub(crate) inner::IoBuf);

impl IoBuf {
    /// Makes an empty view. It allocates nothing.
    ///
    /// ```
    /// assert!(iobufs::IoBuf::new().is_empty());
    /// ```
    pub const fn new() -> Self {
        Self::from_static(&[])
    }

    /// Makes a view of these bytes, which aren't copied. It allocates nothing.
    ///
    /// ```
    /// static WORDS: [u8; 3] = *b"one";
    /// static NAMES: [iobufs::IoBuf; 2] = [iobufs::IoBuf::from_static(&WORDS), iobufs::IoBuf::new()];
    /// assert_eq!((NAMES[0].as_ptr(), NAMES[1].len()), (WORDS.as_ptr(), 0));
    /// ```
    pub const fn from_static(bytes: &'static [u8]) -> Self {
        IoBuf(inner::IoBuf::of_static(bytes))
    }

    /// Makes a view of the bytes of `owner`, which aren't copied. `as_ref` is called once.
    ///
    /// The last buffer made of the view drops the owner, on whatever thread that is. An owner of no bytes is dropped
    /// before the call returns.
    ///
    /// ```
    /// use std::sync::Arc;
    ///
    /// let owner = Arc::new([1, 2, 3]);
    /// struct Shared(Arc<[u8; 3]>);
    /// impl AsRef<[u8]> for Shared {
    ///     fn as_ref(&self) -> &[u8] {
    ///         &self.0[..]
    ///     }
    /// }
    ///
    /// let mut view = iobufs::IoBuf::from_owner(Shared(owner.clone()));
    /// let front = view.split_to(1);
    /// drop(view);
    /// assert_eq!(Arc::strong_count(&owner), 2); // `front` keeps the owner
    /// drop(front);
    /// assert_eq!(Arc::strong_count(&owner), 1);
    /// ```
    pub fn from_owner<T: AsRef<[u8]> + Send + Sync + 'static>(owner: T) -> Self {
        Self::from(Bytes::from_owner(owner))
    }

    /// Copies these bytes into storage of their own.
    ///
    /// ```
    /// let mut bytes = *b"one";
    /// let view = iobufs::IoBuf::copy_from_slice(&bytes);
    /// bytes[0] = b'O';
    /// assert_eq!(view, "one");
    /// ```
    pub fn copy_from_slice(data: &[u8]) -> Self {
        IoBuf(made(inner::IoBuf::copy_from_slice(Global, data), Some(data.len()), ""))
    }

    /// Copies these bytes into storage of their own.
    ///
    /// ```
    /// assert_eq!(iobufs::IoBuf::try_copy_from_slice(b"one")?, "one");
    /// # Ok::<(), iobufs::AllocError>(())
    /// ```
    ///
    /// # Errors
    /// Returns [`AllocError`] if the storage can't be allocated.
    pub fn try_copy_from_slice(data: &[u8]) -> Result<Self, AllocError> {
        tried(inner::IoBuf::copy_from_slice(Global, data), data.len(), IoBuf)
    }

    /// Returns the number of bytes.
    ///
    /// ```
    /// assert_eq!(iobufs::IoBuf::from("one").len(), 3);
    /// ```
    #[inline]
    pub const fn len(&self) -> usize {
        self.0.len()
    }

    /// Returns whether there are no bytes.
    ///
    /// ```
    /// assert!(iobufs::IoBuf::from("").is_empty());
    /// ```
    #[inline]
    pub const fn is_empty(&self) -> bool {
        self.0.is_empty()
    }

    /// Returns the address of the bytes. If there are some, a clone has the same.
    ///
    /// ```
    /// let view = iobufs::IoBuf::from(vec![1, 2, 3]);
    /// assert_eq!(view.clone().as_ptr(), view.as_ptr());
    /// ```
    #[inline]
    pub fn as_ptr(&self) -> *const u8 {
        self.as_ref().as_ptr()
    }

    /// Returns the view of the bytes of a range, in the same storage if there are any.
    ///
    /// ```
    /// let view = iobufs::IoBuf::from(vec![1, 2, 3]);
    /// let rest = view.slice(1..);
    /// assert_eq!(rest, [2, 3]);
    /// assert_eq!(rest.as_ptr(), view[1..].as_ptr()); // nothing is copied
    /// ```
    ///
    /// # Panics
    /// Panics if the range isn't within the bytes.
    #[inline]
    #[track_caller]
    #[must_use]
    pub fn slice(&self, range: impl RangeBounds<usize>) -> Self {
        let (lo, hi) = bounds(range, || self.len());
        match self.0.try_slice(Bound::Included(lo), Bound::Excluded(hi)) {
            Some(slice) => IoBuf(shared(slice)),
            None => outside(lo, hi),
        }
    }

    /// Returns the view of some of its bytes, in the same storage: [`slice`](Self::slice) by a subslice. Of no bytes it
    /// is the empty view.
    ///
    /// ```
    /// let line = iobufs::IoBuf::from("key = value");
    /// let value = line.rsplit(|byte| *byte == b' ').next().unwrap();
    /// assert_eq!(line.slice_ref(value), "value");
    /// ```
    ///
    /// # Panics
    /// Panics if `subset` has bytes and isn't a part of what `as_ref` returns.
    #[track_caller]
    #[must_use]
    pub fn slice_ref(&self, subset: &[u8]) -> Self {
        if subset.is_empty() {
            return Self::new();
        }
        let at = subset.as_ptr().addr().wrapping_sub(self.as_ptr().addr());
        self.slice(at..at.saturating_add(subset.len()))
    }

    /// Takes the first `at` bytes, in the same storage. The view keeps the rest.
    ///
    /// ```
    /// let mut view = iobufs::IoBuf::from("hello world");
    /// assert_eq!(view.split_to(5), "hello");
    /// assert_eq!(view, " world");
    /// ```
    ///
    /// # Panics
    /// Panics if there are fewer bytes.
    #[inline(always)]
    #[track_caller]
    #[must_use = "`advance` drops the front"]
    pub fn split_to(&mut self, at: usize) -> Self {
        match self.0.try_split_to(at) {
            Some(front) => IoBuf(shared(front)),
            None => split_outside(at, self.len()),
        }
    }

    /// Takes the bytes from `at` on, in the same storage. The view keeps the first `at` bytes.
    ///
    /// ```
    /// let mut view = iobufs::IoBuf::from("hello world");
    /// assert_eq!(view.split_off(5), " world");
    /// assert_eq!(view, "hello");
    /// ```
    ///
    /// # Panics
    /// Panics if there are fewer bytes.
    #[track_caller]
    #[must_use = "`truncate` drops the other half"]
    pub fn split_off(&mut self, at: usize) -> Self {
        let front = self.split_to(at);
        mem::replace(self, front)
    }

    /// Keeps at most the first `len` bytes. It keeps the whole storage, unless `len` is 0.
    ///
    /// ```
    /// let mut view = iobufs::IoBuf::from("hello");
    /// view.truncate(9);
    /// assert_eq!(view, "hello");
    /// view.truncate(4);
    /// assert_eq!(view, "hell");
    /// ```
    pub fn truncate(&mut self, len: usize) {
        if let Some(front) = self.0.try_split_to(len) {
            self.0 = shared(front);
        }
    }

    /// Keeps no byte, and drops its share of the storage.
    ///
    /// ```
    /// let mut view = iobufs::IoBuf::from("hello");
    /// view.clear();
    /// assert!(view.is_empty());
    /// ```
    pub fn clear(&mut self) {
        *self = Self::default();
    }

    /// Returns whether no other view or [`Bytes`] shares the storage. Static bytes and those of an owner count
    /// as shared, as in [`Bytes::is_unique`].
    ///
    /// `true` is exact, unless another thread has a reference to this view, and clones it. `false` may be outdated at
    /// once, if another thread has the other handle and drops it.
    ///
    /// ```
    /// let view = iobufs::IoBuf::from(vec![1, 2, 3]);
    /// assert!(view.is_unique());
    /// let front = view.slice(..1);
    /// assert!(!view.is_unique());
    /// drop(front);
    /// assert!(view.is_unique() && view.try_into_mut().is_ok());
    /// ```
    pub fn is_unique(&self) -> bool {
        self.0.is_only()
    }

    /// Fills `dst` with the bytes from an offset on, which stay, and returns whether there are as many; otherwise `dst`
    /// is unchanged. [`IoBufs`](crate::IoBufs) has the same call.
    ///
    /// ```
    /// let mut two = [0; 2];
    /// assert!(iobufs::IoBuf::from("hello").peek_slice(1, &mut two));
    /// assert_eq!(&two, b"el");
    /// ```
    pub fn peek_slice(&self, at: usize, dst: &mut [u8]) -> bool {
        core::Peek::try_peek_slice(&self.0, at, dst)
    }

    /// Recovers the bytes as a buffer to write, with the spare capacity after them. It copies nothing.
    ///
    /// ```
    /// let view = iobufs::IoBuf::from(b"hello".to_vec());
    /// let other = view.clone();
    /// let view = view.try_into_mut().unwrap_err(); // `other` shares the storage
    /// drop(other);
    /// let mut buf = view.try_into_mut().unwrap();
    /// buf[0] = b'J';
    /// assert_eq!(buf.freeze(), "Jello");
    /// ```
    ///
    /// # Errors
    /// Returns the view if another one shares its storage, or if it was made of a static slice, an owner, a [`Bytes`]
    /// or a `BytesMut`, unless it is empty and has no storage. [`IoBufMut::from`] copies these.
    #[inline]
    pub fn try_into_mut(self) -> Result<IoBufMut, Self> {
        self.0.try_into_mut(Global).map(IoBufMut).map_err(IoBuf)
    }

    /// Takes the first `n` bytes, as [`take_view`](Self::take_view) does, as a [`Bytes`] (`Buf`).
    ///
    /// ```
    /// let mut view = iobufs::IoBuf::from("hello");
    /// let front: bytes::Bytes = view.copy_to_bytes(2);
    /// assert_eq!(front, "he");
    /// ```
    ///
    /// # Panics
    /// Panics if there are fewer bytes.
    #[inline]
    #[track_caller]
    pub fn copy_to_bytes(&mut self, n: usize) -> Bytes {
        self.taken(n).expect("copy_to_bytes out of bounds").into()
    }

    reads! { crate::error::too_short, "let mut buf = iobufs::IoBuf::from(\"hello\");" }

    gets! { "IoBuf" }
}

impl Clone for IoBuf {
    #[inline]
    fn clone(&self) -> Self {
        IoBuf(shared(self.0.clone()))
    }
}

impl AsRef<[u8]> for IoBuf {
    #[inline]
    fn as_ref(&self) -> &[u8] {
        self.0.as_ref()
    }
}

derefs!(IoBuf);
equals_bytes!(IoBuf);
shown!(IoBuf, len: len);

impl From<&'static [u8]> for IoBuf {
    fn from(bytes: &'static [u8]) -> Self {
        IoBuf(inner::IoBuf::from(bytes))
    }
}

impl<const N: usize> From<&'static [u8; N]> for IoBuf {
    fn from(bytes: &'static [u8; N]) -> Self {
        Self::from(&bytes[..])
    }
}

impl From<&'static str> for IoBuf {
    fn from(text: &'static str) -> Self {
        Self::from(text.as_bytes())
    }
}

/// Keeps the `Vec`, if it has bytes.
impl From<Vec<u8>> for IoBuf {
    #[inline]
    fn from(bytes: Vec<u8>) -> Self {
        IoBuf(shared(inner::IoBuf::from_vec(kit::prelude::Vec(bytes))))
    }
}

/// Keeps the bytes of the `String`.
impl From<String> for IoBuf {
    fn from(text: String) -> Self {
        Self::from(text.into_bytes())
    }
}

/// Keeps the box.
impl From<Box<[u8]>> for IoBuf {
    fn from(bytes: Box<[u8]>) -> Self {
        Self::from(bytes.into_vec())
    }
}

impl FromIterator<u8> for IoBuf {
    fn from_iter<I: IntoIterator<Item = u8>>(bytes: I) -> Self {
        Self::from(Vec::from_iter(bytes))
    }
}

impl IntoIterator for IoBuf {
    type Item = u8;
    type IntoIter = bytes::buf::IntoIter<IoBuf>;

    fn into_iter(self) -> Self::IntoIter {
        bytes::buf::IntoIter::new(self)
    }
}

impl<'a> IntoIterator for &'a IoBuf {
    type Item = &'a u8;
    type IntoIter = std::slice::Iter<'a, u8>;

    fn into_iter(self) -> Self::IntoIter {
        self.iter()
    }
}

impl From<IoBufMut> for IoBuf {
    #[inline]
    fn from(part: IoBufMut) -> Self {
        part.freeze()
    }
}

/// Storage that the view alone keeps comes back, with the view's bytes moved to its front; other bytes, those of a
/// static slice or an owner among them, are copied.
impl From<IoBuf> for Vec<u8> {
    #[inline]
    fn from(view: IoBuf) -> Self {
        match view.try_into_mut() {
            Ok(part) => part.into(),
            Err(view) => match view.0.into_shared() {
                Ok(bytes) => vec_of(bytes.0),
                Err(view) => view.as_ref().to_vec(),
            },
        }
    }
}
