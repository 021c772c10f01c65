//! In the place of `iobufs_core/buf/block.rt`, where a block is an `Arc` of a `Vec`: a block whose head, with the count
//! of the handles, is after the bytes in the `Vec`'s own allocation, or in one of its own if there is no room.
//!
//! ```text
//! bytes | gap | head | other spare capacity
//!       0     len
//! ```
//!
//! It is sound for any safe caller, whatever the proof says of the callers: a limit is tested against the capacity, and
//! bytes against the limit. Storage that is shared is taken apart, and until the only handle puts it together again,
//! nothing of it is lent but its bytes, to be read.
use super::base::atomic::{AtomicBool, Ordering};
use super::base::{AllocError, Global};
use super::bytes::{Bytes, ENDS_IF_REFUSED};
use super::count::Count;
use super::vec::Vec;
use std::alloc::{Layout, alloc};
use std::cell::Cell;
use std::mem::{ManuallyDrop, MaybeUninit};
use std::ptr::NonNull;
use std::{ptr, slice, vec};

/// The count of the handles, whether there was ever more than one, the parts of the `Vec`, and the limit: at least the
/// length, at most what is allocated.
struct Head {
    handles: Count,
    shared: AtomicBool,
    at: NonNull<u8>,
    len: usize,
    allocated: usize,
    limit: usize,
}

/// The place of a head in an allocation of its own.
type Apart = Box<MaybeUninit<Head>>;

const HEAD: Layout = Layout::new::<Head>();

/// So many bytes of spare capacity are enough for a head, wherever they begin.
const ROOM: usize = HEAD.size() + HEAD.align() - 1;

const OUTSIDE: &str = "there is no space for it";

thread_local! {
    /// The place of the last head that this thread freed, for its next one. Where a refused allocation is an error it
    /// stays empty, so that each call has the same allocations each time, and the thread registers no destructor.
    static SPARE: Cell<Option<Apart>> = const { Cell::new(None) };
}

/// Nothing: `Space::new` makes room for a head, or the thread keeps its place.
pub struct Shell(());

impl Shell {
    #[inline]
    pub fn none() -> Shell {
        Shell(())
    }
}

/// Bytes, and space for more.
pub struct Space {
    storage: Vec<u8>,
    // At least the length of the storage, and at most its capacity.
    limit: usize,
}

// The calls are those of `block.rt`.
#[allow(clippy::len_without_is_empty)]
impl Space {
    /// Returns the bytes of a `Vec`, and its capacity up to a limit. Panics if that is no capacity of it.
    #[inline]
    pub fn of(storage: Vec<u8>, limit: usize) -> Space {
        assert!(storage.len() <= limit && limit <= storage.capacity(), "{OUTSIDE}");
        Space { storage, limit }
    }

    /// Returns an empty space of a capacity of `n`, and room for a head after that, but of some sizes.
    #[inline]
    pub fn new(alloc: Global, n: usize, shell: Shell) -> Result<(Space, Shell), AllocError> {
        // glibc's cache of a thread (tcache) has blocks of at most 1,032 bytes: a head apart costs less than leaving it.
        // Where a refused allocation is an error there is room, so that sharing allocates nothing.
        let is_apart = ENDS_IF_REFUSED && (1033 - ROOM..=1032).contains(&n);
        let room = if is_apart { 0 } else { ROOM };
        let storage = Vec::with_capacity(alloc, n.saturating_add(room))?;
        Ok((Space { storage, limit: n }, shell))
    }

    /// Returns the storage.
    #[inline]
    pub fn into_vec(self) -> Vec<u8> {
        self.storage
    }

    /// Returns the allocator.
    #[inline]
    pub fn allocator(&self) -> Global {
        Global
    }

    /// Returns the number of bytes.
    #[inline]
    pub fn len(&self) -> usize {
        self.storage.len()
    }

    /// Returns the limit.
    #[inline]
    pub const fn capacity(&self) -> usize {
        self.limit
    }

    /// Returns how many bytes fit after the others.
    #[inline]
    pub fn spare(&self) -> usize {
        self.limit - self.storage.len()
    }

    /// Returns how many bytes are allocated.
    #[inline]
    pub fn allocated(&self) -> usize {
        self.storage.capacity()
    }

    /// Returns whether so many bytes fit after the others.
    #[inline]
    pub fn has_room(&self, n: usize) -> bool {
        n <= self.spare()
    }

    /// Returns the bytes.
    #[inline]
    pub fn as_slice(&self) -> &[u8] {
        self.storage.as_slice()
    }

    /// Returns the bytes from a place on, which is at most the length, for overwriting.
    #[inline]
    pub fn slice_mut(&mut self, start: usize) -> &mut [u8] {
        self.storage.slice_mut(start..)
    }

    /// Appends bytes. Panics if they don't fit.
    #[inline]
    pub fn put(&mut self, src: &[u8]) {
        assert!(src.len() <= self.spare(), "{OUTSIDE}");
        let storage = &mut self.storage.0;
        let len = storage.len();
        // SAFETY: the limit is within the capacity (the clause of `put`), so these bytes fit after the others, which `src`
        // can't overlap: it is borrowed.
        unsafe {
            ptr::copy_nonoverlapping(src.as_ptr(), storage.as_mut_ptr().add(len), src.len());
            storage.set_len(len + src.len());
        }
    }

    /// Appends a byte. Panics if it doesn't fit.
    #[inline]
    pub fn push(&mut self, byte: u8) {
        self.put(&[byte]);
    }

    /// Keeps the first `n` bytes, or appends a byte until there are `n`. Panics if they don't fit.
    #[inline]
    pub fn resize(&mut self, n: usize, byte: u8) {
        assert!(n <= self.limit, "{OUTSIDE}");
        self.storage.0.resize(n, byte);
    }

    /// Keeps the first `n` bytes.
    #[inline]
    pub fn truncate(&mut self, n: usize) {
        self.storage.truncate(n);
    }

    /// Gives up the capacity after the bytes.
    #[inline]
    pub fn close(&mut self) {
        self.limit = self.storage.len();
    }
}

// For `bytes::BufMut` of the Rust crate; `block.rt` has no such calls, and `rust/dev/kit` no use of them.
#[allow(dead_code)]
impl Space {
    /// Returns the capacity after the bytes.
    #[inline]
    pub(crate) fn uninit(&mut self) -> &mut [MaybeUninit<u8>] {
        let n = self.spare();
        &mut self.storage.0.spare_capacity_mut()[..n]
    }

    /// Makes the first `n` bytes of the capacity after the others readable.
    ///
    /// # Safety
    /// There are `n` bytes of capacity, and the caller has written them.
    #[inline]
    pub(crate) unsafe fn fill(&mut self, n: usize) {
        debug_assert!(n <= self.spare(), "{OUTSIDE}");
        let len = self.storage.0.len() + n;
        // SAFETY: the limit is within the capacity, and the caller tested `n` and wrote the bytes.
        unsafe { self.storage.0.set_len(len) }
    }

    /// Returns the address of the bytes. The capacity may be written from there on.
    #[inline]
    pub(crate) fn address(&mut self) -> *mut u8 {
        self.storage.0.as_mut_ptr()
    }
}

/// A handle of shared storage.
pub struct Block {
    // The address of a head that `of` wrote. It stays there, unchanged but for its count, as long as a handle.
    head: NonNull<Head>,
}

// SAFETY: handles in several threads lend `&[u8]`, and the last one frees the storage in its thread, as those of an
// `Arc<Vec<u8>>` (the field of `Block` in the proved file).
unsafe impl Send for Block {}
// SAFETY: as above.
unsafe impl Sync for Block {}

impl Block {
    /// Shares storage. If allocation fails, drops it.
    #[inline]
    #[allow(unused_variables)]
    pub fn new(alloc: Global, shell: Shell, space: Space) -> Result<Block, AllocError> {
        Block::of(space, None)
    }

    /// Returns the bytes.
    #[inline]
    pub fn as_slice(&self) -> &[u8] {
        let head = self.head();
        // SAFETY: the `Vec` had these bytes, and nothing writes to them or frees them while there is a handle (the clause
        // of `as_slice`). The head is after them, or in an allocation of its own.
        unsafe { slice::from_raw_parts(head.at.as_ptr(), head.len) }
    }

    /// Returns the limit.
    #[inline]
    pub fn capacity(&self) -> usize {
        self.head().limit
    }

    /// Returns one more handle.
    #[inline]
    pub fn share(&self) -> Result<Block, AllocError> {
        let head = self.head();
        // Threads may share one handle at once: valgrind's helgrind takes stores of theirs for a race, but no swaps.
        if !head.shared.load(Ordering::Relaxed) {
            head.shared.swap(true, Ordering::Relaxed);
        }
        head.handles.add();
        Ok(Block { head: self.head })
    }

    /// Returns whether this is the only handle. If so, all that others did happened before.
    #[inline]
    pub(crate) fn is_only(&self) -> bool {
        self.head().handles.is_one()
    }

    /// Takes the storage back, if this is the only handle.
    #[inline]
    pub fn take(self) -> Result<(Space, Shell), Block> {
        let head = self.only()?;
        // SAFETY: this was the only handle (the clause of `take`).
        let (bytes, limit, apart) = unsafe { Block::joined(head) };
        keep(apart);
        Ok((Space { storage: Vec(bytes), limit }, Shell(())))
    }

    /// Converts the storage into a `Bytes`, if this is the only handle. If allocation fails, the block comes back.
    #[allow(unused_variables)]
    pub fn into_bytes(self, alloc: Global) -> Result<Result<Bytes, Block>, Block> {
        let head = self.only()?;
        // SAFETY: this was the only handle (the clause of `into_bytes`).
        let (bytes, limit, apart) = unsafe { Block::joined(head) };
        let storage = match Bytes::from_vec(Vec(bytes)) {
            Ok(bytes) => return Ok(Ok(bytes)),
            Err(refused) => refused.value,
        };
        Ok(Err(Block::of(Space { storage, limit }, apart).expect("a head has the place that it had")))
    }

    #[inline]
    fn head(&self) -> &Head {
        // SAFETY: by the invariant of `head`.
        unsafe { self.head.as_ref() }
    }

    // Gives up this handle, if it is the only one. All that others did happened before.
    #[inline]
    fn only(self) -> Result<NonNull<Head>, Block> {
        if !self.head().handles.is_one() {
            return Err(self);
        }
        Ok(ManuallyDrop::new(self).head)
    }

    // Takes a `Vec` apart, and writes its head: into its spare capacity, or else to a place of its own.
    #[inline]
    fn of(space: Space, apart: Option<Apart>) -> Result<Block, AllocError> {
        let Space { storage, limit } = space;
        let mut bytes = ManuallyDrop::new(storage.0);
        let (at, len, allocated) = (bytes.as_mut_ptr(), bytes.len(), bytes.capacity());
        let after = at.wrapping_add(len);
        let place = match apart {
            _ if allocated - len >= ROOM => after.wrapping_add(after.addr().wrapping_neg() % HEAD.align()),
            Some(apart) => Box::into_raw(apart).cast(),
            None => new_apart(),
        };
        let (Some(at), Some(head)) = (NonNull::new(at), NonNull::new(place.cast::<Head>())) else {
            drop(ManuallyDrop::into_inner(bytes));
            return Err(AllocError);
        };
        debug_assert!(head.is_aligned(), "the head's place");
        let value = Head { handles: Count::new(), shared: AtomicBool::new(false), at, len, allocated, limit };
        // SAFETY: the place is aligned, and has room for a head, which nothing else uses: it is an allocation of its own,
        // or spare capacity of a `Vec` that is taken apart, by whose own address it was found.
        unsafe { head.write(value) };
        Ok(Block { head })
    }

    // Puts the `Vec` together again, and returns the place of its head, if that was its own.
    //
    // # Safety
    // No handle is left, and all that the handles did happened before.
    #[inline]
    unsafe fn joined(head: NonNull<Head>) -> (vec::Vec<u8>, usize, Option<Apart>) {
        // SAFETY: the head is where `of` wrote it.
        let Head { at, len, allocated, limit, .. } = unsafe { head.read() };
        let is_apart = head.addr().get().wrapping_sub(at.addr().get()) >= allocated;
        // SAFETY: a head that isn't within the capacity was allocated with its layout, or was in such a box.
        let apart = is_apart.then(|| unsafe { Box::from_raw(head.cast().as_ptr()) });
        // SAFETY: these are the parts of the `Vec` that `of` took apart, and no handle lends its bytes.
        (unsafe { vec::Vec::from_raw_parts(at.as_ptr(), len, allocated) }, limit, apart)
    }

    // Stands apart, so that a drop is short where it is inlined.
    //
    // # Safety
    // No handle is left.
    #[cold]
    #[inline(never)]
    unsafe fn free(head: NonNull<Head>) {
        // SAFETY: as the caller says, and `acquire` makes all that the handles did happen before.
        let (bytes, _, apart) = unsafe {
            head.as_ref().handles.acquire();
            Block::joined(head)
        };
        match apart {
            Some(apart) => free_apart(bytes, apart),
            None => drop(bytes),
        }
    }
}

impl Drop for Block {
    #[inline]
    fn drop(&mut self) {
        // Another handle comes of `share` alone, which stores first: without one, nothing else counts.
        if !self.head().shared.load(Ordering::Relaxed) || self.head().handles.remove() {
            // SAFETY: this was the last handle.
            unsafe { Block::free(self.head) }
        }
    }
}

// Returns the place that this thread kept, or else a new one, or null if allocation fails. Stands apart, since most heads
// are in spare capacity.
#[inline(never)]
fn new_apart() -> *mut u8 {
    if ENDS_IF_REFUSED {
        if let Ok(Some(apart)) = SPARE.try_with(Cell::take) {
            return Box::into_raw(apart).cast();
        }
    }
    // SAFETY: the layout isn't empty.
    unsafe { alloc(HEAD) }
}

// Keeps a place for this thread's next head, or frees it.
#[inline]
fn keep(apart: Option<Apart>) {
    if ENDS_IF_REFUSED && apart.is_some() {
        // At its end a thread keeps none.
        let _ = SPARE.try_with(|spare| spare.set(apart));
    }
}

// Frees bytes, and keeps the place of their head. Stands apart, as `new_apart`.
#[inline(never)]
fn free_apart(bytes: vec::Vec<u8>, apart: Apart) {
    drop(bytes);
    keep(Some(apart));
}
