//! Each allocation of each call refused: the call returns an error, and nothing changes.
use kit::block::{Block, Shell, Space};
use kit::bytes::{Bytes, BytesMut};
use kit::hex;
use kit::prelude::{Clone as _, Vec as KitVec};
use kit::std::alloc::Global;
use kit::std::collections::VecDeque;
use kit::std::io::{BufRead as _, BufReader, BufWriter, ErrorKind};
use kit::std::sync::Arc;
use std::alloc::{GlobalAlloc, Layout, System};
use std::cell::Cell;
use std::ptr;

struct Refusing;

thread_local! {
    /// How many allocations of this thread succeed until one is refused.
    static LEFT: Cell<u64> = const { Cell::new(u64::MAX) };
    /// How many of its blocks are held.
    static HELD: Cell<i64> = const { Cell::new(0) };
}

fn is_refused() -> bool {
    let left = LEFT.get();
    LEFT.set(left.checked_sub(1).unwrap_or(u64::MAX));
    left == 0
}

fn hold(at: *mut u8) -> *mut u8 {
    HELD.set(HELD.get() + i64::from(!at.is_null()));
    at
}

// SAFETY: null says that there is no memory; all else is the system's.
unsafe impl GlobalAlloc for Refusing {
    unsafe fn alloc(&self, layout: Layout) -> *mut u8 {
        if is_refused() { ptr::null_mut() } else { hold(unsafe { System.alloc(layout) }) }
    }

    unsafe fn alloc_zeroed(&self, layout: Layout) -> *mut u8 {
        if is_refused() { ptr::null_mut() } else { hold(unsafe { System.alloc_zeroed(layout) }) }
    }

    unsafe fn realloc(&self, block: *mut u8, layout: Layout, n: usize) -> *mut u8 {
        if is_refused() { ptr::null_mut() } else { unsafe { System.realloc(block, layout, n) } }
    }

    unsafe fn dealloc(&self, block: *mut u8, layout: Layout) {
        HELD.set(HELD.get() - 1);
        unsafe { System.dealloc(block, layout) }
    }
}

#[global_allocator]
static ALLOCATOR: Refusing = Refusing;

/// Makes a value, and calls it with its first allocation refused, then its second, up to the number that it makes. The
/// call returns whether it succeeded; after an error the value has to be as it was. No block stays without it.
fn refuse<T>(
    name: &str,
    allocations: u64,
    make: impl Fn() -> T,
    call: impl Fn(&mut T) -> bool,
    is_same: impl Fn(&T) -> bool,
) {
    for n in 0..=allocations {
        let held = HELD.get();
        let mut value = make();
        LEFT.set(n);
        let is_done = call(&mut value);
        LEFT.set(u64::MAX);
        assert_eq!(is_done, n == allocations, "{name}, {n} allocations");
        assert!(is_done || is_same(&value), "{name}, {n} allocations: it changed");
        drop(value);
        assert_eq!(HELD.get(), held, "{name}, {n} allocations: blocks stay");
    }
}

fn bytes() -> KitVec<u8> {
    KitVec::from_slice(Global, b"hello").unwrap()
}

fn buffer() -> BytesMut {
    let mut buffer = BytesMut::with_capacity(Global, 5).unwrap();
    buffer.extend_reserved(b"hello");
    buffer
}

#[test]
fn vectors() {
    let is_same = |it: &KitVec<u8>| it.as_slice() == b"hello";
    refuse("with_capacity", 1, || (), |()| KitVec::<u8>::with_capacity(Global, 9).is_ok(), |()| true);
    refuse("from_elem", 1, || (), |()| KitVec::from_elem(Global, 0u8, 9).is_ok(), |()| true);
    refuse("push", 1, bytes, |it| it.push(1).map_err(|it| assert_eq!(it.value, 1)).is_ok(), is_same);
    refuse("extend_from_slice", 1, bytes, |it| it.extend_from_slice(b"12").is_ok(), is_same);
    refuse("resize", 1, bytes, |it| it.resize(9, 0).is_ok(), is_same);
    refuse("split_off", 1, bytes, |it| it.split_off(2).is_ok(), is_same);
    refuse("write", 1, bytes, |it| std::io::Write::write(it, b"12").is_ok(), is_same);
    refuse("decode", 1, || (), |()| hex::decode(Global, b"00").is_ok(), |()| true);
    let fails_for_memory =
        |it: std::io::Result<usize>| it.map_err(|it| assert_eq!(it.kind(), ErrorKind::OutOfMemory)).is_ok();
    refuse(
        "read_until",
        1,
        || KitVec::new(Global),
        |it| fails_for_memory((&mut &b"hello"[..]).read_until(0, it)),
        |it| it.is_empty(),
    );
}

#[test]
fn deques() {
    let items = || VecDeque::from_vec(KitVec::from_slice(Global, &[1, 2, 3]).unwrap());
    let is_same = |it: &VecDeque<i32>| it.into_iter().eq(&[1, 2, 3]);
    refuse("with_capacity", 1, || (), |()| VecDeque::<u8>::with_capacity(Global, 9).is_ok(), |()| true);
    refuse("try_reserve", 1, items, |it| it.try_reserve(9).is_ok(), is_same);
    refuse("push_back", 1, items, |it| it.push_back(4).is_ok(), is_same);
    refuse("split_off", 1, items, |it| it.split_off(1).is_ok(), is_same);
    let views = || VecDeque::from_vec(KitVec::with_capacity(Global, 1).unwrap());
    let two = move || {
        let mut items = views();
        items.push_back(Bytes::from_static(b"a")).unwrap();
        items.push_back(Bytes::from_vec(bytes()).unwrap()).unwrap();
        items
    };
    refuse("clone", 1, two, |it| it.clone().is_ok(), |it| it.len() == 2);
}

#[test]
fn shared() {
    refuse("Arc::new", 1, || (), |()| Arc::new(Global, 7).map_err(|it| assert_eq!(it.value, 7)).is_ok(), |()| true);
    refuse("Space::new", 1, || (), |()| Space::new(Global, 9, Shell::none()).is_ok(), |()| true);
    let exact = || Some(Space::of(bytes(), 5));
    let block = |it: &mut Option<Space>| Block::new(Global, Shell::none(), it.take().unwrap()).is_ok();
    refuse("Block::new", 1, exact, block, |_| true);
    let made = || {
        let (mut space, _) = Space::new(Global, 5, Shell::none()).unwrap();
        space.put(b"hello");
        Some(space)
    };
    refuse("Block::new of new space", 0, made, block, |_| false);
    let convert = |it: &mut Option<Block>| match it.take().unwrap().into_bytes(Global).ok().unwrap() {
        Ok(_) => true,
        Err(same) => (*it = Some(same), false).1,
    };
    for spare in [0, 50] {
        let make = || {
            let mut storage = KitVec::with_capacity(Global, 5 + spare).unwrap();
            storage.extend_from_slice(b"hello").unwrap();
            Block::new(Global, Shell::none(), Space::of(storage, 5 + spare / 2)).ok()
        };
        let parts = |it: &Block| (it.as_slice() == b"hello", it.capacity());
        let is_same = |it: &Option<Block>| it.as_ref().map(parts) == Some((true, 5 + spare / 2));
        refuse("Block::into_bytes", 1, make, convert, is_same);
    }
    let is_same = |it: &Option<KitVec<u8>>| it.as_ref().unwrap().as_slice() == b"hello";
    let share = |it: &mut Option<KitVec<u8>>| match Bytes::from_vec(it.take().unwrap()) {
        Ok(_) => true,
        Err(refused) => (*it = Some(refused.value), false).1,
    };
    refuse("from_vec", 1, || Some(bytes()), share, is_same);
    refuse("copy_from_slice", 2, || (), |()| Bytes::copy_from_slice(Global, b"hello").is_ok(), |()| true);
    let view = || Bytes::from_vec(bytes()).unwrap();
    refuse("clone", 0, view, |it| it.clone().is_ok(), |_| true);
    refuse("slice", 0, view, |it| it.slice(1..2).is_ok(), |_| true);
    refuse("split_to", 0, view, |it| it.split_to(2).is_ok(), |_| true);
}

#[test]
fn buffers() {
    let is_same = |it: &BytesMut| it.as_slice() == b"hello" && it.capacity() == 5;
    refuse("with_capacity", 2, || (), |()| BytesMut::with_capacity(Global, 9).is_ok(), |()| true);
    refuse("reserve", 1, buffer, |it| it.reserve(9).is_ok(), is_same);
    refuse("freeze_to", 0, buffer, |it| it.freeze_to(2).is_ok(), is_same);
    let shared = || {
        let mut whole = buffer();
        whole.reserve(2).unwrap();
        whole.extend_reserved(b"12");
        let front = whole.freeze_to(2).unwrap();
        (whole, front)
    };
    refuse("reserve of a shared block", 2, shared, |it| it.0.reserve(99).is_ok(), |it| it.0.as_slice() == b"llo12");
    let into_vec = |it: &mut (BytesMut, Bytes)| match std::mem::replace(&mut it.0, BytesMut::new(Global)).into_vec() {
        Ok(_) => true,
        Err(refused) => (it.0 = refused.value, false).1,
    };
    refuse("into_vec of a shared block", 1, shared, into_vec, |it| it.0.as_slice() == b"llo12");
}

#[test]
fn streams() {
    let kind = |it: std::io::Error| assert_eq!(it.kind(), ErrorKind::OutOfMemory);
    refuse("BufReader", 1, || (), |()| BufReader::with_capacity(Global, 9, &b""[..]).map_err(kind).is_ok(), |()| true);
    refuse(
        "BufWriter",
        1,
        || (),
        |()| BufWriter::with_capacity(Global, 9, std::io::sink()).map_err(kind).is_ok(),
        |()| true,
    );
}
