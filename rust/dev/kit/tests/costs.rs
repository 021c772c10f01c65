//! What the layer allocates and frees, over an allocator that puts each block right after the one before.
use kit::block::{Block, Shell, Space};
use kit::prelude::Vec;
use kit::std::alloc::Global;
use kit::std::io::{BufWriter, Write};
use std::alloc::{GlobalAlloc, Layout, System};
use std::cell::Cell;
use std::ptr;

/// How many bytes the allocator has of its own for each thread.
const ARENA: usize = 1 << 20;

#[derive(Clone, Copy, Default)]
struct Spent {
    allocations: usize,
    frees: usize,
    bytes: usize,
}

thread_local! {
    static SPENT: Cell<Spent> = const { Cell::new(Spent { allocations: 0, frees: 0, bytes: 0 }) };
    /// Where this thread's next block is, or none outside of a call that is counted, and where its arena ends.
    static NEXT: Cell<Option<usize>> = const { Cell::new(None) };
    static END: Cell<usize> = const { Cell::new(0) };
}

/// The system's allocator, but in a call that is counted: there a thread's blocks are neighbours.
struct Neighbours;

// SAFETY: blocks of the arena don't overlap, and none is used again.
unsafe impl GlobalAlloc for Neighbours {
    unsafe fn alloc(&self, layout: Layout) -> *mut u8 {
        let Some(next) = NEXT.get() else { return unsafe { System.alloc(layout) } };
        SPENT.with(|it| {
            let Spent { allocations, frees, bytes } = it.get();
            it.set(Spent { allocations: allocations + 1, frees, bytes: bytes + layout.size() });
        });
        let at = next.next_multiple_of(layout.align());
        if at + layout.size() > END.get() {
            return ptr::null_mut();
        }
        NEXT.set(Some(at + layout.size()));
        ptr::with_exposed_provenance_mut(at)
    }

    unsafe fn dealloc(&self, at: *mut u8, layout: Layout) {
        if NEXT.get().is_some() {
            SPENT.with(|it| it.set(Spent { frees: it.get().frees + 1, ..it.get() }));
        } else {
            unsafe { System.dealloc(at, layout) }
        }
    }
}

#[global_allocator]
static NEIGHBOURS: Neighbours = Neighbours;

/// What a call allocates and frees. It may keep nothing of it.
fn spent(call: impl FnOnce()) -> Spent {
    let arena = std::vec::Vec::<u8>::with_capacity(ARENA);
    let begin = arena.as_ptr().expose_provenance();
    SPENT.set(Spent::default());
    END.set(begin + ARENA);
    NEXT.set(Some(begin));
    call();
    NEXT.set(None);
    SPENT.get()
}

/// Appends double the capacity: each byte is moved less than twice.
#[test]
fn appends() {
    let of = spent(|| {
        let mut items = Vec::new(Global);
        for i in 0..65_536 {
            items.extend_from_slice(&[i as u8]).unwrap();
        }
        assert_eq!(items.len(), 65_536);
    });
    assert!(of.allocations <= 17 && of.bytes < 4 * 65_536 && of.frees == of.allocations, "{} times", of.allocations);
}

/// What is split off has its own items' size.
#[test]
fn splits() {
    let mut items = Vec::from_slice(Global, &[7u64; 1000]).unwrap();
    let of = spent(|| assert_eq!(items.split_off(990).unwrap().len(), 10));
    assert_eq!((of.allocations, of.bytes), (1, 80));
}

/// A writer's block is allocated once, whatever is written.
#[test]
fn blocks_of_writers() {
    let of = spent(|| {
        let mut to = BufWriter::with_capacity(Global, 64, std::io::sink()).unwrap();
        for n in (0..200).chain([63, 64, 65, 1]) {
            to.write_all(&[1; 200][..n]).unwrap();
        }
        to.flush().unwrap();
    });
    assert_eq!((of.allocations, of.bytes, of.frees), (1, 64, 1));
}

/// A head right after its storage is an allocation of its own, and is freed.
#[test]
fn heads_beside_storage() {
    for n in [8, 64, 1024] {
        let of = spent(|| {
            let storage = Vec::from_slice(Global, &[7; 1024][..n]).unwrap();
            let block = Block::new(Global, Shell::none(), Space::of(storage, n)).unwrap();
            let (at, next) = (block.as_slice().as_ptr().addr(), NEXT.get().unwrap());
            assert!(next > at + n, "the head isn't in the storage");
            drop(block.share().unwrap());
        });
        assert_eq!((of.allocations, of.frees), (2, 2), "{n}");
    }
}

/// Space that is made has room for its head, also once it is full.
#[test]
fn heads_of_new_space() {
    for n in [1, 977, 978, 1032, 1033, 4096] {
        let of = spent(|| {
            let (mut space, shell) = Space::new(Global, n, Shell::none()).unwrap();
            space.resize(n, 7);
            drop(Block::new(Global, shell, space).unwrap());
        });
        assert_eq!((of.allocations, of.frees), (1, 1), "{n}");
    }
}

/// A head in the spare capacity stays inside it, wherever the storage begins: its neighbour is as it was.
#[test]
fn heads_in_storage() {
    let of = spent(|| {
        for (shift, spare) in (0..8).flat_map(|shift| (46..72).map(move |spare| (shift, spare))) {
            let _before = Vec::from_slice(Global, &[1u8; 8][..shift]).unwrap();
            let mut storage = Vec::with_capacity(Global, 5 + spare).unwrap();
            storage.extend_from_slice(b"hello").unwrap();
            let neighbour = Vec::from_slice(Global, &[7u8; 8]).unwrap();
            let block = Block::new(Global, Shell::none(), Space::of(storage, 5)).unwrap();
            drop(block.share().unwrap());
            assert_eq!((block.as_slice(), neighbour.as_slice()), (&b"hello"[..], &[7; 8][..]), "{spare}");
        }
    });
    assert_eq!(of.allocations, of.frees);
}
