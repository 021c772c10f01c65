//! `block` compared with std's `Vec`, a limit and a count of handles, and what it does if it is misused.
use kit::block::{Block, Shell, Space};
use kit::prelude::Vec;
use kit::std::alloc::{AllocError, Global};
use std::cell::Cell;
use std::panic::{AssertUnwindSafe, catch_unwind};
use std::rc::Rc;
use std::thread;

type Std = std::vec::Vec<u8>;

struct Random(u64);

impl Random {
    fn below(&mut self, n: usize) -> usize {
        self.0 = self.0.wrapping_mul(6364136223846793005).wrapping_add(1442695040888963407);
        (self.0 >> 33) as usize % n.max(1)
    }

    fn bytes(&mut self, n: usize) -> Std {
        (0..n).map(|_| self.below(256) as u8).collect()
    }

    // Mostly a number that fits, but any number at times.
    fn place(&mut self, most: usize) -> usize {
        if self.below(50) == 0 { usize::MAX - self.below(3) } else { self.below(most + 3) }
    }
}

// Whether a call that should panic does, or one that shouldn't doesn't.
fn tried<T>(fits: bool, call: impl FnOnce() -> T) -> Option<T> {
    let done = catch_unwind(AssertUnwindSafe(call)).ok();
    assert_eq!(done.is_some(), fits);
    done
}

fn vector(bytes: &[u8], spare: usize) -> Vec<u8> {
    let mut storage = Vec::with_capacity(Global, bytes.len() + spare).unwrap();
    storage.extend_from_slice(bytes).unwrap();
    storage
}

// A space without a limit below its capacity.
fn whole(storage: Vec<u8>) -> Space {
    let limit = storage.capacity();
    Space::of(storage, limit)
}

// Where storage is, its length, its limit and its capacity.
fn parts(space: &Space) -> (usize, usize, usize, usize) {
    (space.as_slice().as_ptr().addr(), space.len(), space.capacity(), space.allocated())
}

// Any call of a space, also with numbers that don't fit, on one that has these bytes and this limit.
fn change(random: &mut Random, space: &mut Space, bytes: &mut Std, limit: &mut usize) {
    let (n, place) = (random.below(9), random.place(*limit));
    match random.below(6) {
        0 => {
            let src = random.bytes(n);
            if tried(n <= *limit - bytes.len(), || space.put(&src)).is_some() {
                bytes.extend(src);
            }
        }
        1 => {
            if tried(bytes.len() < *limit, || space.push(n as u8)).is_some() {
                bytes.push(n as u8);
            }
        }
        2 => {
            if tried(place <= *limit, || space.resize(place, 7)).is_some() {
                bytes.resize(place, 7);
            }
        }
        3 => {
            space.truncate(place);
            bytes.truncate(place);
        }
        4 => {
            if tried(place <= bytes.len(), || space.slice_mut(place).fill(9)).is_some() {
                bytes[place..].fill(9);
            }
        }
        _ => {
            space.close();
            *limit = bytes.len();
        }
    }
    let spare = *limit - bytes.len();
    assert_eq!((space.as_slice(), space.capacity(), space.spare()), (&**bytes, *limit, spare));
    assert!(space.has_room(spare) && !space.has_room(spare + 1));
}

#[test]
fn compared_with_a_vector_and_a_limit() {
    std::panic::set_hook(Box::new(|_| ()));
    let random = &mut Random(7);
    for _ in 0..20_000 {
        let (n, spare) = (random.below(40), random.below(60));
        let mut bytes = random.bytes(n);
        let mut limit = random.place(n + spare);
        let storage = vector(&bytes, spare);
        let fits = n <= limit && limit <= storage.capacity();
        let Some(mut space) = tried(fits, || Space::of(storage, limit)) else {
            continue;
        };
        let before = space.allocated();
        (0..20).for_each(|_| change(random, &mut space, &mut bytes, &mut limit));
        assert_eq!(space.allocated(), before);
        assert_eq!(space.into_vec().as_slice(), bytes);
    }
}

// A handle, with the bytes and the parts of its storage, and the number of its handles.
struct Shared {
    block: Block,
    bytes: Std,
    parts: (usize, usize, usize, usize),
    handles: Rc<Cell<usize>>,
}

fn shared(space: Space, shell: Shell, bytes: Std) -> Shared {
    let parts = parts(&space);
    let block = Block::new(Global, shell, space).unwrap();
    Shared { block, bytes, parts, handles: Rc::new(Cell::new(1)) }
}

// Storage with room after its bytes, or a `Vec` that is adopted, with any spare capacity and any limit.
fn new(random: &mut Random) -> Shared {
    let n = random.below(100);
    let bytes = random.bytes(n);
    if random.below(2) == 0 {
        let (mut space, shell) = Space::new(Global, n + random.below(50), Shell::none()).unwrap();
        space.put(&bytes);
        return shared(space, shell, bytes);
    }
    let storage = vector(&bytes, random.below(80));
    let limit = n + random.below(storage.capacity() - n + 1);
    shared(Space::of(storage, limit), Shell::none(), bytes)
}

// The storage comes back as it was, and what is written to it is shared again.
fn take(random: &mut Random, it: Shared) -> Shared {
    let Shared { block, mut bytes, parts: before, handles } = it;
    match block.take() {
        Ok((mut space, shell)) => {
            assert_eq!((handles.get(), parts(&space), space.as_slice()), (1, before, &*bytes));
            let n = random.below(bytes.len() + 1);
            space.truncate(n);
            bytes.truncate(n);
            while space.spare() > 0 && random.below(9) > 0 {
                space.push(7);
                bytes.push(7);
            }
            shared(space, shell, bytes)
        }
        Err(block) => {
            assert!(handles.get() > 1);
            Shared { block, bytes, parts: before, handles }
        }
    }
}

fn into_bytes(it: Shared) -> Option<Shared> {
    let Shared { block, bytes, parts, handles } = it;
    match block.into_bytes(Global) {
        Ok(whole) => {
            assert_eq!((handles.get(), whole.ok().unwrap().as_slice()), (1, &*bytes));
            None
        }
        Err(block) => {
            assert!(handles.get() > 1);
            Some(Shared { block, bytes, parts, handles })
        }
    }
}

#[test]
fn compared_with_a_vector_and_a_count() {
    let random = &mut Random(7);
    let mut all: std::vec::Vec<Shared> = std::vec::Vec::new();
    for _ in 0..200_000 {
        let i = random.below(all.len());
        match random.below(7) {
            _ if all.is_empty() => all.push(new(random)),
            0 => all.push(new(random)),
            1 | 2 => {
                let Shared { bytes, parts, handles, .. } = &all[i];
                let (bytes, parts, handles) = (bytes.clone(), *parts, handles.clone());
                handles.set(handles.get() + 1);
                all.push(Shared { block: all[i].block.share().unwrap(), bytes, parts, handles });
            }
            3 => {
                let it = all.swap_remove(i);
                all.push(take(random, it));
            }
            4 => {
                let it = all.swap_remove(i);
                all.extend(into_bytes(it));
            }
            _ => {
                let it = all.swap_remove(i);
                it.handles.set(it.handles.get() - 1);
            }
        }
        if all.len() > 40 {
            all.clear();
        }
        for it in &all {
            let (at, len, limit, _) = it.parts;
            assert_eq!((it.block.as_slice(), it.block.as_slice().as_ptr().addr()), (&*it.bytes, at));
            assert_eq!((it.bytes.len(), it.block.capacity()), (len, limit));
        }
    }
}

#[test]
fn sizes_that_no_storage_has() {
    for n in [usize::MAX, usize::MAX - 38, isize::MAX as usize + 1, isize::MAX as usize, 1 << 62] {
        assert_eq!(Space::new(Global, n, Shell::none()).map(|_| ()), Err(AllocError), "{n}");
    }
}

// Storage without bytes, with spare capacity of all sizes around that of a head, and with bytes at each place of a word.
#[test]
fn spare_capacity_of_each_size() {
    for (len, spare) in (0..20).flat_map(|len| (0..60).map(move |spare| (len, spare))) {
        let space = whole(vector(&[9; 20][..len], spare));
        let before = parts(&space);
        let block = Block::new(Global, Shell::none(), space).unwrap();
        let other = block.share().unwrap();
        assert_eq!(other.as_slice(), &[9; 20][..len]);
        let block = block.take().err().unwrap();
        drop(other);
        let (space, _) = block.take().ok().unwrap();
        assert_eq!((parts(&space), space.as_slice()), (before, &[9; 20][..len]));
    }
}

#[test]
fn in_threads() {
    for round in 0..3_000 {
        let (mut space, shell) = Space::new(Global, 64, Shell::none()).unwrap();
        space.put(&[round as u8; 64][..64 - round % 3 * 20]);
        if round % 2 == 0 {
            space = whole(vector(space.as_slice(), 0));
        }
        let block = Block::new(Global, shell, space).unwrap();
        let taken = thread::scope(|scope| {
            let threads: std::vec::Vec<_> = (0..3)
                .map(|_| {
                    let block = block.share().unwrap();
                    scope.spawn(move || {
                        let more = block.share().unwrap();
                        assert!(more.as_slice().iter().all(|it| *it == round as u8));
                        drop(block);
                        more.take().map(|(mut space, _)| space.slice_mut(0).fill(0)).is_ok()
                    })
                })
                .collect();
            drop(block);
            threads.into_iter().map(|it| it.join().unwrap()).filter(|it| *it).count()
        });
        assert!(taken <= 1);
    }
}
