//! `held` compared with an index and a length, which the proved file has, and what it does if it is misused.
use kit::block::{Block, Shell, Space};
use kit::bytes::Bytes;
use kit::held::{Held, Native};
use kit::prelude::Vec;
use kit::std::alloc::Global;
use std::panic::{AssertUnwindSafe, catch_unwind};
use std::thread;

const TEXT: &[u8] = b"text that is static";

struct Random(u64);

impl Random {
    fn below(&mut self, n: usize) -> usize {
        self.0 = self.0.wrapping_mul(6364136223846793005).wrapping_add(1442695040888963407);
        (self.0 >> 33) as usize % n.max(1)
    }

    // Mostly a number that fits, but any number at times.
    fn place(&mut self, len: usize) -> usize {
        if self.below(50) == 0 { usize::MAX - self.below(3) } else { self.below(len + 2) }
    }
}

#[derive(Clone, Copy, PartialEq, Debug)]
enum Kind {
    Native,
    Static,
    Shared,
}

// A view, its bytes, the place of the first in their storage, and the kind of storage.
struct Seen {
    held: Held,
    bytes: std::vec::Vec<u8>,
    start: usize,
    kind: Kind,
}

fn native(bytes: &[u8], start: usize, len: usize) -> Native {
    limited(bytes, start, len, bytes.len())
}

fn limited(bytes: &[u8], start: usize, len: usize, limit: usize) -> Native {
    let mut storage = Vec::with_capacity(Global, limit).unwrap();
    storage.extend_from_slice(bytes).unwrap();
    let block = Block::new(Global, Shell::none(), Space::of(storage, limit)).unwrap();
    Native { block, start, len }
}

// Whether a call that should panic does, or one that shouldn't doesn't.
fn tried<T>(fits: bool, call: impl FnOnce() -> T) -> Option<T> {
    let done = catch_unwind(AssertUnwindSafe(call)).ok();
    assert_eq!(done.is_some(), fits);
    done
}

fn new(random: &mut Random) -> Option<Seen> {
    let bytes: std::vec::Vec<u8> = (0..random.below(50)).map(|_| random.below(256) as u8).collect();
    match random.below(3) {
        0 => {
            let (start, len) = (random.place(20), random.place(20));
            let fits = start <= bytes.len() && len <= bytes.len() - start;
            let held = tried(fits, || Held::of_native(native(&bytes, start, len)))?;
            Some(Seen { held, bytes: bytes[start..][..len].to_vec(), start, kind: Kind::Native })
        }
        1 => {
            let held = Held::of_bytes(Bytes::copy_from_slice(Global, &bytes).unwrap());
            Some(Seen { held, bytes, start: 0, kind: Kind::Shared })
        }
        _ => {
            let from = random.below(TEXT.len() + 1);
            Some(Seen {
                held: Held::of_static(&TEXT[from..]),
                bytes: TEXT[from..].to_vec(),
                start: 0,
                kind: Kind::Static,
            })
        }
    }
}

fn part(seen: &Seen, from: usize, to: usize) -> Option<Seen> {
    let fits = from <= to && to <= seen.bytes.len();
    let held = tried(fits, || seen.held.share(from, to))?.unwrap();
    Some(Seen { held, bytes: seen.bytes[from..to].to_vec(), start: seen.start + from, kind: seen.kind })
}

fn split(seen: &mut Seen, n: usize) -> Option<Seen> {
    let held = tried(n <= seen.bytes.len(), || seen.held.split_to(n))?.unwrap();
    let rest = seen.bytes.split_off(n);
    let bytes = std::mem::replace(&mut seen.bytes, rest);
    let front = Seen { held, bytes, start: seen.start, kind: seen.kind };
    seen.start += n;
    Some(front)
}

// Takes a view apart, and writes its block where nothing shares it.
fn end(seen: Seen) {
    match seen.held.into_native() {
        Ok(native) => {
            assert_eq!(seen.kind, Kind::Native);
            assert_eq!((native.start, native.as_slice()), (seen.start, &*seen.bytes));
            if let Ok((mut space, _)) = native.block.take() {
                space.slice_mut(0).fill(0);
                space.truncate(0);
            }
        }
        Err(held) => {
            assert_eq!(held.as_slice(), seen.bytes);
            assert_ne!(seen.kind, Kind::Native);
            assert_eq!(held.into_bytes().ok().unwrap().as_slice(), seen.bytes);
        }
    }
}

#[test]
fn compared_with_an_index() {
    std::panic::set_hook(Box::new(|_| ()));
    let random = &mut Random(7);
    let mut views: std::vec::Vec<Seen> = std::vec::Vec::new();
    for _ in 0..200_000 {
        let i = random.below(views.len());
        match random.below(8) {
            _ if views.is_empty() => views.extend(new(random)),
            0 => views.extend(new(random)),
            1 | 2 => {
                let seen = &mut views[i];
                let n = random.place(seen.bytes.len());
                if tried(n <= seen.bytes.len(), || seen.held.advance(n)).is_some() {
                    seen.bytes.drain(..n);
                    seen.start += n;
                }
            }
            3 | 4 => {
                let (from, to) = (random.place(views[i].bytes.len()), random.place(views[i].bytes.len()));
                let more = part(&views[i], from, to);
                views.extend(more);
            }
            5 => {
                let n = random.place(views[i].bytes.len());
                let more = split(&mut views[i], n);
                views.extend(more);
            }
            6 => {
                let Seen { bytes, start, kind, .. } = &views[i];
                let (bytes, start, kind) = (bytes.clone(), *start, *kind);
                views.push(Seen { held: views[i].held.try_clone().unwrap(), bytes, start, kind });
            }
            _ => end(views.swap_remove(i)),
        }
        if views.len() > 40 {
            views.clear();
        }
        for seen in &views {
            assert_eq!((seen.held.as_slice(), seen.held.len()), (&*seen.bytes, seen.bytes.len()));
            assert_eq!(seen.held.is_static(), seen.kind == Kind::Static);
            assert_eq!(seen.held.is_shared(), seen.kind == Kind::Shared);
        }
    }
}

// A share keeps its block from being written, and a part outlives the view that it is of.
#[test]
fn a_share_is_a_handle() {
    let block = native(&[1, 2, 3, 4], 1, 3);
    let other = block.block.share().unwrap();
    let held = Held::of_native(block);
    let other = other.take().err().unwrap();
    let part = held.share(1, 3).unwrap();
    drop(held);
    let other = other.take().err().unwrap();
    let moved = Box::new(part);
    drop(other);
    assert_eq!(moved.as_slice(), [3, 4]);
    let bytes = Bytes::copy_from_slice(Global, b"bytes").unwrap();
    let held = Held::of_bytes(bytes);
    let part = held.share(2, 5).unwrap();
    assert!(held.into_bytes().ok().unwrap().try_into_mut().is_err());
    assert_eq!(part.as_slice(), b"tes");
}

// The range of native storage and its limit come back as they were given, less what was dropped.
#[test]
fn a_range_comes_back() {
    let mut held = Held::of_native(limited(&[1, 2, 3, 4], 1, 3, 9));
    held.advance(1);
    let front = held.split_to(1).unwrap();
    for (held, start, len) in [(front, 2, 1), (held, 3, 1)] {
        let range = held.into_native().ok().unwrap();
        assert_eq!((range.start, range.len, range.block.capacity()), (start, len, 9));
    }
}

#[test]
fn in_threads() {
    for round in 0..2_000 {
        let held = Held::of_native(native(&[round as u8; 64], 0, 64));
        thread::scope(|scope| {
            for i in 0..3 {
                let part = held.share(i, 64 - i).unwrap();
                scope.spawn(move || {
                    assert!(part.as_slice().iter().all(|it| *it == round as u8));
                    if let Ok((mut space, _)) = part.into_native().ok().unwrap().block.take() {
                        space.slice_mut(0).fill(0);
                    }
                });
            }
            scope.spawn(move || drop(held));
        });
    }
}
