//! The bytes of the layer against a model, and by several threads.
use kit::bytes::{Bytes, BytesMut};
use kit::prelude::{Clone as _, Vec as KitVec};
use kit::std::alloc::Global;
use std::thread;

/// A xorshift generator.
struct Random(u64);

impl Random {
    fn below(&mut self, n: usize) -> usize {
        self.0 ^= self.0 << 13;
        self.0 ^= self.0 >> 7;
        self.0 ^= self.0 << 17;
        (self.0 >> 11) as usize % n
    }

    fn bytes(&mut self, n: usize) -> Vec<u8> {
        (0..n).map(|_| self.below(256) as u8).collect()
    }
}

/// A buffer and views of it, each with the bytes that it should have.
struct Held {
    buffer: (BytesMut, Vec<u8>),
    views: Vec<(Bytes, Vec<u8>)>,
}

impl Held {
    fn check(&self) {
        let (buffer, bytes) = &self.buffer;
        assert_eq!((buffer.as_slice(), buffer.len(), buffer.is_empty()), (&bytes[..], bytes.len(), bytes.is_empty()));
        assert!(buffer.capacity() >= buffer.len());
        for (view, bytes) in &self.views {
            assert_eq!((view.as_slice(), view.len(), view.is_empty()), (&bytes[..], bytes.len(), bytes.is_empty()));
        }
    }

    /// One random call of the buffer.
    fn change_buffer(&mut self, random: &mut Random) {
        let (buffer, bytes) = &mut self.buffer;
        let (len, space) = (buffer.len(), buffer.capacity() - buffer.len());
        match random.below(8) {
            0 => {
                let n = random.below(80);
                buffer.reserve(n).unwrap();
                assert!(buffer.capacity() - len >= n.max(space));
            }
            1 => {
                let n = random.below(80);
                let is_there = buffer.try_reclaim(n);
                let more = buffer.capacity() - len;
                assert!(is_there == (n <= more) && space <= more);
            }
            2 | 3 => {
                let new = random.bytes(space.min(40));
                buffer.extend_reserved(&new);
                bytes.extend(new);
                assert_eq!(buffer.capacity() - buffer.len(), space - space.min(40));
            }
            4 => {
                let n = random.below(space.min(5) + 1);
                buffer.advance_mut(n);
                bytes.extend_from_slice(&buffer.as_slice()[len..]);
                assert_eq!((buffer.len(), buffer.capacity() - buffer.len()), (len + n, space - n));
            }
            5 => {
                let n = random.below(len + 1);
                self.views.push((buffer.freeze_to(n).unwrap(), bytes.drain(..n).collect()));
                assert_eq!(buffer.capacity() - buffer.len(), space);
            }
            6 => {
                let n = random.below(len + 1);
                buffer.advance(n);
                bytes.drain(..n);
                assert_eq!(buffer.capacity() - buffer.len(), space);
            }
            _ => {
                let n = random.below(2 * len + 1);
                buffer.truncate(n);
                bytes.truncate(n);
            }
        }
    }

    /// One random call of a view.
    fn change_views(&mut self, random: &mut Random) {
        if self.views.is_empty() {
            let bytes = random.bytes(30);
            return self.views.push((Bytes::copy_from_slice(Global, &bytes).unwrap(), bytes));
        }
        let (view, bytes) = self.views.swap_remove(random.below(self.views.len()));
        let (to, mut view) = (random.below(bytes.len() + 1), view);
        let from = random.below(to + 1);
        match random.below(6) {
            0 => self.views.push((view.slice(from..to).unwrap(), bytes[from..to].to_vec())),
            1 => self.views.push((view.clone().unwrap(), bytes.clone())),
            2 => {
                self.views.push((view.split_to(to).unwrap(), bytes[..to].to_vec()));
                return self.views.push((view, bytes[to..].to_vec()));
            }
            3 => {
                view.advance(to);
                return self.views.push((view, bytes[to..].to_vec()));
            }
            4 => match view.try_into_mut() {
                Ok(buffer) if random.below(2) == 0 => return self.buffer = (buffer, bytes),
                Ok(buffer) => return self.views.push((buffer.freeze().unwrap(), bytes)),
                Err(same) => view = same,
            },
            _ => return,
        }
        self.views.push((view, bytes));
    }
}

#[test]
fn random_calls() {
    for round in 1..=400 {
        let mut random = Random(u64::wrapping_mul(round, 0x9e3779b97f4a7c15));
        let capacity = random.below(100);
        let buffer = BytesMut::with_capacity(Global, capacity).unwrap();
        assert!(buffer.capacity() >= capacity);
        let mut held = Held { buffer: (buffer, Vec::new()), views: Vec::new() };
        for _ in 0..200 {
            match random.below(3) {
                0 => held.change_views(&mut random),
                _ => held.change_buffer(&mut random),
            }
            held.check();
        }
        let (buffer, bytes) = held.buffer;
        assert_eq!(buffer.into_vec().unwrap().as_slice(), bytes);
    }
}

#[test]
fn a_vector_comes_back() {
    let mut all = KitVec::from_slice(Global, b"hello").unwrap();
    let at = all.as_slice().as_ptr();
    all.extend_from_slice(b"").unwrap();
    let view = Bytes::from_vec(all).unwrap();
    let other = view.clone().unwrap();
    let view = view.try_into_mut().map(|_| ()).unwrap_err();
    drop(other);
    let back = view.try_into_mut().unwrap().into_vec().unwrap();
    assert_eq!((back.as_slice(), back.as_slice().as_ptr()), (&b"hello"[..], at));
}

#[test]
fn static_bytes_are_not_written() {
    let view = Bytes::from_static(b"hello");
    assert_eq!(view.slice(1..=3).unwrap().as_slice(), b"ell");
    assert_eq!(view.slice(..).unwrap().as_slice(), b"hello");
    assert_eq!(view.try_into_mut().map(|_| ()).unwrap_err().as_slice(), b"hello");
    assert!(Bytes::new().try_into_mut().is_err());
}

#[test]
fn slices_between_bounds() {
    use std::ops::Bound::{self, Excluded, Included, Unbounded};
    type Case = ((Bound<usize>, Bound<usize>), &'static [u8]);
    let cases: [Case; 5] = [
        ((Included(1), Excluded(3)), b"el"),
        ((Excluded(1), Included(3)), b"ll"),
        ((Excluded(1), Unbounded), b"llo"),
        ((Unbounded, Included(1)), b"he"),
        ((Excluded(1), Excluded(2)), b""),
    ];
    for view in [Bytes::from_static(b"hello"), Bytes::copy_from_slice(Global, b"hello").unwrap()] {
        for (range, wanted) in cases {
            assert_eq!(view.slice(range).unwrap().as_slice(), wanted, "{range:?}");
        }
    }
}

/// Space at the front is reclaimed once as many bytes are taken there as are left.
#[test]
fn a_block_is_not_rewound_over_its_bytes() {
    for (taken, capacity) in [(0, 8), (3, 5), (4, 8), (5, 8)] {
        let mut buffer = BytesMut::with_capacity(Global, 8).unwrap();
        buffer.extend_reserved(b"abcdefgh");
        drop(buffer.freeze_to(taken).unwrap());
        assert_eq!(buffer.try_reclaim(1), taken > 3, "{taken}");
        assert_eq!((buffer.capacity(), buffer.as_slice()), (capacity, &b"abcdefgh"[taken..]), "{taken}");
    }
}

/// A reader that says it read more than it was given.
struct Lies;

impl std::io::Read for Lies {
    fn read(&mut self, to: &mut [u8]) -> std::io::Result<usize> {
        Ok(to.len() + 1)
    }
}

#[test]
fn bytes_are_read() {
    let mut buffer = BytesMut::with_capacity(Global, 3).unwrap();
    let mut reader = &b"hello"[..];
    assert_eq!(buffer.read_from(&mut reader).unwrap(), 3);
    assert_eq!((buffer.as_slice(), reader), (&b"hel"[..], &b"lo"[..]));
    assert_eq!(buffer.read_from(&mut reader).unwrap(), 0);
    buffer.reserve(4).unwrap();
    assert_eq!(buffer.read_from(&mut Lies).unwrap_err().kind(), std::io::ErrorKind::InvalidData);
    assert_eq!(buffer.as_slice(), b"hel");
}

/// The buffer fills its space while others read what it froze.
#[test]
fn threads() {
    let mut buffer = BytesMut::with_capacity(Global, 1 << 16).unwrap();
    let readers: Vec<_> = (0..64u8)
        .map(|i| {
            buffer.extend_reserved(&[i; 1024]);
            let view = buffer.freeze_to(1024).unwrap();
            thread::spawn(move || assert!(view.as_slice().iter().all(|it| *it == i)))
        })
        .collect();
    readers.into_iter().for_each(|it| it.join().unwrap());
    assert!(buffer.try_reclaim(1 << 16));
}
