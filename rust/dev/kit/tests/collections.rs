//! The collections, strings, digits, readers and writers of the layer against std's, by random calls.
use kit::bytes::Bytes;
use kit::prelude::{Clone as _, Vec as KitVec};
use kit::std::alloc::{AllocError, Global};
use kit::std::collections::VecDeque as KitDeque;
use kit::std::io::{self, BufRead as _, BufReader, BufWriter, ErrorKind, Read as _, Write as _};
use kit::std::sync::Arc;
use kit::{hex, memchr};
use std::collections::VecDeque;
use std::panic::{AssertUnwindSafe, catch_unwind};
use std::{str, thread};

fn random(seed: &mut u64, n: usize) -> usize {
    *seed ^= *seed << 13;
    *seed ^= *seed >> 7;
    *seed ^= *seed << 17;
    (*seed >> 11) as usize % n
}

fn seeds() -> impl Iterator<Item = u64> {
    (1..=100u64).map(|round| round.wrapping_mul(0x9e3779b97f4a7c15))
}

#[test]
fn vectors() {
    for mut seed in seeds() {
        let n = random(&mut seed, 20);
        let mut items = KitVec::with_capacity(Global, n).unwrap();
        assert!(items.capacity() >= n);
        let mut model = Vec::new();
        for i in 0..200u64 {
            let (n, capacity) = (random(&mut seed, model.len() + 1), items.capacity());
            match random(&mut seed, 10) {
                0..3 => (items.push(i).unwrap(), model.push(i)).1,
                3 if items.len() < capacity => (items.push_reserved(i), model.push(i)).1,
                4 => (items.truncate(n), model.truncate(n)).1,
                5 => assert_eq!(items.split_off(n).unwrap().as_slice(), model.split_off(n)),
                6 => (items.extend_from_slice(&[i; 3]).unwrap(), model.extend([i; 3])).1,
                7 => (items.resize(2 * n, i).unwrap(), model.resize(2 * n, i)).1,
                8 => (items.slice_mut(n..).fill(i), model[n..].fill(i)).1,
                9 if n == 0 => (items.clear(), model.clear()).1,
                _ => (items.as_mut_slice().reverse(), model.reverse()).1,
            }
            assert!(items.capacity() >= capacity.max(items.len()));
            assert_eq!((items.as_slice(), items.len()), (&model[..], model.len()));
            assert!((&items).into_iter().eq(&model));
        }
        assert_eq!(KitVec::from_slice(Global, &model).unwrap(), items);
        assert!(items.into_iter().eq(model));
    }
    assert_eq!(KitVec::from_elem(Global, 7u8, 3).unwrap().as_slice(), [7, 7, 7]);
}

/// A put that doesn't allocate panics if and only if there is no space, and then changes nothing.
#[test]
fn puts_beyond_the_capacity() {
    for len in 0..9 {
        let mut items = KitVec::with_capacity(Global, 8).unwrap();
        items.resize(len, 7).unwrap();
        let mut model = vec![7; len];
        for _ in 0..9 {
            let is_done = catch_unwind(AssertUnwindSafe(|| items.push_reserved(1))).is_ok();
            assert_eq!(is_done, model.len() < 8);
            model.extend(vec![1; is_done.into()]);
            assert_eq!((items.as_slice(), items.capacity()), (&model[..], 8));
        }
    }
    let mut words = KitVec::with_capacity(Global, 2).unwrap();
    ["a", "bc"].into_iter().for_each(|it| words.push_reserved(it.to_owned()));
    assert_eq!(words.into_iter().collect::<Vec<_>>(), ["a", "bc"]);
}

#[test]
fn capacities() {
    for n in [0, 1, 9] {
        let items = KitVec::<u64>::with_capacity(Global, n).unwrap();
        assert_eq!((items.as_slice(), items.capacity()), (&[][..], n));
    }
    for n in [usize::MAX, usize::MAX / 8 + 2, isize::MAX as usize / 8 + 1, isize::MAX as usize / 8] {
        assert_eq!(KitVec::<u64>::with_capacity(Global, n).map(|_| ()), Err(AllocError), "{n}");
    }
    let mut empty = KitVec::with_capacity(Global, 3).unwrap();
    (0..3).for_each(|_| empty.push_reserved(()));
    assert_eq!(empty.as_slice(), [(); 3]);
}

/// Deques of bytes, which the layer's trait clones.
#[test]
fn deques() {
    let item = |i: usize| Bytes::copy_from_slice(Global, &i.to_be_bytes()).unwrap();
    for mut seed in seeds() {
        let n = random(&mut seed, 20);
        let mut items = KitDeque::with_capacity(Global, n).unwrap();
        assert!(items.capacity() >= n && items.is_empty());
        let mut model = VecDeque::new();
        for i in 0..200 {
            let (n, capacity) = (random(&mut seed, model.len() + 1), items.capacity());
            let has_space = items.len() < capacity;
            match random(&mut seed, 11) {
                0..3 => (items.push_back(item(i)).unwrap(), model.push_back(i)).1,
                3 if has_space => (items.push_back_reserved(item(i)), model.push_back(i)).1,
                4 if has_space => (items.push_front_reserved(item(i)), model.push_front(i)).1,
                5 => assert_eq!(items.pop_front(), model.pop_front().map(item)),
                6 => assert_eq!(items.pop_back(), model.pop_back().map(item)),
                7 => assert!(
                    (&items.split_off(n).unwrap()).into_iter().eq(&model
                        .split_off(n)
                        .into_iter()
                        .map(item)
                        .collect::<Vec<_>>())
                ),
                8 => (items.rotate_right(n), model.rotate_right(n)).1,
                9 => {
                    items.try_reserve(n).unwrap();
                    assert!(items.capacity() - items.len() >= n);
                }
                _ => {
                    let copy = items.clone().unwrap();
                    let whole = copy.into_vec();
                    assert!((&whole).into_iter().eq(&items));
                    items = KitDeque::from_vec(whole);
                    continue;
                }
            }
            let wanted: Vec<_> = model.iter().map(|i| item(*i)).collect();
            assert!(items.capacity() >= capacity.max(items.len()));
            assert!((&items).into_iter().eq(&wanted));
            assert_eq!((items.len(), items.is_empty()), (wanted.len(), wanted.is_empty()));
            assert_eq!((items.front(), items.back(), items.get(n)), (wanted.first(), wanted.last(), wanted.get(n)));
            let (front, rest) = items.as_slices();
            assert_eq!([front, rest].concat_bytes(), wanted.concat_bytes());
            assert!(!front.is_empty() || items.is_empty());
            if let Some(last) = wanted.len().checked_sub(1) {
                (items[last], *items.front_mut().unwrap()) = (item(model[last]), item(model[0]));
                *items.get_mut(last).unwrap() = item(model[last]);
            }
        }
    }
}

trait ConcatBytes {
    fn concat_bytes(&self) -> Vec<u8>;
}

impl ConcatBytes for [Bytes] {
    fn concat_bytes(&self) -> Vec<u8> {
        self.iter().flat_map(|it| it.as_slice().to_vec()).collect()
    }
}

impl ConcatBytes for [&[Bytes]] {
    fn concat_bytes(&self) -> Vec<u8> {
        self.iter().flat_map(|it| it.concat_bytes()).collect()
    }
}

/// The value is dropped once, by whichever thread drops the last handle.
#[test]
fn shared_values() {
    let (sender, dropped) = std::sync::mpsc::channel();
    struct Told(std::sync::mpsc::Sender<u8>, u8);
    impl std::ops::Drop for Told {
        fn drop(&mut self) {
            self.0.send(self.1).unwrap();
        }
    }
    for i in 0..100 {
        let mut shared = Arc::new(Global, Told(sender.clone(), i)).map_err(|_| ()).unwrap();
        assert_eq!(Arc::get_mut(&mut shared).unwrap().1, i);
        let handles: Vec<_> = (0..4).map(|_| Arc::try_clone(&shared).unwrap()).collect();
        assert!(Arc::get_mut(&mut shared).is_none());
        let threads: Vec<_> = handles.into_iter().map(|it| thread::spawn(move || it.1)).collect();
        threads.into_iter().for_each(|it| assert_eq!(it.join().unwrap(), i));
        Arc::get_mut(&mut shared).unwrap().1 = i + 100;
        assert!(dropped.try_recv().is_err());
        drop(shared);
        assert_eq!(dropped.recv().unwrap(), i + 100);
    }
}

#[test]
fn digits() {
    let all: Vec<u8> = (0..=255).collect();
    let mut space = [0; 512];
    hex::encode_to_slice(&all, &mut space).unwrap();
    assert_eq!(str::from_utf8(&space).unwrap(), all.iter().map(|it| format!("{it:02x}")).collect::<String>());
    assert_eq!(hex::decode(Global, &space).unwrap().as_slice(), all);
    assert_eq!(hex::decode(Global, &space.to_ascii_uppercase()).unwrap().as_slice(), all);
    assert_eq!(hex::decode(Global, b"0").unwrap_err(), hex::FromHexError::OddLength);
    for (text, c, index) in [("0g", 'g', 1), ("00:0", ':', 2), ("00 0", ' ', 2), ("+0", '+', 0)] {
        assert_eq!(
            hex::decode(Global, text.as_bytes()).unwrap_err(),
            hex::FromHexError::InvalidHexCharacter { c, index }
        );
    }
    assert_eq!(hex::encode_to_slice(&all, &mut space[1..]).unwrap_err(), hex::FromHexError::InvalidStringLength);
    for (byte, index) in [(b'a', Some(0)), (b'c', Some(2)), (b'd', None)] {
        assert_eq!(memchr::memchr(byte, b"abcabc"), index);
    }
}

/// A stream that reads and writes at most a few bytes at once, is interrupted at each second call, and fails after some
/// bytes.
struct Slow {
    bytes: Vec<u8>,
    most: usize,
    calls: usize,
    fails_at: usize,
}

impl Slow {
    fn turn(&mut self) -> io::Result<usize> {
        self.calls += 1;
        if self.calls % 2 == 0 { Err(ErrorKind::Interrupted.into()) } else { Ok(1 + self.calls % self.most) }
    }
}

impl io::Read for Slow {
    fn read(&mut self, to: &mut [u8]) -> io::Result<usize> {
        let n = self.turn()?.min(to.len()).min(self.bytes.len());
        to[..n].copy_from_slice(&self.bytes[..n]);
        self.bytes.drain(..n);
        Ok(n)
    }
}

impl io::Write for Slow {
    fn write(&mut self, bytes: &[u8]) -> io::Result<usize> {
        let n = self.turn()?.min(bytes.len()).min(self.fails_at - self.bytes.len());
        self.bytes.extend_from_slice(&bytes[..n]);
        if n == 0 { Err(ErrorKind::StorageFull.into()) } else { Ok(n) }
    }

    fn flush(&mut self) -> io::Result<()> {
        Ok(())
    }
}

#[test]
fn readers() {
    let lines = ["one\n", "\n", "a longer line than the block\n", "the last"];
    for most in 1..12 {
        for block in [1, 2, 7, 100] {
            let slow = Slow { bytes: lines.concat().into_bytes(), most, calls: 0, fails_at: 0 };
            let mut reader = BufReader::with_capacity(Global, block, slow).unwrap();
            for line in lines {
                let mut got = KitVec::new(Global);
                assert_eq!(reader.read_until(b'\n', &mut got).unwrap(), line.len());
                assert_eq!(got.as_slice(), line.as_bytes());
                assert!(reader.buffer().len() <= block);
            }
            assert_eq!(reader.read_until(b'\n', &mut KitVec::new(Global)).unwrap(), 0);
        }
    }
    let mut reader = BufReader::with_capacity(Global, 4, &b"abcdefg"[..]).unwrap();
    let mut got = [0; 2];
    assert_eq!((reader.read(&mut got).unwrap(), &got, reader.buffer()), (2, b"ab", &b"cd"[..]));
    reader.consume(1);
    let mut got = [0; 9];
    assert_eq!((reader.read(&mut got).unwrap(), got[0], reader.buffer()), (1, b'd', &b""[..]));
    assert_eq!((reader.read(&mut got).unwrap(), &got[..3]), (3, &b"efg"[..]));
}

#[test]
fn writers() {
    for mut seed in seeds() {
        let block = random(&mut seed, 20);
        let fails_at = 150 + random(&mut seed, 200);
        let slow = Slow { bytes: Vec::new(), most: 5, calls: 0, fails_at };
        let mut shared = slow;
        let mut wanted = Vec::new();
        let mut writer = BufWriter::with_capacity(Global, block, &mut shared).unwrap();
        let mut ended = Ok(());
        for i in 0..60u8 {
            let bytes = vec![i; random(&mut seed, 12)];
            let mut rest = &bytes[..];
            while !rest.is_empty() && ended.is_ok() {
                match writer.write(rest) {
                    Ok(n) => rest = &rest[n..],
                    Err(error) if error.kind() == ErrorKind::Interrupted => {}
                    Err(error) => ended = Err(error.kind()),
                }
            }
            wanted.extend(bytes);
        }
        let flushed = writer.flush().map_err(|it| it.kind());
        let is_whole = wanted.len() <= fails_at;
        assert_eq!(flushed.is_ok() && ended.is_ok(), is_whole);
        assert_eq!(shared.bytes, wanted[..wanted.len().min(fails_at)]);
    }
}

/// What isn't flushed is dropped, and what a failure left unwritten stays until it is.
#[test]
fn writers_that_fail() {
    let mut slow = Slow { bytes: Vec::new(), most: 5, calls: 0, fails_at: 4 };
    let mut writer = BufWriter::with_capacity(Global, 10, &mut slow).unwrap();
    writer.write_all(b"abcdef").unwrap();
    assert_eq!(writer.flush().unwrap_err().kind(), ErrorKind::StorageFull);
    drop(writer);
    assert_eq!(slow.bytes, b"abcd");
    let mut bytes = Vec::new();
    BufWriter::with_capacity(Global, 10, &mut bytes).unwrap().write_all(b"abcdef").unwrap();
    assert_eq!(bytes, b"");
    // What the calls return, and how often the writer is flushed.
    for (turns, flushes) in [
        (vec![Ok(2), Err(ErrorKind::StorageFull), Ok(4)], 1),
        (vec![Ok(2), Ok(0), Ok(3), Err(ErrorKind::Other), Ok(1)], 1),
        (vec![Ok(6)], 1),
        (vec![Ok(9)], 1), // A writer that says so took all.
    ] {
        let mut told = Told { bytes: Vec::new(), flushes: 0, turns };
        let mut writer = BufWriter::with_capacity(Global, 10, &mut told).unwrap();
        writer.write_all(b"abcdef").unwrap();
        while writer.flush().is_err() {}
        drop(writer);
        assert_eq!((&told.bytes[..], told.flushes, told.turns), (&b"abcdef"[..], flushes, Vec::new()));
    }
}

/// A stream whose calls return these in turn, and which counts its flushes.
struct Told {
    bytes: Vec<u8>,
    flushes: usize,
    turns: Vec<Result<usize, ErrorKind>>,
}

impl io::Read for Told {
    fn read(&mut self, _: &mut [u8]) -> io::Result<usize> {
        Ok(self.turns.remove(0)?)
    }
}

impl io::Write for Told {
    fn write(&mut self, bytes: &[u8]) -> io::Result<usize> {
        let n = self.turns.remove(0)?;
        self.bytes.extend_from_slice(&bytes[..n.min(bytes.len())]);
        Ok(n)
    }

    fn flush(&mut self) -> io::Result<()> {
        self.flushes += 1;
        Ok(())
    }
}

/// A reader that says that it read more than its space has filled it.
#[test]
fn readers_that_lie() {
    let told = Told { bytes: Vec::new(), flushes: 0, turns: vec![Ok(5), Ok(0)] };
    let mut reader = BufReader::with_capacity(Global, 4, told).unwrap();
    assert_eq!(reader.fill_buf().unwrap(), [0; 4]);
    reader.consume(4);
    assert_eq!(reader.fill_buf().unwrap(), []);
}
