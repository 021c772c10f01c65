//! The traits of the crate `bytes`, and conversions from and to its buffers.
use bytes::{Buf, BufMut, Bytes, BytesMut};
use iobufs::{Builder, IoBuf, IoBufMut, IoBufs, IoBufsMut};
use std::io::IoSlice;
use std::ops::Range;

/// Reads by the trait alone: a number, two bytes, and the rest.
fn read_by_trait(mut buf: impl Buf) {
    assert_eq!((buf.remaining(), buf.get_u16()), (9, 0x6162));
    let mut two = [0; 2];
    buf.copy_to_slice(&mut two);
    assert_eq!(&two, b"cd");
    assert_eq!(&buf.copy_to_bytes(2)[..], b"ef");
    let rest: Vec<u8> = {
        let mut rest = Vec::new();
        rest.put(&mut buf);
        rest
    };
    assert_eq!((&rest[..], buf.has_remaining()), (&b"ghi"[..], false));
}

/// Nine bytes in three parts.
fn parts() -> IoBufsMut {
    (0..3).map(|_| IoBufMut::with_capacity(3)).collect()
}

#[test]
fn readers() {
    read_by_trait(IoBuf::from(b"abcdefghi"));
    read_by_trait(IoBufMut::from(b"abcdefghi"));
    read_by_trait(IoBufs::from([IoBuf::from(b"abc"), IoBuf::from(b"d"), IoBuf::from(b"efghi")]));
    let mut row = parts();
    row.put_slice(b"abcdefghi");
    read_by_trait(row);
}

/// Each number of the trait, within a chunk and across chunks, compared with a slice's.
#[test]
fn numbers() {
    macro_rules! compare {
        ($($get:ident)*) => {$(
            let bytes: Vec<u8> = (129..145).collect();
            let mut slice = &bytes[..];
            let wanted = (slice.$get(), slice.len());
            let mut view = IoBuf::from(bytes.clone());
            assert_eq!((Buf::$get(&mut view), view.len()), wanted, stringify!($get));
            for n in [1, 3, 16] {
                let mut text: IoBufs = bytes.chunks(n).map(IoBuf::copy_from_slice).collect();
                assert_eq!((Buf::$get(&mut text), text.len()), wanted, "{}, chunks of {n}", stringify!($get));
            }
        )*};
    }
    compare! {
        get_u8 get_i8 get_u16 get_u16_le get_i16 get_i16_le get_u32 get_u32_le get_i32 get_i32_le
        get_u64 get_u64_le get_i64 get_i64_le get_u128 get_i128_le get_f64
    }
}

#[test]
fn chunks() {
    let text = IoBufs::from([IoBuf::from(b"ab"), IoBuf::from(b"cd")]);
    let mut list = [IoSlice::new(b""); 3];
    assert_eq!((Buf::chunks_vectored(&text, &mut list), &list[1][..]), (2, &b"cd"[..]));
    assert_eq!(text.chain(&b"ef"[..]).copy_to_bytes(5), b"abcde"[..]);
}

/// Fills nine bytes by the trait alone, also by `chunk_mut`.
fn fill_by_trait(buf: &mut impl BufMut) {
    assert_eq!(buf.remaining_mut(), 9);
    buf.put_u16(0x6162);
    buf.put(&b"cd"[..]);
    assert!(buf.chunk_mut().len() <= 5);
    buf.chunk_mut()[..2].copy_from_slice(b"ef");
    // SAFETY: these two bytes were written.
    unsafe { buf.advance_mut(2) };
    buf.put_bytes(b'x', 3);
    assert!(!buf.has_remaining_mut() && buf.chunk_mut().len() == 0);
}

#[test]
fn writers() {
    let mut part = IoBufMut::with_capacity(9);
    fill_by_trait(&mut part);
    assert_eq!(part, b"abcdefxxx");
    let mut row = parts();
    fill_by_trait(&mut row);
    assert_eq!(row.freeze().coalesce(), b"abcdefxxx");
    let mut builder = Builder::new(9);
    fill_by_trait(&mut builder);
    builder.push(Bytes::from_static(b"yz"));
    assert_eq!(builder.finish().coalesce(), b"abcdefxxxyz");
}

#[test]
fn all_of_the_spare_capacity() {
    let mut part = IoBufMut::with_capacity(10_000);
    while part.has_remaining_mut() {
        let spare = part.chunk_mut();
        let n = spare.len();
        assert!(n > 0);
        spare[..n].copy_from_slice(&vec![7; n]);
        // SAFETY: these bytes were written.
        unsafe { part.advance_mut(n) };
    }
    assert_eq!(part, [7; 10_000]);
}

// Bytes that were written into the spare capacity stay there, when bytes at the end are dropped, as in a `BytesMut`.
#[test]
fn what_was_written_stays() {
    fn written<B: BufMut>(mut buf: B) -> B {
        buf.chunk_mut()[..3].copy_from_slice(b"abc");
        buf.put_slice(b"x");
        buf
    }
    // SAFETY: it drops bytes.
    let cuts: [fn(&mut IoBufMut); 3] =
        [|part| part.clear(), |part| part.truncate(0), |part| unsafe { part.set_len(0) }];
    for cut in cuts {
        let mut part = written(IoBufMut::with_capacity(16));
        cut(&mut part);
        // SAFETY: these bytes were written.
        unsafe { part.advance_mut(3) };
        assert_eq!(part, b"xbc");
    }
    let mut parts = written(parts());
    parts.set_len(0);
    // SAFETY: these bytes were written.
    unsafe { parts.advance_mut(2) };
    assert_eq!(parts.freeze().coalesce(), b"xb");
}

// Bytes that are written at the address are those that `set_len` makes readable.
#[test]
fn bytes_written_at_the_address() {
    let mut part = IoBufMut::from(b"-----");
    part.advance(1);
    part.clear();
    for (i, byte) in b"abcd".iter().enumerate() {
        // SAFETY: the capacity is four bytes.
        unsafe { part.as_mut_ptr().add(i).write(*byte) };
    }
    // SAFETY: they were written.
    unsafe { part.set_len(3) };
    assert_eq!((&part[..], part.capacity()), (&b"abc"[..], 4));
    // SAFETY: it panics.
    assert!(std::panic::catch_unwind(move || unsafe { part.set_len(5) }).is_err());
}

// Bytes are counted over several buffers.
#[test]
fn bytes_written_into_several_buffers() {
    for count in [1, 2, 3, 5] {
        let mut parts: IoBufsMut = (0..count).map(|_| IoBufMut::zeroed(4)).collect();
        parts.set_len(0);
        // SAFETY: all are zeros.
        unsafe { parts.advance_mut(4 * count - 1) };
        assert_eq!((parts.len(), parts.chunk_mut().len()), (4 * count - 1, 1), "{count}");
        parts.put_u8(1);
        assert_eq!(parts.freeze(), [vec![0; 4 * count - 1], vec![1]].concat(), "{count}");
    }
}

#[test]
#[should_panic(expected = "cannot advance past end of buffer")]
fn put_of_too_much() {
    IoBufMut::with_capacity(4).put(&b"hello"[..]);
}

#[test]
#[should_panic(expected = "copy_to_bytes out of bounds")]
fn too_many_bytes() {
    Buf::copy_to_bytes(&mut IoBuf::from(b"ab"), 3);
}

#[test]
fn conversions_share() {
    let bytes = Bytes::from(vec![1, 2, 3]);
    let view = IoBuf::from(bytes.clone());
    assert_eq!(view.as_ptr(), bytes.as_ptr());
    // A `Bytes` comes out as itself.
    let back = Bytes::from(view.slice(1..));
    assert_eq!((back.as_ptr(), &back[..]), (bytes.as_ptr().wrapping_add(1), &[2, 3][..]));
    drop((view, bytes));
    assert!(back.is_unique());
    // A view's own storage does too, and stays while the `Bytes` does.
    let mut text = IoBufs::from([IoBuf::copy_from_slice(b"written"), IoBuf::from(BytesMut::from(&b"-more"[..]))]);
    let places: Vec<*const u8> = text.chunks().map(<[u8]>::as_ptr).collect();
    let (a, b) = (Buf::copy_to_bytes(&mut text, 7), Buf::copy_to_bytes(&mut text, 5));
    drop(text);
    assert_eq!((a.as_ptr(), b.as_ptr()), (places[0], places[1]));
    assert_eq!((&a[..], &b[..]), (&b"written"[..], &b"-more"[..]));
    let shared = IoBuf::from(a.clone());
    assert!(shared.clone().try_into_mut().is_err() && shared == a[..]);
    assert!(Bytes::from(IoBuf::default()).is_empty() && IoBuf::from(Bytes::new()).is_empty());
}

#[test]
fn conversions_copy() {
    let room = BytesMut::from(&b"abc"[..]);
    assert_eq!(IoBufsMut::from(room.clone()).freeze().coalesce(), b"abc");
    assert_eq!(IoBufs::from(room.clone()), IoBufs::from(room.freeze()));
    let mut room = BytesMut::with_capacity(64);
    room.put_slice(b"abc");
    let part = IoBufMut::from(room);
    assert_eq!((part.as_ref(), part.capacity() >= 64), (&b"abc"[..], true));
    assert_eq!(IoBufMut::from(Bytes::from_static(&[1, 2, 3])), [1, 2, 3]);
}

/// Random numbers, the same in every run.
struct Random(u64);

impl Random {
    /// A number below `n`.
    fn below(&mut self, n: usize) -> usize {
        self.0 = self.0.wrapping_mul(6364136223846793005).wrapping_add(1442695040888963407);
        (self.0 >> 33) as usize % n
    }
}

/// How many bytes fit into the buffers that are compared.
const ROOM: usize = 64;

/// A buffer beside a `BytesMut`: both hold the same after each call.
struct Both<B> {
    random: Random,
    ours: B,
    theirs: BytesMut,
    /// How many bytes were dropped from the front: offsets count from the first.
    gone: usize,
    /// The offsets that were written by way of `chunk_mut`, and not advanced over.
    written: Range<usize>,
}

impl<B: Buf + BufMut> Both<B> {
    /// The offset of the next byte that is put.
    fn next(&self) -> usize {
        self.gone + self.theirs.len()
    }

    fn write(&mut self) {
        let (left, next) = (self.ours.remaining_mut(), self.next());
        let (n, byte) = (self.random.below(left.min(8) + 1), self.random.below(256) as u8);
        let (ours, theirs) = (&mut self.ours, &mut self.theirs);
        match self.random.below(6) {
            0 => {
                let bytes: Vec<u8> = (0..n as u8).map(|i| byte.wrapping_add(i)).collect();
                let n = n.min(ours.chunk_mut().len());
                ours.chunk_mut()[..n].copy_from_slice(&bytes[..n]);
                theirs.chunk_mut()[..n].copy_from_slice(&bytes[..n]);
                let end = if self.written.contains(&next) { self.written.end } else { next };
                self.written = next..end.max(next + n);
            }
            1 if self.written.contains(&next) => {
                let n = self.random.below(self.written.end - next + 1);
                // SAFETY: `n` bytes were written after those that are there.
                unsafe { (ours.advance_mut(n), theirs.advance_mut(n)) };
            }
            2 => (ours.put_slice(&vec![byte; n]), theirs.put_slice(&vec![byte; n])).1,
            3 => (ours.put_bytes(byte, n), theirs.put_bytes(byte, n)).1,
            4 if left >= 2 => (ours.put_u16_le(byte.into()), theirs.put_u16_le(byte.into())).1,
            5 => {
                let source = || (&b"ab"[..n.min(1)]).chain(&b"cd"[..n / 4]);
                (ours.put(source()), theirs.put(source())).1
            }
            _ => {}
        }
    }

    fn read(&mut self) {
        let n = self.random.below(self.ours.remaining().min(8) + 1);
        let (ours, theirs) = (&mut self.ours, &mut self.theirs);
        self.gone += n;
        match self.random.below(4) {
            0 => (ours.advance(n), theirs.advance(n)).1,
            1 => (0..n).for_each(|_| assert_eq!(ours.get_u8(), theirs.get_u8())),
            2 => {
                let (mut a, mut b) = (vec![0; n], vec![0; n]);
                ours.copy_to_slice(&mut a);
                theirs.copy_to_slice(&mut b);
                assert_eq!(a, b);
            }
            _ => assert_eq!(ours.copy_to_bytes(n), theirs.copy_to_bytes(n)),
        }
        // All bytes of one buffer are taken with its space.
        if ours.remaining_mut() == 0 {
            self.written = 0..0;
        }
    }
}

/// Random calls, of which `cut` keeps some of the readable bytes.
fn compare<B: Buf + BufMut>(make: fn() -> B, cut: fn(&mut B, usize), bytes: fn(&B) -> Vec<u8>) {
    for seed in 0..500 {
        let theirs = BytesMut::with_capacity(2 * ROOM);
        let mut both = Both { random: Random(seed), ours: make(), theirs, gone: 0, written: 0..0 };
        for _ in 0..60 {
            match both.random.below(7) {
                0 | 1 => both.read(),
                2 => {
                    let n = both.random.below(both.theirs.len() + 1);
                    cut(&mut both.ours, n);
                    both.theirs.truncate(n);
                }
                _ => both.write(),
            }
            assert_eq!(both.ours.remaining(), both.theirs.len(), "seed {seed}");
            assert_eq!(bytes(&both.ours), &both.theirs[..], "seed {seed}");
        }
    }
}

#[test]
fn random_calls_as_on_bytes_mut() {
    let cut = |part: &mut IoBufMut, n| if n == 0 { part.clear() } else { part.truncate(n) };
    compare(|| IoBufMut::with_capacity(ROOM), cut, |part| part.to_vec());
    // SAFETY: there are as many bytes.
    compare(|| IoBufMut::with_capacity(ROOM), |part, n| unsafe { part.set_len(n) }, |part| part.to_vec());
    let bytes = |parts: &IoBufsMut| {
        let mut list = [IoSlice::new(b""); 5];
        let n = parts.chunks_vectored(&mut list);
        list[..n].iter().flat_map(|chunk| chunk.to_vec()).collect()
    };
    compare(|| [10, 0, 1, 20, 33].map(IoBufMut::with_capacity).into(), IoBufsMut::set_len, bytes);
}
