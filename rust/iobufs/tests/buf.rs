//! `Buf` and `BufMut` of the crate `bytes`: each call of a buffer is compared with the same call of a slice, whose
//! traits are that crate's, for each way that a buffer is made, and each length.
use bytes::{Buf, BufMut, Bytes};
use iobufs::{Builder, IoBuf, IoBufMut, IoBufs, IoBufsMut};
use std::fmt::Debug;
use std::io::{IoSlice, Read, Write};
use std::panic::{AssertUnwindSafe, catch_unwind};
use std::sync::Once;

/// The longest buffers.
const MOST: usize = 20;

/// Numbers of all signs are in it.
static PATTERN: [u8; MOST] = {
    let (mut bytes, mut i) = ([200; MOST], 1);
    while i < MOST {
        bytes[i] = (i * 77 + 200) as u8;
        i += 1;
    }
    bytes
};

fn pattern(n: usize) -> Vec<u8> {
    PATTERN[..n].to_vec()
}

/// The result of a call, printed; an error if it panics. Panics of these tests' calls aren't printed.
fn outcome<R: Debug>(call: impl FnOnce() -> R) -> Result<String, ()> {
    static QUIET: Once = Once::new();
    QUIET.call_once(|| {
        std::panic::set_hook(Box::new(|panic| {
            if panic.location().is_none_or(|at| at.file() == file!()) {
                eprintln!("{panic}")
            }
        }))
    });
    catch_unwind(AssertUnwindSafe(call)).map(|result| format!("{result:?}")).map_err(drop)
}

/// A name, and how a reader of these bytes is made.
type Make = (&'static str, fn(&[u8]) -> Box<dyn Buf>);

/// The bytes in chunks of `n`.
fn cut(bytes: &[u8], n: usize) -> IoBufs {
    bytes.chunks(n).map(|chunk| IoBuf::from(chunk.to_vec())).collect()
}

/// The bytes after two others.
fn after_two(bytes: &[u8]) -> Vec<u8> {
    [b"ab", bytes].concat()
}

/// The bytes in writable buffers of `n`, each with `spare` more in the last.
fn parts(bytes: &[u8], n: usize, spare: usize) -> IoBufsMut {
    let whole = bytes.chunks(n).map(IoBufMut::from);
    whole.chain([IoBufMut::with_capacity(0), IoBufMut::with_capacity(spare)]).collect()
}

fn advanced<B: Buf + 'static>(mut buf: B) -> Box<dyn Buf> {
    buf.advance(2);
    Box::new(buf)
}

const MAKES: [Make; 27] = [
    ("native", |bytes| Box::new(IoBuf::copy_from_slice(bytes))),
    ("of a Vec", |bytes| Box::new(IoBuf::from(bytes.to_vec()))),
    ("of a Bytes", |bytes| Box::new(IoBuf::from(Bytes::copy_from_slice(bytes)))),
    ("of an owner", |bytes| Box::new(IoBuf::from_owner(Box::<[u8]>::from(bytes)))),
    ("static", |bytes| Box::new(IoBuf::from(&PATTERN[..bytes.len()]))),
    ("frozen", |bytes| Box::new(IoBufMut::from(bytes).freeze())),
    ("a slice", |bytes| Box::new(IoBuf::copy_from_slice(&after_two(bytes)).slice(2..))),
    ("an advanced view", |bytes| advanced(IoBuf::copy_from_slice(&after_two(bytes)))),
    ("an advanced Vec", |bytes| advanced(IoBuf::from(after_two(bytes)))),
    ("a rest", |bytes| Box::new((IoBuf::from(after_two(bytes)), ()).0.split_off_two())),
    ("writable", |bytes| Box::new(IoBufMut::from(bytes))),
    ("writable, advanced", |bytes| advanced(IoBufMut::from(&after_two(bytes)[..]))),
    ("recovered", |bytes| Box::new(IoBuf::copy_from_slice(bytes).try_into_mut().unwrap())),
    ("one chunk", |bytes| Box::new(IoBufs::from(IoBuf::copy_from_slice(bytes)))),
    ("chunks of one", |bytes| Box::new(cut(bytes, 1))),
    ("chunks of three", |bytes| Box::new(cut(bytes, 3))),
    ("chunks of seven", |bytes| Box::new(cut(bytes, 7))),
    ("chunks and empty ones", |bytes| {
        Box::new(
            cut(bytes, 5).chunks().flat_map(|it| [IoBuf::copy_from_slice(it), IoBuf::default()]).collect::<IoBufs>(),
        )
    }),
    ("advanced chunks", |bytes| advanced(cut(&after_two(bytes), 4))),
    ("a slice of chunks", |bytes| Box::new(cut(&[b"abc", bytes, b"de"].concat(), 4).slice(3..3 + bytes.len()))),
    ("the rest of chunks", |bytes| Box::new((cut(&after_two(bytes), 4), ()).0.split_off_two())),
    ("the front of chunks", |bytes| Box::new(cut(&[bytes, b"ab"].concat(), 4).split_to(bytes.len()))),
    ("frozen buffers", |bytes| Box::new(parts(bytes, 3, 2).freeze())),
    ("writable buffers of one", |bytes| Box::new(parts(bytes, 1, 3))),
    ("writable buffers of three", |bytes| Box::new(parts(bytes, 3, 0))),
    ("writable buffers, advanced", |bytes| advanced(parts(&after_two(bytes), 4, 1))),
    ("built", |bytes| {
        let (put, pushed) = bytes.split_at(bytes.len() / 2);
        let mut builder = Builder::new(put.len());
        builder.put_slice(put);
        builder.push(pushed.to_vec());
        Box::new(builder.finish())
    }),
];

/// The bytes after the first two.
trait SplitOffTwo {
    fn split_off_two(self) -> Self;
}

impl SplitOffTwo for IoBuf {
    fn split_off_two(mut self) -> Self {
        drop(self.split_to(2));
        self
    }
}

impl SplitOffTwo for IoBufs {
    fn split_off_two(mut self) -> Self {
        drop(self.split_to(2));
        self
    }
}

/// A call of `Buf`, and its result, printed.
type Get = (&'static str, fn(&mut dyn Buf) -> String);

macro_rules! gets {
    ($($get:ident($($arg:expr),*) $(.$bits:ident())?;)*) => {
        &[$((stringify!($get($($arg),*)), |buf| format!("{:?}", buf.$get($($arg),*)$(.$bits())?))),*]
    };
}

const GETS: &[Get] = gets! {
    get_u8(); get_i8();
    get_u16(); get_u16_le(); get_u16_ne(); get_i16(); get_i16_le(); get_i16_ne();
    get_u32(); get_u32_le(); get_u32_ne(); get_i32(); get_i32_le(); get_i32_ne();
    get_u64(); get_u64_le(); get_u64_ne(); get_i64(); get_i64_le(); get_i64_ne();
    get_u128(); get_u128_le(); get_u128_ne(); get_i128(); get_i128_le(); get_i128_ne();
    get_uint(0); get_uint(1); get_uint(3); get_uint_le(5); get_uint_ne(7); get_uint(8); get_uint(9);
    get_int(0); get_int(1); get_int(3); get_int_le(5); get_int_ne(7); get_int_le(8); get_int_ne(9);
    get_f32().to_bits(); get_f32_le().to_bits(); get_f32_ne().to_bits();
    get_f64().to_bits(); get_f64_le().to_bits(); get_f64_ne().to_bits();
    advance(0); advance(1); advance(4); advance(19); advance(usize::MAX);
    copy_to_bytes(0); copy_to_bytes(1); copy_to_bytes(4); copy_to_bytes(20); copy_to_bytes(usize::MAX);
    copy_to_slice(&mut []); copy_to_slice(&mut [0; 20]);
    remaining(); has_remaining();
};

/// Calls that take more than a method.
const MORE: [Get; 9] = [
    ("copy_to_slice of five", |buf| {
        let mut copy = [0; 5];
        buf.copy_to_slice(&mut copy);
        format!("{copy:?}")
    }),
    ("two numbers", |buf| format!("{} {}", buf.get_u16(), buf.get_u32_le())),
    ("take", |buf| {
        let mut front = buf.take(4);
        format!("{:?} {} {}", front.copy_to_bytes(front.remaining()), front.limit(), front.has_remaining())
    }),
    ("take, then get", |buf| format!("{}", buf.take(7).get_u32())),
    ("chain", |buf| format!("{:?}", buf.chain(&b"end"[..]).copy_to_bytes(3))),
    ("chain after another", |buf| {
        let mut both = Buf::chain(&b"start"[..], buf);
        format!("{} {:?}", both.get_u64(), both.last_ref().remaining())
    }),
    ("reader", |buf| {
        let mut copy = String::new();
        let read = buf.take(3).reader().read_to_string(&mut copy).is_ok();
        format!("{read} {copy}")
    }),
    ("read into a Vec", |buf| {
        let mut copy = vec![1];
        copy.put(buf);
        format!("{copy:?}")
    }),
    ("a chunk", |buf| format!("{}", buf.chunk().is_empty())),
];

/// All bytes that are left, in steps of one to three.
fn rest(buf: &mut dyn Buf) -> Vec<u8> {
    let mut all = Vec::new();
    while buf.has_remaining() {
        let n = buf.chunk().len().min(1 + all.len() % 3);
        assert!(n > 0);
        all.extend_from_slice(&buf.chunk()[..n]);
        buf.advance(n);
    }
    all
}

#[test]
fn each_call_reads_as_of_a_slice() {
    for (n, (name, make)) in (0..=MOST).flat_map(|n| MAKES.map(|make| (n, make))) {
        let bytes = pattern(n);
        for (call, get) in GETS.iter().chain(&MORE) {
            let (mut ours, mut theirs) = (make(&bytes), &bytes[..]);
            let (found, wanted) = (outcome(|| get(&mut *ours)), outcome(|| get(&mut theirs)));
            assert_eq!(found, wanted, "{call} of {n} bytes, {name}");
            if wanted.is_ok() {
                assert_eq!(rest(&mut *ours), theirs, "after {call} of {n} bytes, {name}");
            }
        }
    }
}

#[test]
fn chunks_of_each_reader() {
    for (n, (name, make)) in (0..=MOST).flat_map(|n| MAKES.map(|make| (n, make))) {
        let bytes = pattern(n);
        for at in 0..=n {
            let mut buf = make(&bytes);
            buf.advance(at);
            for most in [0, 1, 2, 100] {
                let mut list = vec![IoSlice::new(b"unused"); most];
                let filled = buf.chunks_vectored(&mut list);
                let found: Vec<u8> = list[..filled].iter().flat_map(|slice| slice.to_vec()).collect();
                assert!(
                    list[filled..].iter().all(|slice| **slice == *b"unused")
                        && list[..filled].iter().all(|slice| !slice.is_empty())
                );
                assert!(
                    bytes[at..].starts_with(&found) && (most < 100 || found == bytes[at..]),
                    "{name}, {n} bytes from {at}"
                );
                assert_eq!(filled == 0, most == 0 || at == n, "{name}, {n} bytes from {at}");
            }
            assert!(
                bytes[at..].starts_with(buf.chunk()) && buf.chunk().is_empty() == (at == n),
                "{name}, {n} bytes from {at}"
            );
            assert_eq!((buf.remaining(), buf.has_remaining()), (n - at, at < n), "{name}, {n} bytes from {at}");
        }
    }
}

/// A writer: what it puts of a source, and the bytes that are in it.
trait Written: BufMut {
    fn as_buf_mut(&mut self) -> &mut dyn BufMut;
    fn put_all(&mut self, source: Source);
    fn written(self: Box<Self>) -> Vec<u8>;
}

macro_rules! written {
    ($($buffer:ident, $bytes:expr;)*) => {$(
        impl Written for $buffer {
            fn as_buf_mut(&mut self) -> &mut dyn BufMut {
                self
            }

            fn put_all(&mut self, source: Source) {
                self.put(source)
            }

            fn written(self: Box<Self>) -> Vec<u8> {
                $bytes(*self).to_vec()
            }
        }
    )*};
}

written! {
    IoBufMut, |buf: IoBufMut| buf;
    IoBufsMut, |bufs: IoBufsMut| bufs.freeze().coalesce();
    Builder, |builder: Builder| builder.finish().coalesce();
}

/// A name, and a function that makes an empty writer with this spare capacity.
type MakeMut = (&'static str, fn(usize) -> Box<dyn Written>);

const MAKES_MUT: [MakeMut; 10] = [
    ("new", |n| Box::new(IoBufMut::with_capacity(n))),
    ("cleared", |n| {
        let mut buf = IoBufMut::zeroed(n);
        buf.clear();
        Box::new(buf)
    }),
    ("advanced", |n| {
        let mut buf = IoBufMut::with_capacity(n + 3);
        buf.put_slice(b"abc");
        buf.advance(3);
        Box::new(buf)
    }),
    ("recovered", |n| {
        let mut buf = IoBufMut::with_capacity(n + 1);
        buf.put_u8(1);
        let mut view = buf.freeze();
        view.advance(1);
        Box::new(view.try_into_mut().unwrap())
    }),
    ("one buffer", |n| Box::new(IoBufsMut::from(IoBufMut::with_capacity(n)))),
    ("buffers of one", |n| Box::new((0..n).map(|_| IoBufMut::with_capacity(1)).collect::<IoBufsMut>())),
    ("buffers of three", |n| {
        Box::new((0..n).step_by(3).map(|at| IoBufMut::with_capacity((n - at).min(3))).collect::<IoBufsMut>())
    }),
    ("drained buffers", |n| {
        let mut buf: IoBufsMut = (0..=n).map(|_| IoBufMut::with_capacity(1)).collect();
        buf.put_slice(b"a");
        buf.advance(1);
        Box::new(buf)
    }),
    ("a builder", |n| Box::new(Builder::new(n))),
    ("a builder with a push", |n| {
        let mut builder = Builder::new(n);
        builder.push(IoBuf::default());
        Box::new(builder)
    }),
];

/// A call of `BufMut`.
type Put = (&'static str, fn(&mut dyn BufMut));

macro_rules! puts {
    ($($put:ident($($arg:expr),*);)*) => {
        &[$((stringify!($put($($arg),*)), |buf| buf.$put($($arg),*))),*]
    };
}

const WORD: u64 = 0x0123_4567_89ab_cdef;

const LONG: u128 = 0x0123_4567_89ab_cdef_fedc_ba98_7654_3210;

const PUTS: &[Put] = puts! {
    put_u8(200); put_i8(-3);
    put_u16(0x1234); put_u16_le(0x1234); put_u16_ne(0x1234); put_i16(-2); put_i16_le(-2); put_i16_ne(-2);
    put_u32(0x1234_5678); put_u32_le(0x1234_5678); put_u32_ne(0x1234_5678); put_i32(-2); put_i32_le(-2); put_i32_ne(-2);
    put_u64(WORD); put_u64_le(WORD); put_u64_ne(WORD); put_i64(-2); put_i64_le(-2); put_i64_ne(-2);
    put_u128(LONG); put_u128_le(LONG); put_u128_ne(LONG); put_i128(-2); put_i128_le(-2); put_i128_ne(-2);
    put_uint(WORD, 0); put_uint(WORD, 3); put_uint_le(WORD, 5); put_uint_ne(WORD, 7); put_uint(WORD, 8);
    put_uint(WORD, 9);
    put_int(-5, 1); put_int(-5, 3); put_int_le(-5, 5); put_int_ne(-5, 7); put_int_le(-5, 8); put_int_le(-5, 9);
    put_f32(1.5); put_f32_le(1.5); put_f32_ne(1.5); put_f64(-2.5); put_f64_le(-2.5); put_f64_ne(-2.5);
    put_slice(b""); put_slice(b"hello"); put_slice(&[7; 20]);
    put_bytes(9, 0); put_bytes(9, 6); put_bytes(9, 20); put_bytes(9, usize::MAX);
};

/// Calls that take more than a method.
const MORE_PUTS: [Put; 6] = [
    ("limit", |buf| {
        let mut limited = buf.limit(4);
        limited.put_u16(0x6162);
        assert!(limited.remaining_mut() <= 2 && limited.chunk_mut().len() <= 2);
        limited.put_u16_le(0x6162);
    }),
    ("beyond a limit", |buf| buf.limit(3).put_u32(1)),
    ("a writer", |buf| {
        let mut writer = buf.writer();
        let fits = writer.get_ref().remaining_mut() >= 5;
        assert_eq!(writer.write(b"hello").unwrap() == 5, fits);
    }),
    ("a chain", |buf| {
        let (mut front, left) = ([0; 2], buf.remaining_mut());
        let mut both = (&mut front[..]).chain_mut(buf);
        assert_eq!(both.remaining_mut(), left + 2);
        both.put_u32(0x6162_6364);
        assert_eq!(front, *b"ab");
    }),
    ("spare capacity, byte by byte", |buf| {
        for i in 0..5 {
            buf.chunk_mut()[..1].copy_from_slice(&[i]);
            // SAFETY: this byte was written.
            unsafe { buf.advance_mut(1) };
        }
    }),
    ("spare capacity, at once", |buf| {
        while buf.has_remaining_mut() {
            let spare = buf.chunk_mut();
            (0..spare.len()).for_each(|i| spare.write_byte(i, 5));
            let n = spare.len();
            assert!(n > 0);
            // SAFETY: these bytes were written.
            unsafe { buf.advance_mut(n) };
        }
    }),
];

#[test]
fn each_call_writes_as_of_a_slice() {
    for (n, (name, make)) in (0..=MOST).flat_map(|n| MAKES_MUT.map(|make| (n, make))) {
        assert_eq!(make(n).remaining_mut(), n, "{name}");
        for (call, put) in PUTS.iter().chain(&MORE_PUTS) {
            let (mut ours, mut bytes) = (make(n), [0; MOST]);
            let mut theirs = &mut bytes[..n];
            let (found, wanted) = (outcome(|| put(ours.as_buf_mut())), outcome(|| put(&mut theirs)));
            assert_eq!(found, wanted, "{call} for {n} bytes, {name}");
            // After a panic a part may be written, as of a slice.
            if wanted.is_ok() {
                let left = theirs.len();
                assert_eq!(
                    (ours.remaining_mut(), ours.has_remaining_mut()),
                    (left, left > 0),
                    "{call} for {n} bytes, {name}"
                );
                assert_eq!(ours.written(), bytes[..n - left], "{call} for {n} bytes, {name}");
            }
        }
    }
}

// The bytes of `chunk_mut` begin with the next one: a put overwrites the first of them, and the others stay.
#[test]
fn spare_capacity_begins_with_the_next_byte() {
    for (name, make) in MAKES_MUT {
        for (written, put) in [(0, 0), (5, 0), (5, 2), (5, 5), (5, 9), (20, 3)] {
            let mut buf = make(MOST);
            let written = written.min(buf.chunk_mut().len());
            buf.chunk_mut()[..written].copy_from_slice(&pattern(written));
            buf.put_slice(&vec![1; put]);
            // SAFETY: `n` bytes were written after those that are there.
            unsafe { buf.advance_mut(written.saturating_sub(put)) };
            let wanted: Vec<u8> = vec![1; put].into_iter().chain(pattern(written).into_iter().skip(put)).collect();
            assert_eq!(buf.written(), wanted, "{put} over {written}, {name}");
        }
        let mut buf = make(4);
        // SAFETY: by no bytes it may always be called, and by more than fit it panics.
        let mut advance = |n| outcome(|| unsafe { buf.advance_mut(n) });
        assert_eq!([0, 5, usize::MAX].map(|n| advance(n).is_ok()), [true, false, false], "{name}");
        assert!(buf.written().is_empty(), "{name}");
    }
}

/// A source that panics or lies at its `nth` chunk.
struct Source {
    chunks: Vec<&'static [u8]>,
    nth: usize,
    lies: bool,
}

impl Buf for Source {
    fn remaining(&self) -> usize {
        if self.lies { self.chunks.len().min(1) } else { self.chunks.iter().map(|chunk| chunk.len()).sum() }
    }

    fn chunk(&self) -> &[u8] {
        assert!(self.lies || self.chunks.len() != self.nth, "foreign code panics");
        self.chunks.first().copied().unwrap_or_default()
    }

    fn advance(&mut self, n: usize) {
        assert!(n > 0, "foreign code panics");
        self.chunks[0] = &self.chunks[0][n..];
        self.chunks.retain(|chunk| !chunk.is_empty());
    }
}

// A source is never believed: bytes that don't fit aren't put, and those before a panic are. (`&mut dyn BufMut` puts by
// the crate's own loop over `chunk_mut`.)
#[test]
fn sources_that_panic_or_lie() {
    type PutAll = fn(&mut dyn Written, Source);
    let puts: [PutAll; 2] = [|buf, source| buf.put_all(source), |mut buf, source| BufMut::put(&mut buf, source)];
    for ((name, make), put) in MAKES_MUT.into_iter().flat_map(|make| puts.map(|put| (make, put))) {
        for nth in 1..=3 {
            let mut buf = make(9);
            let source = Source { chunks: vec![b"abc", b"de", b"fgh"], nth, lies: false };
            assert!(outcome(|| put(&mut *buf, source)).is_err(), "{name}");
            assert_eq!(buf.written(), [&b"abcde"[..], b"abc", b""][nth - 1], "{name}");
        }
        let mut buf = make(4);
        let source = Source { chunks: vec![b"ab", b"longer than 4"], nth: 0, lies: true };
        assert!(outcome(|| put(&mut *buf, source)).is_err(), "{name}");
        assert!(b"ablo".starts_with(&buf.written()), "{name}");
    }
}
