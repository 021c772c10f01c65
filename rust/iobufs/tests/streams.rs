//! Frames over readers and writers, which move few bytes at a time, are interrupted, fail, lie, panic, and are counted.
use iobufs::bytes::BytesMut;
use iobufs::{Error, FrameError, FrameReader, FrameWriter, Frames, IoBuf, IoBufs, Prefix};
use std::cell::Cell;
use std::error::Error as _;
use std::io::{self, ErrorKind, IoSlice, Read, Write};
use std::ops::Bound;
use std::panic::{AssertUnwindSafe, catch_unwind};

/// An effect of a stream's call other than moving bytes.
#[derive(Clone, Copy, Debug, PartialEq)]
enum Fault {
    Interrupted,
    Fails,
    Panics,
    /// It moves nothing, and says that it moved one byte more than it was given.
    Lies,
}

/// A stream of at most `most` bytes a call, and of a fault in its call `at`, counted from 1. It records its calls: the
/// bytes that each moves, `x` for a fault and `|` for a flush.
#[derive(Default)]
struct Narrow {
    bytes: Vec<u8>,
    most: usize,
    fault: Option<(usize, Fault)>,
    calls: Vec<String>,
    /// The addresses of the chunks of the last write.
    chunks: Vec<*const u8>,
}

impl Narrow {
    fn new(bytes: &[u8], most: usize) -> Self {
        Narrow { bytes: bytes.to_vec(), most, ..Narrow::default() }
    }

    fn with(bytes: &[u8], most: usize, at: usize, fault: Fault) -> Self {
        Narrow { fault: Some((at, fault)), ..Self::new(bytes, most) }
    }

    /// Counts a call that moves `n` bytes of `given`, unless it has a fault.
    fn call(&mut self, given: usize, n: usize) -> io::Result<usize> {
        let at = self.calls.len() + 1;
        let Some((_, fault)) = self.fault.filter(|fault| fault.0 == at) else {
            self.calls.push(n.to_string());
            return Ok(n);
        };
        self.calls.push("x".into());
        match fault {
            Fault::Interrupted => Err(ErrorKind::Interrupted.into()),
            Fault::Fails => Err(io::Error::other("fails")),
            Fault::Panics => panic!("the stream panics"),
            Fault::Lies => Ok(given + 1),
        }
    }

    fn calls(&self) -> String {
        self.calls.join(" ")
    }
}

impl Read for Narrow {
    fn read(&mut self, dst: &mut [u8]) -> io::Result<usize> {
        let n = dst.len().min(self.most).min(self.bytes.len());
        let told = self.call(dst.len(), n)?;
        if told <= dst.len() {
            dst[..n].copy_from_slice(&self.bytes[..n]);
            self.bytes.drain(..n);
        }
        Ok(told)
    }
}

impl Write for Narrow {
    fn write(&mut self, src: &[u8]) -> io::Result<usize> {
        self.write_vectored(&[IoSlice::new(src)])
    }

    fn write_vectored(&mut self, chunks: &[IoSlice<'_>]) -> io::Result<usize> {
        let given: usize = chunks.iter().map(|chunk| chunk.len()).sum();
        let n = given.min(self.most);
        let told = self.call(given, n)?;
        if told <= given {
            self.chunks = chunks.iter().map(|chunk| chunk.as_ptr()).collect();
            self.bytes.extend(chunks.iter().flat_map(|chunk| chunk.iter()).take(n));
        }
        Ok(told)
    }

    fn flush(&mut self) -> io::Result<()> {
        self.call(0, 0)?;
        *self.calls.last_mut().unwrap() = "|".into();
        Ok(())
    }
}

/// Takes the next frame, and says what comes: a body, the end, an error or a panic.
fn taken(from: &mut FrameReader<Narrow>) -> Result<Option<Vec<u8>>, String> {
    match catch_unwind(AssertUnwindSafe(|| from.next())) {
        Ok(Ok(body)) => Ok(body.map(Vec::from)),
        Ok(Err(error)) => Err(error.to_string()),
        Err(_) => Err("a panic".into()),
    }
}

/// Takes all frames: the bodies with `|` after each, and how the reader ends, a second time too.
fn read_frames(from: &mut FrameReader<Narrow>) -> (Vec<u8>, String) {
    let mut bodies = Vec::new();
    loop {
        match taken(from) {
            Ok(Some(body)) => bodies.extend([&body[..], b"|"].concat()),
            Ok(None) => return (bodies, "end".into()),
            Err(error) => return (bodies, error),
        }
    }
}

/// The input, the bodies, and how the reader ends, for lengths up to 8.
const READ: [(&[u8], &[u8], &str); 5] = [
    (b"\x03abc\0\x05hello", b"abc||hello|", "end"),
    (b"\x05hell", b"", "the input ends inside a frame"),
    (b"\x88", b"", "the input ends inside a frame"),
    (b"\0\x09aaaaaaaaa", b"|", "bad frame: the length 9 isn't accepted"),
    (b"\x80\0", b"", "bad frame: invalid varint"),
];

#[test]
fn frames_are_read() {
    for (bytes, bodies, end) in READ {
        for most in [1, 2, 3, 7, 100] {
            let mut from = FrameReader::new(Narrow::new(bytes, most), 0..=8);
            assert_eq!(read_frames(&mut from), (bodies.to_vec(), end.to_string()), "{bytes:?} by {most}");
            assert_eq!(read_frames(&mut from), (vec![], end.to_string()), "{bytes:?} by {most}, again");
        }
    }
}

// Each read has a fault in turn. After it the frames are those that they are without one: no byte is lost or comes
// twice.
#[test]
fn reads_with_faults() {
    for fault in [Fault::Interrupted, Fault::Fails, Fault::Panics, Fault::Lies] {
        for (bytes, bodies, end) in READ {
            for most in [1, 3, 100] {
                for at in 1..=bytes.len().div_ceil(most) + 1 {
                    let mut from = FrameReader::new(Narrow::with(bytes, most, at, fault), 0..=8);
                    let (mut found, mut ended) = read_frames(&mut from);
                    let told = match fault {
                        Fault::Interrupted => "",
                        Fault::Fails => "fails",
                        Fault::Panics => "a panic",
                        Fault::Lies => "a reader says that it read more than it was asked for",
                    };
                    if ended == told {
                        let (more, then) = read_frames(&mut from);
                        found.extend(more);
                        ended = then;
                    }
                    assert_eq!((found, &ended[..]), (bodies.to_vec(), end), "{fault:?} in {bytes:?} by {most} at {at}");
                }
            }
        }
    }
}

/// The errors of a reader, and as errors of std.
#[test]
fn errors_of_reads() {
    type Case = (Narrow, fn(&FrameError) -> bool, &'static str, ErrorKind);
    let cases: [Case; 4] = [
        (Narrow::with(b"\x03abc", 2, 2, Fault::Fails), |it| matches!(it, FrameError::Io(_)), "fails", ErrorKind::Other),
        (
            Narrow::new(b"\x09", 2),
            |it| matches!(it, FrameError::Bad(Error::InvalidLength(9))),
            "the length 9 isn't accepted",
            ErrorKind::InvalidData,
        ),
        (
            Narrow::new(b"\x80\0", 2),
            |it| matches!(it, FrameError::Bad(Error::InvalidVarint)),
            "invalid varint",
            ErrorKind::InvalidData,
        ),
        (Narrow::new(b"\x08", 2), |it| matches!(it, FrameError::Cut), "", ErrorKind::UnexpectedEof),
    ];
    for (stream, is, source, kind) in cases {
        let mut from = FrameReader::new(stream, ..9);
        let error = from.next().unwrap_err();
        assert!(is(&error), "{error:?}");
        assert_eq!(error.source().map_or(String::new(), |it| it.to_string()), source);
        let (told, error) = (error.to_string(), io::Error::from(error));
        assert_eq!((error.kind(), error.to_string()), (kind, told));
        assert!(!from.get_ref().calls.is_empty());
    }
}

/// Counts its reads, of at most `most` bytes, and their bytes.
struct Counted<'a> {
    bytes: &'a [u8],
    most: usize,
    reads: &'a Cell<usize>,
    came: &'a Cell<usize>,
}

impl Read for Counted<'_> {
    fn read(&mut self, dst: &mut [u8]) -> io::Result<usize> {
        self.reads.set(self.reads.get() + 1);
        let n = dst.len().min(self.most);
        let n = self.bytes.read(&mut dst[..n])?;
        self.came.set(self.came.get() + n);
        Ok(n)
    }
}

// A frame is taken without a read, if its bytes came; a read fills the space. After the last frame one finds the end.
#[test]
fn reads_are_counted() {
    let bytes = b"\x02ab\0\x01c".repeat(1000);
    for (most, all) in [(usize::MAX, 3), (2500, 4), (100, 62), (1, 6001)] {
        let (reads, came, mut taken) = (Cell::new(0), Cell::new(0), 0);
        let mut from = FrameReader::new(Counted { bytes: &bytes, most, reads: &reads, came: &came }, ..=2);
        for i in 0..3000 {
            let (before, size) = (reads.get(), [3, 1, 2][i % 3]);
            let is_held = came.get() - taken >= size;
            assert_eq!(from.next().unwrap().unwrap(), [&b"ab"[..], b"", b"c"][i % 3]);
            taken += size;
            assert_eq!(reads.get() == before, is_held, "{i} by {most}");
        }
        assert!(from.next().unwrap().is_none());
        assert_eq!(reads.get(), all, "by {most}");
    }
    let long = [&b"\xc0\xb8\x02"[..], &[7; 40_000]].concat();
    let (reads, came) = (Cell::new(0), Cell::new(0));
    let mut from = FrameReader::new(Counted { bytes: &long, most: usize::MAX, reads: &reads, came: &came }, ..=40_000);
    assert!(from.next().unwrap().unwrap() == [7; 40_000] && reads.get() <= 6, "{reads:?}");
}

// Bodies that come by one read are where it put them.
#[test]
fn bodies_are_shared() {
    let mut from = FrameReader::new(&b"\x03abc\x02de\x01f"[..], 0..=3);
    let bodies = [from.next(), from.next(), from.next()].map(|body| body.unwrap().unwrap());
    let first = bodies[0].as_ptr();
    assert_eq!(bodies.map(|body| body.as_ptr()), [first, first.wrapping_add(4), first.wrapping_add(7)]);
}

/// What `src/spare/block.rs` takes of the crate `bytes`: a block that gets its space back stays in its allocation.
#[test]
fn a_reclaimed_block_ends_where_it_ended() {
    for (n, taken, kept) in [(64, 40, 10), (4096, 4095, 0), (65536, 1000, 500)] {
        let mut block = BytesMut::zeroed(n);
        let end = block.as_ptr_range().end;
        drop(block.split_to(taken));
        block.truncate(kept);
        assert!(block.try_reclaim(n - kept), "{n} {taken} {kept}");
        assert_eq!(block.as_ptr().wrapping_add(block.capacity()), end);
    }
}

/// A body of nine bytes in three chunks.
fn body() -> IoBufs {
    IoBufs::from([IoBuf::from(b"abc"), IoBuf::from(b"de"), IoBuf::from(b"fghi")])
}

/// The bytes of a frame of `body`, and of an empty one.
const SENT: &[u8] = b"\x09abcdefghi\0";

fn put_both(to: &mut FrameWriter<Narrow>) {
    to.put(body()).unwrap();
    to.put(IoBuf::default()).unwrap();
    assert!(!to.is_sent());
}

#[test]
fn frames_are_sent() {
    for (most, calls) in [(1, "1 1 1 1 1 1 1 1 1 1 1 |"), (3, "3 3 3 2 |"), (7, "7 4 |"), (100, "11 |")] {
        let mut to = FrameWriter::new(Narrow::new(b"", most), ..);
        put_both(&mut to);
        to.send().unwrap();
        assert!(to.is_sent());
        let to = to.into_inner();
        assert_eq!((&to.bytes[..], &to.calls()[..]), (SENT, calls), "by {most}");
    }
    let mut to = FrameWriter::new(Narrow::new(b"", 0), ..);
    put_both(&mut to);
    assert_eq!(to.send().unwrap_err().kind(), ErrorKind::WriteZero);
    assert!(!to.is_sent());
    assert_eq!(to.into_inner().calls(), "0");
    let mut to = FrameWriter::new(Narrow::new(b"", 9), ..);
    to.send().unwrap();
    assert_eq!(to.into_inner().calls(), "|");
}

// Each call has a fault in turn, the flush too. The next `send` writes the rest and flushes: no byte is lost or written
// twice.
#[test]
fn writes_with_faults() {
    let ends = |most: usize| SENT.len().div_ceil(most) + 1;
    for fault in [Fault::Interrupted, Fault::Fails, Fault::Panics] {
        for (most, at) in [1, 3, 100].into_iter().flat_map(|most| (1..=ends(most)).map(move |at| (most, at))) {
            let mut to = FrameWriter::new(Narrow::with(b"", most, at, fault), ..);
            put_both(&mut to);
            let sent = catch_unwind(AssertUnwindSafe(|| to.send()));
            let of_flush = at == ends(most);
            match fault {
                Fault::Panics => assert!(sent.is_err()),
                Fault::Fails => assert_eq!(sent.unwrap().unwrap_err().to_string(), "fails"),
                _ if of_flush => assert_eq!(sent.unwrap().unwrap_err().kind(), ErrorKind::Interrupted),
                _ => assert!(sent.unwrap().is_ok()),
            }
            assert_eq!(to.is_sent(), of_flush || fault == Fault::Interrupted, "{fault:?} by {most} at {at}");
            assert_eq!(to.unsent(), SENT.len() - to.get_ref().bytes.len(), "{fault:?} by {most} at {at}");
            to.put(b"more").unwrap();
            to.send().unwrap();
            let to = to.into_inner();
            assert_eq!(to.bytes, [SENT, b"\x04more"].concat(), "{fault:?} by {most} at {at}");
            let flushed = to.calls.iter().filter(|call| *call == "|").count();
            let again = fault == Fault::Interrupted && !of_flush;
            assert_eq!(
                (flushed, to.calls.last().unwrap() == "|"),
                (1 + usize::from(again), true),
                "{fault:?} by {most} at {at}"
            );
        }
    }
}

// A writer that says that it took more than it was given took nothing: nothing is lost.
#[test]
fn writes_that_lie() {
    let mut to = FrameWriter::new(Narrow::with(b"", 100, 1, Fault::Lies), ..);
    put_both(&mut to);
    let error = to.send().unwrap_err();
    assert_eq!(
        (error.kind(), &error.to_string()[..]),
        (ErrorKind::Other, "a writer says that it took more than it was given")
    );
    assert!(!to.is_sent());
    to.send().unwrap();
    assert_eq!(to.into_inner().bytes, SENT);
}

// Many chunks are written at a time, where they are: none is copied.
#[test]
fn chunks_are_sent_as_they_are() {
    let chunks: Vec<IoBuf> = (0..10).map(|i| IoBuf::from(vec![i; 100])).collect();
    let mut to = FrameWriter::new(Narrow::new(b"", usize::MAX), ..);
    to.put(IoBufs::from(chunks.clone())).unwrap();
    to.send().unwrap();
    let wanted: Vec<*const u8> = chunks.iter().map(IoBuf::as_ptr).collect();
    assert_eq!((&to.into_inner().chunks[1..]), &wanted[..]);
    let mut to = FrameWriter::new(Narrow::new(b"", usize::MAX), ..);
    (0..100).for_each(|_| to.put(chunks[0].clone()).unwrap());
    to.send().unwrap();
    let to = to.into_inner();
    assert_eq!((to.bytes.len(), to.calls.len() <= 5), (10_100, true), "{}", to.calls());
}

/// The lengths of the chunks of bodies that are put, and how many chunks are written where they are.
const PUT: [(&[&[usize]], usize); 8] = [
    (&[&[3], &[256]], 1),
    (&[&[3], &[257]], 2),
    (&[&[3], &[2, 2]], 3),
    (&[&[3], &[], &[256]], 1),
    (&[&[3], &[1], &[2, 2], &[3]], 4),
    (&[&[300], &[3], &[257], &[3]], 3),
    (&[&[200, 200], &[3], &[4]], 2),
    (&[&[], &[3], &[257]], 1),
];

// A body of one chunk and at most 256 bytes is copied if it is put while one frame waits, or copies after it.
#[test]
fn short_bodies_are_copied() {
    for (lens, kept) in PUT {
        let bodies: Vec<Vec<IoBuf>> =
            lens.iter().map(|body| body.iter().map(|len| IoBuf::from(vec![7; *len])).collect()).collect();
        let mut to = FrameWriter::new(Narrow::new(b"", usize::MAX), ..);
        bodies.iter().for_each(|body| to.put(IoBufs::from(body.clone())).unwrap());
        let waits = to.unsent();
        to.send().unwrap();
        assert_eq!((waits, to.unsent()), (to.get_ref().bytes.len(), 0), "{lens:?}");
        let to = to.into_inner();
        let found = bodies.iter().flatten().filter(|chunk| to.chunks.contains(&chunk.as_ptr())).count();
        assert_eq!(found, kept, "{lens:?}");
        let mut from = FrameReader::new(&to.bytes[..], ..);
        lens.iter().for_each(|body| assert_eq!(from.next().unwrap().unwrap()[..], vec![7; body.iter().sum()]));
        assert!(from.next().unwrap().is_none(), "{lens:?}");
    }
}

#[test]
fn frames_of_each_prefix() {
    let cases: [(Prefix, &[u8]); 10] = [
        (Prefix::Varint, b"\x03abc\0"),
        (Prefix::U16Be, b"\0\x03abc\0\0"),
        (Prefix::U32Be, b"\0\0\0\x03abc\0\0\0\0"),
        (Prefix::U64Be, b"\0\0\0\0\0\0\0\x03abc\0\0\0\0\0\0\0\0"),
        (Prefix::U16Le, b"\x03\0abc\0\0"),
        (Prefix::U32Le, b"\x03\0\0\0abc\0\0\0\0"),
        (Prefix::U64Le, b"\x03\0\0\0\0\0\0\0abc\0\0\0\0\0\0\0\0"),
        (Prefix::U8, b"\x03abc\0"),
        (Prefix::U24Be, b"\0\0\x03abc\0\0\0"),
        (Prefix::U24Le, b"\x03\0\0abc\0\0\0"),
    ];
    for (prefix, bytes) in cases {
        let mut to = FrameWriter::with_prefix(Narrow::new(b"", 3), prefix, ..);
        to.put(IoBuf::from(b"abc")).unwrap();
        to.put(IoBuf::default()).unwrap();
        to.send().unwrap();
        assert_eq!(to.into_inner().bytes, bytes, "{prefix:?}");
        let mut from = FrameReader::with_prefix(Narrow::new(bytes, 3), prefix, 0..=8);
        let bodies = [from.next(), from.next(), from.next()].map(|it| it.unwrap().map(Vec::from));
        assert_eq!(bodies, [Some(b"abc".to_vec()), Some(vec![]), None], "{prefix:?}");
        let mut frames = Frames::new(prefix);
        frames.feed(IoBuf::copy_from_slice(bytes));
        assert_eq!(frames.next(..=2), Err(Error::InvalidLength(3)), "{prefix:?}");
        let mut to = FrameWriter::with_prefix(Vec::new(), prefix, ..);
        to.put(IoBufs::from([vec![7; 100].into(), vec![7; 150].into()])).unwrap();
        to.send().unwrap();
        let long = to.into_inner();
        let mut from = FrameReader::with_prefix(&long[..], prefix, 0..=250);
        assert!(from.next().unwrap().unwrap() == [7; 250] && from.next().unwrap().is_none(), "{prefix:?}");
    }
}

/// Lengths of bodies that aren't put, in this range and before this prefix; and that are.
#[test]
fn bodies_outside_the_range() {
    type Case = (Prefix, (Bound<usize>, Bound<usize>), &'static [usize], &'static [usize]);
    let cases: [Case; 6] = [
        (Prefix::Varint, (Bound::Unbounded, Bound::Included(8)), &[9, 1000], &[0, 8]),
        (Prefix::Varint, (Bound::Included(3), Bound::Excluded(5)), &[0, 2, 5], &[3, 4]),
        (Prefix::Varint, (Bound::Excluded(3), Bound::Unbounded), &[3], &[4]),
        (Prefix::U8, (Bound::Unbounded, Bound::Unbounded), &[256], &[255]),
        (Prefix::U16Be, (Bound::Unbounded, Bound::Unbounded), &[1 << 16], &[(1 << 16) - 1]),
        (Prefix::U24Le, (Bound::Unbounded, Bound::Unbounded), &[1 << 24], &[(1 << 24) - 1]),
    ];
    for (prefix, range, outside, inside) in cases {
        let mut to = FrameWriter::with_prefix(Vec::new(), prefix, range);
        for &n in outside {
            assert_eq!(to.put(vec![7; n]), Err(Error::InvalidLength(n)), "{prefix:?} {range:?}");
            assert!(to.is_sent());
        }
        inside.iter().for_each(|&n| to.put(vec![7; n]).unwrap());
        to.send().unwrap();
        assert_eq!(to.put(vec![7; outside[0]]), Err(Error::InvalidLength(outside[0])));
        let bytes = to.into_inner();
        let mut from = FrameReader::with_prefix(&bytes[..], prefix, range);
        inside.iter().for_each(|&n| assert!(from.next().unwrap().unwrap()[..] == vec![7; n]));
        assert!(from.next().unwrap().is_none() && from.into_inner().is_empty());
    }
}

/// An owner of bytes, whose drop panics.
struct Grenade([u8; 4]);

impl AsRef<[u8]> for Grenade {
    fn as_ref(&self) -> &[u8] {
        &self.0
    }
}

impl Drop for Grenade {
    fn drop(&mut self) {
        panic!("an owner panics");
    }
}

// The drop of a body's owner may panic, after its last byte was sent. Then no further byte is sent.
#[test]
fn owners_that_panic() {
    let all = b"\x08boom-end\x04last";
    for most in [1, 4, 5, 6, 100] {
        let mut to = FrameWriter::new(Narrow::new(b"", most), ..);
        to.put(IoBufs::from([IoBuf::from_owner(Grenade(*b"boom")), IoBuf::from(b"-end")])).unwrap();
        to.put(b"last").unwrap();
        assert!(catch_unwind(AssertUnwindSafe(|| to.send().unwrap())).is_err(), "by {most}");
        let sent = to.get_ref().bytes.clone();
        assert!(sent.len() >= 5 && all.starts_with(&sent), "{sent:?} by {most}");
        to.put(b"more").unwrap();
        let errors = [to.send(), to.send()].map(|sent| sent.unwrap_err().to_string());
        assert_eq!(errors, ["an owner of sent bytes panicked as it was dropped"; 2].map(String::from), "by {most}");
        assert_eq!((&to.get_ref().bytes, to.is_sent()), (&sent, false), "by {most}");
    }
}

// So may that of a body that is copied, in `put`. Its frame is put.
#[test]
fn owners_of_copies_that_panic() {
    let mut to = FrameWriter::new(Narrow::new(b"", 4), ..);
    to.put("first").unwrap();
    let put = catch_unwind(AssertUnwindSafe(|| to.put(IoBuf::from_owner(Grenade(*b"boom")))));
    assert_eq!((put.is_err(), to.unsent(), to.send().is_ok()), (true, 11, true));
    assert_eq!(to.into_inner().bytes, b"\x05first\x04boom");
}

// `try_next` reads nothing, `get_mut` gives the stream, and `Debug` says how much is held.
#[test]
fn frames_that_are_held() {
    let mut from = FrameReader::new(Narrow::new(b"\x01a\x02bc\x03d", 6), ..);
    assert_eq!(from.try_next(), Ok(None));
    assert_eq!((from.get_ref().calls.len(), from.next().unwrap().unwrap()), (0, IoBuf::from("a")));
    assert_eq!(format!("{:?}", FrameReader::new(&b""[..], ..)), "FrameReader { from: [], held: 0, .. }");
    assert_eq!((from.try_next(), from.try_next()), (Ok(Some(IoBuf::from("bc"))), Ok(None)));
    assert_eq!(from.get_mut().calls.len(), 1);
    let mut from = FrameReader::new(&b"\x01a\x09"[..], ..=8);
    assert_eq!(from.next().unwrap().unwrap(), "a");
    assert_eq!(from.try_next(), Err(Error::InvalidLength(9)));
    let mut to = FrameWriter::new(Vec::new(), ..);
    to.put("ab").unwrap();
    assert_eq!(format!("{to:?}"), "FrameWriter { to: [], unsent: 3, .. }");
    to.get_mut().extend(b"before ");
    to.send().unwrap();
    assert_eq!(to.into_inner(), b"before \x02ab");
}

// After a login: longer frames are admitted, and another protocol gets what is held.
#[test]
fn a_stream_goes_on_otherwise() {
    let mut from = FrameReader::new(&b"\x01a\x02bcHTTP"[..], ..2);
    assert_eq!(from.next().unwrap().unwrap(), "a");
    assert!(matches!(from.next(), Err(FrameError::Bad(Error::InvalidLength(2)))));
    from.set_range(..);
    assert_eq!(from.next().unwrap().unwrap(), "bc");
    let (rest, held) = from.into_parts();
    assert_eq!((rest, &held[..]), (&b""[..], &b"HTTP"[..]));
    let mut to = FrameWriter::new(Narrow::new(b"", 4), ..);
    assert_eq!(to.unsent(), 0);
    to.put("abcd").unwrap();
    to.put("e").unwrap();
    assert_eq!((to.unsent(), to.send().is_ok(), to.unsent()), (7, true, 0));
}

// Chunks are written where they are, as many at a time as the writer takes; what it didn't take is left.
#[test]
fn an_iobufs_is_written() {
    for (most, calls) in [(1, "1 1 1 1 1 1 1 1 1"), (4, "4 4 1"), (100, "9")] {
        let mut to = Narrow::new(b"", most);
        let mut bufs = body();
        bufs.write_to(&mut to).unwrap();
        assert_eq!((&to.bytes[..], &to.calls()[..], bufs.len()), (&b"abcdefghi"[..], calls, 0), "by {most}");
    }
    for fault in [Fault::Interrupted, Fault::Fails, Fault::Lies] {
        let (mut to, mut bufs) = (Narrow::with(b"", 4, 2, fault), body());
        let told = bufs.write_to(&mut to).map_err(|error| error.to_string());
        let wanted = match fault {
            Fault::Interrupted => Ok(()),
            Fault::Fails => Err("fails".to_string()),
            _ => Err("a writer says that it took more than it was given".to_string()),
        };
        assert_eq!((told, bufs.is_empty()), (wanted, fault == Fault::Interrupted));
        bufs.write_to(&mut to).unwrap();
        assert_eq!(to.bytes, b"abcdefghi", "{fault:?}");
    }
    let mut bufs: IoBufs = (0..200u8).map(|i| IoBuf::from(vec![i; 2])).collect();
    let (all, mut to) = (bufs.to_vec(), Narrow::new(b"", usize::MAX));
    assert_eq!(bufs.write_to(&mut Narrow::new(b"", 0)).unwrap_err().kind(), ErrorKind::WriteZero);
    bufs.write_to(&mut to).unwrap();
    assert_eq!((to.bytes == all, to.calls.len()), (true, 4));
}
