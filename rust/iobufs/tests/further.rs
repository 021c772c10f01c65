//! Calls that the original lacks: finding and peeking, sharing, frames as an iterator, headers around a length.
use bytes::{Bytes, BytesMut};
use iobufs::{Builder, FrameCodec, FrameError, FrameReader, FrameWriter, Frames, IoBuf, IoBufMut, IoBufs, IoBufsMut};
use iobufs::{Error, Layout, Prefix};
use std::io::{self, ErrorKind, Read};
use std::thread;

/// The bytes in chunks, cut after each place whose bit is set.
fn cut(bytes: &'static [u8], cuts: usize) -> IoBufs {
    let (mut bufs, mut rest) = (IoBufs::new(), bytes);
    for at in (1..bytes.len()).rev().filter(|at| (cuts >> at) & 1 == 1) {
        let (front, last) = rest.split_at(at);
        bufs.prepend(IoBuf::from(last));
        rest = front;
    }
    bufs.prepend(IoBuf::from(rest));
    bufs
}

/// Bytes in which others are looked for.
const TEXTS: [&[u8]; 5] = [b"", b"a", b"abab", b"aabaab", b"bbaabba"];

/// What is looked for.
const PATTERNS: [&[u8]; 9] = [b"", b"a", b"b", b"ab", b"aa", b"aab", b"baab", b"bba", b"aabaabb"];

#[test]
fn bytes_are_found_for_every_chunking() {
    for (text, pattern) in TEXTS.iter().flat_map(|text| PATTERNS.map(|pattern| (*text, pattern))) {
        let wanted = (0..=text.len()).find(|at| text[*at..].starts_with(pattern));
        for cuts in 0..1 << text.len() {
            let bufs = cut(text, cuts);
            assert_eq!(bufs.find(pattern), wanted, "{pattern:?} in {text:?}, {cuts:b}");
            if let [byte] = pattern {
                assert_eq!(bufs.find_byte(*byte), wanted);
            }
        }
    }
}

#[test]
fn bytes_are_peeked_for_every_chunking() {
    let text: &[u8] = b"abcde";
    for (cuts, at, n) in
        (0..1 << text.len()).flat_map(|cuts| (0..7).flat_map(move |at| (0..7).map(move |n| (cuts, at, n))))
    {
        let wanted = text.get(at..at + n);
        let (mut of_view, mut of_list) = (vec![b'-'; n], vec![b'-'; n]);
        let are_there = [IoBuf::from(text).peek_slice(at, &mut of_view), cut(text, cuts).peek_slice(at, &mut of_list)];
        let left = wanted.map_or(vec![b'-'; n], <[u8]>::to_vec);
        assert_eq!((are_there, of_view, of_list), ([wanted.is_some(); 2], left.clone(), left), "{at} {n}");
    }
}

/// A view, and what lives beside it.
type Made = (IoBuf, Box<dyn Send>);
/// A name, what makes a view, and whether it is unique.
type Unique = (&'static str, fn() -> Made, bool);

/// Views, and whether nothing else shares their storage while the other value lives.
const UNIQUE: [Unique; 12] = [
    ("a `Vec`", || (vec![1, 2].into(), Box::new(())), true),
    ("a copy", || (IoBuf::copy_from_slice(b"ab"), Box::new(())), true),
    ("an emptied view", || (vec![1].into(), Box::new(())), true),
    ("static bytes", || (IoBuf::from(b"ab"), Box::new(())), false),
    ("no bytes", || (IoBuf::new(), Box::new(())), false),
    ("a `Bytes`", || (Bytes::from(vec![1, 2]).into(), Box::new(())), true),
    ("an owner", || (IoBuf::from_owner([1, 2]), Box::new(())), false),
    ("a shared `Bytes`", || share(Bytes::from(vec![1, 2]).into()), false),
    ("a shared `Vec`", || share(vec![1, 2].into()), false),
    ("a view that became a `Bytes`", || as_bytes(vec![1, 2].into()), false),
    ("a chunk of a list", || in_a_list(vec![1, 2].into()), false),
    ("the rest of a split", || front(vec![1, 2].into()), false),
];

fn share(view: IoBuf) -> Made {
    (view.clone(), Box::new(view))
}

fn as_bytes(view: IoBuf) -> Made {
    (view.clone(), Box::new(Bytes::from(view)))
}

fn in_a_list(view: IoBuf) -> Made {
    (view.clone(), Box::new(IoBufs::from(["ab".into(), view])))
}

fn front(mut view: IoBuf) -> Made {
    let front = view.split_to(1);
    (view, Box::new(front))
}

// A view is unique if nothing shares its storage, and becomes so as another thread drops the last other share.
#[test]
fn views_tell_whether_they_are_unique() {
    for (name, make, wanted) in UNIQUE {
        let (view, other) = make();
        assert_eq!(view.is_unique(), wanted, "{name}");
        let counts_as_shared = matches!(name, "static bytes" | "no bytes" | "an owner");
        thread::spawn(move || drop(other)).join().unwrap();
        assert_eq!(view.is_unique(), !counts_as_shared, "{name}, alone");
    }
}

/// Reads the pieces one by one; each `None` is an error of this kind.
struct Pieces(Vec<Option<&'static [u8]>>, ErrorKind);

impl Read for Pieces {
    fn read(&mut self, dst: &mut [u8]) -> io::Result<usize> {
        if self.0.is_empty() {
            return Ok(0);
        }
        let piece = self.0.remove(0).ok_or(self.1)?;
        dst[..piece.len()].copy_from_slice(piece);
        Ok(piece.len())
    }
}

/// What an iterator gives, at most 20 items: bodies, and errors by a letter.
fn given(from: impl Iterator<Item = Result<IoBuf, FrameError>>) -> String {
    let shown = from.take(20).map(|body| match body {
        Ok(body) => String::from_utf8(body.to_vec()).unwrap(),
        Err(FrameError::Bad(_)) => "B".into(),
        Err(FrameError::Cut) => "C".into(),
        Err(_) => "E".into(),
    });
    shown.collect::<Vec<_>>().join(" ")
}

/// What is read, the kind of its errors, and what the iterator gives.
type Given = (&'static [Option<&'static [u8]>], ErrorKind, &'static str);
const GIVEN: [Given; 7] = [
    (&[], ErrorKind::Other, ""),
    (&[Some(b"\x02ok\x02no")], ErrorKind::Other, "ok no"),
    (&[Some(b"\x02ok\x05he")], ErrorKind::Other, "ok C"),
    (&[Some(b"\x02ok\x09no")], ErrorKind::Other, "ok B"),
    (&[Some(b"\x02o"), None, Some(b"k"), None, Some(b"\x01-")], ErrorKind::WouldBlock, "E ok E -"),
    (&[Some(b"\x02o"), None, Some(b"k")], ErrorKind::TimedOut, "E ok"),
    (&[Some(b"\x02ok\x02n"), None, Some(b"o")], ErrorKind::ConnectionReset, "ok E"),
];

// The iterator ends with the input and after an error that stays; a read that would block isn't one.
#[test]
fn frames_are_iterated_over() {
    for (pieces, kind, wanted) in GIVEN {
        let mut from = FrameReader::new(Pieces(pieces.to_vec(), kind), ..=8);
        assert_eq!((given(&mut from), given(&mut from)), (wanted.into(), "".into()), "{pieces:?}");
    }
    let mut from = FrameReader::new(&b"\x02ok\x09123456789\x01-"[..], ..=8);
    assert_eq!(given(&mut from), "ok B");
    from.set_range(..=9);
    assert_eq!(given(&mut from), "123456789 -");
    let mut from = FrameReader::new(&b"\x09\0ok"[..], ..=8);
    assert_eq!(given(&mut from), "B");
    from.set_layout(Layout::new(Prefix::U16Le).counts(7));
    assert_eq!(given(&mut from), "ok");
    let mut from = FrameReader::new(&b"\x02ok\x02no\x03yes"[..], ..);
    assert_eq!(from.next().unwrap().unwrap(), "ok");
    from.set_range(3..);
    assert_eq!(from.try_next(), Err(Error::InvalidLength(2)));
}

// The offset after the last frame that was taken, for reads of every size.
#[test]
fn readers_tell_how_much_was_taken() {
    let layout = Layout::new(Prefix::U16Be).before(1).counts(2);
    let mut to = FrameWriter::with_prefix(Vec::new(), layout, ..);
    (0..20).for_each(|n| to.put_with(b"-", &[], vec![7; n]).unwrap());
    to.send().unwrap();
    let wire: &'static [u8] = to.into_inner().leak();
    for most in [1, 2, 5, 100, wire.len()] {
        let pieces = wire.chunks(most).map(Some).collect();
        let (mut from, mut end) = (FrameReader::with_prefix(Pieces(pieces, ErrorKind::Other), layout, ..), 0);
        for n in 0..20 {
            assert_eq!(from.taken(), end);
            let len = match n % 3 {
                0 => from.next().unwrap().unwrap().len(),
                1 => from.next_whole().unwrap().unwrap().into_body().len(),
                _ => from.try_next().unwrap().map_or_else(|| from.next().unwrap().unwrap().len(), |body| body.len()),
            };
            end += 3 + len as u64;
        }
        assert_eq!((from.next().unwrap(), from.taken()), (None, wire.len() as u64));
    }
}

/// How many bytes are before and after a length, and what it counts.
const AROUND: [(u8, u8, u8); 5] = [(0, 0, 0), (1, 0, 4), (0, 6, 0), (4, 3, 7), (11, 11, 0)];

// Whoever takes a whole frame shows what is before and after its length, for every chunking.
#[test]
fn headers_show_what_is_around_their_length() {
    for ((before, after, counts), prefix) in AROUND.into_iter().zip([Prefix::Varint, Prefix::U32Be].into_iter().cycle())
    {
        let layout = Layout::new(prefix).before(before).after(after).counts(counts);
        let (front, back) = (&b"abcdefghijk"[..before.into()], &b"lmnopqrstuv"[..after.into()]);
        let codec = FrameCodec::new(layout, ..);
        let mut wire = BytesMut::new();
        codec.encode_with(front, back, &vec![7; 200].into(), &mut wire).unwrap();
        let whole = FrameReader::with_prefix(&wire[..], layout, ..).next_whole().unwrap().unwrap();
        assert_eq!((whole.before(), whole.after()), (front, back));
        for n in [1, 2, 3, 300] {
            let mut frames = Frames::new(layout);
            wire.chunks(n).for_each(|chunk| frames.feed(IoBuf::copy_from_slice(chunk)));
            let whole = frames.next_whole(..).unwrap().unwrap();
            assert_eq!((whole.before(), whole.after()), (front.into_buf(), back.into_buf()), "chunks of {n}");
            assert_eq!(whole.into_body(), [7; 200]);
        }
        let whole = codec.decode_whole(&mut wire).unwrap().unwrap();
        assert_eq!((whole.before(), whole.after()), (front, back));
        assert_eq!(whole.into_body(), [7; 200]);
    }
}

trait IntoBuf {
    fn into_buf(self) -> IoBufs;
}

impl IntoBuf for &[u8] {
    fn into_buf(self) -> IoBufs {
        IoBuf::copy_from_slice(self).into()
    }
}

// Writable buffers are equal to their bytes, for every chunking.
#[test]
fn writable_buffers_equal_their_bytes() {
    let texts: [&[u8]; 6] = [b"", b"a", b"b", b"ab", b"abc", b"abd"];
    for (ours, theirs) in texts.iter().flat_map(|a| texts.map(|b| (*a, b))) {
        for n in 1..4 {
            let parts: IoBufsMut = ours.chunks(n).map(IoBufMut::from).collect();
            assert_eq!((parts == *theirs, *theirs == parts), (ours == theirs, ours == theirs), "{ours:?} {theirs:?}");
        }
    }
    let mut parts = IoBufsMut::from([2, 3].map(IoBufMut::with_capacity));
    parts.put_slice(b"abc");
    let (vec, bytes) = (vec![b'a', b'b', b'c'], Bytes::from("abc"));
    assert_eq!([parts == "abc", parts == *b"abc", parts == vec, parts == bytes, bytes == parts], [true; 5]);
}

// Bytes that are written into the spare capacity are those that become readable.
#[test]
fn spare_capacity_is_written() {
    let mut part = IoBufMut::with_capacity(5);
    part.put_slice(b"-ab");
    part.advance(1);
    assert_eq!(part.spare_capacity_mut().len(), 2);
    part.spare_capacity_mut().iter_mut().zip(*b"cd").for_each(|(to, byte)| _ = to.write(byte));
    // SAFETY: all four are written.
    unsafe { part.set_len(4) };
    assert_eq!((part.spare_capacity_mut().len(), part), (0, IoBufMut::from(b"abcd")));
}

#[test]
fn conversions() {
    let chunks = || [Bytes::from_static(b"ab"), Bytes::new(), Bytes::from(vec![b'c'])];
    let mut bufs = IoBufs::from(chunks().to_vec());
    assert_eq!((bufs.chunk_count(), bufs.owners()), (2, 2));
    bufs.extend(chunks());
    assert_eq!(bufs, "abcabc");
    assert_eq!([b'a', b'b'].into_iter().collect::<IoBufMut>(), b"ab".iter().collect::<IoBufMut>());
    let mut builder = Builder::default();
    builder.push("ab");
    assert_eq!((builder.remaining_mut(), builder.finish()), (0, "ab".into()));
    assert_eq!((IoBufMut::new().capacity(), IoBufMut::new()), (0, IoBufMut::default()));
    assert_eq!(FrameReader::new(&b"\x09"[..], ..=8).try_next(), Ok::<_, Error>(None));
}
