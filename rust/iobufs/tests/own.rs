//! Texts and parts, worked by hand: equality, failed allocations, lengths, panics and threads.
use bytes::{Buf, BufMut, BytesMut};
use iobufs::{Builder, Error, IoBuf, IoBufMut, IoBufs, IoBufsMut, Prefix, PutLength, ReadLength, length_size};
use std::io::IoSlice;
use std::num::NonZeroUsize;
use std::ops::Bound;
use std::panic::catch_unwind;
use std::process::Command;
use std::thread;

fn bytes(text: &IoBufs) -> Vec<u8> {
    let mut all = Vec::new();
    text.for_each_chunk(|chunk| all.extend_from_slice(chunk));
    all
}

fn text() -> IoBufs {
    IoBufs::from([IoBuf::from(b"abc"), IoBuf::default(), IoBuf::from(b"de"), IoBuf::from(b"fghi")])
}

// A size that no buffer can have, and one that no machine has memory for.
#[test]
fn allocations_that_fail() {
    for bytes in [usize::MAX, 1 << 62, 1 << 50] {
        assert_eq!(IoBufMut::try_with_capacity(bytes).err().map(|it| it.bytes), Some(bytes));
        assert_eq!(IoBufMut::try_zeroed(bytes).err().map(|it| it.bytes), Some(bytes));
    }
    let error = IoBufMut::try_zeroed(1 << 50).unwrap_err();
    assert_eq!(error.to_string(), "memory allocation of 1125899906842624 bytes failed");
    let (empty, zeros) = (IoBufMut::try_with_capacity(9).unwrap(), IoBufMut::try_zeroed(3).unwrap());
    assert_eq!((empty.len(), empty.capacity(), zeros.as_ref()), (0, 9, &[0; 3][..]));
    let copies = (IoBufMut::try_copy_from_slice(b"ab").unwrap(), IoBuf::try_copy_from_slice(b"cd").unwrap());
    assert_eq!((copies.0.as_ref(), copies.1.as_ref()), (&b"ab"[..], &b"cd"[..]));
}

// Capacities that conversions keep.
#[test]
fn capacities() {
    let vec = || {
        let mut vec = Vec::with_capacity(64);
        vec.extend_from_slice(b"abc");
        vec
    };
    assert_eq!((IoBufMut::from(vec()).capacity(), IoBufsMut::from(vec()).capacity()), (64, 64));
    assert_eq!(IoBufMut::from(IoBuf::from(vec())).capacity(), 64);
    assert_eq!((IoBufMut::from(b"abc").capacity(), IoBufMut::from(IoBuf::from(b"abc")).capacity()), (3, 3));
}

// Ranges of lengths, of which some have none.
#[test]
fn ranges_of_lengths() {
    use Bound::{Excluded, Included, Unbounded};
    type Case = ((Bound<usize>, Bound<usize>), &'static [usize]);
    let cases: [Case; 8] = [
        ((Unbounded, Unbounded), &[0, 1, 2, usize::MAX]),
        ((Included(1), Included(2)), &[1, 2]),
        ((Excluded(1), Excluded(usize::MAX)), &[2]),
        ((Unbounded, Excluded(0)), &[]),
        ((Included(2), Excluded(2)), &[]),
        ((Excluded(usize::MAX), Unbounded), &[]),
        ((Excluded(usize::MAX), Included(usize::MAX)), &[]),
        ((Included(usize::MAX), Unbounded), &[usize::MAX]),
    ];
    for (range, admitted) in cases {
        for n in [0, 1, 2, usize::MAX] {
            let mut part = IoBufMut::with_capacity(10);
            part.put_length(n);
            let wanted = if admitted.contains(&n) { Ok(n) } else { Err(Error::InvalidLength(n)) };
            let view = part.freeze();
            assert_eq!(
                [view.clone().read_length(range), IoBufs::from(view).read_length(range)],
                [wanted; 2],
                "{n} in {range:?}"
            );
        }
    }
}

/// Bytes in chunks, of which `chunks_vectored` shows only the first.
struct Hidden(Vec<&'static [u8]>);

impl Buf for Hidden {
    fn remaining(&self) -> usize {
        self.0.iter().map(|chunk| chunk.len()).sum()
    }

    fn chunk(&self) -> &[u8] {
        self.0.first().copied().unwrap_or_default()
    }

    fn advance(&mut self, n: usize) {
        self.0[0].advance(n);
        self.0.retain(|chunk| !chunk.is_empty());
    }
}

/// Bytes, what a length at their front is in the range up to 1024, and how many bytes it has.
const LENGTHS: [(&[u8], Result<usize, Error>, usize); 10] = [
    (b"", Err(Error::EndOfBuffer), 0),
    (b"\x05", Ok(5), 1),
    (b"\x05hello", Ok(5), 1),
    (b"\xac\x02-", Ok(300), 2),
    (b"\x80\x08----------", Ok(1024), 2),
    (b"\x81\x08----------", Err(Error::InvalidLength(1025)), 2),
    (b"\x81", Err(Error::EndOfBuffer), 1),
    (b"\x80\x00-", Err(Error::InvalidVarint), 2),
    (b"\xff\xff\xff\xff\xff\xff\xff\xff\xff\x02-", Err(Error::InvalidVarint), 10),
    (b"\xff\xff\xff\xff\xff\xff\xff\xff\xff\x01-", Err(Error::InvalidLength(usize::MAX)), 10),
];

// A length is read from any buffer, however its bytes are cut. After an error nothing changes, unless bytes are hidden.
#[test]
fn lengths_at_the_front_of_any_buffer() {
    fn read(mut buf: impl Buf) -> (Result<usize, Error>, usize) {
        (buf.read_length(..=1024), buf.remaining())
    }
    for (bytes, wanted, len) in LENGTHS {
        let left = |is_hidden| bytes.len() - if wanted.is_ok() || is_hidden { len } else { 0 };
        assert_eq!([read(bytes), read(BytesMut::from(bytes)), read(IoBufMut::from(bytes))], [(wanted, left(false)); 3]);
        for n in [1, 2, 3, 9] {
            let bufs: IoBufs = bytes.chunks(n).map(IoBuf::from).collect();
            let (front, back) = bytes.split_at(n.min(bytes.len()));
            assert_eq!([read(bufs), read(front.chain(back))], [(wanted, left(false)); 2], "{bytes:?}, chunks of {n}");
            let shows_all = bytes.len() <= n;
            assert_eq!(read(Hidden(bytes.chunks(n).collect())), (wanted, left(!shows_all)), "{bytes:?}, hidden");
        }
    }
    for n in [0, 127, 128, usize::MAX] {
        let mut to = Vec::new();
        to.put_length(n);
        assert_eq!((to.len(), (&to[..]).read_length(..)), (length_size(n), Ok(n)));
    }
}

// The chunks of an `IoBufs`, each byte and its offset, and a slice of one chunk.
#[test]
fn bytes_and_chunks() {
    let (all, chunks): (&[u8], [&[u8]; 3]) = (b"abcdefghi", [b"abc", b"de", b"fghi"]);
    let t = text();
    assert!(t.chunks().eq(chunks) && (0..=all.len()).all(|at| t.byte_at(at) == all.get(at).copied()));
    let places = chunks.iter().enumerate().flat_map(|(index, it)| (0..it.len()).map(move |at| (index, at)));
    assert!(places.map(Some).chain([None]).eq((0..=9).map(|at| t.locate(at))));
    assert_eq!((t.slice(1..=3), t.slice(..)), (IoBufs::from(b"bcd"), t.clone()));
    assert_eq!((t.as_single(), t.slice(3..5).as_single()), (None, Some(&IoBuf::from("de"))));
    let mut long = t.clone();
    long.truncate(10);
    assert_eq!(long, *all);
}

#[test]
fn equality_is_that_of_the_bytes() {
    let lists: [&[&'static [u8]]; 5] = [&[], &[b"a", b"b"], &[b"ab"], &[b"a", b"bc"], &[b"b"]];
    for ours in lists {
        for theirs in lists {
            let (a, b) = (ours.concat(), theirs.concat());
            let [x, y] = [ours, theirs].map(|chunks| chunks.iter().map(|it| IoBuf::from(*it)).collect::<IoBufs>());
            assert_eq!([x == y, x == b[..], x.coalesce() == y.coalesce()], [a == b; 3], "{a:?} {b:?}");
        }
    }
    let long = |last| IoBufs::from([vec![7; 5000], vec![last]].map(IoBuf::from));
    assert_ne!(long(1), long(2));
}

// An allocation that fails ends the process, which says of how many bytes. The test runs itself again as that process.
#[test]
fn a_failed_allocation_tells_its_size() {
    if std::env::var_os("IOBUFS_ALLOCATES").is_some() {
        IoBufMut::with_capacity(1 << 62);
    }
    let mut again = Command::new(std::env::current_exe().unwrap());
    again.args(["--exact", "a_failed_allocation_tells_its_size", "--nocapture"]).env("IOBUFS_ALLOCATES", "1");
    let ended = again.output().unwrap();
    let said = String::from_utf8_lossy(&ended.stderr);
    assert!(!ended.status.success() && said.contains("4611686018427387904 bytes failed"), "{said}");
}

/// Bytes, and how `{:#?}` shows them.
const SHOWN: [(&[u8], &str); 5] = [
    (b"", r#"b"""#),
    (b"hello", r#"b"hello""#),
    (b"a\"\0\xff\n", r#"b"a\"\x00\xff\n""#),
    (&[b'a'; 64], r#"b"aaaaaaaaaaaaaaaaaaaaaaaaaaaaaaaaaaaaaaaaaaaaaaaaaaaaaaaaaaaaaaaa""#),
    (&[b'a'; 65], r#"b"aaaaaaaaaaaaaaaaaaaaaaaaaaaaaaaaaaaaaaaaaaaaaaaaaaaaaaaaaaaaaaaa".."#),
];

// The bytes are shown, at most 64 of them, by `{:#?}` alone.
#[test]
fn bytes_that_debug_shows() {
    for (bytes, wanted) in SHOWN {
        let (view, len) = (IoBuf::from(bytes), bytes.len());
        let bufs: IoBufs = bytes.chunks(7).map(IoBuf::from).collect();
        let parts: IoBufsMut = bytes.chunks(7).map(IoBufMut::from).collect();
        assert_eq!(format!("{view:?}"), format!("IoBuf {{ len: {len} }}"));
        assert_eq!(format!("{view:#?}"), format!("IoBuf {{\n    len: {len},\n    bytes: {wanted},\n}}"));
        let texts = [format!("{bufs:#?}"), format!("{parts:#?}"), format!("{:#?}", IoBufMut::from(bytes))];
        assert!(texts.iter().all(|text| text.ends_with(&format!("    bytes: {wanted},\n}}"))), "{texts:?}");
    }
}

/// Calls that panic, and the text, which is the original's.
const PANICS: [(fn(), &str); 10] = [
    (|| drop(text().split_to(10)), "split_to out of bounds: 10 <= 9"),
    (|| drop(text().take_view(10)), "split_to out of bounds: 10 <= 9"),
    (|| drop(text().take_owned::<Vec<u8>>(10)), "split_to out of bounds: 10 <= 9"),
    (|| drop(IoBuf::from(b"ab").take_view(3)), "split_to out of bounds: 3 <= 2"),
    (|| drop(text().copy_to_bytes(10)), "IoBufs::copy_to_bytes: not enough data"),
    (|| drop(IoBuf::from(b"ab").copy_to_bytes(3)), "copy_to_bytes out of bounds"),
    (|| drop(IoBufMut::zeroed(usize::MAX)), NO_LAYOUT),
    (|| drop(IoBufMut::zeroed_with_alignment(1, NonZeroUsize::new(6).unwrap())), NO_LAYOUT),
    (|| IoBufMut::with_capacity(2).put(&b"abc"[..]), "cannot advance past end of buffer"),
    (|| Builder::new(2).put(&b"abc"[..]), "advance out of bounds: the len is 2 but advancing by 3"),
];

const NO_LAYOUT: &str = "alignment must be a power of two and the size must fit a layout: LayoutError";

#[test]
fn texts_of_panics() {
    for (call, wanted) in PANICS {
        let why = catch_unwind(call).unwrap_err();
        let text = why.downcast_ref::<String>().map(String::as_str).or(why.downcast_ref::<&str>().copied());
        assert_eq!(text, Some(wanted));
    }
}

#[test]
#[should_panic(expected = "cannot advance past end of buffer")]
fn advance_past_the_end() {
    text().advance(10);
}

#[test]
fn parts() {
    let row = [IoBufMut::with_capacity(4), IoBufMut::default(), IoBufMut::with_capacity(2)];
    let mut parts = IoBufsMut::from(row);
    assert_eq!((parts.capacity(), parts.is_single(), parts.remaining_mut()), (6, false, 6));
    parts.put_slice(b"abc");
    parts.put_u16(0x7879);
    assert_eq!(parts.chunk(), b"abcx");
    let mut list = [IoSlice::new(b""); 4];
    assert_eq!(parts.chunks_vectored(&mut list), 2);
    assert_eq!(&list[1][..], b"y");
    parts.copy_from_slice(b"ABCDE");
    assert_eq!(parts.copy_to_bytes(5), b"ABCDE"[..]);
    assert_eq!((parts.len(), parts.capacity()), (0, 1));
    let mut parts = IoBufsMut::from([IoBufMut::from(b"ABCD"), IoBufMut::from(b"E")]);
    parts.advance(1);
    assert_eq!(bytes(&parts.freeze()), b"BCDE");
    let mut parts: IoBufsMut = (0..3).map(|_| IoBufMut::zeroed(2)).collect();
    parts.set_len(5);
    assert_eq!(parts.coalesce(), [0; 5]);
    assert_eq!(IoBufsMut::from(vec![1, 2]).try_into_single().unwrap(), [1, 2]);
}

// Each chunk that holds bytes is visited once, in order; lengths and capacities stay.
#[test]
fn chunks_are_changed_in_place() {
    for n in [0usize, 1, 2, 3, 4, 1000] {
        let mut parts: IoBufsMut = (0..n).map(|_| IoBufMut::with_capacity(2)).collect();
        let len = (2 * n).saturating_sub(1);
        parts.put_slice(&vec![1; len]);
        for drained in 0..len.min(4) {
            parts.advance(usize::from(drained > 0));
            let (before, mut chunks) = ((parts.len(), parts.capacity(), parts.remaining_mut()), 0);
            parts.for_each_chunk_mut(|chunk| {
                chunk.iter_mut().for_each(|byte| *byte = (*byte).max(chunks as u8));
                chunks += 1;
            });
            assert_eq!((parts.len(), parts.capacity(), parts.remaining_mut()), before);
            assert_eq!(chunks, n - drained / 2, "{n} {drained}");
        }
    }
    let mut parts: IoBufsMut = (0..5).map(|_| IoBufMut::with_capacity(1)).collect();
    parts.put_slice(b"abcde");
    parts.advance(1);
    parts.for_each_chunk_mut(|chunk| chunk.make_ascii_uppercase());
    assert_eq!(bytes(&parts.freeze()), b"BCDE");
}

#[test]
#[should_panic(expected = "advance out of bounds: the len is 0 but advancing by 1")]
fn one_byte_too_many() {
    IoBufsMut::from([1u8, 2]).put_u8(3);
}

#[test]
#[should_panic(expected = "source slice length must match buffer length")]
fn copy_of_another_length() {
    IoBufsMut::from([1u8, 2]).copy_from_slice(b"abc");
}

/// Eight threads share one view by reference, and clone, slice, read and drop; the last holder recovers it.
#[test]
fn threads() {
    let mut part = IoBufMut::with_capacity(100);
    part.put_bytes(2, 64);
    let view = part.freeze();
    let sum = |view: &IoBuf| {
        let mut sum = 0;
        for i in 0..500 {
            let mut other = view.clone();
            let front = other.split_to(i % 64);
            let part = view.slice(3..60);
            sum += [&front, &other].iter().flat_map(|view| view.as_ref()).map(|byte| usize::from(*byte)).sum::<usize>();
            drop(part);
        }
        sum
    };
    let all: usize = thread::scope(|scope| {
        let threads: Vec<_> = (0..8).map(|_| scope.spawn(|| sum(&view))).collect();
        threads.into_iter().map(|it| it.join().unwrap()).sum()
    });
    assert_eq!(all, 8 * 500 * 64 * 2);
    let moved = view.clone();
    assert_eq!(thread::spawn(move || moved.len()).join().unwrap(), 64);
    assert_eq!(view.try_into_mut().unwrap().capacity(), 100);
}

#[test]
fn lengths_of_each_prefix() {
    let cases: [(Prefix, usize, Option<&[u8]>); 10] = [
        (Prefix::Varint, usize::MAX, Some(b"\xff\xff\xff\xff\xff\xff\xff\xff\xff\x01")),
        (Prefix::Varint, 16384, Some(b"\x80\x80\x01")),
        (Prefix::Varint, 65536, Some(b"\x80\x80\x04")),
        (Prefix::U16Be, 65535, Some(b"\xff\xff")),
        (Prefix::U16Be, 65536, None),
        (Prefix::U16Le, 258, Some(b"\x02\x01")),
        (Prefix::U32Be, 4294967295, Some(b"\xff\xff\xff\xff")),
        (Prefix::U32Le, 16909060, Some(b"\x04\x03\x02\x01")),
        (Prefix::U64Be, usize::MAX, Some(b"\xff\xff\xff\xff\xff\xff\xff\xff")),
        (Prefix::U64Le, 1099511627777, Some(b"\x01\0\0\0\0\x01\0\0")),
    ];
    for (prefix, n, wanted) in cases {
        assert_eq!(prefix.written(n).as_ref().map(|it| it.as_ref()), wanted, "{n} as {prefix:?}");
    }
}

/// The capacity of the first of two buffers, how many bytes both have, and whether they are put together in the first.
const COALESCED: [(usize, [usize; 2], bool); 5] = [
    (4096, [3, 4], true),
    (5000, [3, 4], false),
    (5000, [2000, 500], true),
    (5000, [2000, 400], false),
    (6, [3, 4], false),
];

#[test]
fn a_large_first_buffer_is_left() {
    for (capacity, [n, more], is_kept) in COALESCED {
        let mut first = IoBufMut::with_capacity(capacity);
        first.put_bytes(1, n);
        let at = first.as_ptr();
        let parts = IoBufsMut::from([first, IoBufMut::from(vec![2; more])]);
        let whole = parts.coalesce();
        assert_eq!((whole.as_ptr() == at, whole.len(), whole.capacity()), (is_kept, n + more, n + more), "{capacity}");
    }
}
