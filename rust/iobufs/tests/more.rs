//! Conversions, iterators, writers and formats beyond the original's.
use bytes::{BufMut, Bytes, BytesMut};
use iobufs::{Builder, Error, IoBuf, IoBufMut, IoBufs, IoBufsMut};
use std::fmt::Write as _;
use std::io::{self, BufRead, ErrorKind, IoSlice, Read, Write};
use std::panic::{AssertUnwindSafe, catch_unwind};
use std::vec::IntoIter;

/// Nine bytes in three chunks.
fn text() -> IoBufs {
    ["abc", "de", "fghi"].into_iter().map(IoBuf::from).collect()
}

#[test]
fn chunks_of_an_iobufs() {
    let text = text();
    let mut seen = Vec::new();
    for chunk in &text {
        seen.push(chunk);
    }
    assert_eq!(seen, [&b"abc"[..], b"de", b"fghi"]);
    let slices = text.io_slices();
    assert!(slices.iter().map(|slice| &**slice).eq(seen.iter().copied()) && slices[2].as_ptr() == seen[2].as_ptr());
    assert!(IoBufs::new().io_slices().is_empty());

    let mut chunks = text.chunks();
    assert_eq!((chunks.len(), chunks.next_back(), chunks.len()), (3, Some(&b"fghi"[..]), 2));
    let mut others = chunks.clone();
    assert_eq!((others.nth(1), others.len(), others.next()), (Some(&b"de"[..]), 0, None));
    assert_eq!((chunks.next(), chunks.len()), (Some(&b"abc"[..]), 1));
    assert_eq!(format!("{chunks:?}"), "Chunks { left: 1, .. }");
    assert_eq!((chunks.next_back(), chunks.next(), chunks.next_back()), (Some(&b"de"[..]), None, None));
    let mut views = text.into_iter();
    assert_eq!((views.len(), views.next(), views.len()), (3, Some("abc".into()), 2));
    assert_eq!(format!("{views:?}"), "IntoIter(IoBufs { len: 6, chunks: 2 })");
}

// Chunks that came at both ends, so that the deque begins in the middle of its space; empty ones are left out.
#[test]
fn clones_of_chunks_in_any_order() {
    for n in 0..9u8 {
        let mut text: IoBufs = [IoBuf::new(), IoBuf::from(vec![n])].into();
        (0..n).for_each(|i| text.append(vec![i].into()));
        (0..n).for_each(|i| text.prepend(vec![i].into()));
        let bytes: Vec<u8> = (0..n).rev().chain([n]).chain(0..n).collect();
        assert_eq!((text.clone(), text.chunk_count()), (bytes.into(), text.clone().chunks().len()));
        for m in 0..=text.chunk_count() {
            let mut slices = vec![IoSlice::new(&[]); m];
            assert_eq!(text.chunks_vectored(&mut slices), m);
            assert!(slices.iter().map(|slice| &**slice).eq(text.chunks().take(m)), "{m} of {n}");
        }
    }
    assert!(IoBufs::from([IoBuf::new(), IoBuf::new()]).is_empty());
}

/// An iterator that hints at more items than it has.
struct Boasts(IntoIter<IoBuf>);

impl Iterator for Boasts {
    type Item = IoBuf;

    fn next(&mut self) -> Option<IoBuf> {
        self.0.next()
    }

    fn size_hint(&self) -> (usize, Option<usize>) {
        (usize::MAX, None)
    }
}

#[test]
fn hints_of_iterators() {
    for n in 0..6 {
        let views = || vec![IoBuf::from("ab"); n];
        let boasted: IoBufs = Boasts(views().into_iter()).collect();
        let hidden: IoBufs = views().into_iter().filter(|_| true).collect();
        assert_eq!((&boasted, boasted.chunk_count()), (&IoBufs::from(views()), n));
        assert_eq!((&hidden, hidden.chunk_count()), (&boasted, n));
    }
}

// Each call works within the fixed capacity.
#[test]
fn a_writable_buffer_as_a_vec() {
    let mut part = IoBufMut::with_capacity(6);
    part.extend_from_slice(b"ab");
    part.extend([b'c']);
    part.extend(b"d");
    part.resize(6, b'-');
    part.resize(5, b'x');
    let copy = part.clone();
    assert_eq!((&part, &copy, copy.capacity()), (&IoBufMut::from(b"abcd-"), &part, 6));
    let calls: [fn(&mut IoBufMut); 4] =
        [|it| it.extend_from_slice(b"yz"), |it| it.resize(7, 0), |it| it.extend(b"yz"), |it| it.extend(*b"yz")];
    for (call, left) in calls.iter().zip([5, 5, 6, 6]) {
        let mut part = copy.clone();
        assert!(catch_unwind(AssertUnwindSafe(|| call(&mut part))).is_err());
        assert_eq!((part.len(), part.capacity()), (left, 6));
    }
}

#[test]
fn bytes_of_a_builder() {
    let mut builder = Builder::new(4);
    assert!(builder.is_empty());
    builder.put_u16(1);
    builder.push(vec![1, 2, 3]);
    builder.put_u8(1);
    builder.push(IoBuf::new());
    assert_eq!((builder.len(), format!("{builder:?}")), (6, "Builder { len: 6, .. }".into()));
    assert_eq!(builder.finish().len(), 6);
}

// A view that is pushed keeps its storage, as does what becomes a `Bytes`.
#[test]
fn pushes_share() {
    let (view, bytes, vec) = (IoBuf::copy_from_slice(b"ab"), Bytes::copy_from_slice(b"cd"), vec![b'e', b'f']);
    let places = [view.as_ptr(), bytes.as_ptr(), vec.as_ptr()];
    let mut builder = Builder::new(0);
    builder.push(view.clone());
    builder.push(bytes);
    builder.push(vec);
    builder.push("gh");
    let bufs = builder.finish();
    assert_eq!(bufs.chunks().map(<[u8]>::as_ptr).take(3).collect::<Vec<_>>(), places);
    assert_eq!((&bufs, bufs.owners()), (&IoBufs::from("abcdefgh"), 3));
    drop(bufs);
    assert!(view.try_into_mut().is_ok());
}

#[test]
fn views_are_taken_as_any_type() {
    let mut bufs = text();
    let bytes: Bytes = bufs.take_owned(2);
    assert_eq!(
        (&bytes[..], bufs.take_owned::<Vec<u8>>(2), bufs.take_owned::<IoBuf>(1)),
        (&b"ab"[..], vec![b'c', b'd'], "e".into())
    );
    assert_eq!((bufs.take_view(4), bufs.len()), ("fghi".into(), 0));
}

// The readable bytes of each buffer are written over: of one, of up to three, and of more, of which one was drained.
#[test]
fn filled_bytes_of_several_buffers() {
    for (count, dropped, wanted) in
        [(1, 1, "0"), (2, 1, "0011"), (3, 4, "0011"), (4, 4, "0011122"), (6, 8, "011122233")]
    {
        let mut parts: IoBufsMut = (0..count).map(|_| IoBufMut::with_capacity(3)).collect();
        assert!(parts.io_slices_mut().is_empty(), "{count}");
        parts.put_bytes(b'.', 3 * count - 1);
        parts.advance(dropped);
        parts.io_slices_mut().iter_mut().zip(b'0'..).for_each(|(slice, digit)| slice.fill(digit));
        assert_eq!(parts.freeze(), *wanted, "{count}");
    }
}

#[test]
fn one_value_of_an_iobufs() {
    let single = IoBufs::from(Bytes::from(b"one".to_vec()));
    let at = single.chunk().as_ptr();
    assert_eq!((Bytes::from(single.clone()).as_ptr(), Bytes::from(single)), (at, "one".into()));
    let vec = b"one".to_vec();
    let at = vec.as_ptr();
    let back = Vec::from(IoBufs::from(vec));
    assert_eq!((back.as_ptr(), &back[..]), (at, &b"one"[..]));
    assert_eq!(
        (Vec::from(text()), Bytes::from(text()), Vec::from(IoBufs::new())),
        (b"abcdefghi".to_vec(), "abcdefghi".into(), vec![])
    );
    let mut part = IoBufMut::from(vec![1, 2, 3]);
    let at = part.as_mut_ptr().cast_const();
    part.advance(1);
    let back = Vec::from(part);
    assert_eq!((back.as_ptr(), back), (at, vec![2, 3]));
}

#[test]
fn parts_of_a_view() {
    let view = IoBuf::from(b"abcdef".to_vec());
    let inner = view.slice(1..5);
    for (from, to) in (0..=4).flat_map(|to| (0..=to).map(move |from| (from, to))) {
        let part = inner.slice_ref(&inner[from..to]);
        assert_eq!(part, inner[from..to]);
        assert!(from == to || part.as_ptr() == inner[from..].as_ptr());
    }
    assert!(inner.slice_ref(b"").is_empty());
    for other in [&view[..2], &view[4..], b"bc"] {
        assert!(catch_unwind(|| inner.slice_ref(other)).is_err());
    }
}

#[test]
fn writers() {
    fn write<W: Write + std::fmt::Write + BufMut>(mut to: W) -> W {
        write!(&mut to as &mut dyn std::fmt::Write, "{}-{:?}", 1, 'x').unwrap();
        assert_eq!(Write::write(&mut to, b"abcdef").unwrap(), 3);
        assert!(to.write_str("y").is_err() && to.write_str("").is_ok() && to.remaining_mut() == 0);
        to.flush().unwrap();
        to
    }
    assert_eq!(write(IoBufMut::with_capacity(8)), "1-'x'abc");
    assert_eq!(write(IoBufsMut::from([3, 1, 4].map(IoBufMut::with_capacity))).freeze(), "1-'x'abc");
    let mut builder = Builder::new(8);
    builder.push("pushed ");
    assert_eq!(write(builder).finish(), "pushed 1-'x'abc");
    let mut part = IoBufMut::with_capacity(3);
    assert!(part.write_str("abcd").is_err());
    assert_eq!(part, "");
}

#[test]
fn readers() {
    let mut parts = IoBufsMut::from([IoBufMut::from(b"one\ntw"), IoBufMut::from(b"o\n")]);
    let (mut line, mut rest) = (String::new(), Vec::new());
    assert_eq!((parts.read_line(&mut line).unwrap(), &line[..]), (4, "one\n"));
    parts.read_to_end(&mut rest).unwrap();
    assert_eq!((rest, IoBufMut::from(b"ab").lines().next().unwrap().unwrap()), (b"two\n".to_vec(), "ab".into()));
}

#[test]
fn bytes_in_place() {
    let mut part = IoBufMut::from(b"cab");
    part[0] = b'z';
    part.sort();
    part[1..].reverse();
    assert_eq!(part, b"azb");
    fn equal<T: Eq>(_: T) {}
    equal(part);
}

// Small packets are read into the spare capacity where it is, as into a `BytesMut`: no block is moved.
#[test]
fn spare_capacity_stays_where_it_is() {
    fn read<B: BufMut>(mut to: B) -> B {
        let at = to.chunk_mut().as_mut_ptr();
        for i in 0..10_000 {
            let spare = to.chunk_mut();
            assert_eq!((spare.as_mut_ptr(), spare.len()), (at.wrapping_add(100 * i), (1 << 20) - 100 * i));
            spare[..100].copy_from_slice(&[i as u8; 100]);
            // SAFETY: these bytes were written.
            unsafe { to.advance_mut(100) };
        }
        to
    }
    let wanted = read(BytesMut::with_capacity(1 << 20));
    assert!(read(IoBufMut::with_capacity(1 << 20)) == wanted);
    assert!(read(IoBufsMut::from(IoBufMut::with_capacity(1 << 20))).freeze() == wanted);
    assert!(read(Builder::new(1 << 20)).finish() == wanted);
}

// An error is that of `bytes`, where it has one: then this compiles with either, and both have the lengths.
#[test]
fn errors_as_those_of_std() {
    for (error, kind) in [
        (Error::EndOfBuffer, ErrorKind::UnexpectedEof),
        (Error::InvalidLength(7), ErrorKind::InvalidData),
        (Error::ExtraData(1), ErrorKind::InvalidData),
    ] {
        let told = io::Error::from(error);
        assert_eq!((told.kind(), told.downcast::<Error>().unwrap()), (kind, error));
    }
}

#[test]
fn errors_of_short_reads() {
    let mut view = IoBuf::from(b"abc");
    let errors = [
        view.try_get_u32().unwrap_err(),
        view.try_copy_to_slice(&mut [0; 9]).unwrap_err(),
        text().try_copy_to_slice(&mut [0; 10]).unwrap_err(),
    ];
    assert_eq!(errors.map(|error| (error.requested, error.available)), [(4, 3), (9, 3), (10, 9)]);
    assert_eq!((view.try_get_u16(), view.try_get_u8(), view.len()), (Ok(0x6162), Ok(b'c'), 0));
    assert!(catch_unwind(AssertUnwindSafe(|| view.get_u8())).is_err());
}
