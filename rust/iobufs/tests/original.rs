//! What the original's tests of `IoBuf`, `IoBufMut` and their owners say (commonware-runtime 2026.10.0,
//! `src/iobuf/buf.rs`, `owner.rs`), as far as a caller sees it: the bytes, the addresses, and who recovers which
//! capacity. A test of an owner's word is one here of who shares its storage.
use bytes::{Buf, BufMut, Bytes, BytesMut};
use iobufs::{Builder, IoBuf, IoBufMut, IoBufs, IoBufsMut};
use std::num::NonZeroUsize;
use std::ops::Bound::{self, Excluded, Included, Unbounded};
use std::panic::{AssertUnwindSafe, RefUnwindSafe, UnwindSafe, catch_unwind};
use std::sync::Arc;
use std::sync::atomic::{AtomicUsize, Ordering};
use std::{mem, thread};

const MAX: usize = isize::MAX as usize;

fn align(n: usize) -> NonZeroUsize {
    NonZeroUsize::new(n).unwrap()
}

/// A `Vec` of these bytes with a capacity.
fn vec(bytes: &[u8], capacity: usize) -> Vec<u8> {
    let mut vec = Vec::with_capacity(capacity);
    vec.extend_from_slice(bytes);
    vec
}

fn writable(bytes: &[u8], capacity: usize) -> IoBufMut {
    let mut part = IoBufMut::with_capacity(capacity);
    part.put_slice(bytes);
    part
}

/// A view of its own storage, with the bytes 0, 1, ..
fn counted(len: u8, capacity: usize) -> IoBuf {
    writable(&(0..len).collect::<Vec<u8>>(), capacity).freeze()
}

/// The message of a call that panics.
fn message<R>(call: impl FnOnce() -> R) -> String {
    let panic = catch_unwind(AssertUnwindSafe(|| drop(call()))).expect_err("it panics");
    let text = panic.downcast_ref::<String>().cloned();
    text.or(panic.downcast_ref::<&str>().map(|it| it.to_string())).unwrap_or_default()
}

#[test]
fn views_share_and_compare() {
    let long = IoBuf::from(vec![1; 1000]);
    assert_eq!(long.clone().as_ptr(), long.as_ptr());
    let (a, b) = (IoBuf::from(b"first"), IoBuf::from(b"other"));
    assert!(
        a == *b"first"
            && a == b"first"
            && a == b"first"[..]
            && PartialEq::<&[u8]>::eq(&a, &&b"first"[..])
            && a == IoBuf::copy_from_slice(b"first")
    );
    assert!(a != *b"other" && a != b"other" && a != b"other"[..] && a != b);
    let copy = IoBuf::copy_from_slice(&[5, 4, 3]);
    assert_eq!((copy.len(), copy.remaining(), copy.chunk(), copy.as_ref()), (3, 3, &[5, 4, 3][..], &[5, 4, 3][..]));
    assert!(IoBuf::copy_from_slice(b"").is_empty() && Bytes::from(IoBuf::default()).is_empty());
    assert_eq!(Bytes::from(a), "first");
}

/// Readers of the same bytes give the same, and have the same left.
#[test]
fn reading() {
    fn read<B: Buf>(mut buf: B, room: fn(&B) -> usize) {
        let all = room(&buf);
        buf.advance(2);
        let mut three = [0; 3];
        buf.copy_to_slice(&mut three);
        assert_eq!((&three, buf.chunk(), buf.remaining(), room(&buf)), (b"cde", &b"fghij"[..], 5, all - 5));
        assert!(buf.copy_to_bytes(0).is_empty());
        assert_eq!((buf.copy_to_bytes(2), buf.copy_to_bytes(3)), ("fg".into(), "hij".into()));
        assert!(!buf.has_remaining() && buf.chunk().is_empty());
    }
    read(IoBuf::from(b"abcdefghij"), IoBuf::len);
    read(IoBuf::copy_from_slice(b"abcdefghij"), IoBuf::len);
    read(writable(b"abcdefghij", 12), IoBufMut::capacity);
    let mut tests = (IoBuf::from(b"abc"), writable(b"abc", 9));
    let mut four = [7; 4];
    for error in [tests.0.try_copy_to_slice(&mut four), tests.1.try_copy_to_slice(&mut four)].map(Result::unwrap_err) {
        assert_eq!((error.requested, error.available), (4, 3));
    }
    assert_eq!((&tests.0[..], &tests.1[..], tests.1.capacity(), four), (&b"abc"[..], &b"abc"[..], 9, [7; 4]));
    assert!(tests.0.try_copy_to_slice(&mut four[..2]).is_ok() && tests.1.try_copy_to_slice(&mut four[2..]).is_ok());
    assert_eq!((&tests.0[..], &tests.1[..], tests.1.capacity(), &four), (&b"c"[..], &b"c"[..], 7, b"abab"));
}

#[test]
fn slices() {
    type Case = ((Bound<usize>, Bound<usize>), Result<&'static [u8], &'static str>);
    let cases: [Case; 11] = [
        ((Unbounded, Excluded(2)), Ok(b"ab")),
        ((Included(2), Unbounded), Ok(b"cde")),
        ((Included(1), Included(2)), Ok(b"bc")),
        ((Excluded(0), Unbounded), Ok(b"bcde")),
        ((Included(5), Excluded(5)), Ok(b"")),
        ((Unbounded, Excluded(6)), Err("slice out of bounds")),
        ((Included(6), Unbounded), Err("slice start must be <= end")),
        ((Included(3), Excluded(1)), Err("slice start must be <= end")),
        ((Unbounded, Included(usize::MAX)), Err("range end overflow")),
        ((Excluded(usize::MAX), Unbounded), Err("range start overflow")),
        ((Included(9), Excluded(9)), Err("slice out of bounds")),
    ];
    for view in [IoBuf::from(b"abcde"), IoBuf::copy_from_slice(b"abcde"), IoBuf::from(Bytes::from(b"abcde".to_vec()))] {
        for (range, wanted) in cases {
            match wanted {
                Ok(bytes) => assert_eq!(view.slice(range), bytes),
                Err(text) => assert_eq!(message(|| view.slice(range)), text, "{range:?}"),
            }
        }
    }
}

/// A source that says that it has one byte, and has many.
struct Liar;

impl Buf for Liar {
    fn remaining(&self) -> usize {
        1
    }

    fn chunk(&self) -> &[u8] {
        &[3; 50]
    }

    fn advance(&mut self, _: usize) {}
}

#[test]
fn calls_that_panic() {
    type Call = fn(&mut IoBuf, &mut IoBufMut);
    let cases: [(Call, &str); 16] = [
        (|view, _| view.advance(4), "cannot advance"),
        (|_, part| part.advance(4), "cannot advance"),
        (|view, _| view.copy_to_slice(&mut [0; 4]), "Not enough bytes remaining in buffer"),
        (|_, part| part.copy_to_slice(&mut [0; 4]), "Not enough bytes remaining in buffer"),
        (|view, _| drop(view.copy_to_bytes(4)), "copy_to_bytes out of bounds"),
        (|_, part| drop(part.copy_to_bytes(4)), "copy_to_bytes out of bounds"),
        (|view, _| drop(view.split_to(4)), "split_to out of bounds"),
        (|_, part| part.put_slice(b"xyz"), "cannot advance past end of buffer"),
        (|_, part| part.put_bytes(0, 3), "cannot advance past end of buffer"),
        (|_, part| part.put(&b"xyz"[..]), "cannot advance past end of buffer"),
        (|_, part| part.put(Liar), "cannot advance"),
        // SAFETY: it panics.
        (|_, part| unsafe { part.advance_mut(3) }, "cannot advance past end of buffer"),
        (|_, _| drop(IoBufMut::with_capacity(MAX + 1)), "size must fit a layout"),
        (|_, _| drop(IoBufMut::with_alignment(MAX - 4094, align(4096))), "size must fit a layout"),
        (|_, _| drop(IoBufMut::with_alignment(64, align(3))), "alignment must be a power of two"),
        (|_, _| drop(IoBufMut::zeroed_with_alignment(MAX, align(64))), "size must fit a layout"),
    ];
    for (i, (call, text)) in cases.into_iter().enumerate() {
        let (mut view, mut part) = (IoBuf::from(b"abc"), writable(b"abc", 5));
        let said = message(|| call(&mut view, &mut part));
        assert!(said.contains(text), "{i}: {said}");
        assert_eq!((&view[..], &part[..], part.capacity()), (&b"abc"[..], &b"abc"[..], 5), "{i}");
    }
}

#[test]
fn writing() {
    type Step = fn(&mut IoBufMut);
    let steps: [(Step, &[u8], usize); 10] = [
        (|part| part.put_slice(b"hello"), b"hello", 16),
        (|part| part.advance(2), b"llo", 14),
        (|part| part.put_slice(b" world"), b"llo world", 14),
        (|part| part.truncate(3), b"llo", 14),
        (|part| part.put_bytes(b'-', 2), b"llo--", 14),
        (|part| part.put((&b"a"[..]).chain(&b"bc"[..])), b"llo--abc", 14),
        (|part| part.as_mut()[..3].copy_from_slice(b"LLO"), b"LLO--abc", 14),
        // SAFETY: there are so many bytes.
        (|part| unsafe { part.set_len(4) }, b"LLO-", 14),
        (|part| part.clear(), b"", 14),
        (|part| part.put_u8(9), &[9], 14),
    ];
    let mut part = IoBufMut::with_capacity(16);
    for (step, bytes, capacity) in steps {
        step(&mut part);
        assert_eq!((part.chunk(), part.len(), part.capacity()), (bytes, bytes.len(), capacity));
        assert_eq!((part.remaining_mut(), part.is_empty()), (capacity - bytes.len(), bytes.is_empty()));
        assert!(part == *bytes && part == bytes);
    }
    let zeros = IoBufMut::zeroed(10);
    assert_eq!((zeros.as_ref(), zeros.capacity()), (&[0; 10][..], 10));
    assert_eq!((Vec::from(zeros.freeze()), IoBufMut::from([1, 2]).as_ref()), (vec![0; 10], &[1, 2][..]));
}

// Split at each offset, a view is the same whatever it is made of.
#[test]
fn splits() {
    let all = b"hello world";
    let makes: [fn(&'static [u8; 11]) -> IoBuf; 4] = [
        |bytes| IoBuf::from(bytes),
        |bytes| writable(bytes, 256).freeze(),
        |bytes| IoBuf::from(bytes.to_vec()),
        |bytes| IoBuf::from(Bytes::from(bytes.to_vec())),
    ];
    for (make, at) in makes.into_iter().flat_map(|make| (0..=all.len()).map(move |at| (make, at))) {
        let mut view = make(all);
        let from = view.as_ptr();
        let front = view.split_to(at);
        assert_eq!((&front[..], &view[..]), all.split_at(at));
        assert!(at == 0 || front.as_ptr() == from);
        assert!(at == all.len() || view.as_ptr() == from.wrapping_add(at));
        let rest = view.split_to(all.len() - at);
        assert!(view.is_empty() && rest == all[at..]);
    }
}

// Views without bytes become writable, static bytes and those of a `Bytes` don't.
#[test]
fn views_that_are_not_recovered() {
    for empty in [IoBuf::default(), IoBuf::from(b""), IoBuf::from(&b""[..])] {
        let part = empty.try_into_mut().unwrap();
        assert_eq!((part.len(), part.capacity()), (0, 0));
    }
    assert_eq!(IoBuf::from(b"static").try_into_mut().unwrap_err(), "static");
    assert_eq!(IoBuf::from(Bytes::from(vec![7, 8])).try_into_mut().unwrap_err(), [7, 8]);
    let shared = IoBuf::from(vec![4, 5]);
    let other = shared.clone();
    let shared = shared.try_into_mut().unwrap_err();
    drop(other);
    assert_eq!(shared.try_into_mut().unwrap(), [4, 5]);
}

// The bytes and the capacity that a view of 10 bytes in a block of 16 is recovered with, after others of its views are
// gone.
#[test]
fn recovery() {
    type Change = fn(IoBuf) -> IoBuf;
    let cases: [(Change, &[u8], usize); 12] = [
        (|view| view, &[0, 1, 2, 3, 4, 5, 6, 7, 8, 9], 16),
        (|mut view| (view.advance(3), view).1, &[3, 4, 5, 6, 7, 8, 9], 13),
        (|mut view| (view.advance(10), view).1, &[], 6),
        (|mut view| (view.advance(10), view).1.clone(), &[], 6),
        (|mut view| (view.advance(5), view).1.slice(1..4), &[6, 7, 8], 10),
        (|view| view.slice(2..5).slice(1..).clone(), &[3, 4], 13),
        (|mut view| (view.split_to(4), view).1, &[4, 5, 6, 7, 8, 9], 12),
        (|mut view| (view.split_to(4), view.split_to(2), view.take_view(1), view).3, &[7, 8, 9], 9),
        (|mut view| view.split_to(4), &[0, 1, 2, 3], 16),
        (|mut view| mem::take(&mut view), &[0, 1, 2, 3, 4, 5, 6, 7, 8, 9], 16),
        (|mut view| (view.split_to(0), view.slice(3..3), view.split_to(10)).2, &[0, 1, 2, 3, 4, 5, 6, 7, 8, 9], 16),
        (|mut view| (view.copy_to_bytes(4), view).1, &[4, 5, 6, 7, 8, 9], 12),
    ];
    for (i, (change, bytes, capacity)) in cases.into_iter().enumerate() {
        let whole = counted(10, 16);
        let from = whole.as_ptr().wrapping_add(16 - capacity);
        let view = change(whole);
        let (again, slice) = (view.clone(), view.slice(..bytes.len() / 2));
        let view = if bytes.len() > 1 { view.try_into_mut().unwrap_err() } else { view };
        drop((again, slice));
        let mut part = view.try_into_mut().unwrap();
        assert_eq!((part.as_mut_ptr().cast_const(), &part[..], part.capacity()), (from, bytes, capacity), "{i}");
        part.put_bytes(1, capacity - bytes.len());
        let part = part.freeze().try_into_mut().unwrap();
        assert_eq!((&part[..bytes.len()], part.len(), part.capacity()), (bytes, capacity, capacity), "{i}");
    }
    let mut large = IoBufMut::with_capacity((1 << 17) + 1);
    let at = large.as_mut_ptr();
    large.put_u8(1);
    let mut large = large.freeze().try_into_mut().unwrap();
    assert_eq!((large.as_mut_ptr(), large.capacity()), (at, (1 << 17) + 1));
}

// Writable buffers of views: the storage of the only one, and otherwise a copy without spare capacity.
#[test]
fn writable_of_views() {
    let mut part = writable(b"data", 9);
    let at = part.as_mut_ptr();
    let mut same = IoBufMut::from(part.freeze());
    assert_eq!((same.as_mut_ptr(), &same[..], same.capacity()), (at, &b"data"[..], 9));
    let view = same.freeze();
    let copies = [
        IoBufMut::from(view.clone()),
        IoBufMut::from(IoBuf::from(b"data")),
        IoBufMut::from(IoBuf::from(Bytes::from_static(b"data"))),
    ];
    for mut copy in copies {
        assert_eq!((&copy[..], copy.capacity()), (&b"data"[..], 4));
        assert_ne!(copy.as_mut_ptr(), at);
        copy.as_mut()[0] = b'D';
    }
    drop((view.slice(..2), view.slice(2..)));
    let mut same = IoBufMut::from(view);
    assert_eq!((same.as_mut_ptr(), &same[..], same.capacity()), (at, &b"data"[..], 9));
}

// Each conversion to a view, and from one, leaves the bytes where they are.
#[test]
fn conversions_to_views() {
    static DATA: [u8; 4] = *b"data";
    type Make = fn() -> (IoBuf, *const u8);
    let makes: [Make; 8] = [
        || (IoBuf::from(&DATA), DATA.as_ptr()),
        || (IoBuf::from(&DATA[..]), DATA.as_ptr()),
        || {
            let vec = vec(b"data", 128);
            let at = vec.as_ptr();
            (IoBuf::from(vec), at)
        },
        || {
            let vec = b"data".to_vec();
            let at = vec.as_ptr();
            (IoBuf::from(vec), at)
        },
        || {
            let bytes = Bytes::from(b"data".to_vec());
            let at = bytes.as_ptr();
            (IoBuf::from(bytes), at)
        },
        || {
            let mut bytes = BytesMut::with_capacity(32);
            bytes.extend_from_slice(b"data");
            let at = bytes.as_ptr();
            (IoBuf::from(bytes), at)
        },
        || {
            let mut part = writable(b"data", 30);
            let at = part.as_mut_ptr();
            (part.freeze(), at)
        },
        || {
            let owner = b"data".to_vec();
            let at = owner.as_ptr();
            (IoBuf::from(Bytes::from_owner(owner)), at)
        },
    ];
    for make in makes {
        let (view, at) = make();
        assert_eq!((view.as_ptr(), &view[..]), (at, &b"data"[..]));
        assert_eq!((Vec::from(view.clone()), IoBufs::from(view.clone()).chunk()), (b"data".to_vec(), &b"data"[..]));
        let inner = Bytes::from(view.slice(1..3));
        assert_eq!((inner.as_ptr(), &inner[..]), (at.wrapping_add(1), &b"at"[..]));
        let bytes = Bytes::from(view);
        assert_eq!((bytes.as_ptr(), &bytes[..], IoBuf::from(bytes.clone()).as_ptr()), (at, &b"data"[..], at));
    }
}

// A writable buffer takes the storage of its source over, if that is the source's alone: the bytes, the capacity, and
// whether it did.
#[test]
fn conversions_to_writable() {
    /// The source, and the address of its storage; the other values are kept until the end.
    type Make = fn() -> (IoBufMut, *const u8, Option<Bytes>);
    fn of_bytes(vec: Vec<u8>, change: fn(Bytes) -> (Bytes, Option<Bytes>)) -> (IoBufMut, *const u8, Option<Bytes>) {
        let at = vec.as_ptr();
        let (bytes, kept) = change(Bytes::from(vec));
        (IoBufMut::from(bytes), at, kept)
    }
    fn of_bytes_mut(bytes: &[u8], change: fn(&mut BytesMut) -> Option<Bytes>) -> (IoBufMut, *const u8, Option<Bytes>) {
        let mut made = BytesMut::with_capacity(100);
        made.extend_from_slice(bytes);
        let at = made.as_ptr();
        let kept = change(&mut made);
        let wanted = made.capacity();
        let part = IoBufMut::from(made);
        assert!(part.capacity() >= wanted);
        (part, at, kept)
    }
    let cases: [(Make, &[u8], usize, bool); 13] = [
        (|| of_bytes(vec(b"abc", 100), |bytes| (bytes, None)), b"abc", 100, true),
        (|| of_bytes(b"exact".to_vec(), |bytes| (bytes, None)), b"exact", 5, true),
        (|| of_bytes(b"before-rest".to_vec(), |mut bytes| (bytes.split_off(7), None)), b"rest", 11, true),
        (|| of_bytes(b"head-tail".to_vec(), |bytes| (bytes.slice(5..), None)), b"tail", 9, true),
        (|| of_bytes(vec(b"", 64), |bytes| (bytes, None)), b"", 64, true),
        (|| of_bytes(b"shared".to_vec(), |bytes| (bytes.clone(), Some(bytes))), b"shared", 6, false),
        (|| of_bytes(b"owned".to_vec(), |bytes| (Bytes::from_owner(bytes), None)), b"owned", 5, false),
        (|| (IoBufMut::from(Bytes::from_static(b"static")), b"static".as_ptr(), None), b"static", 6, false),
        (|| of_bytes_mut(b"abc", |_| None), b"abc", 100, true),
        (|| of_bytes_mut(b"before-rest", |bytes| (bytes.advance(7), None).1), b"rest", 100, true),
        (|| of_bytes_mut(b"", |_| None), b"", 100, true),
        (|| of_bytes_mut(b"shared", |bytes| Some(bytes.split_to(3).freeze())), b"red", 97, false),
        (
            || {
                let vec = vec(b"abc", 77);
                let at = vec.as_ptr();
                (IoBufMut::from(vec), at, None)
            },
            b"abc",
            77,
            true,
        ),
    ];
    for (i, (make, bytes, capacity, is_same)) in cases.into_iter().enumerate() {
        let (mut part, at, kept) = make();
        assert_eq!(
            (part.as_mut_ptr().cast_const() == at, &part[..], part.capacity()),
            (is_same, bytes, capacity),
            "{i}"
        );
        let before = kept.clone();
        part.put_bytes(7, capacity - bytes.len());
        part.as_mut().fill(8);
        assert_eq!((part.len(), kept), (capacity, before), "{i}");
    }
    assert_eq!((IoBufMut::from(Vec::new()).capacity(), IoBufMut::from(Bytes::new()).capacity()), (0, 0));
    assert_eq!(IoBufMut::from(BytesMut::from(&b"hi"[..])), "hi");
}

// The first byte has the alignment, the capacity is what was asked for, and a frozen buffer is recovered with both.
#[test]
fn alignment() {
    for (capacity, n) in [(1, 1), (10, 1), (8, 64), (100, 64), (64, 4096), (4096, 4096), (1, 1 << 16)] {
        let mut part = IoBufMut::with_alignment(capacity, align(n));
        let at = part.as_mut_ptr();
        assert_eq!((at.addr() % n, part.len(), part.capacity()), (0, 0, capacity));
        part.put_bytes(9, capacity);
        assert!(message(|| part.put_u8(1)).contains("past end"));
        let mut view = part.freeze();
        view.advance(1);
        assert_eq!((view.as_ptr(), view.len()), (at.cast_const().wrapping_add(1), capacity - 1));
        let other = view.clone();
        drop(view);
        let part = other.try_into_mut().unwrap();
        assert_eq!((part.capacity(), part.iter().all(|byte| *byte == 9)), (capacity - 1, true));
        let mut zeros = IoBufMut::zeroed_with_alignment(capacity, align(n));
        assert_eq!(
            (zeros.as_mut_ptr().addr() % n, &zeros[..], zeros.capacity()),
            (0, &vec![0; capacity][..], capacity)
        );
    }
    // Without a byte nothing is allocated, so the alignment isn't looked at.
    for empty in [
        IoBufMut::with_alignment(0, align(64)),
        IoBufMut::zeroed_with_alignment(0, align(64)),
        IoBufMut::with_alignment(0, align(3)),
    ] {
        assert_eq!((empty.len(), empty.capacity()), (0, 0));
    }
}

/// Counts its drops.
struct Owner(Arc<AtomicUsize>);

impl AsRef<[u8]> for Owner {
    fn as_ref(&self) -> &[u8] {
        b"owned"
    }
}

impl Drop for Owner {
    fn drop(&mut self) {
        self.0.fetch_add(1, Ordering::SeqCst);
    }
}

// Views of one storage that threads clone, slice, split and drop: an owner goes once, and a block is recovered by who
// is left.
#[test]
fn threads_share_storage() {
    for round in 0..200 {
        let drops = Arc::new(AtomicUsize::new(0));
        let (owned, native) = (IoBuf::from(Bytes::from_owner(Owner(drops.clone()))), counted(32, 40));
        thread::scope(|scope| {
            for i in 0..4 {
                let (owned, native, mut mine) = (&owned, &native, owned.clone());
                scope.spawn(move || {
                    let views = if i % 2 == 0 {
                        [owned.clone(), native.clone()]
                    } else {
                        [owned.slice(1..), native.slice(1..31)]
                    };
                    assert_eq!((mine.split_to(2), views[1][3]), (IoBuf::from(b"ow"), 3 + i % 2));
                    drop((Bytes::from(mine), views));
                });
            }
        });
        assert_eq!((drops.load(Ordering::SeqCst), native.try_into_mut().unwrap().capacity()), (0, 40), "{round}");
        let slice = Bytes::from(owned).slice(1..3);
        thread::spawn(move || assert_eq!(slice, "wn")).join().unwrap();
        assert_eq!(drops.load(Ordering::SeqCst), 1, "{round}");
    }
    let mut whole = counted(10, 16);
    whole.advance(2);
    let slice = Bytes::from(whole).slice(1..4);
    thread::spawn(move || assert_eq!(slice, [3, 4, 5].as_slice())).join().unwrap();
}

/// Each of these has this type, and each first type is made of the others.
macro_rules! items {
    ($($call:expr => $type:ty;)*) => { $(let _: $type = $call;)* };
    ($($to:ty: $($from:ty),*;)*) => { $($(let _: fn($from) -> $to = From::from;)*)* };
}

// The original's calls and conversions, with its arguments and results.
#[test]
fn calls_and_conversions() {
    items! {
        IoBuf::copy_from_slice => fn(&[u8]) -> IoBuf;
        IoBuf::len => fn(&IoBuf) -> usize;
        IoBuf::is_empty => fn(&IoBuf) -> bool;
        IoBuf::as_ptr => fn(&IoBuf) -> *const u8;
        |view, range| view.slice(range) => fn(&IoBuf, std::ops::Range<usize>) -> IoBuf;
        IoBuf::split_to => fn(&mut IoBuf, usize) -> IoBuf;
        IoBuf::try_into_mut => fn(IoBuf) -> Result<IoBufMut, IoBuf>;
        IoBufMut::with_capacity => fn(usize) -> IoBufMut;
        IoBufMut::with_alignment => fn(usize, NonZeroUsize) -> IoBufMut;
        IoBufMut::zeroed => fn(usize) -> IoBufMut;
        IoBufMut::zeroed_with_alignment => fn(usize, NonZeroUsize) -> IoBufMut;
        IoBufMut::set_len => unsafe fn(&mut IoBufMut, usize);
        IoBufMut::len => fn(&IoBufMut) -> usize;
        IoBufMut::is_empty => fn(&IoBufMut) -> bool;
        IoBufMut::freeze => fn(IoBufMut) -> IoBuf;
        IoBufMut::capacity => fn(&IoBufMut) -> usize;
        IoBufMut::as_mut_ptr => fn(&mut IoBufMut) -> *mut u8;
        IoBufMut::truncate => fn(&mut IoBufMut, usize);
        IoBufMut::clear => fn(&mut IoBufMut);
        IoBufs::as_single => fn(&IoBufs) -> Option<&IoBuf>;
        IoBufs::try_into_single => fn(IoBufs) -> Result<IoBuf, IoBufs>;
        IoBufs::len => fn(&IoBufs) -> usize;
        IoBufs::chunk_count => fn(&IoBufs) -> usize;
        IoBufs::chunk_at => fn(&IoBufs, usize) -> Option<&[u8]>;
        IoBufs::is_empty => fn(&IoBufs) -> bool;
        IoBufs::is_single => fn(&IoBufs) -> bool;
        IoBufs::for_each_chunk => fn(&IoBufs, fn(&[u8]));
        IoBufs::prepend => fn(&mut IoBufs, IoBuf);
        IoBufs::append => fn(&mut IoBufs, IoBuf);
        IoBufs::split_to => fn(&mut IoBufs, usize) -> IoBufs;
        IoBufs::coalesce => fn(IoBufs) -> IoBuf;
        IoBufsMut::as_single => fn(&IoBufsMut) -> Option<&IoBufMut>;
        IoBufsMut::as_single_mut => fn(&mut IoBufsMut) -> Option<&mut IoBufMut>;
        IoBufsMut::try_into_single => fn(IoBufsMut) -> Result<IoBufMut, IoBufsMut>;
        IoBufsMut::len => fn(&IoBufsMut) -> usize;
        IoBufsMut::is_empty => fn(&IoBufsMut) -> bool;
        IoBufsMut::is_single => fn(&IoBufsMut) -> bool;
        IoBufsMut::freeze => fn(IoBufsMut) -> IoBufs;
        IoBufsMut::coalesce => fn(IoBufsMut) -> IoBufMut;
        IoBufsMut::capacity => fn(&IoBufsMut) -> usize;
        IoBufsMut::copy_from_slice => fn(&mut IoBufsMut, &[u8]);
        Builder::new => fn(usize) -> Builder;
        Builder::finish => fn(Builder) -> IoBufs;
    }
    items! {
        IoBuf: Vec<u8>, Bytes, BytesMut, IoBufMut, &'static [u8; 4], &'static [u8];
        Vec<u8>: IoBuf;
        Bytes: IoBuf;
        IoBufMut: &'static [u8], [u8; 4], &'static [u8; 4], Vec<u8>, BytesMut, Bytes, IoBuf;
        IoBufs: IoBuf, IoBufMut, Bytes, BytesMut, Vec<u8>, Vec<IoBuf>, [IoBuf; 4], &'static [u8; 4], &'static [u8], IoBufsMut;
        IoBufsMut: IoBufMut, Vec<u8>, BytesMut, Vec<IoBufMut>, [IoBufMut; 4], [u8; 4];
    }
    items! {
        FromIterator::from_iter => fn(Vec<IoBuf>) -> IoBufs;
        FromIterator::from_iter => fn(Vec<IoBufMut>) -> IoBufsMut;
    }
}

#[test]
fn types() {
    fn value<T: Default + std::fmt::Debug + Send + Sync + Unpin>() {}
    fn bytes<T: PartialEq<[u8]> + PartialEq<[u8; 4]> + for<'a> PartialEq<&'a [u8]> + for<'a> PartialEq<&'a [u8; 4]>>() {
    }
    fn view<T: AsRef<[u8]> + UnwindSafe + RefUnwindSafe>() {}
    fn source<T: Buf>() {}
    fn sink<T: BufMut>() {}
    let checks: [fn(); 15] = [
        value::<IoBuf>,
        value::<IoBufMut>,
        value::<IoBufs>,
        value::<IoBufsMut>,
        bytes::<IoBuf>,
        bytes::<IoBufMut>,
        view::<IoBuf>,
        view::<IoBufMut>,
        source::<IoBuf>,
        source::<IoBufMut>,
        source::<IoBufs>,
        source::<IoBufsMut>,
        sink::<IoBufMut>,
        sink::<IoBufsMut>,
        sink::<Builder>,
    ];
    checks.iter().for_each(|check| check());
    fn others<T: Clone + Eq, U: Clone, V: AsMut<[u8]>>() {}
    others::<IoBuf, IoBufs, IoBufMut>();
}
