//! Allocations of calls: no more than what they take, give or drop needs, also of many chunks. What a thread keeps.
use bytes::{Bytes, BytesMut};
use iobufs::codec::Encode as _;
use iobufs::{FrameCodec, FrameReader, FrameWriter, Frames, IoBuf, IoBufMut, IoBufs, IoBufsMut, Layout, Prefix, Whole};
use std::alloc::{self, GlobalAlloc, System};
use std::cell::Cell;
use std::io::Read;
use std::panic::{catch_unwind, resume_unwind};
use std::sync::atomic::{AtomicIsize, Ordering};
use std::thread;

thread_local! {
    /// How often this thread has allocated, how many bytes, and how many of these it hasn't freed.
    static COUNT: Cell<usize> = const { Cell::new(0) };
    static ALLOCATED: Cell<usize> = const { Cell::new(0) };
    static HELD: Cell<isize> = const { Cell::new(0) };
    /// Whether another thread reads what this one holds, after its end.
    static IS_SEEN: Cell<bool> = const { Cell::new(false) };
}

/// What the threads that are seen hold.
static SEEN: AtomicIsize = AtomicIsize::new(0);

/// Counts that this thread holds so many bytes more.
fn hold(n: isize) {
    HELD.set(HELD.get() + n);
    if IS_SEEN.get() {
        SEEN.fetch_add(n, Ordering::Relaxed);
    }
}

struct Counting;

#[global_allocator]
static COUNTING: Counting = Counting;

/// Bytes are at odd addresses: no allocator has to give others.
fn at_odd(layout: alloc::Layout) -> alloc::Layout {
    let shift = usize::from(layout.align() == 1);
    alloc::Layout::from_size_align(layout.size() + shift, layout.align() + 15 * shift).expect("it is a byte longer")
}

// SAFETY: it hands each call on, by the layout of `at_odd`, whose last bytes are for such a layout.
unsafe impl GlobalAlloc for Counting {
    unsafe fn alloc(&self, layout: alloc::Layout) -> *mut u8 {
        COUNT.set(COUNT.get() + 1);
        ALLOCATED.set(ALLOCATED.get() + layout.size());
        hold(layout.size() as isize);
        // SAFETY: the caller's duty.
        let at = unsafe { System.alloc(at_odd(layout)) };
        if at.is_null() { at } else { at.wrapping_add(at_odd(layout).size() - layout.size()) }
    }

    unsafe fn dealloc(&self, at: *mut u8, layout: alloc::Layout) {
        hold(-(layout.size() as isize));
        // SAFETY: the caller's duty.
        unsafe { System.dealloc(at.wrapping_sub(at_odd(layout).size() - layout.size()), at_odd(layout)) }
    }
}

/// The bytes that a call allocates.
fn allocated<R>(call: impl FnOnce() -> R) -> usize {
    let before = ALLOCATED.get();
    let result = call();
    let spent = ALLOCATED.get() - before;
    drop(result);
    spent
}

/// How many bytes are held once a call has ended that its result keeps.
fn held<R>(call: impl FnOnce() -> R) -> isize {
    let before = HELD.get();
    let result = call();
    let more = HELD.get() - before;
    drop(result);
    more
}

/// How often a call allocates.
fn allocations<R>(call: impl FnOnce() -> R) -> usize {
    let before = COUNT.get();
    drop(call());
    COUNT.get() - before
}

/// How many bytes a new thread holds once its call has ended, and after its own end. One test at a time may call it.
fn held_by_thread<R>(call: impl FnOnce() -> R + Send + 'static) -> (isize, isize) {
    let before = SEEN.load(Ordering::Relaxed);
    let more = move || SEEN.load(Ordering::Relaxed) - before;
    let run = move || {
        IS_SEEN.set(true);
        drop(call());
        more()
    };
    (thread::spawn(run).join().unwrap(), more())
}

const CHUNKS: usize = 100_000;

const CHUNK: usize = 6;

/// Many chunks of one owner.
fn many() -> IoBufs {
    let view = IoBuf::from_owner(vec![1; CHUNK]);
    (0..CHUNKS).map(|_| view.clone()).collect()
}

// A buffer begins at a multiple of its alignment, whatever gap that takes in the storage.
#[test]
fn aligned_bytes_of_storage_at_odd_addresses() {
    for n in [2, 4, 16, 64, 4096] {
        let mut part = IoBufMut::with_alignment(8, n.try_into().unwrap());
        part.put_bytes(7, 8);
        assert_eq!((part.as_mut_ptr().addr() % n, part.capacity()), (0, 8), "{n}");
    }
}

#[test]
fn owners_of_many_chunks() {
    type Call = fn(&mut IoBufs) -> Option<IoBufs>;
    let calls: [(&str, Call); 14] = [
        ("truncate by a chunk", |text| (text.truncate(text.len() - CHUNK), None).1),
        ("truncate by a byte", |text| (text.truncate(text.len() - 1), None).1),
        ("truncate to a chunk", |text| (text.truncate(CHUNK), None).1),
        ("split near the end", |text| Some(text.split_to(text.len() - 9))),
        ("split near the front", |text| Some(text.split_to(9))),
        ("slice at the front", |text| Some(text.slice(..9))),
        ("slice in the middle", |text| Some(text.slice(text.len() / 2..text.len() / 2 + 9))),
        ("slice at the end", |text| Some(text.slice(text.len() - 9..))),
        ("advance", |text| (text.advance(9), None).1),
        ("advance by all", |text| (text.advance(text.len()), None).1),
        ("take in a chunk", |text| (text.take_view(3), None).1),
        ("get", |text| (text.get_u64(), None).1),
        ("prepend", |text| (text.prepend(IoBuf::from(b"-")), None).1),
        ("append", |text| (text.append(IoBuf::from(b"-")), None).1),
    ];
    for (name, call) in calls {
        let mut text = many();
        let (spent, owners) = (allocated(|| call(&mut text)), text.owners());
        assert!(spent < 1000, "{name}: {spent} bytes for {owners} owners");
    }
}

#[test]
fn owners_of_frames() {
    let (mut frames, view) = (Frames::default(), IoBuf::from_owner(vec![1; 2 * CHUNK]));
    (0..CHUNKS).for_each(|_| frames.feed(view.clone()));
    assert_eq!(
        allocated(|| for _ in 0..1000 {
            frames.next(..).unwrap().unwrap();
        }),
        0
    );
    assert_eq!((frames.owners(), frames.len()), (CHUNKS - 166, 2 * CHUNK * CHUNKS - 2000));
}

/// An adopted `Vec` without room for a head takes the place of the last one that this thread freed.
#[test]
fn heads_of_adopted_vectors() {
    let adopted = |n: usize| {
        let vec = vec![1; n];
        allocated(|| IoBuf::from(vec))
    };
    assert_eq!((adopted(64), adopted(64), adopted(1)), (48, 0, 0));
    let (first, second) = (vec![1; 64], vec![2; 64]);
    let mut both = None;
    assert_eq!(allocated(|| both = Some([IoBuf::from(first), IoBuf::from(second)])), 48);
    let [first, second] = both.unwrap();
    assert_eq!((first.try_into_mut().unwrap().as_ref(), &second[..]), (&[1; 64][..], &[2; 64][..]));
    drop(second);
    assert_eq!(adopted(9), 0);
    let sent = IoBuf::from(vec![3; 9]);
    std::thread::spawn(move || assert_eq!((sent, adopted(9)), (vec![3; 9].into(), 48))).join().unwrap();
    assert_eq!(adopted(9), 48);
}

/// A buffer has room for its head, unless glibc's cache of a thread has blocks of its size, but none with that room.
/// Once such a buffer is full, its head is as that of an adopted `Vec`.
#[test]
fn heads_of_buffers() {
    let sizes = [1, 977, 978, 1032, 1033, 4096].map(|n| allocated(|| IoBufMut::with_capacity(n)) - n);
    assert_eq!(sizes, [55, 55, 0, 0, 55, 55]);
    let frozen = |n: usize| {
        allocations(|| {
            let mut part = IoBufMut::with_capacity(n);
            part.put_bytes(1, n);
            part.freeze()
        })
    };
    assert_eq!([1, 977, 1032, 1032, 1033].map(frozen), [1, 1, 2, 1, 1]);
}

/// A list of two to four chunks or buffers has space for four. Its thread keeps the last such space that it frees, for
/// its next list.
#[test]
fn small_lists() {
    let bufs = |n: u8| (0..n).map(|_| IoBuf::from_static(b"chunk")).collect::<IoBufs>();
    let parts = |n: u8| (0..n).map(|_| IoBufMut::zeroed(100)).collect::<IoBufsMut>();
    let run = move || {
        let (two, four, five) = (bufs(2), bufs(4), bufs(5));
        // A kept clone of two chunks holds 160 bytes.
        assert_eq!((held(|| two.clone()), held(|| two.clone())), (160, 0));
        let clones = [two.clone(), four.clone(), two.clone()];
        assert_eq!([&two, &four, &five].map(|it| allocations(|| it.clone())), [1, 0, 1]);
        drop(clones);
        assert_eq!([&two, &four, &five].map(|it| allocations(|| it.clone())), [0, 0, 1]);
        // Two buffers, whose list takes it; the list of what is frozen of them is made before that is free.
        assert_eq!([allocations(|| parts(2)), allocations(|| parts(2).freeze())], [2, 3]);
    };
    thread::spawn(run).join().unwrap();
}

/// A list of an array, of a vector, or of an iterator that knows its length is allocated once; a single chunk has none.
#[test]
fn lists_of_many() {
    let view = |_| IoBuf::from_static(b"chunk");
    let arrays = [allocations(|| IoBufs::from([1; 9].map(view))), allocations(|| IoBufs::from_iter([1; 9].map(view)))];
    assert_eq!((arrays, allocations(|| (0..4096).map(view).collect::<IoBufs>())), ([1, 1], 1));
    let one = [IoBuf::new(), view(1), IoBuf::new()];
    assert_eq!([allocations(|| IoBufs::from(one.clone())), allocations(|| IoBufs::from_iter(one.clone()))], [0, 0]);
}

/// If an owner panics as it is dropped, its list's space is freed.
#[test]
fn a_list_of_an_owner_that_panics() {
    struct Panics;
    impl AsRef<[u8]> for Panics {
        fn as_ref(&self) -> &[u8] {
            b"owned"
        }
    }
    impl Drop for Panics {
        fn drop(&mut self) {
            resume_unwind(Box::new(()));
        }
    }
    let bufs = || IoBufs::from([IoBuf::from_owner(Panics), IoBuf::from_static(b"ab")]);
    let left = move || held(|| assert!(catch_unwind(|| drop(bufs())).is_err()));
    let (first, second) = thread::spawn(move || (left(), left())).join().unwrap();
    // The first panic of a thread may hold some of std's own.
    assert!(second == 0 && first < 160, "{first} and {second} bytes");
}

/// A thread keeps one list's space and one head's place, 208 bytes, and frees them as it ends.
#[test]
fn what_a_thread_keeps() {
    let lists = || {
        let text: IoBufs = [IoBuf::from(vec![1; 9]), IoBuf::from(vec![2; 9]), IoBuf::from(vec![3; 9])].into();
        (0..9).map(|_| text.clone()).collect::<Vec<_>>()
    };
    let (nothing, kept) = (held_by_thread(|| ()), held_by_thread(lists));
    assert_eq!((kept.0 - nothing.0, kept.1 - nothing.1), (208, 0));
}

/// No bytes keep no storage. The thread may keep the place of a head.
#[test]
fn empty_slices() {
    let slices: [fn() -> IoBuf; 4] = [
        || IoBuf::from(Bytes::from(vec![1; 65_536])).slice(9..9),
        || IoBuf::from(vec![1; 65_536]).slice(9..9),
        || IoBuf::from_owner(vec![1; 65_536]).slice(9..9),
        || {
            let mut emptied = IoBuf::from(Bytes::from(vec![1; 65_536]));
            emptied.advance(65_536);
            emptied.clone()
        },
    ];
    let kept = slices.map(held);
    assert!(kept.iter().all(|it| *it <= 48), "{kept:?}");
}

/// A frame is encoded into space that is reserved at once.
#[test]
fn encoded_frames() {
    let codec = FrameCodec::new(Prefix::U32Be, ..);
    let body: IoBufs = (0..16).map(|n| IoBuf::from(vec![n; 65_536])).collect();
    let mut dst = BytesMut::new();
    assert_eq!(allocations(|| codec.encode(&body, &mut dst).unwrap()), 1);
    assert_eq!((dst.len(), dst.capacity() < dst.len() + 64), (4 + (1 << 20), true));
    assert_eq!(allocations(|| codec.encode_slice(&[7; 1 << 20], &mut BytesMut::new()).unwrap()), 1);
}

/// Of a frame that isn't whole nothing is reserved, however long it says that it is.
#[test]
fn frames_that_are_cut() {
    for wire in [&b"\0\x0f"[..], b"\0\x0f\xff\xff", b"\x7f\xff\xff\xff-"] {
        let (codec, mut src) = (FrameCodec::new(Prefix::U32Be, ..), BytesMut::from(wire));
        assert_eq!(allocations(|| assert_eq!(codec.decode(&mut src), Ok(None))), 0, "{wire:?}");
        assert_eq!(allocations(|| assert!(codec.decode_whole(&mut src).unwrap().is_none())), 0, "{wire:?}");
        assert_eq!(src, wire);
    }
}

/// A name, and what returns where bytes are before a call and after it.
type Stays = (&'static str, fn() -> (*const u8, *const u8));

const STAY: [Stays; 9] = [
    ("a String", || {
        let text = "hello".to_string();
        (text.as_ptr(), IoBuf::from(text).as_ptr())
    }),
    ("a box", || {
        let bytes: Box<[u8]> = [1, 2, 3].into();
        (bytes.as_ptr(), IoBuf::from(bytes).as_ptr())
    }),
    ("a BytesMut", || {
        let bytes = BytesMut::from("hello");
        (bytes.as_ptr(), IoBuf::from(bytes).as_ptr())
    }),
    ("a Bytes of a writable buffer", || {
        let part = IoBufMut::from(b"hello");
        (part.as_ptr(), Bytes::from(part).as_ptr())
    }),
    ("a Bytes that is added", || {
        let (mut bufs, bytes) = (IoBufs::from("-"), Bytes::from(vec![1, 2, 3]));
        bufs.extend([bytes.clone()]);
        (bytes.as_ptr(), bufs.chunk_at(1).unwrap().as_ptr())
    }),
    ("a chunk that is taken", || {
        let bufs = IoBufs::from([IoBuf::from(vec![1, 2]), "-".into()]);
        (bufs.chunk().as_ptr(), bufs.into_iter().next().unwrap().as_ptr())
    }),
    ("a Bytes that is written", || {
        let bytes = Bytes::from(vec![1, 2, 3]);
        (bytes.as_ptr(), bytes.encode_iobufs().chunk_at(1).unwrap().as_ptr())
    }),
    ("what is before a length", || {
        let (at, whole) = whole();
        (at, whole.before().chunk().as_ptr())
    }),
    ("what is after a length", || {
        let (at, whole) = whole();
        (at.wrapping_add(2), whole.after().chunk().as_ptr())
    }),
];

/// A frame, and where it is.
fn whole() -> (*const u8, Whole<IoBufs>) {
    let (mut frames, bytes) = (Frames::new(Layout::new(Prefix::U8).before(1).after(1)), IoBuf::from(vec![9, 1, 8, 7]));
    let at = bytes.as_ptr();
    frames.feed(bytes);
    (at, frames.next_whole(..).unwrap().unwrap())
}

#[test]
fn bytes_stay_where_they_are() {
    for (name, places) in STAY {
        let (before, after) = places();
        assert_eq!(before, after, "{name}");
    }
}

/// What a reader holds is handed out without a copy.
#[test]
fn parts_of_readers() {
    let mut from = FrameReader::new(&b"\x02okGET /"[..], ..=1024);
    from.next().unwrap().unwrap();
    assert_eq!(allocated(|| from.into_parts().1.len()), 0);
}

/// A writer has no queue while all is sent, a short one with two frames that aren't copied, and of the frames nothing
/// once they are sent.
#[test]
fn queues_of_writers() {
    let put = |to: &mut FrameWriter<_>| to.put(IoBuf::from_static(&[7; 300])).unwrap();
    let mut to = FrameWriter::new(std::io::sink(), ..=1024);
    assert_eq!(allocated(|| put(&mut to)), 0);
    let more = held(|| put(&mut to));
    assert!(more <= 2048, "{more} bytes for a second frame");
    to.send().unwrap();
    assert_eq!(held(|| (0..100).for_each(|_| (put(&mut to), to.send().unwrap()).1)), 0);
    let mut idle = FrameWriter::new(std::io::sink(), ..=1024);
    let kept = held(|| {
        (0..2).for_each(|_| put(&mut idle));
        idle.send().unwrap();
        idle
    });
    assert!(kept <= 2048, "{kept} bytes of an idle writer");
}

/// How many frames of 202 bytes are put, and how many bytes a writer holds for them before they are sent, and after.
const COPIES: [(usize, [isize; 2], [isize; 2]); 4] = [
    (1, [0, 0], [0, 0]),
    (17, [3_232, 4_096], [3_232, 4_096]),
    (30, [5_858, 2 * 5_858], [0, 0]),
    (80, [15_958, 2 * 15_958], [0, 0]),
];

/// A writer holds copies of short frames. Once all is sent, it keeps their block, if that has at most 4 KiB.
#[test]
fn copies_of_writers() {
    for (count, waits, kept) in COPIES {
        let mut to = FrameWriter::new(std::io::sink(), ..=1024);
        let before = HELD.get();
        (0..count).for_each(|_| to.put(IoBuf::from_static(&[7; 200])).unwrap());
        let more = HELD.get() - before;
        assert!(waits[0] <= more && more <= waits[1], "{more} bytes for {count} frames");
        to.send().unwrap();
        let more = HELD.get() - before;
        assert!(kept[0] <= more && more <= kept[1], "{more} bytes after {count} frames");
    }
}

/// A read takes from all buffers.
#[test]
fn reads_of_buffers() {
    let parts = |n: u8| (0..n).map(|i| IoBufMut::from(vec![i; 3])).collect::<Vec<_>>();
    for n in 1..6 {
        let (mut from, mut dst) = (IoBufsMut::from(parts(n)), [9; 32]);
        assert_eq!((from.read(&mut dst[..7]).unwrap(), from.read(&mut dst[7..]).unwrap()), {
            let all = 3 * usize::from(n);
            (all.min(7), all.saturating_sub(7))
        });
    }
}
