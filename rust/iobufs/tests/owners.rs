//! Memory of other owners: whose bytes a buffer shows, and how long it keeps them. An owner spoils its bytes when it is
//! dropped, and takes its name out of a list, so each step says just who lives. Each run of other foreign code may
//! panic (`burn`).
use bytes::Bytes;
use iobufs::codec::Encode;
use iobufs::codec::proved::{BufMut, BufsMut, EncodeSize, Error, Write};
use iobufs::{Builder, Frames, IoBuf, IoBufMut, IoBufs, PutLength};
use std::cell::Cell;
use std::collections::BTreeMap;
use std::ops::{Bound, Range, RangeBounds};
use std::panic::{AssertUnwindSafe, catch_unwind, panic_any, set_hook, take_hook};
use std::sync::{Arc, Mutex, Once};
use std::thread;

thread_local! {
    /// At which of the next runs of foreign code on this thread it panics; 0 if at none.
    static FUSE: Cell<usize> = const { Cell::new(0) };
}

/// The panic of foreign code.
struct Burnt;

/// Runs in foreign code.
fn burn() {
    let left = FUSE.replace(FUSE.get().saturating_sub(1));
    if left == 1 {
        panic_any(Burnt);
    }
}

/// Runs a call with a panic at the `nth` run of foreign code, if there is one; `None` if it panics.
fn tried<R>(nth: usize, call: impl FnOnce() -> R) -> Option<R> {
    static QUIET: Once = Once::new();
    QUIET.call_once(|| {
        let usual = take_hook();
        set_hook(Box::new(move |panic| {
            if !panic.payload().is::<Burnt>() {
                usual(panic)
            }
        }));
    });
    FUSE.set(nth);
    let done = catch_unwind(AssertUnwindSafe(call));
    FUSE.set(0);
    done.map_err(|panic| assert!(panic.is::<Burnt>())).ok()
}

/// The owners that live: the address and the length of each.
#[derive(Clone, Default)]
struct Live(Arc<Mutex<BTreeMap<usize, (usize, usize)>>>);

struct Owner {
    bytes: Vec<u8>,
    name: usize,
    live: Live,
}

impl Live {
    fn owner(&self, name: usize, bytes: &[u8]) -> Owner {
        let bytes = bytes.to_vec();
        self.0.lock().unwrap().insert(name, (bytes.as_ptr() as usize, bytes.len()));
        Owner { bytes, name, live: self.clone() }
    }

    fn view(&self, name: usize, bytes: &[u8]) -> IoBuf {
        IoBuf::from_owner(self.owner(name, bytes))
    }

    fn names(&self) -> Vec<usize> {
        self.0.lock().unwrap().keys().copied().collect()
    }

    /// The owner whose memory these bytes are in.
    fn name_of(&self, bytes: &[u8]) -> Option<usize> {
        let at = bytes.first()? as *const u8 as usize;
        let live = self.0.lock().unwrap();
        live.iter().find(|(_, (base, len))| at.wrapping_sub(*base) < *len).map(|(name, _)| *name)
    }
}

impl AsRef<[u8]> for Owner {
    fn as_ref(&self) -> &[u8] {
        burn();
        &self.bytes
    }
}

impl Drop for Owner {
    fn drop(&mut self) {
        self.bytes.fill(0xdd);
        assert!(self.live.0.lock().unwrap().remove(&self.name).is_some(), "dropped twice");
    }
}

/// A result of foreign code.
struct Foreign<T>(T);

impl From<Foreign<IoBuf>> for Bytes {
    fn from(view: Foreign<IoBuf>) -> Bytes {
        burn();
        view.0.into()
    }
}

impl<T: Iterator> Iterator for Foreign<T> {
    type Item = T::Item;

    fn next(&mut self) -> Option<T::Item> {
        burn();
        self.0.next()
    }
}

impl RangeBounds<usize> for Foreign<Range<usize>> {
    fn start_bound(&self) -> Bound<&usize> {
        burn();
        self.0.start_bound()
    }

    fn end_bound(&self) -> Bound<&usize> {
        burn();
        self.0.end_bound()
    }
}

impl EncodeSize for Foreign<&[IoBuf]> {
    fn encode_size(&self) -> Option<usize> {
        burn();
        self.0.iter().map(<IoBuf as EncodeSize>::encode_size).sum()
    }

    fn encode_inline_size(&self) -> usize {
        burn();
        self.0.iter().map(<IoBuf as EncodeSize>::encode_inline_size).sum()
    }
}

impl Write for Foreign<&[IoBuf]> {
    fn write<B: BufMut>(&self, buf: &mut B) {
        self.0.iter().for_each(|view| Write::write(view, buf));
    }

    fn write_bufs<B: BufsMut>(&self, buf: &mut B) -> Result<(), Error> {
        for view in self.0 {
            Write::write_bufs(view, buf)?;
            burn();
        }
        Ok(())
    }
}

#[test]
fn no_byte_is_copied() {
    type Make = (fn(Vec<u8>) -> IoBuf, usize);
    let makes: [Make; 2] = [(IoBuf::from_owner, 1), (IoBuf::from, 0)];
    for (make, owners) in makes {
        let vec = b"0123456789".to_vec();
        let at = vec.as_ptr();
        let mut text = IoBufs::from(make(vec));
        text.append(IoBuf::copy_from_slice(b"-"));
        let view = text.split_to(9).take_view(8);
        assert_eq!((view.as_ptr(), &view[..], text.owners()), (at, &b"01234567"[..], owners));
        assert_eq!((view.slice(3..).as_ptr(), view.clone().as_ptr()), (at.wrapping_add(3), at));
    }
}

/// The bytes and the capacity that a view of a `Vec` with four bytes and a capacity of 64 is recovered with.
#[test]
fn recovery() {
    type Change = fn(&mut IoBuf) -> IoBuf;
    let cases: [(Change, &[u8], usize); 6] = [
        (|view| view.slice(..), b"abcd", 64),
        (|view| view.slice(1..), b"bcd", 63),
        (|view| view.slice(1..3), b"bc", 63),
        (|view| view.split_to(2), b"ab", 64),
        (|view| (view.advance(2), view.clone()).1, b"cd", 62),
        (|view| (view.advance(4), view.clone()).1, b"", 60),
    ];
    for (change, bytes, room) in cases {
        let made = || {
            let mut vec = Vec::with_capacity(64);
            vec.extend_from_slice(b"abcd");
            change(&mut IoBuf::from(vec))
        };
        let (by_try, by_from) = (made().try_into_mut().unwrap(), IoBufMut::from(made()));
        assert_eq!([by_try, by_from].map(|it| (it.to_vec(), it.capacity())), [(); 2].map(|()| (bytes.to_vec(), room)));
        let shared = made();
        assert_eq!(shared.clone().try_into_mut().unwrap_err(), bytes);
        let copy = IoBufMut::from(shared.clone());
        assert_eq!((copy.as_ref(), copy.capacity(), shared.len()), (bytes, bytes.len(), bytes.len()));
    }
    let live = Live::default();
    let view = live.view(1, b"abc").try_into_mut().unwrap_err();
    assert_eq!((IoBufMut::from(view), live.names()), (IoBufMut::from(b"abc"), vec![]));
}

/// A buffer of a call keeps its owner as long as it lives, and nothing else does.
#[test]
fn who_is_kept() {
    type Call = fn(IoBuf) -> Box<dyn std::any::Any>;
    fn with(mut text: IoBufs, change: impl FnOnce(&mut IoBufs)) -> IoBufs {
        change(&mut text);
        text
    }
    let calls: [(Call, bool); 29] = [
        (|view| Box::new(view.clone()), true),
        (|view| Box::new(view.slice(1..2)), true),
        (|mut view| Box::new(view.split_to(1)), true),
        (|mut view| Box::new(view.take_view(1)), true),
        (|mut view| Box::new(view.read_view(..).unwrap()), true),
        (|view| Box::new(IoBufs::from(view).clone()), true),
        (|view| Box::new(IoBufs::from(view).split_to(1)), true),
        (|view| Box::new(IoBufs::from(view).slice(1..2)), true),
        (|view| Box::new(IoBufs::from(view).slice(1..1)), false),
        (|view| Box::new(IoBufs::from(view).split_to(0)), false),
        (|view| Box::new(IoBufs::from([b"-".into(), view, b"+".into()]).slice(..1)), false),
        (|view| Box::new(IoBufs::from([b"-".into(), view, b"+".into()]).slice(4..)), false),
        (|view| Box::new(IoBufs::from([b"-".into(), view, b"+".into()]).slice(3..)), true),
        (|view| Box::new(IoBufs::from(view).coalesce()), true),
        (|view| Box::new(IoBufs::from(view).try_into_single().unwrap()), true),
        (|view| Box::new(IoBufs::from(view).read_view(..).unwrap()), true),
        (|view| Box::new(IoBufs::from([view.clone(), view]).take_view(4)), false),
        (|view| Box::new(IoBufs::from([b"-".into(), view]).split_to(1)), false),
        (|view| Box::new(IoBufMut::from(view)), false),
        (|view| Box::new(with(view.into(), |text| text.advance(3))), true),
        (|view| Box::new(with([b"-".into(), view].into(), |text| text.advance(4))), false),
        (|view| Box::new(with([view, b"-".into()].into(), |text| text.advance(3))), false),
        (|view| Box::new(with(view.into(), |text| (text.advance(2), text.prepend(b"-".into())).1).split_to(1)), false),
        (|view| Box::new(with(IoBufs::from(view).slice(1..), |text| text.prepend(b"-".into())).split_to(1)), false),
        (|view| Box::new(IoBufs::from(view).slice(1..).split_to(0)), false),
        (|view| Box::new(with(view.into(), |text| text.advance(1)).split_to(0)), false),
        (|view| Box::new(with(b"native".into(), |text| text.prepend(view)).split_to(1)), true),
        (
            |view| {
                let mut builder = Builder::new(0);
                builder.push(view);
                Box::new(builder.finish())
            },
            true,
        ),
        (
            |view| {
                let mut frames = Frames::default();
                frames.feed(view);
                Box::new(frames.next(..).unwrap())
            },
            true,
        ),
    ];
    for (i, (call, keeps)) in calls.into_iter().enumerate() {
        let live = Live::default();
        let made = call(live.view(i, b"\x01ab"));
        assert_eq!(live.names().is_empty(), !keeps, "call {i}");
        drop(made);
        assert_eq!(live.names(), [], "call {i}");
    }
    assert!(Live::default().view(0, b"").is_empty());
}

// A buffer that is made of an `IoBufs` with many owners keeps those of its own bytes, and no other, once that is gone.
#[test]
fn many_owners() {
    /// A call on an `IoBufs` of `n` bytes, and the range of these that its result has.
    type Call = (fn(IoBufs, usize) -> IoBufs, fn(usize) -> Range<usize>);
    let calls: [Call; 9] = [
        (|text, _| text.clone(), |n| 0..n),
        (|text, _| text.slice(..), |n| 0..n),
        (|text, n| text.slice(n / 3..n / 2), |n| n / 3..n / 2),
        (|mut text, n| text.split_to(n / 3), |n| 0..n / 3),
        (|mut text, n| text.split_to(2 * n / 3), |n| 0..2 * n / 3),
        (|mut text, n| (text.split_to(n / 3), text).1, |n| n / 3..n),
        (|mut text, n| (text.split_to(2 * n / 3), text).1, |n| 2 * n / 3..n),
        (|mut text, n| (text.truncate(n - 2), text.advance(3), text).2, |n| 3..n - 2),
        (
            |mut text, _| {
                (text.prepend(b"-".into()), text.append(b"-".into()), text.advance(1), text.clone()).3.slice(..)
            },
            |n| 0..n + 1,
        ),
    ];
    for (count, (call, range)) in [1, 2, 33, 64, 100, 300].into_iter().flat_map(|count| calls.map(|call| (count, call)))
    {
        let (live, mut builder, mut bytes) = (Live::default(), Builder::new(0), Vec::new());
        for i in 0..count {
            bytes.extend([i as u8; 7]);
            builder.push(live.view(i, &[i as u8; 7]));
        }
        let (made, range) = (call(builder.finish(), bytes.len()), range(bytes.len()));
        bytes.push(b'-');
        let kept: Vec<usize> = (range.start / 7..range.end.div_ceil(7).min(count)).collect();
        assert_eq!((made.owners(), live.names()), (kept.len(), kept), "{count} {range:?}");
        assert!(made == bytes[range]);
        drop(made);
        assert_eq!(live.names(), []);
    }
}

/// An owner of a part of bytes that others show too.
struct Part {
    all: Arc<[u8]>,
    range: Range<usize>,
    _kept: Owner,
}

impl AsRef<[u8]> for Part {
    fn as_ref(&self) -> &[u8] {
        &self.all[self.range.clone()]
    }
}

/// Two owners of the same bytes: a frame's length is of the first, and its body is of the second.
#[test]
fn owners_that_share_addresses() {
    type Take = fn(IoBuf, IoBuf) -> IoBuf;
    let takes: [Take; 4] = [
        |length, body| {
            let mut frames = Frames::default();
            [length, body].into_iter().for_each(|view| frames.feed(view));
            frames.next(..).unwrap().unwrap()
        },
        |length, body| IoBufs::from([length, body]).read_view(..).unwrap(),
        |length, body| {
            let mut text = IoBufs::from([length, body]);
            (text.advance(1), text.take_view(8)).1
        },
        |length, body| IoBufs::from([length, body]).slice(1..).coalesce(),
    ];
    for (i, take) in takes.into_iter().enumerate() {
        let live = Live::default();
        let all: Arc<[u8]> = Arc::from(*b"\x08 a body!");
        let view = |range, name| IoBuf::from_owner(Part { all: all.clone(), range, _kept: live.owner(name, b"") });
        let body = take(view(0..5, 1).slice(..1), view(1..9, 2));
        assert_eq!((&body[..], live.names()), (&b" a body!"[..], vec![2]), "{i}");
    }
}

#[test]
fn threads_share_an_owner() {
    let live = Live::default();
    let view = live.view(1, &[7; 1000]);
    thread::scope(|scope| {
        for t in 0..4 {
            let mut mine = view.clone();
            scope.spawn(move || {
                for i in 0..200 {
                    let part = mine.slice(t + i % 5..900);
                    assert!(part.clone().iter().all(|byte| *byte == 7));
                    mine.advance(usize::from(i % 50 == 0));
                }
            });
        }
    });
    assert_eq!(live.names(), [1]);
    thread::spawn(move || drop(view)).join().unwrap();
    assert_eq!(live.names(), []);
}

/// An owner whose drop panics.
struct Grenade(Owner);

impl AsRef<[u8]> for Grenade {
    fn as_ref(&self) -> &[u8] {
        &self.0.bytes
    }
}

impl Drop for Grenade {
    fn drop(&mut self) {
        burn();
    }
}

/// An owner whose drop panics inside a call: the bytes are unspecified then. Each chunk's memory lives, and each owner
/// goes in the end.
#[test]
fn an_owner_whose_drop_panics() {
    type Call = fn(&mut IoBufs);
    let calls: [Call; 9] = [
        |text| text.advance(5),
        |text| text.advance(10),
        |text| text.copy_to_slice(&mut [0; 6]),
        |text| drop(text.take_view(4)),
        |text| drop(text.take_view(6)),
        |text| drop(text.split_to(7)),
        |text| text.truncate(3),
        |text| text.clear(),
        |text| assert!(text.get_u64() > 0),
    ];
    let then: [Call; 4] = [
        |text| text.append(b"back".into()),
        |text| text.prepend(b"new".into()),
        |text| text.advance(text.len()),
        |text| drop(text.clone()),
    ];
    for (call, next) in calls.into_iter().flat_map(|call| then.map(|next| (call, next))) {
        let live = Live::default();
        let owned = |name, bytes| IoBuf::from_owner(Grenade(live.owner(name, bytes)));
        let mut text = IoBufs::from([owned(1, b"aaaa"), owned(2, b"bbbb"), IoBuf::from(b"--")]);
        assert!(tried(1, || call(&mut text)).is_none());
        assert!(text.chunks().flatten().all(|byte| b"ab-".contains(byte)));
        let _ = catch_unwind(AssertUnwindSafe(|| next(&mut text)));
        drop(text);
        assert_eq!(live.names(), []);
    }
}

unsafe extern "C" {
    fn mmap(at: *mut u8, n: usize, protection: i32, flags: i32, file: i32, offset: i64) -> *mut u8;
}

/// A view of 2^46 bytes, of which 2^18 have one byte more than fits into a buffer. They are never read.
fn huge() -> IoBuf {
    const N: usize = 1 << 46;
    // SAFETY: it maps zeros to be read (PROT_READ; MAP_PRIVATE, MAP_ANONYMOUS and MAP_NORESERVE), which stay mapped.
    let bytes = unsafe {
        let at = mmap(std::ptr::null_mut(), N, 1, 0x4022, -1, 0);
        assert_ne!(at as isize, -1, "no address space for the test");
        std::slice::from_raw_parts(at, N)
    };
    IoBuf::from(bytes)
}

/// A push that panics or is refused leaves the builder as it was, and so does the next: owners before it stay.
#[test]
fn pushes_that_panic() {
    type Push = fn(&mut Builder, &Live) -> Option<()>;
    let pushes: [Push; 2] = [
        |builder, live| tried(1, || builder.push(Foreign(live.view(9, b"into")))),
        |builder, live| {
            let mut empty = IoBuf::from_owner(Grenade(live.owner(9, b"x")));
            empty.advance(1);
            tried(1, || builder.push(empty))
        },
    ];
    for push in pushes {
        let live = Live::default();
        let mut builder = Builder::new(1000);
        assert!(push(&mut builder, &live).is_none());
        builder.push(live.view(1, &[1; 10]));
        builder.put_slice(&[2; 100]);
        for _ in 0..3 {
            assert!(push(&mut builder, &live).is_none());
        }
        builder.push(live.view(2, &[4; 10]));
        assert_kept(builder.finish(), &live, &[(1, &[1, 2]), (9, &[2]), (100, &[2]), (9, &[2]), (1, &[2])]);
    }
}

/// After each of these advances, the `IoBufs` and the world keep these owners.
fn assert_kept(mut text: IoBufs, live: &Live, advances: &[(usize, &[usize])]) {
    for (n, kept) in advances {
        text.advance(*n);
        assert_eq!((text.owners(), &live.names()[..]), (kept.len(), *kept));
    }
}

#[test]
fn views_that_are_refused() {
    let (live, huge) = (Live::default(), huge());
    let refused = |call: &mut dyn FnMut(IoBuf)| {
        let bufs = IoBufs::from([live.view(9, b"x"), huge.clone()]);
        let views = [huge.clone(), bufs.slice(1..).coalesce()];
        views.into_iter().for_each(|view| assert!(catch_unwind(AssertUnwindSafe(|| call(view))).is_err()));
    };
    let mut builder = Builder::new(1000);
    builder.push(live.view(1, &[1; 10]));
    builder.put_slice(&[2; 100]);
    (1..1 << 18).for_each(|_| builder.push(huge.clone()));
    builder.put_slice(&[3; 100]);
    (0..3).for_each(|_| refused(&mut |view| builder.push(view)));
    let mut text = builder.finish();
    refused(&mut |view| text.append(view));
    refused(&mut |view| text.prepend(view));
    assert_kept(text, &live, &[(1, &[1]), (9, &[])]);
}

/// A view: its bytes, and the owner that it keeps.
type View = (IoBuf, Vec<u8>, Option<usize>);

/// Random buffers, each beside its bytes.
struct World {
    random: u64,
    /// How many chunks are put together at a time, at most.
    many: usize,
    /// Lets foreign code panic at times.
    panics: bool,
    live: Live,
    named: usize,
    views: Vec<View>,
    texts: Vec<(IoBufs, Vec<u8>)>,
    frames: Frames,
    /// The bytes that were fed and not taken, and the owner of each.
    fed: Vec<(u8, Option<usize>)>,
}

impl World {
    fn below(&mut self, n: usize) -> usize {
        self.random = self.random.wrapping_mul(6364136223846793005).wrapping_add(1442695040888963407);
        (self.random >> 33) as usize % n
    }

    /// Runs a call, in which foreign code may panic.
    fn tried<R>(&mut self, call: impl FnOnce(&mut Self) -> R) -> Option<R> {
        let nth = if self.panics { self.below(6) } else { 0 };
        tried(nth, || call(self))
    }

    /// A new view: of its own storage, static, or of an owner.
    fn fresh(&mut self) -> View {
        let bytes: Vec<u8> = (0..self.below(24)).map(|_| self.below(20) as u8).collect();
        match self.below(5) {
            0 => (IoBuf::copy_from_slice(&bytes), bytes, None),
            1 => (IoBuf::from(b"static"), b"static".to_vec(), None),
            _ => {
                self.named += 1;
                let Some(view) = self.tried(|world| world.live.view(world.named, &bytes)) else { return self.fresh() };
                let name = (!bytes.is_empty()).then_some(self.named);
                (view, bytes, name)
            }
        }
    }

    /// A view that was taken keeps the owner in whose memory it is; one that a panic dropped is lost.
    fn given(&mut self, view: Option<IoBuf>, bytes: Vec<u8>) {
        let Some(view) = view else { return };
        let name = self.live.name_of(&view);
        self.views.push((view, bytes, name));
    }

    /// An `IoBufs` has these bytes; after a panic it may have those from before.
    fn changed(&mut self, t: usize, done: bool, after: Vec<u8>) {
        let (text, bytes) = &mut self.texts[t];
        if done || text.len() != bytes.len() {
            *bytes = after;
        }
    }

    /// One random call on a view.
    fn on_view(&mut self, i: usize) {
        let (call, n) = (self.below(10), self.views[i].1.len());
        let (at, t) = (self.below(n + 1), self.below(self.texts.len()));
        let (view, bytes, name) = &mut self.views[i];
        let name = *name;
        match call {
            0 => {
                let new = (view.clone(), bytes.clone(), name);
                self.views.push(new);
            }
            1 => {
                let new = (view.slice(at / 2..at), bytes[at / 2..at].to_vec(), name);
                self.views.push(new);
            }
            2 | 3 => {
                let front = if call == 2 { view.split_to(at) } else { view.take_view(at) };
                let new = (front, bytes.drain(..at).collect(), name);
                self.views.push(new);
            }
            4 => {
                view.advance(at);
                bytes.drain(..at);
            }
            5 if n > 0 && usize::from(bytes[0]) < n => {
                let rest = bytes.split_off(1 + usize::from(bytes[0]));
                let body = std::mem::replace(bytes, rest).split_off(1);
                let new = (view.read_view(..).unwrap(), body, name);
                self.views.push(new);
            }
            6 => {
                let (view, bytes, _) = self.views.swap_remove(i);
                let (other, as_vec) = (view.clone(), at % 2 == 0);
                let copy = self
                    .tried(|_| (drop(other), if as_vec { Vec::from(view) } else { IoBufMut::from(view).to_vec() }).1);
                assert!(copy.is_none_or(|copy| copy == bytes));
            }
            7 => {
                let (view, bytes, _) = self.views.swap_remove(i);
                let done = self.tried(|world| world.texts[t].0.prepend(view)).is_some();
                let after = [bytes, self.texts[t].1.clone()].concat();
                self.changed(t, done, after);
            }
            _ => {
                let (view, bytes, _) = self.views.swap_remove(i);
                let done = self.tried(|world| world.texts[t].0.append(view)).is_some();
                let after = [self.texts[t].1.clone(), bytes].concat();
                self.changed(t, done, after);
            }
        }
    }

    /// One random call on an `IoBufs`.
    fn on_text(&mut self, t: usize) {
        let (call, n) = (self.below(12), self.texts[t].1.len());
        let at = self.below(n + 1);
        let (front, rest) = (self.texts[t].1[..at].to_vec(), self.texts[t].1[at..].to_vec());
        let first = self.texts[t].1.first().map_or(n, |byte| usize::from(*byte));
        match call {
            0 => {
                let new = self.texts[t].0.split_to(at);
                self.texts[t].1 = rest;
                self.texts.push((new, front));
            }
            1 => {
                let done = self.tried(|world| world.texts[t].0.advance(at)).is_some();
                self.changed(t, done, rest);
            }
            2 => {
                let view = self.tried(|world| world.texts[t].0.take_view(at));
                self.changed(t, view.is_some(), rest);
                self.given(view, front);
            }
            3 => {
                let new = (self.texts[t].0.clone(), self.texts[t].1.clone());
                self.texts.push(new);
            }
            4 => {
                let (text, bytes) = self.texts.swap_remove(t);
                let view = self.tried(|_| text.try_into_single().unwrap_or_else(|text| text.coalesce()));
                self.given(view, bytes);
            }
            5 if n >= 4 => {
                let (four, rest) = self.texts[t].1.split_at(4);
                let (four, rest) = (u32::from_be_bytes(four.try_into().unwrap()), rest.to_vec());
                let read = self.tried(|world| world.texts[t].0.get_u32());
                assert_eq!(read.unwrap_or(four), four);
                self.changed(t, read.is_some(), rest);
            }
            6 if first < n => {
                let (body, rest) = (self.texts[t].1[1..=first].to_vec(), self.texts[t].1[first + 1..].to_vec());
                let view = self.tried(|world| world.texts[t].0.read_view(..).unwrap());
                self.changed(t, view.is_some(), rest);
                self.given(view, body);
            }
            7 => {
                let slice = self.tried(|world| world.texts[t].0.slice(Foreign(at / 2..at)));
                self.texts.extend(slice.map(|text| (text, front[at / 2..].to_vec())));
            }
            8 => {
                let done = self.tried(|world| world.texts[t].0.truncate(at)).is_some();
                self.changed(t, done, front);
            }
            9 => {
                let mut copy = Vec::new();
                self.tried(|world| world.texts[t].0.for_each_chunk(|chunk| (burn(), copy.extend_from_slice(chunk)).1));
                assert!(self.texts[t].1.starts_with(&copy));
            }
            10 => {
                let chunks = self.texts[t].0.chunks().map(IoBuf::copy_from_slice);
                let copy = tried(self.named % 50, || chunks.filter(|_| (burn(), true).1).collect::<IoBufs>());
                assert!(copy.is_none_or(|copy| copy == self.texts[t].0));
            }
            _ => {
                let mut copy = vec![0; at];
                let done = self.tried(|world| world.texts[t].0.copy_to_slice(&mut copy)).is_some();
                assert!(copy == front);
                self.changed(t, done, rest);
            }
        }
    }

    /// Views by an iterator, by an encoder, or by a builder, which may lose some to a panic.
    fn build(&mut self) {
        let views: Vec<View> = (0..self.below(self.many)).map(|_| self.fresh()).collect();
        let after_lengths = |(_, bytes, _): &View| [&[bytes.len() as u8], &bytes[..]].concat();
        let (text, bytes) = match self.below(3) {
            0 => {
                let bytes = views.iter().flat_map(|view| view.1.clone()).collect();
                (self.tried(|_| Foreign(views.into_iter().map(|view| view.0)).collect::<IoBufs>()), bytes)
            }
            1 => {
                let bytes = views.iter().flat_map(after_lengths).collect();
                let views: Vec<IoBuf> = views.into_iter().map(|view| view.0).collect();
                (self.tried(|_| Foreign(&views[..]).encode_iobufs()), bytes)
            }
            _ => {
                let (mut builder, mut bytes) = (Builder::new(views.len() + 2), Vec::new());
                for (view, body, name) in views {
                    builder.put_length(body.len());
                    bytes.push(body.len() as u8);
                    // A `Bytes` of other storage would be one more owner.
                    let is_pushed = if name.is_some() {
                        self.tried(|_| builder.push(Foreign(view))).is_some()
                    } else {
                        builder.push(view);
                        true
                    };
                    bytes.extend(Some(body).filter(|_| is_pushed).unwrap_or_default());
                }
                builder.put_u16(7);
                bytes.extend([0, 7]);
                (Some(builder.finish()), bytes)
            }
        };
        self.texts.extend(text.map(|text| (text, bytes)));
    }

    /// Feeds a view after its length, in two chunks.
    fn feed(&mut self) {
        let (mut view, bytes, name) = self.fresh();
        let at = self.below(bytes.len() + 1);
        self.frames.feed(IoBuf::copy_from_slice(&[bytes.len() as u8]));
        self.frames.feed(view.split_to(at));
        self.frames.feed(view);
        self.fed.push((bytes.len() as u8, None));
        self.fed.extend(bytes.into_iter().map(|byte| (byte, name)));
    }

    /// Takes a frame.
    fn next(&mut self) {
        let Some(length) = self.fed.first().map(|(byte, _)| usize::from(*byte)) else {
            return assert!(self.frames.next(..).unwrap().is_none());
        };
        let before = self.frames.len();
        let view = self.tried(|world| world.frames.next(Foreign(0..usize::MAX)).unwrap().unwrap());
        if view.is_some() || self.frames.len() != before {
            let body = self.fed.drain(..1 + length).skip(1).map(|(byte, _)| byte).collect();
            self.given(view, body);
        }
    }

    fn step(&mut self) {
        let (view, mut text) = (self.below(self.views.len() + 1), self.below(self.texts.len()));
        let mut kind = self.below(8);
        if self.many > 5 {
            // Mostly a call on the `IoBufs` of the most owners, or one that makes such an `IoBufs`.
            kind = [1, 3, 4, 4, 4, 4, 6, 7][kind];
            let most = (0..self.texts.len()).max_by_key(|i| self.texts[*i].0.owners());
            text = most.filter(|_| view % 2 == 0).unwrap_or(text);
        }
        match kind {
            0 => {
                let new = self.fresh();
                self.views.push(new);
            }
            1 => self.build(),
            2 => self.feed(),
            3 => self.next(),
            4 | 5 => self.on_text(text),
            _ if view < self.views.len() => self.on_view(view),
            _ => {}
        }
        // Some buffers go, one by one, since each drop may panic.
        while self.views.len() > 8 {
            let i = self.below(self.views.len());
            let view = self.views.swap_remove(i);
            self.tried(|_| drop(view));
        }
        while let Some(i) = self
            .texts
            .iter()
            .position(|(_, bytes)| bytes.len() > 40 * self.many)
            .or((self.texts.len() > 6).then_some(text))
        {
            let text = self.texts.swap_remove(i);
            self.tried(|_| drop(text));
        }
        if self.texts.iter().all(|(_, bytes)| !bytes.is_empty()) {
            self.texts.push(Default::default());
        }
    }

    /// Drops buffers without bytes, which may keep an owner.
    fn drop_empty(&mut self) {
        for (view, _, name) in self.views.iter_mut().filter(|(view, ..)| view.is_empty()) {
            (*view, *name) = Default::default();
        }
        self.texts.iter_mut().filter(|(text, _)| text.is_empty()).for_each(|(text, _)| text.clear());
        if self.frames.is_empty() {
            self.frames = Frames::default();
        }
    }

    /// Each buffer has its bytes, and just those owners live that a view keeps or an `IoBufs` shows.
    fn check(&mut self) {
        self.drop_empty();
        let mut kept: Vec<usize> = self.fed.iter().filter_map(|(_, name)| *name).collect();
        for (view, bytes, name) in &self.views {
            assert_eq!(view, &bytes[..]);
            kept.extend(name);
        }
        for (text, bytes) in &self.texts {
            assert_eq!(text, &bytes[..]);
            let names: Vec<usize> = text.chunks().filter_map(|chunk| self.live.name_of(chunk)).collect();
            assert_eq!(text.owners(), names.len());
            kept.extend(names);
        }
        kept.sort();
        kept.dedup();
        assert_eq!(self.live.names(), kept);
    }
}

/// `ROUNDS` are how many, 200 unless it is set. In every other round foreign code panics; in some, an `IoBufs` has over
/// 100 owners.
#[test]
fn random_calls() {
    let rounds = std::env::var("ROUNDS").map_or(200, |n| n.parse().unwrap());
    for seed in 0..rounds {
        let live = Live::default();
        let (frames, texts, panics) = (Frames::default(), vec![Default::default()], seed % 2 == 1);
        let (many, steps) = if seed % 50 < 2 { (200, 100) } else { (5, 300) };
        let mut world = World {
            random: seed,
            many,
            panics,
            live: live.clone(),
            named: 0,
            views: vec![],
            texts,
            frames,
            fed: vec![],
        };
        for _ in 0..steps {
            world.step();
            world.check();
        }
        drop(world);
        assert_eq!(live.names(), []);
    }
}
