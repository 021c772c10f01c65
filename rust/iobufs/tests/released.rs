//! What drops its share of a block: afterwards the block's other view becomes writable without a copy.
use bytes::Bytes;
use iobufs::{Builder, FrameWriter, Frames, IoBuf, IoBufMut, IoBufs, IoBufsMut, Prefix};
use std::any::Any;
use std::io::Read;
use std::sync::Arc;

/// What a call leaves, which lives on.
type Left = Box<dyn Any>;
/// A call, with a view of a block that another view shares. The block's bytes are a frame.
type Call = fn(IoBuf) -> Left;

const BLOCK: &[u8] = b"\x05hello";

/// The view without its bytes.
fn emptied(mut view: IoBuf) -> IoBuf {
    view.advance(view.len());
    view
}

/// The view between two others.
fn several(view: IoBuf) -> IoBufs {
    ["ab".into(), view, "cd".into()].into()
}

/// Calls after which nothing shares the block.
const RELEASE: [(&str, Call); 42] = [
    ("drop", |view| Box::new((drop(view), ()))),
    ("clear", |mut view| Box::new((view.clear(), view))),
    ("truncate(0)", |mut view| Box::new((view.truncate(0), view))),
    ("an empty slice", |view| Box::new(view.slice(2..2))),
    ("an empty slice_ref", |view| Box::new(view.slice_ref(&[]))),
    ("the front of split_to(0)", |mut view| Box::new(view.split_to(0))),
    ("the rest of split_to(len)", |mut view| Box::new((drop(view.split_to(6)), view))),
    ("the rest of split_off(0)", |mut view| Box::new((drop(view.split_off(0)), view))),
    ("the end of split_off(len)", |mut view| Box::new(view.split_off(6))),
    ("take_view(0)", |mut view| Box::new(view.take_view(0))),
    ("take_view of all", |mut view| Box::new((drop(view.take_view(6)), view))),
    ("copy_to_bytes(0)", |mut view| Box::new(view.copy_to_bytes(0))),
    ("copy_to_bytes of all", |mut view| Box::new((drop(view.copy_to_bytes(6)), view))),
    ("copy_to_bytes of an emptied view", |view| Box::new(emptied(view).copy_to_bytes(0))),
    ("read_view", |mut view| Box::new((drop(view.read_view(..)), view))),
    ("a Vec", |view| Box::new(Vec::from(view))),
    ("an IoBufMut, a copy", |view| Box::new(IoBufMut::from(view))),
    ("an IoBufMut of an emptied view", |view| Box::new(IoBufMut::from(emptied(view)))),
    ("a Vec of an emptied view", |view| Box::new(Vec::from(emptied(view)))),
    ("a Bytes of an emptied view", |view| Box::new(Bytes::from(emptied(view)))),
    ("a Bytes of an emptied IoBufs", |view| Box::new(Bytes::from(IoBufs::from(emptied(view))))),
    ("a view of a Bytes of an emptied view", |view| Box::new(IoBuf::from(Bytes::from(emptied(view))))),
    ("a dropped Bytes", |view| Box::new((drop(Bytes::from(view)), ()))),
    ("an emptied view among others", |view| Box::new(several(emptied(view)))),
    ("append of an emptied view", |view| {
        let mut bufs = IoBufs::default();
        Box::new((bufs.append(emptied(view)), bufs))
    }),
    ("prepend of an emptied view", |view| {
        let mut bufs = IoBufs::from("ab");
        Box::new((bufs.prepend(emptied(view)), bufs))
    }),
    ("append to an emptied IoBufs", |view| {
        let mut bufs = IoBufs::from(emptied(view));
        Box::new((bufs.append("ab".into()), bufs))
    }),
    ("push of an emptied view", |view| {
        let mut builder = Builder::new(1);
        Box::new((builder.push(emptied(view)), builder.put_u8(1), builder.finish()))
    }),
    ("advance over a chunk", |view| {
        let mut bufs = several(view);
        Box::new((bufs.advance(8), bufs))
    }),
    ("advance to the end of chunks", |view| {
        let mut bufs = IoBufs::from(["ab".into(), view]);
        Box::new((bufs.advance(8), bufs))
    }),
    ("copy_to_slice to the end of chunks", |view| {
        let mut bufs = IoBufs::from(["ab".into(), view]);
        Box::new((bufs.copy_to_slice(&mut [0; 8]), bufs))
    }),
    ("split_to before a chunk", |view| Box::new(several(view).split_to(2))),
    ("split_to after a chunk", |view| {
        let mut bufs = several(view);
        Box::new((drop(bufs.split_to(8)), bufs))
    }),
    ("a slice of other chunks", |view| Box::new(several(view).slice(..2))),
    ("truncate before a chunk", |view| {
        let mut bufs = several(view);
        Box::new((bufs.truncate(2), bufs))
    }),
    ("take_view across chunks", |view| Box::new(several(view).take_view(9))),
    ("coalesce of several chunks", |view| Box::new(several(view).coalesce())),
    ("read_view across chunks", |view| {
        let mut bufs = IoBufs::from([b"\x08ab".into(), view]);
        Box::new((bufs.read_view(..), bufs))
    }),
    ("chunks that were iterated over", |view| {
        let mut chunks = several(view).into_iter();
        Box::new((drop(chunks.nth(1)), chunks))
    }),
    ("write_to", |view| {
        let mut bufs = several(view);
        Box::new((bufs.write_to(&mut Vec::new()).is_ok(), bufs))
    }),
    ("frames that were taken", |view| {
        let mut frames = Frames::new(Prefix::Varint);
        frames.feed(view);
        Box::new((drop(frames.next(..)), frames))
    }),
    ("frames that were sent", |view| {
        let mut to = FrameWriter::new(Vec::new(), ..);
        Box::new((to.put(view), to.send().is_ok(), to))
    }),
];

/// Calls after which the block is still shared: a view that is read to its end keeps its share.
const KEEP: [(&str, Call); 8] = [
    ("an emptied view", |view| Box::new(emptied(view))),
    ("an IoBufs of an emptied view", |view| Box::new(IoBufs::from(emptied(view)))),
    ("a single chunk that is read to its end", |view| {
        let mut bufs = IoBufs::from(view);
        Box::new((bufs.advance(6), bufs))
    }),
    ("an emptied view that std read", |mut view| Box::new((view.read(&mut [0; 6]).is_ok(), view))),
    ("one byte", |view| Box::new(view.slice(..1))),
    ("a Bytes", |view| Box::new(Bytes::from(view))),
    ("a chunk", |view| Box::new(several(view).slice(..3))),
    ("a frame that waits", |view| {
        let mut to = FrameWriter::new(Vec::<u8>::new(), ..);
        Box::new((to.put(view), to))
    }),
];

/// Whether the block's other view becomes writable after the call, of an allocation, and of two buffers in one.
fn recovers(call: Call) -> [bool; 2] {
    let of_a_vec = IoBuf::from(BLOCK.to_vec());
    let of_a_buffer = IoBufsMut::from([IoBufMut::from(BLOCK), IoBufMut::default()]).coalesce().freeze();
    [of_a_vec, of_a_buffer].map(|other| {
        let left = call(other.clone());
        let recovered = other.try_into_mut().is_ok();
        drop(left);
        recovered
    })
}

#[test]
fn storage_is_let_go() {
    for (name, call) in RELEASE {
        assert_eq!(recovers(call), [true; 2], "{name}");
    }
    for (name, call) in KEEP {
        assert_eq!(recovers(call), [false; 2], "{name}");
    }
}

// An emptied view of an owner drops it as it becomes a `Bytes`.
#[test]
fn an_owner_is_let_go() {
    struct Shared(Arc<[u8; 6]>);
    impl AsRef<[u8]> for Shared {
        fn as_ref(&self) -> &[u8] {
            &self.0[..]
        }
    }
    let owner = Arc::new(*b"\x05hello");
    for (convert, counted) in [(emptied as fn(IoBuf) -> IoBuf, 1), (|view| view, 2)] {
        let bytes = Bytes::from(convert(IoBuf::from_owner(Shared(owner.clone()))));
        assert_eq!((Arc::strong_count(&owner), bytes.is_empty()), (counted, counted == 1));
    }
}
