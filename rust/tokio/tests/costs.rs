//! Allocations of the codecs: a body is copied once where it is encoded, and not where it is decoded.
use bytes::{Bytes, BytesMut};
use iobufs::{IoBuf, IoBufs, Prefix};
use iobufs_tokio::FrameCodec;
use std::alloc::{GlobalAlloc, Layout, System};
use std::cell::Cell;
use tokio_util::codec::{Decoder, Encoder};

thread_local! {
    /// The bytes that this thread has allocated.
    static ALLOCATED: Cell<usize> = const { Cell::new(0) };
}

struct Counting;

#[global_allocator]
static COUNTING: Counting = Counting;

// SAFETY: it hands each call on.
unsafe impl GlobalAlloc for Counting {
    unsafe fn alloc(&self, layout: Layout) -> *mut u8 {
        ALLOCATED.set(ALLOCATED.get() + layout.size());
        // SAFETY: the caller's duty.
        unsafe { System.alloc(layout) }
    }

    unsafe fn dealloc(&self, at: *mut u8, layout: Layout) {
        // SAFETY: the caller's duty.
        unsafe { System.dealloc(at, layout) }
    }
}

fn allocated<R>(call: impl FnOnce() -> R) -> usize {
    let before = ALLOCATED.get();
    drop(call());
    ALLOCATED.get() - before
}

#[test]
fn bodies_are_copied_once() {
    let (mut codec, mut dst) = (FrameCodec::new(Prefix::U32Be, ..), BytesMut::with_capacity(1 << 20));
    let body = vec![7; 65_536];
    let (view, shared) = (IoBuf::from(body.clone()), Bytes::from(body.clone()));
    let text = IoBufs::from([view.clone(), view.clone()]);
    assert_eq!(allocated(|| codec.encode(view, &mut dst).unwrap()), 0);
    assert_eq!(allocated(|| codec.encode(shared, &mut dst).unwrap()), 0);
    assert_eq!(allocated(|| codec.encode(&body[..], &mut dst).unwrap()), 0);
    // The thread keeps the space of a list of two for the next.
    drop(text.clone());
    assert_eq!(allocated(|| codec.encode(text.clone(), &mut dst).unwrap()), allocated(|| text.clone()));
    let mut whole = codec.whole();
    assert_eq!(
        allocated(|| whole.encode((&[][..], &[][..], text.clone()), &mut dst).unwrap()),
        allocated(|| text.clone())
    );
    // The first one that is taken has the block shared.
    assert!(allocated(|| codec.decode(&mut dst).unwrap().unwrap()) < 100);
    assert_eq!(allocated(|| codec.decode(&mut dst).unwrap().unwrap()), 0);
    assert_eq!(allocated(|| whole.decode(&mut dst).unwrap().unwrap()), 0);
}
