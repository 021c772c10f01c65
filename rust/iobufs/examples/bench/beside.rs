//! What the original's side leaves out: calls that this crate and `bytes` both have, one text for each, and frames that
//! are sent.
use super::*;
use ::bytes::{Buf as _, Bytes, BytesMut};
use iobufs::{FrameWriter, Prefix};
use std::collections::VecDeque;
use std::io;

/// How often most of these calls are made.
const TURNS: usize = 1000;

/// The workloads of a view and of a writable buffer, of these types and with these calls.
macro_rules! side {
    ($side:ident, $name:literal, $view:ty, $part:ty, $first:ident, $queue:ty, $push:ident) => {
        mod $side {
            use super::*;

            pub fn all(add: Add) {
                let runs = [
                    ("clone", clone as fn() -> Run),
                    ("slice", slice),
                    ("split_to", split_to),
                    ("get_u32", get_u32),
                    ("put64_freeze", put_freeze),
                    ("from_vec", from_vec),
                    ("queue8", queue),
                    ("recover", recover),
                ];
                for (name, run) in runs {
                    add(format!("beside_{}_{name}", $name), Box::new(run));
                }
            }

            fn whole(n: usize) -> $view {
                let mut part = <$part>::with_capacity(n);
                part.put_slice(&pattern(n));
                part.freeze()
            }

            fn clone() -> Run {
                let view = whole(64);
                let _other = view.clone();
                timed(TURNS, || (0..TURNS).map(|_| black_box(&view).clone().len() as u64).sum())
            }

            fn slice() -> Run {
                let view = whole(1024);
                let _other = view.clone();
                timed(TURNS, || (0..TURNS).map(|i| mark(&black_box(&view).slice(i % 960..i % 960 + 64))).sum())
            }

            fn split_to() -> Run {
                let all = whole(64 * TURNS);
                let mut view = all.clone();
                timed(TURNS, || (0..TURNS).map(|_| mark(&black_box(&mut view).split_to(64))).sum())
            }

            fn get_u32() -> Run {
                let all = whole(4 * TURNS);
                let mut view = all.clone();
                timed(TURNS, || (0..TURNS).map(|_| u64::from(black_box(&mut view).get_u32())).sum())
            }

            fn put_freeze() -> Run {
                let piece = pattern(64);
                let turn = |_| {
                    let mut part = <$part>::with_capacity(black_box(64));
                    part.put_slice(black_box(&piece));
                    mark(&part.freeze())
                };
                timed(TURNS, || (0..TURNS).map(turn).sum())
            }

            fn from_vec() -> Run {
                timed(TURNS, || (0..TURNS).map(|_| mark(&<$view>::from(black_box(vec![7; 64])))).sum())
            }

            /// A queue of eight views, to which one is added for each that is taken.
            fn queue() -> Run {
                let view = whole(64);
                let mut queue = <$queue>::default();
                (0..8).for_each(|_| queue.$push(view.clone()));
                let turn = |_| {
                    queue.$push(view.clone());
                    mark(&$first(&mut queue))
                };
                timed(TURNS, || (0..TURNS).map(turn).sum())
            }

            /// A view whose storage is written again.
            fn recover() -> Run {
                let mut view = whole(64);
                let turn = |i| {
                    let mut part = std::mem::take(&mut view).try_into_mut().expect("the only view");
                    part.as_mut()[0] = i as u8;
                    view = part.freeze();
                    mark(&view)
                };
                timed(TURNS, || (0..TURNS).map(turn).sum())
            }
        }
    };
}

fn first_of_bufs(queue: &mut IoBufs) -> IoBuf {
    queue.split_to(64).coalesce()
}

fn first_of_deque(queue: &mut VecDeque<Bytes>) -> Bytes {
    queue.pop_front().unwrap_or_default()
}

side!(ours, "here", IoBuf, IoBufMut, first_of_bufs, IoBufs, append);
side!(theirs, "bytes", Bytes, BytesMut, first_of_deque, VecDeque<Bytes>, push_back);

/// Frames of 100 bytes: so many are put, and then sent.
fn frames_out(puts: usize) -> Run {
    let (view, frames) = (native(100), 960);
    let mut to = FrameWriter::with_prefix(io::sink(), Prefix::U32Be, ..);
    let _shared = view.clone();
    timed(frames, || {
        for _ in 0..frames / puts {
            (0..puts).for_each(|_| to.put(black_box(&view).clone()).expect("it is put"));
            to.send().expect("it is sent");
        }
        frames as u64
    })
}

pub fn all(add: Add) {
    ours::all(add);
    theirs::all(add);
    for puts in [1, 4, 16] {
        add(format!("frames_out{puts}"), Box::new(move || frames_out(puts)));
    }
}
