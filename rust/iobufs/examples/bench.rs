//! bench [--sums] [NAME..]
//!
//! The workloads of one buffer, of an `IoBufs`, of an `IoBufsMut` and of the codec, and everyday calls, with the names
//! of those in `crates/iobufs_bench`. Without names all run but those of `more` and `wire`. `bench/original` in the
//! repository compiles this text over the original.
//! Prints the nanoseconds an operation of each, or with `--sums` what one run of each saw, and its operations.
#![allow(unexpected_cfgs)]
use bytes::BufMut as _;
// The crate has calls of its own: with `Buf` in scope too, a call by `&mut` would be that of `impl Buf for &mut T`.
#[cfg(feature = "original")]
use iobufs::calls::*;
use iobufs::codec::{Decode as _, Encode as _};
use iobufs::{Builder, IoBuf, IoBufMut, IoBufs, IoBufsMut};
use std::env;
use std::hint::black_box;
use std::time::Instant;

#[cfg(not(feature = "original"))]
use iobufs::ReadLength as _;

#[cfg(not(feature = "original"))]
#[path = "bench/beside.rs"]
mod beside;
#[path = "bench/everyday.rs"]
mod everyday;
#[path = "bench/more.rs"]
mod more;
#[cfg(feature = "original")]
#[path = "bench/wire.rs"]
mod wire;

const MIB: usize = 1 << 20;

/// Nanoseconds, operations, sum.
type Run = (u64, usize, u64);

/// Takes a workload, by its name.
type Add<'a> = &'a mut dyn FnMut(String, Box<dyn Fn() -> Run>);

/// A small value of the codec.
struct Entry {
    number: u32,
    body: IoBuf,
}
iobufs::fields! { Entry { number: u32, body: IoBuf = ..=64 } }

fn pattern(n: usize) -> Vec<u8> {
    (0..n).map(|i| (31 * i + 7) as u8).collect()
}

fn filled(n: usize) -> IoBufMut {
    let mut part = IoBufMut::with_capacity(n);
    part.put_slice(&pattern(n));
    part
}

fn native(n: usize) -> IoBuf {
    filled(n).freeze()
}

fn mark(bytes: &[u8]) -> u64 {
    bytes.len() as u64 + bytes.first().map_or(0, |byte| u64::from(*byte))
}

fn views(n: usize) -> Vec<IoBuf> {
    let whole = native(256 * n);
    (0..n).map(|i| whole.slice(256 * i..256 * (i + 1))).collect()
}

fn text(n: usize) -> IoBufs {
    views(n).into()
}

/// n buffers, of which so many bytes each are filled.
fn list(n: usize, len: usize) -> IoBufsMut {
    let part = |_| {
        let mut part = IoBufMut::with_capacity(256);
        part.put_slice(&pattern(len));
        part
    };
    (0..n).map(part).collect()
}

/// Values that are made before the clock starts.
fn batch<T>(count: usize, make: impl Fn() -> T) -> Vec<T> {
    (0..count).map(|_| make()).collect()
}

/// How many values of n chunks or buffers a run has.
fn copies(n: usize) -> usize {
    (4096 / n).clamp(2, 512)
}

fn timed(operations: usize, call: impl FnOnce() -> u64) -> Run {
    let began = Instant::now();
    let sum = black_box(call());
    (began.elapsed().as_nanos() as u64, operations, sum)
}

/// So many calls for each of these values.
fn of_each<T>(mut values: Vec<T>, turns: usize, call: impl Fn(&mut T) -> u64) -> Run {
    timed(values.len() * turns, || values.iter_mut().map(|it| (0..turns).map(|_| call(it)).sum::<u64>()).sum())
}

/// Makes a value of each of these, which are seen when the clock has stopped.
fn made<T, U>(values: Vec<T>, make: impl Fn(T) -> U, see: impl Fn(&U) -> u64) -> Run {
    let mut kept = Vec::with_capacity(values.len());
    let (ns, operations, _) = timed(values.len(), || {
        kept.extend(values.into_iter().map(make));
        0
    });
    (ns, operations, kept.iter().map(see).sum())
}

fn put64() -> Run {
    let piece = pattern(64);
    timed(MIB / 64, || {
        let mut part = IoBufMut::with_capacity(MIB);
        for _ in 0..MIB / 64 {
            part.put_slice(black_box(&piece));
        }
        mark(part.freeze().chunk())
    })
}

fn put_u8() -> Run {
    timed(65536, || {
        let mut part = IoBufMut::with_capacity(65536);
        for i in 0..65536 {
            part.put_u8(black_box(i) as u8);
        }
        mark(part.freeze().chunk())
    })
}

fn split_drop() -> Run {
    let whole = native(MIB);
    let mut views: Vec<IoBuf> = (0..8).map(|_| whole.clone()).collect();
    timed(8 * 1024, || {
        views.iter_mut().map(|view| (0..1024).map(|_| mark(view.split_to(1024).chunk())).sum::<u64>()).sum()
    })
}

fn split_keep() -> Run {
    let whole = native(MIB);
    let mut views: Vec<IoBuf> = (0..8).map(|_| whole.clone()).collect();
    let mut frames = Vec::with_capacity(8 * 1024);
    let (ns, operations, _) = timed(8 * 1024, || {
        for view in &mut views {
            frames.extend((0..1024).map(|_| view.split_to(1024)));
        }
        0
    });
    (ns, operations, frames.iter().map(|frame| mark(frame.chunk())).sum())
}

fn clone_drop(view: IoBuf) -> Run {
    let _shared = view.clone();
    timed(10_000, || (0..10_000).map(|_| black_box(&view).clone().len() as u64).sum())
}

fn new_share_drop() -> Run {
    let piece = pattern(64);
    timed(1000, || {
        let turn = |_| {
            let mut part = IoBufMut::with_capacity(64);
            part.put_slice(black_box(&piece));
            let view = part.freeze();
            mark(black_box(&view).clone().chunk())
        };
        (0..1000).map(turn).sum()
    })
}

fn slice_drop() -> Run {
    let (view, n) = (native(1024), 10_000);
    let _shared = view.clone();
    timed(n, || (0..n).map(|i| mark(black_box(&view).slice(i % 960..i % 960 + 64).chunk())).sum())
}

fn slice_of_slice() -> Run {
    let whole = native(1064);
    let mut view = whole.clone();
    let slice = |_| {
        view = view.slice(1..);
        mark(view.chunk())
    };
    timed(1000, || (0..1000).map(slice).sum())
}

fn read_bytewise() -> Run {
    let whole = native(MIB);
    let mut view = whole.clone();
    timed(MIB, || {
        let mut sum = 0;
        while view.has_remaining() {
            sum += u64::from(view.chunk()[0]);
            view.advance(1);
        }
        sum
    })
}

fn read64() -> Run {
    let (whole, mut room) = (native(MIB), [0; 64]);
    let mut view = whole.clone();
    let mut read = |_| {
        view.copy_to_slice(&mut room);
        mark(black_box(&room))
    };
    timed(MIB / 64, || (0..MIB / 64).map(&mut read).sum())
}

fn recover() -> Run {
    let (piece, mut view) = (pattern(64), native(4096));
    timed(10_000, || {
        let mut sum = 0;
        for _ in 0..10_000 {
            let mut part = view.try_into_mut().unwrap();
            part.clear();
            part.put_slice(black_box(&piece));
            view = part.freeze();
            sum += mark(view.chunk());
        }
        sum
    })
}

fn joined(n: usize, join: impl Fn(&mut IoBufs, IoBuf)) -> Run {
    let lists = batch(copies(n), || views(n));
    let mut texts = Vec::with_capacity(lists.len());
    let (ns, operations, _) = timed(n * lists.len(), || {
        for list in lists {
            let mut text = IoBufs::default();
            for view in list {
                join(&mut text, view);
            }
            texts.push(text);
        }
        0
    });
    (ns, operations, texts.iter().map(|text| text.len() as u64).sum())
}

/// Advances by 100 bytes as often as it can, and then by the rest.
fn advance<T: bytes::Buf>(n: usize, mut values: Vec<T>) -> Run {
    let turns = 256 * n / 100;
    timed(values.len() * (turns + 1), || {
        let mut sum = 0;
        for buf in &mut values {
            for _ in 0..turns {
                buf.advance(100);
                sum += mark(buf.chunk());
            }
            buf.advance(256 * n - 100 * turns);
        }
        sum
    })
}

/// A queue of n chunks: each turn appends one, and `take` takes one off.
fn queue(n: usize, take: impl Fn(&mut IoBufs) -> u64) -> Run {
    let (view, mut text, turns) = (native(256), text(n), 10_000);
    let turn = |_| {
        text.append(black_box(&view).clone());
        take(&mut text)
    };
    timed(turns, || (0..turns).map(turn).sum())
}

fn text_len(n: usize) -> Run {
    let (text, turns) = (text(n), (100_000 / n).max(64));
    timed(turns, || (0..turns).map(|_| black_box(&text).len() as u64).sum())
}

fn split_mid(n: usize) -> Run {
    let mut texts = batch(copies(n), || text(n));
    let mut fronts = Vec::with_capacity(texts.len());
    let (ns, operations, _) = timed(texts.len(), || {
        fronts.extend(texts.iter_mut().map(|text| text.split_to(128 * n + 1)));
        0
    });
    let seen = |text: &IoBufs| text.len() as u64 + mark(text.chunk());
    (ns, operations, fronts.iter().chain(&texts).map(seen).sum())
}

fn text_bytewise(n: usize) -> Run {
    let mut texts = batch((copies(n) / 16).max(1), || text(n));
    timed(256 * n * texts.len(), || {
        let mut sum = 0;
        for text in &mut texts {
            while text.has_remaining() {
                sum += u64::from(text.chunk()[0]);
                text.advance(1);
            }
        }
        sum
    })
}

fn coalesced(n: usize) -> Run {
    made(batch(copies(n), || text(n)), IoBufs::coalesce, |view| mark(view.chunk()))
}

fn text_clone_drop(n: usize) -> Run {
    let text = text(n);
    timed(copies(n), || (0..copies(n)).map(|_| mark(black_box(&text).clone().chunk())).sum())
}

fn walk(n: usize) -> Run {
    let text = text(n);
    timed(n * copies(n), || {
        let mut sum = 0;
        for _ in 0..copies(n) {
            black_box(&text).for_each_chunk(|chunk| sum += mark(chunk));
        }
        sum
    })
}

fn encode_view() -> Run {
    let view = native(64);
    let _shared = view.clone();
    let encode = |_| {
        let text = black_box(&view).encode_iobufs();
        text.chunk_count() as u64 + mark(text.chunk())
    };
    timed(1000, || (0..1000).map(encode).sum())
}

fn build_records() -> Run {
    let view = native(64);
    let _shared = view.clone();
    let build = |_| {
        let mut builder = Builder::new(64 * 6);
        for i in 0..64 {
            builder.put_u16(i);
            builder.push(black_box(&view).clone());
            builder.put_u32(7);
        }
        let text = builder.finish();
        text.chunk_count() as u64 + mark(text.chunk())
    };
    timed(64 * 50, || (0..50).map(build).sum())
}

/// Views of `piece` bytes each, the last of the rest.
fn cut(bytes: Vec<u8>, piece: usize) -> impl Iterator<Item = IoBuf> {
    let whole = IoBuf::from(bytes);
    (0..whole.len()).step_by(piece).map(move |at| whole.slice(at..whole.len().min(at + piece)))
}

/// Frames of `len` bytes, each after its length, in chunks of `piece` bytes.
fn frames(number: usize, len: usize, piece: usize) -> IoBufs {
    let frame = native(len).encode_iobufs().coalesce();
    cut(frame.as_ref().repeat(number), piece).collect()
}

fn decode(text: &mut IoBufs) -> u64 {
    let mut sum = 0;
    while text.has_remaining() {
        sum += mark(text.read_view(..=MIB).expect("a whole frame").as_ref());
    }
    sum
}

/// The length, and then the bytes.
fn take_frames(text: &mut IoBufs) -> u64 {
    let mut sum = 0;
    while text.has_remaining() {
        let len = text.read_length(..=MIB).expect("a length");
        sum += mark(text.take_owned::<IoBuf>(len).as_ref());
    }
    sum
}

fn decoded(number: usize, len: usize, piece: usize, read: fn(&mut IoBufs) -> u64) -> Run {
    let source = frames(number, len, piece);
    let mut texts = batch(4, || source.clone());
    timed(4 * number, || texts.iter_mut().map(read).sum())
}

fn parts_put(n: usize, len: usize) -> Run {
    let piece = pattern(len);
    let mut rows = batch(copies(n), || list(n, 0));
    let turns = 256 * n / len;
    let (ns, operations, _) = timed(rows.len() * turns, || {
        for row in &mut rows {
            (0..turns).for_each(|_| row.put_slice(black_box(&piece)));
        }
        0
    });
    (ns, operations, rows.iter().map(|row| row.len() as u64).sum())
}

/// Puts 64 bytes at a time into the chunks that `chunk_mut` gives.
fn parts_chunk_mut(n: usize) -> Run {
    let mut row = list(n, 0);
    timed(4 * n, || {
        while row.has_remaining_mut() {
            row.chunk_mut()[..64].copy_from_slice(black_box(&[7; 64]));
            // SAFETY: 64 bytes are written.
            unsafe { row.advance_mut(64) };
        }
        row.len() as u64
    })
}

fn parts_coalesce(n: usize, len: usize) -> Run {
    made(batch(copies(n), || list(n, len)), IoBufsMut::coalesce, |part| mark(part.as_ref()))
}

/// The workloads of `IoBufs` of n chunks.
fn texts(n: usize, add: Add) {
    let mut add = |name: &str, run: Box<dyn Fn() -> Run>| add(format!("text{n}_{name}"), run);
    let all = move || batch(copies(n), || text(n));
    add("append", Box::new(move || joined(n, IoBufs::append)));
    add("prepend", Box::new(move || joined(n, IoBufs::prepend)));
    add("advance100", Box::new(move || advance(n, all())));
    add("take300", Box::new(move || of_each(all(), 256 * n / 300, |text| mark(text.take_view(300).chunk()))));
    add("split1000", Box::new(move || of_each(all(), 256 * n / 1000, |text| mark(text.split_to(1000).chunk()))));
    add("len", Box::new(move || text_len(n)));
    add("split_mid", Box::new(move || split_mid(n)));
    add("coalesce", Box::new(move || coalesced(n)));
    add("clone_drop", Box::new(move || text_clone_drop(n)));
    add("walk", Box::new(move || walk(n)));
    add("bytewise", Box::new(move || text_bytewise(n)));
}

/// The workloads of an `IoBufsMut` of n buffers.
fn lists(n: usize, add: Add) {
    let mut add = |name: &str, run: Box<dyn Fn() -> Run>| add(format!("parts{n}_{name}"), run);
    add("put3", Box::new(move || parts_put(n, 3)));
    add("put64", Box::new(move || parts_put(n, 64)));
    add("coalesce", Box::new(move || parts_coalesce(n, 8)));
    add("coalesce_full", Box::new(move || parts_coalesce(n, 256)));
    let seen = |text: &IoBufs| text.len() as u64 + mark(text.chunk());
    add("freeze", Box::new(move || made(batch(copies(n), || list(n, 256)), IoBufsMut::freeze, seen)));
}

fn usual(add: Add) {
    add("put64_1m_freeze".into(), Box::new(put64));
    add("put_u8_64k_freeze".into(), Box::new(put_u8));
    add("split_1m_1k_drop".into(), Box::new(split_drop));
    add("split_1m_1k_keep".into(), Box::new(split_keep));
    add("clone_drop_native".into(), Box::new(|| clone_drop(native(1024))));
    add("clone_drop_static".into(), Box::new(|| clone_drop(IoBuf::from(b"abcdefghijklmnopqrstuvwxyz"))));
    add("new_share_drop_64".into(), Box::new(new_share_drop));
    add("slice_drop_64".into(), Box::new(slice_drop));
    add("slice_of_slice".into(), Box::new(slice_of_slice));
    add("read_view_bytewise_1m".into(), Box::new(read_bytewise));
    add("read_view_64_1m".into(), Box::new(read64));
    add("recover_put64_freeze".into(), Box::new(recover));
    add("encode_view64".into(), Box::new(encode_view));
    add("build_records64".into(), Box::new(build_records));
    for (name, number, len, piece) in [
        ("decode64_one_chunk", 1024, 64, 1 << 30),
        ("decode64_chunks1024", 1024, 64, 1024),
        ("decode64_chunks48", 1024, 64, 48),
        ("decode16k_chunks1024", 16, 16384, 1024),
    ] {
        add(name.into(), Box::new(move || decoded(number, len, piece, decode)));
        add(format!("{name}_take"), Box::new(move || decoded(number, len, piece, take_frames)));
    }
    everyday::all(add);
    #[cfg(not(feature = "original"))]
    beside::all(add);
    add("text1_coalesce".into(), Box::new(|| coalesced(1)));
    for n in [1, 2, 8] {
        add(format!("text{n}_queue_split"), Box::new(move || queue(n, |text| mark(text.split_to(256).chunk()))));
        let advance = |text: &mut IoBufs| {
            text.advance(256);
            mark(text.chunk())
        };
        add(format!("text{n}_queue_advance"), Box::new(move || queue(n, advance)));
    }
    for n in [4, 64, 4096] {
        texts(n, add);
    }
    for n in [2, 3, 64] {
        lists(n, add);
    }
    add("parts4096_put64".into(), Box::new(|| parts_put(4096, 64)));
    add("parts4096_chunk_mut".into(), Box::new(|| parts_chunk_mut(4096)));
}

/// The nanoseconds an operation, over as many runs as make 8 milliseconds of timed work, or 60 in all.
fn repetition(run: &dyn Fn() -> Run) -> f64 {
    let (mut nanos, mut operations, began) = (0, 0, Instant::now());
    while nanos < 8_000_000 && began.elapsed().as_millis() < 60 {
        let (spent, done, _) = run();
        (nanos, operations) = (nanos + spent, operations + done);
    }
    nanos as f64 / operations as f64
}

fn main() {
    let (flags, mut names): (Vec<String>, Vec<String>) = env::args().skip(1).partition(|word| word == "--sums");
    let mut all: Vec<(String, Box<dyn Fn() -> Run>)> = Vec::new();
    usual(&mut |name, run| all.push((name, run)));
    if names.is_empty() {
        names = all.iter().map(|it| it.0.clone()).collect();
    }
    more::all(&mut |name, run| all.push((name, run)));
    #[cfg(feature = "original")]
    wire::all(&mut |name, run| all.push((name, run)));
    for name in names {
        let Some((_, run)) = all.iter().find(|it| it.0 == name) else { continue };
        if flags.is_empty() {
            let least = (0..5).map(|_| repetition(run)).fold(f64::INFINITY, f64::min);
            println!("{name} {least:.3}");
        } else {
            let (_, operations, sum) = run();
            println!("{name} {sum} {operations}");
        }
    }
}
