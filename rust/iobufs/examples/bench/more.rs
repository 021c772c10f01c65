//! Workloads that run if they are named: of Rattle's table, of the tables by size, and of a `VecDeque<Bytes>`.
use super::*;
use ::bytes::Bytes;
use std::collections::VecDeque;

pub fn all(add: Add) {
    add("clone_drop_bytes".into(), Box::new(|| clone_drop(IoBuf::from(Bytes::from(pattern(1024))))));
    add("take_view_1k_1m".into(), Box::new(take));
    for n in [1, 2, 3, 4, 64, 4096, 65536] {
        super::texts(n, add);
        super::lists(n, add);
        texts(n, add);
        lists(n, add);
    }
    for n in [4, 64, 1024, 16384, 65537] {
        let (k, turns) = (copies(n), (256 * n / 1000).min(200));
        let split = move || of_each(batch(k, || text(n)), turns, |text| mark(text.split_to(1000).chunk()));
        add(format!("text{n}_split1000_few"), Box::new(split));
        let split = move || of_each(batch(k, || deque(n)), turns, |deque| mark(&split_to(deque, 1000)[0]));
        add(format!("deque{n}_split1000_few"), Box::new(split));
        add(format!("text{n}_locate"), Box::new(move || locate(n, &text(n), IoBufs::locate)));
        add(format!("deque{n}_locate"), Box::new(move || locate(n, &deque(n), place)));
    }
}

fn texts(n: usize, add: Add) {
    let all = move || batch(copies(n), || text(n));
    add(format!("text{n}_take100"), Box::new(move || take100(n, all())));
    add(format!("text{n}_drain"), Box::new(move || drain(n, all())));
    let hold = move || {
        let view = native(256);
        hold(n, || view.clone())
    };
    add(format!("text{n}_hold"), Box::new(hold));
}

fn lists(n: usize, add: Add) {
    let mut add = |name: &str, run: Box<dyn Fn() -> Run>| add(format!("parts{n}_{name}"), run);
    let all = move |len| batch(copies(n), || list(n, len));
    add("put96", Box::new(move || parts_put(n, 96)));
    add("advance100", Box::new(move || advance(n, all(256))));
    add("take100", Box::new(move || take100(n, all(256))));
    add("take300", Box::new(move || of_each(all(256), 256 * n / 300, |list| mark(&list.copy_to_bytes(300)))));
    add("drain", Box::new(move || drain(n, all(8))));
    add("overwrite", Box::new(move || overwrite(n)));
    add("hold", Box::new(move || hold(n, || IoBufMut::with_capacity(256))));
}

fn take() -> Run {
    let whole = native(MIB);
    of_each(vec![whole.clone()], 1024, |view| mark(&view.copy_to_bytes(1024)))
}

fn take100<T: bytes::Buf>(n: usize, values: Vec<T>) -> Run {
    of_each(values, 256 * n / 100, |buf| mark(&buf.copy_to_bytes(100)))
}

/// Reads chunk by chunk, to the end.
fn drain<T: bytes::Buf>(n: usize, values: Vec<T>) -> Run {
    let read = |buf: &mut T| {
        let chunk = buf.chunk();
        let (len, seen) = (chunk.len(), mark(chunk));
        buf.advance(len);
        seen
    };
    of_each(values, n, read)
}

/// Keeps values: for the bytes that each allocates.
fn hold<T>(n: usize, make: impl Fn() -> T) -> Run {
    let mut kept = Vec::new();
    let (ns, operations, _) = timed(n, || {
        kept = batch(n, make);
        0
    });
    (ns, operations, kept.len() as u64)
}

fn overwrite(n: usize) -> Run {
    let (source, mut list, turns) = (pattern(256 * n), list(n, 256), copies(n));
    timed(turns, || {
        (0..turns).for_each(|_| list.copy_from_slice(black_box(&source)));
        mark(list.chunk())
    })
}

/// Finds the chunks of 1,000 offsets.
fn locate<T>(n: usize, all: &T, place: impl Fn(&T, usize) -> Option<(usize, usize)>) -> Run {
    let offsets = (0..1000).map(|i| i * 7919 * 257 % (256 * n));
    timed(1000, || offsets.map(|at| place(all, at).map_or(0, |(index, offset)| (index + offset) as u64)).sum())
}

fn deque(n: usize) -> VecDeque<Bytes> {
    let whole = Bytes::from(pattern(256 * n));
    (0..n).map(|i| whole.slice(256 * i..256 * (i + 1))).collect()
}

/// The index of the chunk that has this offset, and the offset there.
fn place(deque: &VecDeque<Bytes>, mut at: usize) -> Option<(usize, usize)> {
    let mut index = 0;
    loop {
        let len = deque.get(index)?.len();
        if at < len {
            return Some((index, at));
        }
        at -= len;
        index += 1;
    }
}

/// Takes the first `at` bytes, chunk by chunk.
fn split_to(deque: &mut VecDeque<Bytes>, mut at: usize) -> VecDeque<Bytes> {
    let mut front = VecDeque::new();
    while at > 0 {
        let Some(mut chunk) = deque.pop_front() else { break };
        if at < chunk.len() {
            front.push_back(chunk.split_to(at));
            deque.push_front(chunk);
            break;
        }
        at -= chunk.len();
        front.push_back(chunk);
    }
    front
}
