// Drawn calls on a pool of buffers, and a line for each: what the call returned or with which text it panicked, and what
// it left. The file names no crate: tests/same compiles it with the original's names and with those of `iobufs`, and
// compares the lines. Several writable buffers aren't drained: what a drained one keeps differs (`differences`).

use bytes::{Buf as _, BufMut as _, Bytes, BytesMut};
use std::io::{IoSlice, Write};
use std::panic::{AssertUnwindSafe, catch_unwind};

/// Random numbers, the same for a seed.
struct Random(u64);

impl Random {
    /// A number below `n`.
    fn below(&mut self, n: usize) -> usize {
        self.0 ^= self.0 << 13;
        self.0 ^= self.0 >> 7;
        self.0 ^= self.0 << 17;
        (self.0 >> 11) as usize % n
    }
}

enum Value {
    View(IoBuf),
    List(IoBufs),
    Part(IoBufMut),
    Parts(IoBufsMut),
    Bytes(Bytes),
}

use Value::{List, Part, Parts, View};

/// What a call is given: a number, bytes, and places in the pool.
struct Given {
    n: usize,
    bytes: Vec<u8>,
    place: usize,
    other: usize,
}

impl Given {
    /// A number up to one more than `len`, which is `len` each fourth time.
    fn cut(&self, len: usize) -> usize {
        if self.n % 4 == 0 { len } else { self.n / 4 % (len + 2) }
    }
}

type Pool = Vec<Value>;

fn show(value: &Value) -> String {
    match value {
        View(it) => format!("view {:?}", it.as_ref()),
        List(it) => {
            let mut chunks = Vec::new();
            it.for_each_chunk(|chunk| chunks.push(chunk.to_vec()));
            format!("list {} {} {chunks:?}", it.chunk_count(), it.is_single())
        }
        Part(it) => format!("part {:?} {} {}", it.as_ref(), it.remaining_mut(), it.capacity()),
        Parts(it) => {
            format!("parts {} {} {} {:?} {}", it.len(), it.capacity(), it.remaining_mut(), it.chunk(), it.is_single())
        }
        Value::Bytes(it) => format!("bytes {it:?}"),
    }
}

fn view(given: Given) -> Value {
    let Given { n, bytes, .. } = given;
    View(match n % 5 {
        0 => IoBuf::from(bytes),
        1 => IoBuf::from(Bytes::from(bytes)),
        2 => IoBuf::copy_from_slice(&bytes),
        3 => IoBuf::from(BytesMut::from(&bytes[..])),
        _ => IoBuf::from(&*Box::leak(bytes.into_boxed_slice())),
    })
}

fn part(given: Given) -> Value {
    let mut part = IoBufMut::with_capacity(given.bytes.len() + given.n % 9);
    part.put_slice(&given.bytes);
    Part(part)
}

fn parts(given: Given) -> Value {
    let filled = &given.bytes[..given.bytes.len() % 5];
    let part = |i: usize| {
        let mut part = IoBufMut::with_capacity(filled.len() + i % 3);
        part.put_slice(filled);
        part
    };
    Parts((0..given.n % 7).map(part).collect::<Vec<_>>().into())
}

fn list(given: Given) -> Value {
    let of = |chunk: &[u8]| match given.n % 3 {
        0 => IoBuf::from(Bytes::copy_from_slice(chunk)),
        _ => IoBuf::from(chunk.to_vec()),
    };
    List(given.bytes.chunks(1 + given.n % 4).map(of).collect::<Vec<_>>().into())
}

fn built(given: Given) -> Value {
    let mut builder = Builder::new(64);
    for (i, chunk) in given.bytes.chunks(1 + given.n % 5).enumerate() {
        match (given.n >> (i % 8)) & 1 {
            0 => builder.put_slice(chunk),
            _ => builder.push(Bytes::copy_from_slice(chunk)),
        }
    }
    List(builder.finish())
}

fn make(pool: &mut Pool, given: Given) -> String {
    let value = match given.other % 6 {
        0 => view(given),
        1 => part(given),
        2 => parts(given),
        3 => list(given),
        4 => built(given),
        _ => Part(IoBufMut::from(given.bytes)),
    };
    push(pool, value)
}

/// Puts a value that was made into the pool.
fn push(pool: &mut Pool, value: Value) -> String {
    pool.push(value);
    show(&pool[pool.len() - 1])
}

fn split(pool: &mut Pool, given: Given) -> String {
    let front = match &mut pool[given.place] {
        View(it) => View(it.split_to(given.cut(it.len()))),
        List(it) => List(it.split_to(given.cut(it.len()))),
        _ => return String::new(),
    };
    push(pool, front) + &show(&pool[given.place])
}

fn slice(pool: &mut Pool, given: Given) -> String {
    let made = match &pool[given.place] {
        View(it) => View(it.slice(given.n % (it.len() + 2)..given.cut(it.len()))),
        List(it) => List(it.clone()),
        _ => return String::new(),
    };
    push(pool, made)
}

fn advance(pool: &mut Pool, given: Given) -> String {
    match &mut pool[given.place] {
        View(it) => it.advance(given.cut(it.len())),
        List(it) => it.advance(given.cut(it.len())),
        Part(it) => it.advance(given.cut(it.len())),
        Parts(it) if it.is_single() => it.advance(given.cut(it.len())),
        Value::Bytes(it) => it.advance(given.cut(it.len()).min(it.len())),
        Parts(_) => {}
    }
    show(&pool[given.place])
}

fn copy_to_bytes(pool: &mut Pool, given: Given) -> String {
    let bytes = match &mut pool[given.place] {
        View(it) => it.copy_to_bytes(given.cut(it.len())),
        List(it) => it.copy_to_bytes(given.cut(it.len())),
        Part(it) => it.copy_to_bytes(given.cut(it.len())),
        _ => Bytes::new(),
    };
    push(pool, Value::Bytes(bytes)) + &show(&pool[given.place])
}

fn copy_to_slice(pool: &mut Pool, given: Given) -> String {
    let mut to = vec![0; given.n % 9];
    let is_tried = given.other % 2 == 0;
    let tried = match &mut pool[given.place] {
        View(it) if is_tried => it.try_copy_to_slice(&mut to),
        Part(it) if is_tried => it.try_copy_to_slice(&mut to),
        View(it) => Ok(it.copy_to_slice(&mut to)),
        Part(it) => Ok(it.copy_to_slice(&mut to)),
        _ => Ok(()),
    };
    format!("{tried:?} {to:?} {}", show(&pool[given.place]))
}

/// Between views and buffers to write, one chunk and several.
fn turn(pool: &mut Pool, given: Given) -> String {
    let made = match pool.swap_remove(given.place) {
        View(it) => it.try_into_mut().map_or_else(View, Part),
        Part(it) => View(it.freeze()),
        Parts(it) => List(it.freeze()),
        List(it) => it.try_into_single().map_or_else(List, View),
        Value::Bytes(it) => View(IoBuf::from(it)),
    };
    push(pool, made)
}

fn convert(pool: &mut Pool, given: Given) -> String {
    let made = match pool.swap_remove(given.place) {
        // The capacity of a copy is open.
        View(it) if given.n % 2 == 0 => View(IoBufMut::from(it).freeze()),
        View(it) => Value::Bytes(it.into()),
        Part(it) if given.n % 2 == 0 => Parts(it.into()),
        Part(it) => List(it.into()),
        Parts(it) if given.n % 2 == 0 => it.try_into_single().map_or_else(Parts, Part),
        Parts(it) => List(it.into()),
        Value::Bytes(it) => View(IoBuf::from(it)),
        it => it,
    };
    push(pool, made)
}

fn coalesce(pool: &mut Pool, given: Given) -> String {
    let made = match pool.swap_remove(given.place) {
        List(it) => View(it.coalesce()),
        Parts(it) => Part(it.coalesce()),
        it => it,
    };
    push(pool, made)
}

fn join(pool: &mut Pool, given: Given) -> String {
    let chunk = match &pool[given.other] {
        View(it) => it.clone(),
        Value::Bytes(it) => IoBuf::from(it.clone()),
        _ => IoBuf::from(given.bytes),
    };
    match &mut pool[given.place] {
        List(it) if given.n % 2 == 0 => it.append(chunk),
        List(it) => it.prepend(chunk),
        _ => {}
    }
    show(&pool[given.place])
}

fn put(pool: &mut Pool, given: Given) -> String {
    match &mut pool[given.place] {
        Part(it) => it.put_slice(&given.bytes),
        Parts(it) => it.put_slice(&given.bytes),
        _ => {}
    }
    show(&pool[given.place])
}

fn number(pool: &mut Pool, given: Given) -> String {
    let n = given.n;
    match &mut pool[given.place] {
        Part(it) => match n % 5 {
            0 => it.put_u16(n as u16),
            1 => it.put_u64(n as u64),
            2 => it.put_bytes(n as u8, n % 6),
            3 => it.truncate(n % 6),
            _ => it.clear(),
        },
        Parts(it) => match n % 3 {
            0 => it.put_u16(n as u16),
            1 => it.put_u64(n as u64),
            _ => it.put_bytes(n as u8, n % 6),
        },
        // At the end of several chunks the original keeps the last one, emptied.
        List(it) if it.is_single() || it.len() > 2 => {
            return format!("{:?} {}", it.try_get_u16(), show(&pool[given.place]));
        }
        View(it) => return format!("{:?} {}", it.try_get_u32_le(), show(&pool[given.place])),
        _ => {}
    }
    show(&pool[given.place])
}

fn equal(pool: &mut Pool, given: Given) -> String {
    let are_equal = match (&pool[given.place], &pool[given.other]) {
        (View(a), View(b)) => a == b,
        (View(a), Value::Bytes(b)) => *a == b[..],
        (Part(a), Value::Bytes(b)) => *a == &b[..],
        _ => false,
    };
    are_equal.to_string()
}

fn vectored(pool: &mut Pool, given: Given) -> String {
    let mut slices = [IoSlice::new(&[]); 5];
    let to = &mut slices[..given.n % 6];
    let count = match &pool[given.place] {
        View(it) => it.chunks_vectored(to),
        List(it) => it.chunks_vectored(to),
        Part(it) => it.chunks_vectored(to),
        Parts(it) => it.chunks_vectored(to),
        Value::Bytes(_) => 0,
    };
    format!("{:?}", slices[..count].iter().map(|it| it.to_vec()).collect::<Vec<_>>())
}

fn overwrite(pool: &mut Pool, given: Given) -> String {
    match &mut pool[given.place] {
        Parts(it) => {
            let len = it.len() + usize::from(given.n % 11 == 0);
            it.copy_from_slice(&(0..len).map(|i| (given.n + i) as u8).collect::<Vec<_>>());
        }
        Part(it) if it.len() > 0 => {
            let i = given.n % it.len();
            it.as_mut()[i] ^= 1;
        }
        _ => {}
    }
    show(&pool[given.place])
}

fn to_vec(pool: &mut Pool, given: Given) -> String {
    match &pool[given.place] {
        View(it) => format!("{:?}", Vec::from(it.clone())),
        _ => String::new(),
    }
}

/// Writes into the spare capacity.
fn fill(pool: &mut Pool, given: Given) -> String {
    macro_rules! fill {
        ($it:ident) => {{
            let n = given.n % ($it.chunk_mut().len() + 1);
            (0..n).for_each(|i| $it.chunk_mut().write_byte(i, i as u8));
            // SAFETY: these bytes were written.
            unsafe { $it.advance_mut(n) }
        }};
    }
    match &mut pool[given.place] {
        Part(it) => fill!(it),
        Parts(it) => fill!(it),
        _ => {}
    }
    show(&pool[given.place])
}

/// Puts another buffer, which leaves the pool.
fn put_other(pool: &mut Pool, given: Given) -> String {
    if pool.len() == 1 {
        return String::new();
    }
    let source = pool.swap_remove(given.other);
    let place = given.place % pool.len();
    match (&mut pool[place], source) {
        (Part(it), List(source)) => it.put(source),
        (Part(it), View(source)) => it.put(source),
        (Parts(it), List(source)) => it.put(source),
        (Parts(it), Part(source)) => it.put(source),
        _ => {}
    }
    show(&pool[place])
}

/// The calls, the likelier ones more than once.
const CALLS: [(&str, fn(&mut Pool, Given) -> String); 30] = [
    ("make", make),
    ("make", make),
    ("make", make),
    ("make", make),
    ("make", make),
    ("make", make),
    ("split", split),
    ("split", split),
    ("slice", slice),
    ("advance", advance),
    ("advance", advance),
    ("copy_to_bytes", copy_to_bytes),
    ("copy_to_slice", copy_to_slice),
    ("copy_to_slice", copy_to_slice),
    ("turn", turn),
    ("turn", turn),
    ("to_vec", to_vec),
    ("join", join),
    ("join", join),
    ("coalesce", coalesce),
    ("put", put),
    ("put", put),
    ("number", number),
    ("convert", convert),
    ("convert", convert),
    ("equal", equal),
    ("vectored", vectored),
    ("overwrite", overwrite),
    ("fill", fill),
    ("put_other", put_other),
];

/// The text of a panic. Those of `advance` past the end differ by design (`differences`).
fn text(why: Box<dyn std::any::Any + Send>) -> String {
    let text = why.downcast_ref::<String>().cloned().or(why.downcast_ref::<&str>().map(|it| it.to_string()));
    let text = text.unwrap_or_default();
    let is_past = text.contains("cannot advance past") || text.contains("advance out of bounds");
    if is_past { "past the end".into() } else { text.replace('\n', " ") }
}

/// The lines of a seed.
fn session(seed: u64, calls: usize, to: &mut impl Write) {
    let mut random = Random(seed.wrapping_mul(0x9E37_79B9_7F4A_7C15) | 1);
    let (mut pool, mut byte) = (Vec::new(), 0u8);
    for _ in 0..calls {
        if pool.len() > 14 {
            let place = random.below(pool.len());
            let given = Given { n: 0, bytes: Vec::new(), place, other: 0 };
            writeln!(to, "{seed} turn {}", turn(&mut pool, given)).unwrap();
            pool.pop();
        }
        let (name, call) = if pool.is_empty() { CALLS[0] } else { CALLS[random.below(CALLS.len())] };
        let len = [0, 1, 2, 3, 5, 8, 40][random.below(7)];
        let mut bytes = Vec::with_capacity(len + [0, 3, 64][random.below(3)]);
        bytes.extend((0..len).map(|_| {
            byte = byte.wrapping_add(1);
            byte
        }));
        let [place, other] = [(); 2].map(|()| random.below(pool.len().max(1)));
        let other = if name == "make" { random.below(6) } else { other };
        let given = Given { n: random.below(1000), bytes, place, other };
        let answer = catch_unwind(AssertUnwindSafe(|| call(&mut pool, given))).unwrap_or_else(|why| {
            pool.clear();
            format!("panics: {}", text(why))
        });
        writeln!(to, "{seed} {name} {answer}").unwrap();
    }
}

/// Prints the lines of the seeds from the first argument up to the second one.
fn main() {
    std::panic::set_hook(Box::new(|_| {}));
    let mut seeds = std::env::args().skip(1).map(|it| it.parse::<u64>().unwrap());
    let (from, to) = (seeds.next().unwrap(), seeds.next().unwrap());
    let mut out = std::io::BufWriter::new(std::io::stdout().lock());
    (from..to).for_each(|seed| session(seed, 2000, &mut out));
}
