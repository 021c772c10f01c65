//! How much memory readers and writers of frames hold. `malloc` is counted, which Rust's collections call.
use bytes::BytesMut;
use iobufs::{Error, FrameCodec, FrameReader, FrameWriter, Frames, IoBuf, IoBufs, Layout, Prefix};
use std::cell::Cell;
use std::ffi::c_void;
use std::io::{self, Read};

thread_local! {
    /// The bytes that this thread holds, the most that it held since it was asked last, and how often it allocated.
    static HELD: Cell<isize> = const { Cell::new(0) };
    static MOST: Cell<isize> = const { Cell::new(0) };
    static CALLS: Cell<usize> = const { Cell::new(0) };
}

unsafe extern "C" {
    fn __libc_malloc(n: usize) -> *mut c_void;
    fn __libc_calloc(n: usize, size: usize) -> *mut c_void;
    fn __libc_realloc(old: *mut c_void, n: usize) -> *mut c_void;
    fn __libc_free(old: *mut c_void);
    fn malloc_usable_size(at: *mut c_void) -> usize;
    fn mmap(at: *mut c_void, n: usize, protection: i32, flags: i32, file: i32, offset: i64) -> *mut c_void;
}

fn count(before: isize, at: *mut c_void) -> *mut c_void {
    // SAFETY: `at` is null, or was just allocated.
    HELD.set(HELD.get() - before + unsafe { malloc_usable_size(at) } as isize);
    MOST.set(MOST.get().max(HELD.get()));
    CALLS.set(CALLS.get() + 1);
    at
}

// SAFETY, of each: it hands the call on to the C library's own.
#[unsafe(no_mangle)]
unsafe extern "C" fn malloc(n: usize) -> *mut c_void {
    count(0, unsafe { __libc_malloc(n) })
}

#[unsafe(no_mangle)]
unsafe extern "C" fn calloc(n: usize, size: usize) -> *mut c_void {
    count(0, unsafe { __libc_calloc(n, size) })
}

#[unsafe(no_mangle)]
unsafe extern "C" fn realloc(old: *mut c_void, n: usize) -> *mut c_void {
    let before = unsafe { malloc_usable_size(old) } as isize;
    count(before, unsafe { __libc_realloc(old, n) })
}

#[unsafe(no_mangle)]
unsafe extern "C" fn free(old: *mut c_void) {
    HELD.set(HELD.get() - unsafe { malloc_usable_size(old) } as isize);
    unsafe { __libc_free(old) }
}

/// Frames of one body, read at most `n` bytes at a time. Each read compares the memory that was held since the last one
/// with the bytes that were held after that.
struct Source<'a> {
    frame: Vec<u8>,
    at: usize,
    count: usize,
    most: usize,
    /// How many bytes were read, how many of those are in bodies that were dropped or in lengths, and how many were
    /// held.
    came: usize,
    gone: &'a Cell<usize>,
    held: usize,
    memory: isize,
    name: &'static str,
}

/// The largest block, unless a single frame needs more.
const BLOCK: usize = 1 << 16;

impl Read for Source<'_> {
    fn read(&mut self, dst: &mut [u8]) -> io::Result<usize> {
        let (bytes, memory) = (self.held, MOST.replace(HELD.get()) - self.memory);
        assert!(memory as usize <= 2 * bytes + 2 * BLOCK, "{}: {memory} for {bytes} bytes", self.name);
        let mut n = 0;
        while self.count > 0 && n < dst.len().min(self.most) {
            let some = (dst.len().min(self.most) - n).min(self.frame.len() - self.at);
            dst[n..n + some].copy_from_slice(&self.frame[self.at..self.at + some]);
            self.at = (self.at + some) % self.frame.len();
            self.count -= usize::from(self.at == 0);
            n += some;
        }
        self.came += n;
        self.held = self.came - self.gone.get();
        Ok(n)
    }
}

/// A name, how many frames there are, how many bytes a body has, how many bytes are read at a time, and whether bodies
/// are kept.
const READS: [(&str, usize, usize, usize, bool); 8] = [
    ("a byte at a time", 20_000, 64, 1, false),
    ("20,000 bytes, a byte at a time", 1, 20_000, 1, true),
    ("short bodies that are kept", 30_000, 3, 1, true),
    ("short bodies that come together", 60_000, 3, usize::MAX, true),
    ("a mebibyte byte by byte", 1, 1 << 20, 1, true),
    ("mebibytes that are dropped", 5, 1 << 20, 4096, false),
    ("bodies above half a block", 60, 33_000, usize::MAX, true),
    ("bodies above a block", 30, 70_000, 1000, true),
];

#[test]
fn memory_of_readers() {
    for (name, count, len, most, is_kept) in READS {
        let mut to = FrameWriter::new(Vec::new(), ..);
        to.put(vec![7; len]).unwrap();
        to.send().unwrap();
        let (frame, mut kept, gone) = (to.into_inner(), Vec::with_capacity(count), Cell::new(0));
        let size = frame.len();
        MOST.set(HELD.get());
        let source = Source { frame, at: 0, count, most, came: 0, gone: &gone, held: 0, memory: HELD.get(), name };
        let mut from = FrameReader::new(source, ..);
        while let Some(body) = from.next().unwrap() {
            assert!(body.len() == len && body[0] == 7 && body[len - 1] == 7);
            gone.set(gone.get() + if is_kept { size - len } else { size });
            kept.extend(Some(body).filter(|_| is_kept));
        }
        assert_eq!((from.get_ref().came, kept.len()), (count * size, if is_kept { count } else { 0 }), "{name}");
    }
}

/// What a block has besides its bytes: its record, and what the C library rounds a large allocation up by.
const RECORD: usize = 4096 + 128;

/// A number below `n`, drawn by xorshift.
fn drawn(state: &mut u64, n: usize) -> usize {
    *state ^= *state << 13;
    *state ^= *state >> 7;
    *state ^= *state << 17;
    (*state % n as u64) as usize
}

/// Gives at most `1` bytes a read.
struct Few<'a>(&'a [u8], usize);

impl Read for Few<'_> {
    fn read(&mut self, dst: &mut [u8]) -> io::Result<usize> {
        let n = dst.len().min(self.1);
        self.0.read(&mut dst[..n])
    }
}

/// Of frames of drawn sizes, large and small, each body is kept alone: it keeps at most its own frame or a block.
#[test]
fn memory_of_one_body() {
    let mut state = 0x9e37_79b9_7f4a_7c15;
    for round in 0..40 {
        let mut to = FrameWriter::new(Vec::new(), ..);
        let sizes: Vec<usize> = (0..2 + drawn(&mut state, 5))
            .map(|_| {
                let most = [20, 300, 70_000, 3_000_000][drawn(&mut state, 4)];
                drawn(&mut state, most)
            })
            .collect();
        sizes.iter().for_each(|len| to.put(vec![7; *len]).unwrap());
        to.send().unwrap();
        let (wire, most) = (to.into_inner(), [1000, 60_000, usize::MAX][round % 3]);
        for (kept, len) in sizes.iter().enumerate() {
            let before = HELD.get();
            let mut from = FrameReader::new(Few(&wire, most), ..);
            let body = (0..=kept).map(|_| from.next().unwrap().unwrap()).last().unwrap();
            drop(from);
            let held = (HELD.get() - before) as usize;
            assert!(held <= BLOCK.max(len + 4) + RECORD, "{held} bytes for {len}: {kept} of {sizes:?}");
            assert_eq!(body.len(), *len);
        }
    }
}

/// How many bytes come of a frame whose length says a gibibyte, and the largest block for them.
const PROMISES: [(usize, usize); 6] =
    [(5, 4_096), (4_095, 4_096), (4_096, 8_192), (16_383, 16_384), (16_384, BLOCK), (60_000, BLOCK)];

/// A length gets a larger block only from 16 KiB on.
#[test]
fn memory_of_promises() {
    for (sent, block) in PROMISES {
        let mut wire = (1_u32 << 30).to_be_bytes().to_vec();
        wire.resize(sent, 7);
        let before = HELD.get();
        let mut from = FrameReader::with_prefix(&wire[..], Prefix::U32Be, ..);
        assert!(from.next().is_err());
        let held = (HELD.get() - before) as usize;
        assert!(block <= held && held <= block + 128, "{held} for {sent} bytes");
    }
}

/// A frame above a block is alone in its block, and its body shares that, whatever its length counts besides.
#[test]
fn a_large_body_is_not_copied() {
    let plain = Layout::new(Prefix::U32Be);
    let both = plain.before(2).after(5);
    for (layout, n) in [(plain, 0), (plain.counts(4), 0), (plain.counts(200), 0), (both, 1), (both.counts(11), 1)] {
        let mut to = FrameWriter::with_prefix(Vec::new(), layout, ..);
        (0..2).for_each(|_| to.put_with(&[1; 2][..2 * n], &[2; 5][..5 * n], vec![7; 1 << 20]).unwrap());
        to.send().unwrap();
        let wire = to.into_inner();
        let mut from = FrameReader::with_prefix(Few(&wire, 60_000), layout, ..);
        for _ in 0..2 {
            let before = HELD.get();
            MOST.set(before);
            let body = from.next().unwrap().unwrap();
            let most = MOST.get() - before;
            assert!(body.len() == 1 << 20 && most < (1 << 20) + 3 * BLOCK as isize, "{layout:?}: {most}");
        }
    }
}

/// Once a body above a block is dropped, its reader holds nothing of it, also before the next read.
#[test]
fn a_large_block_is_not_kept() {
    let mut to = FrameWriter::new(Vec::new(), ..);
    to.put(vec![7; 1 << 20]).unwrap();
    to.send().unwrap();
    let (wire, before) = (to.into_inner(), HELD.get());
    let mut from = FrameReader::new(Few(&wire, 60_000), ..);
    assert_eq!(from.next().unwrap().unwrap().len(), 1 << 20);
    let held = HELD.get() - before;
    assert!(held < BLOCK as isize, "{held} bytes are held");
}

// Once the list of frames has space, a frame is put and sent without an allocation, and so is read what a block holds.
#[test]
fn allocations_of_frames() {
    let body = IoBufs::from([IoBuf::from(vec![1; 60]), IoBuf::from(vec![2; 4])]);
    let mut to = FrameWriter::new(Vec::with_capacity(1 << 20), ..);
    for round in 0..2 {
        let bodies: Vec<IoBufs> = (0..100).map(|_| body.clone()).collect();
        let before = CALLS.get();
        bodies.into_iter().for_each(|body| to.put(body).unwrap());
        to.send().unwrap();
        assert!(round == 0 || CALLS.get() == before, "{} allocations", CALLS.get() - before);
    }
    let bytes = to.into_inner();
    let (mut from, before) = (FrameReader::new(&bytes[..], ..), CALLS.get());
    (0..200).for_each(|_| assert_eq!(from.next().unwrap().unwrap().len(), 64));
    assert!(CALLS.get() - before <= 12, "{} allocations for {} bytes", CALLS.get() - before, bytes.len());
}

/// Makes a chunk of a byte of a block.
type Chunk = fn(&IoBuf, usize) -> IoBuf;

/// How a byte comes as a chunk of its own, and how many bytes at most are held for it: up to 80 in the list of chunks, as
/// `Frames::feed` says, and the chunk's storage.
const FED: [(&str, Chunk, usize); 3] = [
    ("a view of a received block", |block, i| block.slice(i..=i), 80),
    ("a copy", |block, i| IoBuf::copy_from_slice(&block[i..=i]), 80 + 56),
    ("a `Vec`", |_, _| IoBuf::from(vec![1]), 80 + 80),
];

// What a peer makes frames hold that are fed byte by byte, and what a reader holds of the same bytes.
#[test]
fn memory_of_chunks_of_one_byte() {
    for count in [4096, 16_384, 16_385, 20_000, 70_000] {
        let mut body = Prefix::U32Be.written(2 * count).unwrap().to_vec();
        body.resize(count, 1);
        let block = IoBuf::from(body.clone());
        for (name, chunk, most) in FED {
            let (mut frames, before) = (Frames::new(Prefix::U32Be), HELD.get());
            (0..count).for_each(|i| frames.feed(chunk(&block, i)));
            let held = (HELD.get() - before) as usize;
            assert!(frames.len() == count && held <= most * count + 4096, "{name}: {held} for {count} bytes");
        }
        let before = HELD.get();
        let mut from = FrameReader::with_prefix(Few(&body, 1), Prefix::U32Be, ..);
        assert!(from.next().is_err());
        let held = (HELD.get() - before) as usize;
        assert!(held <= 2 * count + 4096, "{held} for {count} bytes");
    }
}

/// So many bytes of addresses that can be read, and are never read.
const ADDRESSES: usize = 1 << 46;

/// A view of addresses that no memory is behind.
fn addresses() -> IoBuf {
    const READ: i32 = 1;
    const PRIVATE_ANONYMOUS_NORESERVE: i32 = 2 | 32 | 16384;
    // SAFETY: the system chooses the addresses, which stay. Each page would be zeros if it were read.
    let bytes = unsafe {
        let at = mmap(std::ptr::null_mut(), ADDRESSES, READ, PRIVATE_ANONYMOUS_NORESERVE, -1, 0);
        assert!(at as isize != -1, "{}", io::Error::last_os_error());
        std::slice::from_raw_parts(at.cast::<u8>(), ADDRESSES)
    };
    IoBuf::from(bytes)
}

// A frame that no `BytesMut` can hold is refused, and nothing changes.
#[test]
fn frames_above_the_longest_buffer() {
    let (view, codec) = (addresses(), FrameCodec::new(Layout::new(Prefix::U64Be).before(1), ..));
    let longest = isize::MAX as usize;
    let all: IoBufs = (0..=longest / ADDRESSES).map(|_| view.clone()).collect();
    for (len, dst) in [(longest + 1, ""), (longest, ""), (longest - 8, ""), (longest - 9, "-")] {
        let (body, mut to) = (all.slice(..len), BytesMut::from(dst));
        assert_eq!(codec.encode_with(b"Q", &[], &body, &mut to), Err(Error::InvalidLength(len)));
        assert_eq!(to, dst);
    }
}
