//! Values that are written and read: the bytes of each by hand or by a plain model, where they are, and what an error
//! leaves. `tests_wire` has the tables of lengths, numbers and nested values.
use bytes::Bytes;
use iobufs::codec::{ByParts, Decode, Encode, Input, RangeCfg, Written, proved};
use iobufs::{Builder, Error, IoBuf, IoBufMut, IoBufs, IoBufsMut};
use std::fmt::Debug;
use std::panic::{AssertUnwindSafe, catch_unwind};

// A view as a value: it comes back, its bytes stay where they are in one chunk, and are copied once across chunks.
#[test]
fn views_are_read_back() {
    for body in [&b"hello world"[..], b"", &[42; 10_000]] {
        let encoded = IoBuf::copy_from_slice(body).encode();
        let at = encoded.as_ptr().wrapping_add(encoded.len() - body.len());
        assert_eq!(IoBuf::decode_cfg(encoded.clone(), &(..=10_000).into()).unwrap(), *body);
        let mut native = IoBuf::copy_from_slice(&encoded);
        let native_at = native[native.len() - body.len()..].as_ptr();
        let mut sources = (IoBuf::from(encoded.clone()), IoBufs::from(encoded.clone()), in_chunks(&encoded, 1));
        let read = [IoBuf::read_cfg(&mut sources.0, &(..).into()), IoBuf::read_cfg(&mut sources.1, &(..).into())];
        for view in read.map(Result::unwrap) {
            assert!(view == *body && (body.is_empty() || view.as_ptr() == at));
        }
        assert!(IoBuf::read_cfg(&mut sources.2, &(..).into()).unwrap() == *body && sources.2.is_empty());
        let part = IoBuf::read_cfg(&mut native, &(..).into()).unwrap();
        assert!(part == *body && (body.is_empty() || part.as_ptr() == native_at));
        drop(native);
        assert_eq!(part.try_into_mut().unwrap(), *body);
        let bytes = Bytes::read_cfg(&mut IoBuf::from(encoded), &(..).into()).unwrap();
        assert!(bytes == *body && (body.is_empty() || bytes.as_ptr() == at));
    }
    let mut short = IoBuf::from(b"\x04xy");
    assert_eq!(IoBuf::read_cfg(&mut short, &(..).into()), Err(Error::EndOfBuffer));
}

// Each field of a buffer that was writable is in that buffer.
#[test]
fn fields_stay_where_they_are() {
    let fields = vec![Bytes::from_static(b"abc"), Bytes::from_static(b"def")];
    let source = IoBufMut::from(fields.encode());
    let range = source.as_ptr_range();
    let read: Vec<Bytes> = Vec::decode_cfg(source, &(RangeCfg::from(..), RangeCfg::from(..))).unwrap();
    assert_eq!(read.iter().map(|it| range.contains(&it.as_ptr())).collect::<Vec<_>>(), [true; 2]);
    assert_eq!(read, fields);
}

/// Returns these bytes in chunks of `size`.
fn in_chunks(bytes: &[u8], size: usize) -> IoBufs {
    bytes.chunks(size).map(IoBuf::copy_from_slice).collect()
}

/// Returns these bytes in a buffer of each kind, and in chunks of each size.
fn sources(bytes: &[u8]) -> impl Iterator<Item = IoBufs> {
    let whole = [IoBuf::copy_from_slice(bytes), Bytes::copy_from_slice(bytes).into()];
    whole.map(IoBufs::from).into_iter().chain((1..bytes.len().min(9)).map(move |size| in_chunks(bytes, size)))
}

/// Reads a value, which fails with this error and leaves the buffer as it was.
fn assert_refused<T: Decode + PartialEq + Debug>(bytes: &[u8], cfg: &T::Cfg, wanted: &Error) {
    let mut view = IoBuf::copy_from_slice(bytes);
    assert_eq!((T::read_cfg(&mut view, cfg).as_ref(), view.as_ref()), (Err(wanted), bytes));
    for mut source in sources(bytes) {
        let before = source.clone();
        let chunks = source.chunk_count();
        assert_eq!((T::read_cfg(&mut source, cfg).as_ref(), source.chunk_count()), (Err(wanted), chunks), "{before:?}");
        assert_eq!(source, before);
    }
}

/// Writes a value by each call, and reads it back from each buffer; a prefix of its bytes is no value.
fn assert_value<T: Encode + Decode + PartialEq + Debug>(value: &T, cfg: &T::Cfg, bytes: &[u8]) {
    let size = bytes.len();
    assert_eq!((value.encode_size(), &value.encode()[..]), (size, bytes));
    let (mut part, mut parts) = (IoBufMut::with_capacity(size), IoBufsMut::from([IoBufMut::with_capacity(size)]));
    let (mut copied, mut pushed) = (Builder::new(size), Builder::new(value.encode_inline_size()));
    value.write(&mut part);
    value.write(&mut parts);
    value.write(&mut copied);
    value.write_bufs(&mut pushed);
    assert_eq!(part.as_ref(), bytes);
    for made in [parts.freeze(), copied.finish(), pushed.finish(), value.encode_iobufs()] {
        assert_eq!(made, *bytes);
    }

    for mut source in sources(&[bytes, b"-"].concat()) {
        assert_eq!(T::decode_cfg(source.clone(), cfg), Err(Error::ExtraData(1)));
        assert_eq!((T::read_cfg(&mut source, cfg).as_ref(), source), (Ok(value), "-".into()));
    }
    assert_eq!(T::decode_cfg(part, cfg).as_ref(), Ok(value));
    (0..size).for_each(|n| assert_refused::<T>(&bytes[..n], cfg, &Error::EndOfBuffer));
}

#[test]
fn values_of_each_type() {
    assert_value(&-2i8, &(), b"\xfe");
    assert_value(&-2i16, &(), b"\xff\xfe");
    assert_value(&0x0102_0304i32, &(), b"\x01\x02\x03\x04");
    assert_value(&i64::MIN, &(), b"\x80\0\0\0\0\0\0\0");
    assert_value(&-1i128, &(), &[255; 16]);
    assert_value(&"\u{fc}.".to_owned(), &(2..4).into(), b"\x03\xc3\xbc.");
    assert_value(&Bytes::from_static(b"ab"), &(..3).into(), b"\x02ab");
    assert_value(&IoBuf::from(b""), &(..).into(), b"\0");
    assert_value(&vec![Some(7u16), None], &((..3).into(), ()), b"\x02\x01\0\x07\0");
    assert_value(&vec!["a".to_owned(), "".into()], &((..3).into(), (..2).into()), b"\x02\x01a\0");
    assert_value(&(300usize, [1u8, 2], true), &(RangeCfg::exact(300), (), ()), b"\xac\x02\x01\x02\x01");
}

// The bytes of a tuple are those of pairs in pairs.
#[test]
fn tuples() {
    let cfg = (Limit(3), (), (), RangeCfg::exact(300), (), ());
    let bytes = b"\x02ab\x01\x01\x07\xac\x02\x05\x06\xff\xfe";
    let few = (Few("ab".into()), true, Some(7u8));
    assert_value(&few, &(Limit(3), (), ()), &bytes[..6]);
    assert_value(&((few.0, few.1), few.2), &((Limit(3), ()), ()), &bytes[..6]);
    assert_value(&(true, Some(7u8), 300usize, [5u8, 6]), &((), (), RangeCfg::exact(300), ()), &bytes[3..10]);
    let five = (true, Some(7u8), 300usize, [5u8, 6], -2i16);
    assert_value(&five, &((), (), RangeCfg::exact(300), (), ()), &bytes[3..]);
    assert_value(&(Few("ab".into()), five.0, five.1, five.2, five.3, five.4), &cfg, bytes);
    type Six = (Few, bool, Option<u8>, usize, [u8; 2], i16);
    assert_refused::<Six>(b"\x04abcd", &cfg, &Error::InvalidLength(4));
    assert_refused::<Six>(b"\x02ab\x02", &cfg, &Error::InvalidBool);
    assert_refused::<Six>(b"\x02ab\x01\x02", &cfg, &Error::InvalidBool);
    assert_refused::<Six>(b"\x02ab\x01\0\xad\x02", &cfg, &Error::InvalidLength(301));
}

// More fields than a tuple may have.
#[test]
fn many_fields() {
    let wide = Wide { a: 1, b: 0x0203, c: "cd".into(), d: 4, e: true, f: 5, g: None, h: 6 };
    let bytes = b"\x01\x02\x03\x02cd\x04\x01\0\0\0\x05\0\x06";
    assert_value(&wide, &(), bytes);
    assert_eq!((wide.encode_inline_size(), wide.encode_iobufs().chunk_count()), (12, 3));
    assert_refused::<Wide>(b"\x01\x02\x03\x03cde", &(), &Error::InvalidLength(3));
    assert_value(&Many::Seven(1, 2, 3, 4, 5, 6, "7".into()), &(), b"\0\x01\x02\x03\x04\x05\x06\x017");
    assert_value(&Many::None, &(), b"\x01");
}

#[test]
fn bytes_that_are_no_value() {
    let reason = Error::Invalid("String", "not UTF-8");
    assert_refused::<String>(b"\x02\xc3-", &(..).into(), &reason);
    assert_refused::<Vec<String>>(b"\x02\x01a\x01\xff", &((..).into(), (..).into()), &reason);
    assert_refused::<Vec<bool>>(b"\x02\x01\x02", &((..).into(), ()), &Error::InvalidBool);
    assert_refused::<Vec<u8>>(b"\x03abc", &((..3).into(), ()), &Error::InvalidLength(3));
    assert_refused::<Bytes>(b"\xac\x02", &(..300).into(), &Error::InvalidLength(300));
    assert_refused::<usize>(b"\xab\x02", &RangeCfg::exact(300), &Error::InvalidLength(299));
    assert_refused::<usize>(b"\xad\x02", &RangeCfg::exact(300), &Error::InvalidLength(301));
    assert_refused::<IoBuf>(b"\x80\0", &(..).into(), &Error::InvalidVarint);
    assert_refused::<Event>(b"\x01\0\0\0\x07\x04abcd", &(), &Error::InvalidLength(4));
    assert_refused::<Event>(b"\x08", &(), &Error::InvalidEnum(8));
    assert_refused::<Even>(b"\0\x03", &(), &Error::Invalid("Even", "it is odd"));
}

/// Types of a caller.
#[derive(Debug, PartialEq)]
struct Shard {
    index: u16,
    body: IoBuf,
    last: u8,
}

iobufs::fields! { Shard { index: u16, body: IoBuf = ..=200, last: u8 } }

#[derive(Debug, PartialEq)]
enum Event {
    Put(u32, IoBuf),
    Shift(i16, Option<bool>, [u8; 2]),
    Flush,
}

iobufs::kinds! {
    Event { 1 => Put(key: u32, body: IoBuf = ..=3), 2 => Shift(by: i16, is_up: Option<bool>, mark: [u8; 2]), 9 => Flush }
}

#[derive(Debug, PartialEq)]
struct Wide {
    a: u8,
    b: u16,
    c: IoBuf,
    d: u8,
    e: bool,
    f: u32,
    g: Option<u8>,
    h: i8,
}

iobufs::fields! { Wide { a: u8, b: u16, c: IoBuf = ..=2, d: u8, e: bool, f: u32, g: Option<u8>, h: i8 } }

#[derive(Debug, PartialEq)]
enum Many {
    Seven(u8, u8, u8, u8, u8, u8, String),
    None,
}

iobufs::kinds! { Many { 0 => Seven(a: u8, b: u8, c: u8, d: u8, e: u8, f: u8, g: String = ..=1), 1 => None } }

/// A text of at most so many bytes, by a requirement that can't be cloned.
#[derive(Debug, PartialEq)]
struct Few(String);

struct Limit(usize);

impl ByParts for Few {
    type Parts = String;
    type Cfg = Limit;

    fn cfg(limit: &Limit) -> RangeCfg {
        (..=limit.0).into()
    }

    fn from_parts(text: String) -> Result<Self, Error> {
        Ok(Few(text))
    }

    fn parts(&self) -> impl Written {
        &self.0
    }
}

iobufs::by_parts! { Few }

#[derive(Debug, PartialEq)]
struct Even(u16);

impl ByParts for Even {
    type Parts = u16;
    type Cfg = ();

    fn cfg(_: &()) {}

    fn from_parts(n: u16) -> Result<Self, Error> {
        if n % 2 == 0 { Ok(Even(n)) } else { Err(Error::Invalid("Even", "it is odd")) }
    }

    fn parts(&self) -> impl Written {
        self.0
    }
}

iobufs::by_parts! { Even }

/// A small generator of numbers, the same in every run.
struct Generator(u64);

impl Generator {
    fn below(&mut self, limit: u64) -> u64 {
        self.0 = self.0.wrapping_mul(6364136223846793005).wrapping_add(1442695040888963407);
        (self.0 >> 32) % limit
    }

    /// A view of at most `most` bytes.
    fn view(&mut self, most: u64) -> IoBuf {
        (0..self.below(most + 1)).map(|_| self.below(256) as u8).collect::<Vec<_>>().into()
    }

    /// An event and its bytes.
    fn event(&mut self) -> (Event, Vec<u8>) {
        match self.below(3) {
            0 => {
                let (key, body) = (self.below(1 << 32) as u32, self.view(3));
                let bytes = [&[1], &key.to_be_bytes()[..], &[body.len() as u8], body.as_ref()].concat();
                (Event::Put(key, body), bytes)
            }
            1 => {
                let (by, n) = (self.below(1 << 16) as i16, self.below(3) as u8);
                let is_up = [None, Some(false), Some(true)][usize::from(n)];
                let is_up_bytes = [&b"\0"[..], b"\x01\0", b"\x01\x01"][usize::from(n)];
                let bytes = [&[2], &by.to_be_bytes()[..], is_up_bytes, &[n, 7]].concat();
                (Event::Shift(by, is_up, [n, 7]), bytes)
            }
            _ => (Event::Flush, vec![9]),
        }
    }
}

#[test]
fn drawn_values() {
    let mut drawn = Generator(20261130);
    for _ in 0..200 {
        let (events, bytes): (Vec<_>, Vec<_>) = (0..drawn.below(5)).map(|_| drawn.event()).unzip();
        let (body, last) = (drawn.view(20), drawn.below(256) as u8);
        let shard = [&[0, last, body.len() as u8], body.as_ref(), &[last]].concat();
        let bytes = [&[events.len() as u8], &bytes.concat()[..], &shard].concat();
        let value = (events, Shard { index: u16::from(last), body, last });
        assert_value(&value, &(((..5).into(), ()), ()), &bytes);
    }
}

#[test]
fn a_view_is_pushed_and_shared() {
    let shard = Shard { index: 0x0102, body: vec![5; 200].into(), last: 9 };
    let mut bufs = shard.encode_iobufs();
    assert_eq!((bufs.len(), bufs.chunk_count(), shard.encode_inline_size()), (205, 3, 5));
    assert_eq!(bufs.chunk_at(1).unwrap().as_ptr(), shard.body.as_ptr());
    let read = Shard::read_cfg(&mut bufs, &()).unwrap();
    assert_eq!((read.body.as_ptr(), read), (shard.body.as_ptr(), shard));
}

#[test]
fn writable_buffers_are_read() {
    fn read(from: impl Input) -> Result<u32, Error> {
        u32::decode_cfg(from, &())
    }
    let mut parts = IoBufsMut::from([IoBufMut::with_capacity(1), IoBufMut::with_capacity(3)]);
    parts.put_u32(0x0102_0304);
    let part = IoBufMut::from(b"\x01\x02\x03\x04");
    let bytes = bytes::BytesMut::from(part.as_ref());
    assert_eq!([read(parts), read(part), read(bytes)], [const { Ok(0x0102_0304) }; 3]);
}

const ERRORS: [Error; 7] = [
    Error::EndOfBuffer,
    Error::InvalidVarint,
    Error::InvalidLength(7),
    Error::InvalidBool,
    Error::InvalidEnum(7),
    Error::Invalid("Refused", "as it says"),
    Error::ExtraData(7),
];

/// A value that no byte is: each is refused for another reason.
#[derive(Debug, PartialEq)]
struct Refused;

impl ByParts for Refused {
    type Parts = u8;
    type Cfg = ();

    fn cfg(_: &()) {}

    fn from_parts(n: u8) -> Result<Self, Error> {
        Err(ERRORS[usize::from(n)])
    }

    fn parts(&self) -> impl Written {
        0u8
    }
}
iobufs::by_parts! { Refused }

#[test]
fn reasons_of_a_type() {
    for (n, error) in (0..).zip(ERRORS) {
        assert_eq!(Refused::decode_cfg(IoBuf::from(vec![n]), &()), Err(error));
    }
}

// Bytes that don't fit: a value isn't put in part.
#[test]
fn written_without_room() {
    for write in [|to: &mut Builder| (7u8, 7u64).write(to), |to: &mut Builder| (7u8, 7u64).write_bufs(to)] {
        let mut to = Builder::new(8);
        let panic = catch_unwind(AssertUnwindSafe(|| write(&mut to))).unwrap_err();
        assert_eq!(panic.downcast_ref::<String>().unwrap(), "cannot advance past end of buffer");
        assert_eq!(to.len(), 0);
    }
}

#[test]
#[should_panic(expected = "advance out of bounds: the len is 1 but advancing by 2")]
fn a_number_past_the_end() {
    IoBuf::from(b"a").get_u16();
}

/// A value that is written as half of all bytes that a `usize` counts, and one more.
struct Half;

impl proved::EncodeSize for Half {
    fn encode_size(&self) -> Option<usize> {
        Some(usize::MAX / 2 + 1)
    }

    fn encode_inline_size(&self) -> usize {
        0
    }
}

impl proved::Write for Half {
    fn write<B: proved::BufMut>(&self, _: &mut B) {}

    fn write_bufs<B: proved::BufsMut>(&self, _: &mut B) -> Result<(), proved::Error> {
        Ok(())
    }
}

#[test]
#[should_panic(expected = "length overflow")]
fn a_sum_of_sizes_is_checked() {
    (Half, Half).encode_size();
}

#[test]
#[should_panic(expected = "length overflow")]
fn a_sum_of_sizes_is_checked_for_the_inline_size() {
    (Half, Half).encode_inline_size();
}
