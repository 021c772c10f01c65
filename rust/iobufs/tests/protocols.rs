//! Sessions of six protocols whose headers are more than a length, and the tests of tokio-util for its offsets and
//! adjustments.
use bytes::BytesMut;
use iobufs::{Error, FrameCodec, FrameError, FrameReader, FrameWriter, Frames, IoBuf, IoBufs, Layout, Prefix};
use std::io::{self, ErrorKind, Read};

/// PostgreSQL: a type, and a length that counts its own four bytes. The first message has no type.
const STARTUP: Layout = Layout::new(Prefix::U32Be).counts(4);
const POSTGRES: Layout = STARTUP.before(1);
/// MQTT: a type, and a varint.
const MQTT: Layout = Layout::new(Prefix::Varint).before(1);
/// gRPC: whether the message is compressed, and a length.
const GRPC: Layout = Layout::new(Prefix::U32Be).before(1);
/// HTTP/2: a length, then type, flags and stream.
const HTTP2: Layout = Layout::new(Prefix::U24Be).after(6);
/// MySQL: a length, then a sequence number.
const MYSQL: Layout = Layout::new(Prefix::U24Le).after(1);
/// TLS: a type and a version, and a length.
const TLS: Layout = Layout::new(Prefix::U16Be).before(3);
/// A length after two bytes that counts all six bytes of its header.
const ALL: Layout = Layout::new(Prefix::U32Le).before(2).counts(6);

/// The bytes around a length, a body, and the frame.
type Frame = (&'static [u8], &'static [u8], &'static [u8], &'static [u8]);

const SESSIONS: &[(Layout, &[Frame])] = &[
    (STARTUP, &[(b"", b"", b"\0\x03\0\0user\0bob\0\0", b"\0\0\0\x12\0\x03\0\0user\0bob\0\0")]),
    (
        POSTGRES,
        &[
            (b"R", b"", b"\0\0\0\0", b"R\0\0\0\x08\0\0\0\0"),
            (b"Z", b"", b"I", b"Z\0\0\0\x05I"),
            (b"Q", b"", b"SELECT 1\0", b"Q\0\0\0\x0dSELECT 1\0"),
            (b"X", b"", b"", b"X\0\0\0\x04"),
        ],
    ),
    (
        MQTT,
        &[
            (b"\x10", b"", b"\0\x04MQTT\x04\x02\0\x3c\0\x04bob1", b"\x10\x10\0\x04MQTT\x04\x02\0\x3c\0\x04bob1"),
            (b"\x20", b"", b"\0\0", b"\x20\x02\0\0"),
            (b"\xe0", b"", b"", b"\xe0\0"),
        ],
    ),
    (GRPC, &[(b"\0", b"", b"\x0a\x03bob", b"\0\0\0\0\x05\x0a\x03bob"), (b"\x01", b"", b"", b"\x01\0\0\0\0")]),
    (
        HTTP2,
        &[
            (b"", b"\x04\0\0\0\0\0", b"", b"\0\0\0\x04\0\0\0\0\0"),
            (b"", b"\0\x01\0\0\0\x01", b"hello", b"\0\0\x05\0\x01\0\0\0\x01hello"),
        ],
    ),
    (MYSQL, &[(b"", b"\0", b"\x03SELECT 1", b"\x09\0\0\0\x03SELECT 1"), (b"", b"\x01", b"\x01", b"\x01\0\0\x01\x01")]),
    (TLS, &[(b"\x16\x03\x01", b"", b"\x01\0\0\0", b"\x16\x03\x01\0\x04\x01\0\0\0")]),
    (ALL, &[(b"no", b"", b"abc", b"no\x09\0\0\0abc"), (b"no", b"", b"", b"no\x06\0\0\0")]),
];

/// Gives a byte a read.
struct Slowly<'a>(&'a [u8]);

impl Read for Slowly<'_> {
    fn read(&mut self, to: &mut [u8]) -> io::Result<usize> {
        let n = to.len().min(1);
        self.0.read(&mut to[..n])
    }
}

fn written(layout: Layout, frames: &[Frame]) -> Vec<u8> {
    let mut to = FrameWriter::with_prefix(Vec::new(), layout, ..);
    for (before, after, body, _) in frames {
        to.put_with(before, after, *body).unwrap();
    }
    to.send().unwrap();
    to.into_inner()
}

#[test]
fn frames_are_written() {
    for (layout, frames) in SESSIONS {
        let mut bytes = BytesMut::new();
        for (before, after, body, _) in *frames {
            FrameCodec::new(*layout, ..).encode_with(before, after, &IoBufs::from(*body), &mut bytes).unwrap();
        }
        let wire = frames.iter().flat_map(|it| it.3).copied().collect::<Vec<_>>();
        assert_eq!(written(*layout, frames), wire, "{layout:?}");
        assert_eq!(bytes, wire, "{layout:?}");
    }
}

#[test]
fn frames_are_read_byte_by_byte() {
    for (layout, frames) in SESSIONS {
        let wire = written(*layout, frames);
        let mut bodies = FrameReader::with_prefix(Slowly(&wire), *layout, ..);
        let mut wholes = FrameReader::with_prefix(Slowly(&wire), *layout, ..);
        for (_, _, body, frame) in *frames {
            assert_eq!(bodies.next().unwrap().unwrap(), *body, "{layout:?}");
            let whole = wholes.next_whole().unwrap().unwrap();
            assert_eq!(whole.header(), &frame[..frame.len() - body.len()], "{layout:?}");
            assert_eq!(whole.get_ref(), frame, "{layout:?}");
            assert_eq!(whole.into_body(), *body, "{layout:?}");
        }
        assert!(bodies.next().unwrap().is_none() && wholes.next_whole().unwrap().is_none(), "{layout:?}");
    }
}

#[test]
fn frames_of_pieces_are_taken() {
    for (layout, frames) in SESSIONS {
        let (mut bodies, mut wholes) = (Frames::new(*layout), Frames::new(*layout));
        for (_, _, body, frame) in *frames {
            for i in 0..frame.len() {
                assert!(bodies.next(..).unwrap().is_none() && wholes.next_whole(..).unwrap().is_none(), "{layout:?}");
                bodies.feed(IoBuf::from(&frame[i..=i]));
                wholes.feed(IoBuf::from(&frame[i..=i]));
            }
            assert_eq!(bodies.next(..).unwrap().unwrap(), *body, "{layout:?}");
            let whole = wholes.next_whole(..).unwrap().unwrap();
            assert_eq!((whole.header_len(), whole.get_ref().to_vec()), (frame.len() - body.len(), frame.to_vec()));
            assert_eq!(whole.into_body(), *body, "{layout:?}");
        }
        assert!(bodies.is_empty() && wholes.is_empty(), "{layout:?}");
    }
}

/// Each proper prefix of a session is its first frames, and cut after them.
#[test]
fn cut_frames_are_cut() {
    for (layout, frames) in SESSIONS {
        let wire = written(*layout, frames);
        for len in 0..wire.len() {
            let mut from = FrameReader::with_prefix(&wire[..len], *layout, ..);
            let mut at = 0;
            for (_, _, body, frame) in frames.iter().take_while(|it| {
                at += it.3.len();
                at <= len
            }) {
                assert_eq!(from.next().unwrap().unwrap(), *body, "{frame:?}");
            }
            let is_between = from.next().is_ok();
            let ends = frames.iter().scan(0, |at, it| {
                *at += it.3.len();
                Some(*at)
            });
            assert_eq!(is_between, len == 0 || ends.into_iter().any(|end| end == len), "{layout:?}: {len}");
        }
    }
}

/// A whole frame has the storage of what it was taken from.
#[test]
fn whole_frames_are_not_copied() {
    let mut bytes = BytesMut::from(&b"Z\0\0\0\x05IQ"[..]);
    let at = bytes.as_ptr();
    let whole = FrameCodec::new(POSTGRES, ..).decode_whole(&mut bytes).unwrap().unwrap();
    assert_eq!((whole.get_ref().as_ptr(), whole.into_body().as_ptr(), &bytes[..]), (at, at.wrapping_add(5), &b"Q"[..]));
    let piece = IoBuf::from(vec![1, 2, 3]);
    let at = piece.as_ptr();
    let mut frames = Frames::new(Layout::new(Prefix::U8).counts(1));
    frames.feed(piece);
    let whole = frames.next_whole(..).unwrap().unwrap();
    assert_eq!((whole.get_ref().chunk().as_ptr(), whole.into_body().chunk().as_ptr()), (at, at.wrapping_add(1)));
}

/// A PostgreSQL server reads a message without a type, and then such as have one, which may have come with it.
#[test]
fn a_layout_is_set_within_a_stream() {
    let mut wire = written(STARTUP, SESSIONS[0].1);
    wire.extend_from_slice(&written(POSTGRES, SESSIONS[1].1));
    let mut from = FrameReader::with_prefix(&wire[..], STARTUP, ..=1024);
    assert_eq!(from.next().unwrap().unwrap(), b"\0\x03\0\0user\0bob\0\0");
    assert!(from.try_next().is_err()); // The type and three bytes of a length are a length too.
    from.set_layout(POSTGRES);
    for (kind, _, body, _) in SESSIONS[1].1 {
        let whole = from.try_next_whole().unwrap().unwrap();
        assert_eq!((whole.before(), whole.clone().into_body()), (*kind, IoBuf::from(*body)));
    }
    let mut to = FrameWriter::with_prefix(Vec::new(), STARTUP, ..);
    to.put(SESSIONS[0].1[0].2).unwrap();
    to.set_layout(POSTGRES);
    for (before, after, body, _) in SESSIONS[1].1 {
        to.put_with(before, after, *body).unwrap();
    }
    to.send().unwrap();
    assert_eq!(to.into_inner(), wire);
}

/// The 24 bytes with which an HTTP/2 client begins are no frame: they are read before the first.
#[test]
fn a_preface_is_read_before_the_frames() {
    let preface = b"PRI * HTTP/2.0\r\n\r\nSM\r\n\r\n";
    let wire = [&preface[..], &written(HTTP2, SESSIONS[4].1)].concat();
    let mut from = &wire[..];
    let mut read = [0; 24];
    from.read_exact(&mut read).unwrap();
    assert_eq!(&read, preface);
    let mut from = FrameReader::with_prefix(from, HTTP2, ..=16_384);
    for (_, after, body, _) in SESSIONS[4].1 {
        let whole = from.next_whole().unwrap().unwrap();
        assert_eq!((&whole.header()[3..], whole.get_ref().slice(9..)), (*after, IoBuf::from(*body)));
    }
}

#[test]
fn numbers_that_are_no_lengths() {
    for (layout, most, bytes, number) in [
        (POSTGRES, 1024, &b"Q\0\0\0\x03"[..], 3),
        (POSTGRES, 1024, b"Q\0\0\x04\x05", 1029),
        (ALL, 9, b"no\x05\0\0\0", 5),
        (MQTT, 127, b"\x30\x80\x01", 128),
    ] {
        let mut from = FrameReader::with_prefix(bytes, layout, ..=most);
        let bad = |found| matches!(found, Err(FrameError::Bad(Error::InvalidLength(n))) if n == number);
        assert!(bad(from.next()) && bad(from.next()), "{bytes:?}");
    }
    let mut from = FrameReader::with_prefix(&b"\x30\x80\x80\x80\x80\x80\x80\x80\x80\x80\x02"[..], MQTT, ..);
    assert!(matches!(from.next(), Err(FrameError::Bad(Error::InvalidVarint))));
}

#[test]
fn headers_that_are_not_written() {
    let mut to = FrameWriter::with_prefix(Vec::<u8>::new(), POSTGRES, ..=3);
    assert_eq!(to.put("abc"), Err(Error::InvalidLength(3)));
    for (before, after, body) in
        [(&b""[..], &b""[..], "abc"), (b"QQ", b"", "abc"), (b"Q", b"Q", "abc"), (b"Q", b"", "abcd")]
    {
        assert_eq!(to.put_with(before, after, body), Err(Error::InvalidLength(body.len())), "{before:?} {after:?}");
    }
    let mut to = FrameWriter::with_prefix(Vec::<u8>::new(), Layout::new(Prefix::U8).counts(2), ..);
    assert_eq!(to.put(vec![0; 254]), Err(Error::InvalidLength(254)));
    to.put(vec![7; 253]).unwrap();
    for (around, wanted) in [(22, Ok(())), (23, Err(Error::InvalidLength(1)))] {
        let layout = Layout::new(Prefix::U64Be).before(around);
        to.set_layout(layout);
        let before = &[0; 23][..around.into()];
        assert_eq!(to.put_with(before, &[], "-"), wanted);
        assert_eq!(FrameCodec::new(layout, ..).encode_with(before, &[], &"-".into(), &mut BytesMut::new()), wanted);
    }
}

/// `LengthDelimitedCodec` of tokio-util with `length_field_offset`, `length_adjustment` and `num_skip`: the layout, what
/// is read, whether whole frames are taken, and they or the bodies.
type Adjusted = (Layout, &'static [u8], bool, &'static [&'static [u8]]);

const ADJUSTED: &[Adjusted] = &[
    (Layout::new(Prefix::U16Be).before(4), b"zzzz\0\x09abcdefghi", false, &[b"abcdefghi"]),
    (
        Layout::new(Prefix::U16Be).before(2),
        b"xx\0\x09abcdefghiyy\0\x03123zz\0\x0bhello world",
        true,
        &[b"xx\0\x09abcdefghi", b"yy\0\x03123", b"zz\0\x0bhello world"],
    ),
    (
        Layout::new(Prefix::U16Be).counts(2),
        b"\0\x0babcdefghi\0\x05123\0\x0dhello world",
        false,
        &[b"abcdefghi", b"123", b"hello world"],
    ),
    (Layout::new(Prefix::U24Be).after(1), b"\0\0\x0b\x0cHello world", false, &[b"Hello world"]),
    (Layout::new(Prefix::U16Be).after(2).counts(4), b"\0\x0dxxabcdefghi\0\x07yy123", false, &[b"abcdefghi", b"123"]),
];

#[test]
fn adjusted_frames_are_read() {
    for (layout, wire, is_whole, wanted) in ADJUSTED {
        let mut from = FrameReader::with_prefix(*wire, *layout, ..);
        for frame in *wanted {
            let whole = from.next_whole().unwrap().unwrap();
            let found = if *is_whole { whole.into_inner() } else { whole.into_body() };
            assert_eq!(found, *frame, "{layout:?}");
        }
        assert!(from.next_whole().unwrap().is_none(), "{layout:?}");
    }
}

#[test]
fn adjusted_frames_are_written() {
    let mut to = FrameWriter::with_prefix(Vec::new(), Layout::new(Prefix::U32Be).counts(2), ..);
    to.put("abcdefghi").unwrap();
    to.send().unwrap();
    assert_eq!(to.into_inner(), b"\0\0\0\x0babcdefghi");
    let mut to = FrameWriter::with_prefix(Vec::new(), Layout::new(Prefix::U8).counts(1), ..);
    assert_eq!(to.put(vec![1; 255]), Err(Error::InvalidLength(255)));
    to.send().unwrap();
    assert_eq!(to.into_inner(), b"");
}

#[test]
fn an_adjusted_body_is_cut() {
    let mut from = FrameReader::with_prefix(&b"Q\0\0\0\x0dSELECT"[..], POSTGRES, ..);
    assert!(matches!(from.next_whole(), Err(FrameError::Cut)));
    assert_eq!(io::Error::from(from.next().unwrap_err()).kind(), ErrorKind::UnexpectedEof);
}
