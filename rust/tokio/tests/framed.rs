//! Frames over `FramedRead` and `FramedWrite`, beside `FrameReader` and `FrameWriter` on the same bytes.
use bytes::{Bytes, BytesMut};
use futures_core::Stream;
use futures_sink::Sink;
use iobufs::{Error, FrameError, FrameReader, FrameWriter, IoBuf, IoBufs, Prefix};
use iobufs_tokio::{FrameCodec, Reader};
use std::io;
use std::pin::Pin;
use std::task::{Context, Poll, Waker};
use tokio::io::{AsyncBufRead, AsyncRead, AsyncWrite, ReadBuf};
use tokio_util::codec::{Decoder, Encoder, FramedRead, FramedWrite};

/// A stream of at most `most` bytes a call, of which every other call would block.
struct Narrow {
    bytes: Vec<u8>,
    most: usize,
    waits: bool,
}

impl Narrow {
    fn new(bytes: &[u8], most: usize) -> Self {
        Narrow { bytes: bytes.to_vec(), most, waits: false }
    }

    fn waits(&mut self) -> bool {
        self.waits = !self.waits;
        self.waits
    }
}

impl AsyncRead for Narrow {
    fn poll_read(mut self: Pin<&mut Self>, cx: &mut Context<'_>, to: &mut ReadBuf<'_>) -> Poll<io::Result<()>> {
        if self.waits() {
            cx.waker().wake_by_ref();
            return Poll::Pending;
        }
        let n = self.most.min(to.remaining()).min(self.bytes.len());
        to.put_slice(&self.bytes[..n]);
        self.bytes.drain(..n);
        Poll::Ready(Ok(()))
    }
}

impl AsyncWrite for Narrow {
    fn poll_write(mut self: Pin<&mut Self>, cx: &mut Context<'_>, bytes: &[u8]) -> Poll<io::Result<usize>> {
        if self.waits() {
            cx.waker().wake_by_ref();
            return Poll::Pending;
        }
        let n = self.most.min(bytes.len());
        self.bytes.extend_from_slice(&bytes[..n]);
        Poll::Ready(Ok(n))
    }

    fn poll_flush(self: Pin<&mut Self>, _: &mut Context<'_>) -> Poll<io::Result<()>> {
        Poll::Ready(Ok(()))
    }

    fn poll_shutdown(self: Pin<&mut Self>, _: &mut Context<'_>) -> Poll<io::Result<()>> {
        Poll::Ready(Ok(()))
    }
}

/// Polls until it is ready.
fn ready<T>(mut poll: impl FnMut(&mut Context<'_>) -> Poll<T>) -> T {
    let mut cx = Context::from_waker(Waker::noop());
    loop {
        if let Poll::Ready(value) = poll(&mut cx) {
            return value;
        }
    }
}

/// The bodies with `|` after each, and how the input ends.
fn found(mut next: impl FnMut() -> Result<Option<IoBuf>, FrameError>) -> (Vec<u8>, String) {
    let mut bodies = Vec::new();
    loop {
        match next() {
            Ok(Some(body)) => bodies.extend([&body[..], b"|"].concat()),
            Ok(None) => return (bodies, "end".into()),
            Err(error) => return (bodies, error.to_string()),
        }
    }
}

#[test]
fn frames_are_read_as_by_a_reader() {
    let cases: [(Prefix, &[u8]); 8] = [
        (Prefix::Varint, b""),
        (Prefix::Varint, b"\x03abc\0\x05hello"),
        (Prefix::Varint, b"\x03abc\x05hell"),
        (Prefix::Varint, b"\x01a\x88"),
        (Prefix::Varint, b"\0\x09aaaaaaaaa"),
        (Prefix::Varint, b"\x02ab\x80\0"),
        (Prefix::U16Be, b"\0\x03abc\0\0\0\x02de"),
        (Prefix::U24Le, b"\x03\0\0abc\x09\0\0"),
    ];
    for (prefix, bytes) in cases {
        let mut reader = FrameReader::with_prefix(bytes, prefix, ..=8);
        let wanted = found(|| reader.next());
        for most in [1, 2, 3, 7, 100] {
            let mut framed = FramedRead::new(Narrow::new(bytes, most), FrameCodec::new(prefix, ..=8));
            let seen = found(|| ready(|cx| Pin::new(&mut framed).poll_next(cx)).transpose());
            assert_eq!(seen, wanted, "{prefix:?} {bytes:?} by {most}");
        }
    }
}

/// A stream that is cut at any place: the frames before the cut, and then an error unless it is between two frames.
#[test]
fn cut_streams_are_no_ends() {
    let text = b"\0\x03abc\0\0\0\x02de";
    let ends = [0, 5, 7, 11];
    for cut in 0..=text.len() {
        let whole = ends.iter().rposition(|end| *end <= cut).unwrap();
        let (mut bodies, mut frames) = (BytesMut::from(&text[..cut]), BytesMut::from(&text[..cut]));
        let (mut codec, mut with_headers) =
            (FrameCodec::new(Prefix::U16Be, ..), FrameCodec::new(Prefix::U16Be, ..).whole());
        for wanted in ends.windows(2).take(whole) {
            let frame = with_headers.decode_eof(&mut frames).unwrap().unwrap();
            assert_eq!(frame.get_ref(), &text[wanted[0]..wanted[1]]);
            assert_eq!(codec.decode_eof(&mut bodies).unwrap().unwrap(), text[wanted[0] + 2..wanted[1]]);
        }
        let is_cut = !ends.contains(&cut);
        assert_eq!(matches!(codec.decode_eof(&mut bodies), Err(FrameError::Cut)), is_cut, "{cut}");
        assert_eq!(matches!(with_headers.decode_eof(&mut frames), Err(FrameError::Cut)), is_cut, "{cut}");
        assert_eq!([&bodies[..], &frames[..]], [&text[ends[whole]..cut]; 2]);
        assert!(
            is_cut
                || matches!(
                    (codec.decode_eof(&mut bodies), with_headers.decode_eof(&mut frames)),
                    (Ok(None), Ok(None))
                )
        );
    }
}

#[test]
fn frames_are_written_as_by_a_writer() {
    let bodies: [IoBufs; 4] =
        ["one".into(), ["two", "-", "three"].into_iter().map(IoBuf::from).collect(), "".into(), vec![7; 300].into()];
    for (prefix, most) in
        [Prefix::Varint, Prefix::U16Be, Prefix::U32Le, Prefix::U24Be].into_iter().flat_map(|it| [(it, 1), (it, 1000)])
    {
        let mut writer = FrameWriter::with_prefix(Vec::new(), prefix, ..=300);
        let mut framed = FramedWrite::new(Narrow::new(b"", most), FrameCodec::new(prefix, ..=300));
        for body in bodies.clone() {
            writer.put(body.clone()).unwrap();
            ready(|cx| Sink::<IoBufs>::poll_ready(Pin::new(&mut framed), cx)).unwrap();
            Pin::new(&mut framed).start_send(body).unwrap();
        }
        let error = Pin::new(&mut framed).start_send(IoBufs::from(vec![0; 301])).unwrap_err();
        assert!(matches!(error, FrameError::Bad(Error::InvalidLength(301))));
        writer.send().unwrap();
        ready(|cx| Sink::<IoBufs>::poll_flush(Pin::new(&mut framed), cx)).unwrap();
        assert_eq!(framed.get_ref().bytes, writer.into_inner(), "{prefix:?} by {most}");
    }
}

// A body is where it was read, and what isn't taken or put is as it was.
#[test]
fn blocks_are_shared() {
    let mut codec = FrameCodec::new(Prefix::U8, ..=3);
    let mut bytes = BytesMut::from(&b"\x03abc\x02de\x03f"[..]);
    let at = bytes.as_ptr();
    let bodies = [codec.decode(&mut bytes), codec.decode(&mut bytes)].map(|body| body.unwrap().unwrap());
    assert_eq!(bodies.map(|body| body.as_ptr()), [at.wrapping_add(1), at.wrapping_add(5)]);
    assert!(codec.decode(&mut bytes).unwrap().is_none() && bytes[..] == *b"\x03f");
    assert!(matches!(codec.decode_eof(&mut bytes), Err(FrameError::Cut)) && bytes[..] == *b"\x03f");
    bytes.extend_from_slice(b"gh\x04");
    assert_eq!(codec.decode_eof(&mut bytes).unwrap().unwrap(), "fgh");
    assert!(matches!(codec.decode(&mut bytes), Err(FrameError::Bad(Error::InvalidLength(4)))) && bytes[..] == *b"\x04");
    let refused = [
        codec.encode(IoBufs::from("long"), &mut bytes),
        codec.encode(IoBuf::from("long"), &mut bytes),
        codec.encode(&b"long"[..], &mut bytes),
    ];
    assert!(refused.iter().all(|it| matches!(it, Err(FrameError::Bad(Error::InvalidLength(4))))));
    assert_eq!(&bytes[..], b"\x04");
    codec.encode(IoBufs::from("ok"), &mut bytes).unwrap();
    codec.encode(IoBuf::from("ok"), &mut bytes).unwrap();
    codec.encode(Bytes::from("-"), &mut bytes).unwrap();
    codec.encode(&b""[..], &mut bytes).unwrap();
    assert_eq!(&bytes[..], b"\x04\x02ok\x02ok\x01-\0");
}

// An `IoBufs` is read by as many bytes as are asked for, or chunk by chunk.
#[test]
fn an_iobufs_is_a_reader() {
    let mut from = Reader(["abc", "de"].into_iter().map(IoBuf::from).collect());
    let mut block = [0; 5];
    for (wanted, left) in [("-abcd", 1), ("-e", 0), ("-", 0)] {
        let mut to = ReadBuf::new(&mut block);
        to.put_slice(b"-"); // of another reader
        ready(|cx| Pin::new(&mut from).poll_read(cx, &mut to)).unwrap();
        assert_eq!((to.filled(), from.0.len()), (wanted.as_bytes(), left));
    }
    let mut from = Reader(["abc", "de"].into_iter().map(IoBuf::from).collect());
    for (chunk, n) in [("abc", 2), ("c", 1), ("de", 2), ("", 0)] {
        let seen = ready(|cx| Pin::new(&mut from).poll_fill_buf(cx).map_ok(<[u8]>::to_vec)).unwrap();
        assert_eq!(seen, chunk.as_bytes());
        Pin::new(&mut from).consume(n);
    }
}
