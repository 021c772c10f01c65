//! The tests of tokio-util for its `LengthDelimitedCodec`, for `FrameReader` and `FrameWriter`.
use iobufs::{Error, FrameError, FrameReader, FrameWriter, IoBuf, IoBufs, Prefix};
use std::collections::VecDeque;
use std::io::{self, ErrorKind, IoSlice, Read, Write};

/// The result of a read, and how many bytes a write takes; `None` is one that would block.
type Turns<T> = VecDeque<Option<T>>;

struct From(Turns<&'static [u8]>);

impl Read for From {
    fn read(&mut self, to: &mut [u8]) -> io::Result<usize> {
        match self.0.pop_front() {
            Some(Some(bytes)) => Ok({
                to[..bytes.len()].copy_from_slice(bytes);
                bytes.len()
            }),
            Some(None) => Err(ErrorKind::WouldBlock.into()),
            None => Ok(0),
        }
    }
}

struct To(Turns<usize>, Vec<u8>);

impl Write for To {
    fn write(&mut self, bytes: &[u8]) -> io::Result<usize> {
        self.write_vectored(&[IoSlice::new(bytes)])
    }

    fn write_vectored(&mut self, chunks: &[IoSlice<'_>]) -> io::Result<usize> {
        let most = self.0.pop_front().unwrap_or(Some(usize::MAX)).ok_or(ErrorKind::WouldBlock)?;
        let before = self.1.len();
        self.1.extend(chunks.iter().flat_map(|chunk| chunk.iter()).take(most));
        Ok(self.1.len() - before)
    }

    fn flush(&mut self) -> io::Result<()> {
        Ok(())
    }
}

/// A call of a reader.
#[derive(Debug, PartialEq)]
enum Next {
    Frame(&'static [u8]),
    Wait,
    End,
    Cut,
    Bad(Error),
}

use Next::{Bad, Cut, End, Frame, Wait};

const ONE: &[u8] = b"abcdefghi";

/// The prefix, the longest body, what each read gives, and what comes of it.
type Reading = (Prefix, usize, &'static [Option<&'static [u8]>], &'static [Next]);

const READINGS: &[Reading] = &[
    (Prefix::U32Be, 99, &[], &[End]),
    (Prefix::U32Be, 99, &[Some(b"\0\0\0\x09abcdefghi")], &[Frame(ONE), End]),
    (
        Prefix::U32Be,
        99,
        &[Some(b"\0\0\0\x09abcdefghi\0\0\0\x03123\0\0\0\x0bhello world")],
        &[Frame(ONE), Frame(b"123"), Frame(b"hello world"), End],
    ),
    (
        Prefix::U32Be,
        99,
        &[Some(b"\0\0\0\x09abcdefghi"), Some(b"\0\0\0\x03123"), Some(b"\0\0\0\x0bhello world")],
        &[Frame(ONE), Frame(b"123"), Frame(b"hello world"), End],
    ),
    (Prefix::U32Be, 99, &[Some(b"\0\0"), Some(b"\0\x09abc"), Some(b"defghi")], &[Frame(ONE), End]),
    (
        Prefix::U32Be,
        99,
        &[Some(b"\0\0"), Some(b"\0\x09abc"), Some(b"defghi"), Some(b"\0\0\0\x0312"), Some(b"3\0\0\0\x0bhello world")],
        &[Frame(ONE), Frame(b"123"), Frame(b"hello world"), End],
    ),
    (
        Prefix::U32Be,
        99,
        &[Some(b"\0\0"), None, Some(b"\0\x09abc"), None, Some(b"defghi"), None],
        &[Wait, Wait, Frame(ONE), Wait, End],
    ),
    (Prefix::U32Be, 99, &[Some(b"\0\0"), None], &[Wait, Cut]),
    (Prefix::U32Be, 99, &[None, Some(b"\0\0"), None], &[Wait, Wait, Cut]),
    (Prefix::U32Be, 99, &[Some(b"\0\0\0\x09ab"), None, Some(b"cd"), None], &[Wait, Wait, Cut]),
    (Prefix::U32Be, 5, &[Some(b"\0\0\0\x09abcdefghi")], &[Bad(Error::InvalidLength(9)), Bad(Error::InvalidLength(9))]),
    (Prefix::U32Be, 9, &[Some(b"\0\0\0\x09abcdefghi\0\0\0\x0a")], &[Frame(ONE), Bad(Error::InvalidLength(10))]),
    (Prefix::U16Be, 99, &[Some(b"\0\x09abcdefghi")], &[Frame(ONE), End]),
    (Prefix::U32Le, 99, &[Some(b"\x09\0\0\0abcdefghi")], &[Frame(ONE), End]),
    (Prefix::U24Be, 99, &[Some(b"\0\0\x09abcdefghi")], &[Frame(ONE), End]),
    (Prefix::U8, 99, &[Some(b"\x09abcdefghi\0\0")], &[Frame(ONE), Frame(b""), Frame(b""), End]),
    (Prefix::Varint, 99, &[Some(b"\x09abcdefghi\x80")], &[Frame(ONE), Cut]),
];

#[test]
fn frames_are_read() {
    for (prefix, most, reads, wanted) in READINGS {
        let mut from = FrameReader::with_prefix(From(reads.iter().copied().collect()), *prefix, ..=*most);
        for next in *wanted {
            let found = from.next();
            let is_so = match (&found, next) {
                (Ok(Some(body)), Frame(bytes)) => body == bytes,
                (Ok(None), End) | (Err(FrameError::Cut), Cut) => true,
                (Err(FrameError::Io(error)), Wait) => error.kind() == ErrorKind::WouldBlock,
                (Err(FrameError::Bad(error)), Bad(wanted)) => error == wanted,
                _ => false,
            };
            assert!(is_so, "{reads:?}: {found:?} for {next:?}");
        }
    }
}

/// The prefix, the bodies, each in chunks, how many bytes each write takes, and all that is written.
type Writing = (Prefix, &'static [&'static [&'static str]], &'static [Option<usize>], &'static [u8]);

const WRITINGS: &[Writing] = &[
    (Prefix::U32Be, &[], &[], b""),
    (Prefix::U32Be, &[&[]], &[], b"\0\0\0\0"),
    (Prefix::U32Be, &[&["abcdefghi"]], &[], b"\0\0\0\x09abcdefghi"),
    (Prefix::U32Be, &[&["abc", "def", "ghi"]], &[], b"\0\0\0\x09abcdefghi"),
    (
        Prefix::U32Be,
        &[&["abcdefghi"], &["123"], &["hello world"]],
        &[],
        b"\0\0\0\x09abcdefghi\0\0\0\x03123\0\0\0\x0bhello world",
    ),
    (
        Prefix::U32Be,
        &[&["abcdefghi"], &["123"]],
        &[Some(2), None, Some(5), None, None],
        b"\0\0\0\x09abcdefghi\0\0\0\x03123",
    ),
    (Prefix::U32Le, &[&["abcdefghi"]], &[Some(1), Some(3), Some(2)], b"\x09\0\0\0abcdefghi"),
    (Prefix::U8, &[&["abcdefghi"]], &[], b"\x09abcdefghi"),
    (Prefix::U24Le, &[&["ab"]], &[None], b"\x02\0\0ab"),
    (Prefix::Varint, &[&["ab"]], &[], b"\x02ab"),
];

#[test]
fn frames_are_written() {
    for (prefix, bodies, turns, wanted) in WRITINGS {
        let mut to = FrameWriter::with_prefix(To(turns.iter().copied().collect(), Vec::new()), *prefix, ..);
        for body in *bodies {
            to.put(body.iter().map(|it| IoBuf::from(*it)).collect::<IoBufs>()).unwrap();
        }
        let mut waits = turns.iter().filter(|turn| turn.is_none()).count();
        while let Err(error) = to.send() {
            assert_eq!(error.kind(), ErrorKind::WouldBlock, "{wanted:?}");
            waits -= 1;
        }
        assert!(to.is_sent() && waits == 0, "{wanted:?}");
        assert_eq!(to.into_inner().1, *wanted);
    }
}

#[test]
fn bodies_that_are_too_long_are_not_put() {
    for (prefix, most, len) in
        [(Prefix::U32Be, 5, 6), (Prefix::U8, usize::MAX, 256), (Prefix::U16Le, usize::MAX, 65536)]
    {
        let mut to = FrameWriter::with_prefix(Vec::new(), prefix, ..=most);
        assert_eq!(to.put(vec![0; len]), Err(Error::InvalidLength(len)));
        assert!(to.is_sent());
        to.put(vec![7; 1]).unwrap();
        to.send().unwrap();
        assert_eq!(to.get_ref().last(), Some(&7));
    }
}
