// What calls of the original's public API return, or with which text they panic. The file names no crate: it is compiled
// with the original's names and with those of `iobufs`.

// With `iobufs` each call of `Buf` is a method too.
#[allow(unused_imports)]
use bytes::{Buf as _, BufMut as _, Bytes, BytesMut};
use std::num::NonZeroUsize;
use std::panic::{AssertUnwindSafe, catch_unwind};

/// Answers by their names.
type Answers = Vec<(String, String)>;

/// Runs a call, and notes what it returns or with which text it panics.
fn ask<T: std::fmt::Debug>(answers: &mut Answers, name: String, call: impl FnOnce() -> T) {
    let answer = match catch_unwind(AssertUnwindSafe(call)) {
        Ok(value) => format!("{value:?}"),
        Err(why) => {
            let text = why.downcast_ref::<String>().cloned().or(why.downcast_ref::<&str>().map(|it| it.to_string()));
            format!("panics: {}", text.unwrap_or_default().replace('\n', " "))
        }
    };
    answers.push((name, answer));
}

/// Five bytes of each storage.
fn views() -> [(&'static str, IoBuf); 3] {
    [
        ("static", IoBuf::from(b"abcde")),
        ("Bytes", IoBuf::from(Bytes::from(b"abcde".to_vec()))),
        ("own storage", IoBuf::copy_from_slice(b"abcde")),
    ]
}

/// Nine bytes in one, two, three and four chunks.
fn lists() -> [(&'static str, IoBufs); 4] {
    let of = |chunks: &[&'static [u8]]| chunks.iter().map(|it| IoBuf::from(*it)).collect::<Vec<_>>().into();
    [
        ("one chunk", of(&[b"abcdefghi"])),
        ("two chunks", of(&[b"abc", b"defghi"])),
        ("three chunks", of(&[b"abc", b"de", b"fghi"])),
        ("four chunks", of(&[b"a", b"bc", b"de", b"fghi"])),
    ]
}

/// A buffer of the capacity 8 with `len` bytes.
fn part(len: usize) -> IoBufMut {
    let mut part = IoBufMut::with_capacity(8);
    part.put_slice(&b"abcdefgh"[..len]);
    part
}

/// `count` buffers of the capacity 4, of which all but the last are full.
fn parts(count: usize) -> IoBufsMut {
    let mut parts = IoBufsMut::from((0..count).map(|_| IoBufMut::with_capacity(4)).collect::<Vec<_>>());
    parts.put_bytes(b'x', 4 * count - 2);
    parts
}

fn shape(bufs: &IoBufs) -> Vec<String> {
    let mut chunks = Vec::new();
    bufs.for_each_chunk(|chunk| chunks.push(String::from_utf8_lossy(chunk).into_owned()));
    chunks
}

fn of_views(answers: &mut Answers) {
    for (kind, view) in views() {
        for at in [0, 1, 5, 6] {
            ask(answers, format!("split_to({at}) of a view, {kind}"), || {
                let mut rest = view.clone();
                let front = rest.split_to(at);
                (front.as_ref().to_vec(), rest.as_ref().to_vec())
            });
            ask(answers, format!("advance({at}) of a view, {kind}"), || {
                let mut rest = view.clone();
                rest.advance(at.min(5));
                (rest.len(), rest.has_remaining(), rest.chunk().to_vec())
            });
        }
        for (lo, hi) in [(0, 5), (1, 3), (5, 5), (3, 2), (2, 6)] {
            ask(answers, format!("slice({lo}..{hi}) of a view, {kind}"), || view.slice(lo..hi).as_ref().to_vec());
        }
        ask(answers, format!("copy_to_bytes(6) of a view, {kind}"), || view.clone().copy_to_bytes(6));
        ask(answers, format!("copy_to_slice of 6 bytes of a view, {kind}"), || view.clone().copy_to_slice(&mut [0; 6]));
        ask(answers, format!("try_copy_to_slice of 6 bytes of a view, {kind}"), || {
            view.clone().try_copy_to_slice(&mut [0; 6])
        });
        ask(answers, format!("get_u64 of a view, {kind}"), || view.clone().get_u64());
        ask(answers, format!("Debug of a view, {kind}"), || view.clone());
        ask(answers, format!("a Vec of a view, {kind}"), || Vec::from(view.clone()));
    }
    ask(answers, "recovery of the only view".into(), || {
        let mut part = IoBuf::from(part(5)).try_into_mut().unwrap();
        (part.len(), part.capacity(), part.put_slice(b"xyz"), part.as_ref().to_vec())
    });
    ask(answers, "recovery of a shared view".into(), || {
        let view = IoBuf::copy_from_slice(b"ab");
        (view.clone().try_into_mut().is_ok(), view.len())
    });
    ask(answers, "capacity of a Vec of a short view".into(), || {
        let mut view = IoBuf::from(vec![7; 1000]);
        Vec::from(view.split_to(2)).capacity()
    });
    ask(answers, "capacity of a Vec of the short only view".into(), || {
        let mut view = IoBuf::from(vec![7; 1000]);
        let front = view.split_to(2);
        drop(view);
        Vec::from(front).capacity()
    });
    ask(answers, "size_of IoBuf".into(), size_of::<IoBuf>);
    ask(answers, "size_of IoBufMut".into(), size_of::<IoBufMut>);
    ask(answers, "size_of IoBufs".into(), size_of::<IoBufs>);
    ask(answers, "size_of IoBufsMut".into(), size_of::<IoBufsMut>);
}

fn of_parts(answers: &mut Answers) {
    for len in [0, 5, 8] {
        ask(answers, format!("Debug of a buffer of {len} bytes"), || part(len));
        for n in [0, 3, 4, 8, 9] {
            ask(answers, format!("put_slice of {n} bytes after {len}"), || {
                let mut part = part(len);
                part.put_slice(&[b'-'; 9][..n]);
                (part.len(), part.capacity(), part.remaining_mut())
            });
        }
        ask(answers, format!("put_bytes of 9 after {len}"), || part(len).put_bytes(0, 9));
        ask(answers, format!("put_u64 after {len}"), || part(len).put_u64(1));
        ask(answers, format!("put of a source of 9 bytes after {len}"), || part(len).put(&b"123456789"[..]));
        ask(answers, format!("advance_mut(9) after {len}"), || {
            // SAFETY: it panics before any byte is readable.
            unsafe { part(len).advance_mut(9) }
        });
        ask(answers, format!("set_len(9) after {len}"), || {
            // SAFETY: it panics before any byte is readable.
            unsafe { part(len).set_len(9) }
        });
        ask(answers, format!("truncate(3) of {len}"), || {
            let mut part = part(len);
            part.truncate(3);
            (part.len(), part.capacity())
        });
        ask(answers, format!("clear of {len}"), || {
            let mut part = part(len);
            part.clear();
            (part.is_empty(), part.capacity())
        });
        ask(answers, format!("advance({}) of {len}", len.min(2)), || {
            let mut part = part(len);
            part.advance(len.min(2));
            (part.as_ref().to_vec(), part.capacity(), part.remaining_mut())
        });
        ask(answers, format!("copy_to_bytes({}) of {len}", len + 1), || part(len).copy_to_bytes(len + 1));
        ask(answers, format!("copy_to_slice of {} bytes of {len}", len + 1), || {
            part(len).copy_to_slice(&mut vec![0; len + 1])
        });
        ask(answers, format!("capacity after copy_to_bytes({len}) of {len}"), || {
            let mut part = part(len);
            (part.copy_to_bytes(len).len(), part.len(), part.capacity())
        });
        ask(answers, format!("freeze of {len}"), || part(len).freeze().as_ref().to_vec());
    }
    ask(answers, "zeroed(3)".into(), || (IoBufMut::zeroed(3).as_ref().to_vec(), IoBufMut::zeroed(3).capacity()));
    ask(answers, "with_alignment(10, 64)".into(), || {
        let mut part = IoBufMut::with_alignment(10, NonZeroUsize::new(64).unwrap());
        (part.as_mut_ptr().addr() % 64, part.len(), part.capacity())
    });
    ask(answers, "with_alignment(10, 3)".into(), || IoBufMut::with_alignment(10, NonZeroUsize::new(3).unwrap()));
    ask(answers, "with_alignment(2^63, 2)".into(), || {
        IoBufMut::with_alignment(1 << 63, NonZeroUsize::new(2).unwrap())
    });
    ask(answers, "capacity of a BytesMut that is adopted".into(), || {
        let mut bytes = BytesMut::with_capacity(40);
        bytes.extend_from_slice(b"abc");
        (IoBufMut::from(bytes).len(), IoBufMut::from(BytesMut::from(&b"abc"[..])).capacity() >= 3)
    });
}

fn of_lists(answers: &mut Answers) {
    for (kind, list) in lists() {
        ask(answers, format!("chunks of {kind}"), || (shape(&list), list.is_single(), list.chunk_count(), list.len()));
        for at in [0, 1, 3, 5, 9, 10] {
            ask(answers, format!("split_to({at}) of {kind}"), || {
                let mut rest = list.clone();
                let front = rest.split_to(at);
                (shape(&front), shape(&rest))
            });
        }
        for n in [4, 10] {
            ask(answers, format!("advance({n}) of {kind}"), || {
                let mut rest = list.clone();
                rest.advance(n.min(rest.len()));
                (shape(&rest), rest.is_empty())
            });
            ask(answers, format!("copy_to_bytes({n}) of {kind}"), || list.clone().copy_to_bytes(n));
            ask(answers, format!("copy_to_slice of {n} bytes of {kind}"), || {
                list.clone().copy_to_slice(&mut vec![0; n])
            });
        }
        ask(answers, format!("advance(10) past the end of {kind}"), || list.clone().advance(10));
        ask(answers, format!("coalesce of {kind}"), || list.clone().coalesce().as_ref().to_vec());
        ask(answers, format!("try_into_single of {kind}"), || list.clone().try_into_single().is_ok());
        ask(answers, format!("append and prepend to {kind}"), || {
            let mut more = list.clone();
            more.append(IoBuf::from(b"-"));
            more.prepend(IoBuf::from(b"+"));
            more.append(IoBuf::default());
            shape(&more)
        });
    }
}

fn of_lists_to_write(answers: &mut Answers) {
    for count in [1, 2, 3, 4, 5] {
        let of = |what: &str| format!("{what} of {count} buffers");
        ask(answers, of("Debug"), || parts(count).len());
        ask(answers, of("length and capacity"), || {
            let parts = parts(count);
            (parts.len(), parts.capacity(), parts.is_empty(), parts.is_single(), parts.remaining_mut())
        });
        ask(answers, of("put_slice of 3 bytes"), || parts(count).put_slice(b"abc"));
        ask(answers, of("put_bytes of 3"), || parts(count).put_bytes(0, 3));
        ask(answers, of("copy_from_slice of 1 byte"), || parts(count).copy_from_slice(b"a"));
        for n in [1, 4, 4 * count - 2] {
            ask(answers, of(&format!("capacity after advance({n})")), || {
                let mut parts = parts(count);
                parts.advance(n.min(parts.len()));
                (parts.len(), parts.capacity(), parts.remaining_mut())
            });
            ask(answers, of(&format!("capacity after copy_to_bytes({n})")), || {
                let mut parts = parts(count);
                let n = n.min(parts.len());
                (parts.copy_to_bytes(n).len(), parts.len(), parts.capacity())
            });
        }
        ask(answers, of("copy_to_bytes past the end"), || parts(count).copy_to_bytes(4 * count));
        ask(answers, of("copy_to_slice past the end"), || parts(count).copy_to_slice(&mut vec![0; 4 * count]));
        ask(answers, of("freeze"), || shape(&parts(count).freeze()));
        ask(answers, of("coalesce"), || {
            let one = parts(count).coalesce();
            (one.len(), one.capacity() >= one.len())
        });
        ask(answers, of("where a whole first chunk is"), || {
            let mut parts = parts(count);
            let (at, n) = (parts.chunk().as_ptr(), parts.chunk().len());
            parts.copy_to_bytes(n).as_ptr() == at
        });
    }
}

fn of_builders(answers: &mut Answers) {
    ask(answers, "a builder".into(), || {
        let mut builder = Builder::new(6);
        builder.put_u16(0x6162);
        builder.push(Bytes::from_static(b"pushed"));
        builder.put_u8(b'c');
        builder.push(IoBuf::from(b"view"));
        shape(&builder.finish())
    });
    ask(answers, "put_slice of 3 bytes into a builder of 2".into(), || Builder::new(2).put_slice(b"abc"));
    ask(answers, "put_bytes of 3 into a builder of 2".into(), || Builder::new(2).put_bytes(0, 3));
    ask(answers, "put_u32 into a builder of 2".into(), || Builder::new(2).put_u32(3));
    ask(answers, "an empty builder".into(), || shape(&Builder::new(2).finish()));
}

/// All answers, with those of the files beside this one.
fn answers(further: &[fn(&mut Answers)]) -> Answers {
    let hook = std::panic::take_hook();
    std::panic::set_hook(Box::new(|_| {}));
    let mut answers = Vec::new();
    of_views(&mut answers);
    of_parts(&mut answers);
    of_lists(&mut answers);
    of_lists_to_write(&mut answers);
    of_builders(&mut answers);
    further.iter().for_each(|of| of(&mut answers));
    // A difference is printed.
    std::panic::set_hook(hook);
    answers
}
