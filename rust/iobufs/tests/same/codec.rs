// Answers of the traits of commonware-codec. What the stand-in of that crate does here is that of the original's harness.

use super::*;
use bytes::BufMut;
use commonware_codec::{Buf, BufsMut, EncodeSize, RangeCfg, Read, Write};
/// A value that says its sizes, and writes a number of bytes.
struct Says(usize, usize, usize);

impl EncodeSize for Says {
    fn encode_size(&self) -> usize {
        self.0
    }

    fn encode_inline_size(&self) -> usize {
        self.1
    }
}

impl Write for Says {
    fn write(&self, buf: &mut impl BufMut) {
        buf.put_bytes(7, self.2)
    }
}

struct Two(IoBuf, IoBuf);

impl EncodeSize for Two {
    fn encode_size(&self) -> usize {
        self.0.encode_size() + self.1.encode_size()
    }

    fn encode_inline_size(&self) -> usize {
        self.0.encode_inline_size() + self.1.encode_inline_size()
    }
}

impl Write for Two {
    fn write(&self, buf: &mut impl BufMut) {
        self.0.write(buf);
        self.1.write(buf)
    }

    fn write_bufs(&self, buf: &mut impl BufsMut) {
        self.0.write_bufs(buf);
        self.1.write_bufs(buf)
    }
}

fn nines(n: usize) -> IoBuf {
    IoBuf::from(vec![9; n])
}

pub fn of_codec(answers: &mut Answers) {
    for (a, b, c) in [(3, 3, 3), (3, 3, 2), (3, 3, 4), (2, 3, 3), (0, 0, 0), (1, 0, 1), (4, 8, 4)] {
        ask(answers, format!("codec: encoding of a type that says {a}, {b} and writes {c}"), || {
            shape(&Says(a, b, c).encode_iobufs())
        });
    }

    ask(answers, "codec: two".into(), || shape(&Two(nines(3), nines(2)).encode_iobufs()));
    ask(answers, "codec: two empty".into(), || shape(&Two(nines(0), nines(2)).encode_iobufs()));
    ask(answers, "codec: two none".into(), || shape(&Two(nines(0), nines(0)).encode_iobufs()));
    ask(answers, "codec: two 200".into(), || {
        shape(&Two(nines(200), nines(1)).encode_iobufs()).iter().map(|c| c.len()).collect::<Vec<_>>()
    });
    ask(answers, "codec: sizes".into(), || {
        (
            nines(0).encode_size(),
            nines(127).encode_size(),
            nines(128).encode_size(),
            nines(128).encode_inline_size(),
            nines(20000).encode_inline_size(),
        )
    });
    for t in [
        &b"\x03abc"[..],
        b"\x03ab",
        b"",
        b"\x80",
        b"\x80\x00",
        b"\x05abcdef",
        b"\xff\xff\xff\xff\xff\xff\xff\xff\xff\x01",
        b"\x00",
    ] {
        for (lo, hi) in [(0usize, 1000usize), (4, 5)] {
            ask(answers, format!("codec: read view {t:?} {lo} {hi}"), || {
                let mut b = IoBuf::copy_from_slice(t);
                let r = IoBuf::read_cfg(&mut b, &RangeCfg::from(lo..=hi))
                    .map(|x| x.as_ref().to_vec())
                    .map_err(|e| format!("{e:?}").split('(').next().unwrap().to_string());
                (r, b.remaining())
            });
            ask(answers, format!("codec: read bufs {t:?} {lo} {hi}"), || {
                let mut b: IoBufs = t.chunks(1).map(IoBuf::copy_from_slice).collect();
                let r = IoBuf::read_cfg(&mut b, &RangeCfg::from(lo..=hi))
                    .map(|x| x.as_ref().to_vec())
                    .map_err(|e| format!("{e:?}").split('(').next().unwrap().to_string());
                (r, b.remaining())
            });
        }
    }
    ask(answers, "codec: take_owned 9 of 5".into(), || {
        let mut b = nines(5);
        Buf::take_owned::<IoBuf>(&mut b, 9).len()
    });
    ask(answers, "codec: take_owned 9 of 4x1".into(), || {
        let mut b: IoBufs = [nines(1), nines(1), nines(1), nines(1)].into();
        Buf::take_owned::<IoBuf>(&mut b, 9).len()
    });
    ask(answers, "codec: try_take_owned 9 of 5".into(), || {
        let mut b = nines(5);
        let r = Buf::try_take_owned::<IoBuf>(&mut b, 9).is_err();
        (r, b.len())
    });
    ask(answers, "codec: take_owned 0".into(), || {
        let mut b = nines(5);
        let x = Buf::take_owned::<IoBuf>(&mut b, 0);
        (x.len(), b.try_into_mut().is_ok())
    });
    ask(answers, "codec: take_owned all".into(), || {
        let mut b = nines(5);
        let x = Buf::take_owned::<IoBuf>(&mut b, 5);
        (x.try_into_mut().is_ok(), b.try_into_mut().map(|m| m.capacity()).ok())
    });
    ask(answers, "codec: take_owned spanning recovers".into(), || {
        let mut b: IoBufs = [nines(2), nines(3)].into();
        let x = Buf::take_owned::<IoBuf>(&mut b, 4);
        (x.try_into_mut().map(|m| m.capacity()).ok(), shape(&b))
    });
    ask(answers, "codec: take_owned chunk shares".into(), || {
        let mut b: IoBufs = [nines(2), nines(3)].into();
        let p = b.chunk().as_ptr();
        let x = Buf::take_owned::<IoBuf>(&mut b, 2);
        (x.as_ptr() == p, x.try_into_mut().is_ok(), shape(&b))
    });
    ask(answers, "codec: take_owned Bytes in chunk".into(), || {
        let mut b: IoBufs = [nines(4), nines(3)].into();
        let p = b.chunk().as_ptr();
        let x = Buf::take_owned::<Bytes>(&mut b, 2);
        (x.as_ptr() == p, x.len(), shape(&b))
    });
    ask(answers, "codec: take_owned Bytes spanning".into(), || {
        let mut b: IoBufs = [nines(4), nines(3)].into();
        let x = Buf::take_owned::<Bytes>(&mut b, 6);
        (x, shape(&b))
    });
    ask(answers, "codec: write into small".into(), || {
        let mut b = IoBufMut::with_capacity(3);
        nines(5).write(&mut b);
        b.len()
    });
    ask(answers, "codec: write into BytesMut".into(), || {
        let mut b = BytesMut::new();
        nines(5).write(&mut b);
        b
    });
    ask(answers, "codec: write_bufs into small builder".into(), || {
        let mut b = Builder::new(0);
        nines(5).write_bufs(&mut b);
        b.finish().len()
    });
    ask(answers, "codec: push str".into(), || {
        let mut b = Builder::new(0);
        BufsMut::push(&mut b, "abc");
        BufsMut::push(&mut b, String::from("d"));
        BufsMut::push(&mut b, Box::<[u8]>::from(&b"e"[..]));
        BufsMut::push(&mut b, BytesMut::from(&b"f"[..]));
        shape(&b.finish())
    });
    ask(answers, "codec: encode".into(), || IoBuf::from(b"hello").encode_iobufs().chunk_count());
}
