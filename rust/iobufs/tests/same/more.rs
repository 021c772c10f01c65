// Further answers, which other files than answers.rs would not give: of edges, addresses and storage.

use super::*;
use bytes::{Buf, BufMut};
use std::io::{IoSlice, Read as _, Write as _};
use std::ops::Bound::{Excluded, Included, Unbounded};

fn hello() -> IoBuf {
    IoBuf::from(b"hello".to_vec())
}

/// A buffer of the capacity 8 with three bytes.
fn abc() -> IoBufMut {
    part(3)
}

/// Two bytes in each of `count` chunks.
fn chunks(count: u8) -> IoBufs {
    (0..count).map(|i| IoBuf::from(vec![b'a' + i; 2])).collect::<Vec<_>>().into()
}

/// `count` buffers of the capacity 4 with two bytes.
fn filled(count: usize) -> IoBufsMut {
    let of = |_| {
        let mut part = IoBufMut::with_capacity(4);
        part.put_slice(b"ab");
        part
    };
    (0..count).map(of).collect::<Vec<_>>().into()
}

/// `count` buffers of the capacity 4 without bytes.
fn empty(count: usize) -> IoBufsMut {
    (0..count).map(|_| IoBufMut::with_capacity(4)).collect::<Vec<_>>().into()
}

fn nonzero(n: usize) -> NonZeroUsize {
    NonZeroUsize::new(n).unwrap()
}

/// How buffers are shown.
fn of_format(answers: &mut Answers) {
    ask(answers, "pretty IoBuf".into(), || format!("{:#?}", hello()));
    ask(answers, "pretty IoBufMut".into(), || format!("{:#?}", abc()));
    ask(answers, "padded debug".into(), || format!("{:>30?}|{:<30?}|{:05?}", hello(), abc(), hello()));
    ask(answers, "hex debug".into(), || format!("{:x?} {:X?}", IoBuf::from(vec![0u8; 300]), abc()));
    ask(answers, "Option debug".into(), || format!("{:?} {:?}", Some(hello()), hello().try_into_mut()));
}

/// Calls past the end, and with the largest numbers.
fn of_edges(answers: &mut Answers) {
    ask(answers, "split_to MAX".into(), || hello().split_to(usize::MAX));
    ask(answers, "split_to 1 of empty".into(), || IoBuf::default().split_to(1));
    ask(answers, "bufs split_to MAX 1".into(), || IoBufs::default().split_to(usize::MAX));
    ask(answers, "bufs split_to MAX 2".into(), || chunks(2).split_to(usize::MAX));
    ask(answers, "bufs split_to 7 of 3x2".into(), || chunks(3).split_to(7));
    ask(answers, "bufs split_to 9 of 4x2".into(), || chunks(4).split_to(9));
    ask(answers, "bufs copy_to_bytes MAX 1".into(), || IoBufs::from(hello()).copy_to_bytes(usize::MAX));
    ask(answers, "bufs copy_to_bytes MAX 2".into(), || chunks(2).copy_to_bytes(usize::MAX));
    ask(answers, "bufs copy_to_bytes MAX 3".into(), || chunks(3).copy_to_bytes(usize::MAX));
    ask(answers, "bufs copy_to_bytes MAX 4".into(), || chunks(4).copy_to_bytes(usize::MAX));
    ask(answers, "parts copy_to_bytes 1 of none".into(), || IoBufsMut::default().copy_to_bytes(1));
    ask(answers, "parts copy_to_bytes MAX 2".into(), || filled(2).copy_to_bytes(usize::MAX));
    ask(answers, "parts copy_to_bytes MAX 3".into(), || filled(3).copy_to_bytes(usize::MAX));
    ask(answers, "bufs advance 1 of none".into(), || {
        let mut b = chunks(2);
        b.advance(4);
        b.advance(1)
    });
    ask(answers, "bufs advance MAX 2".into(), || chunks(2).advance(usize::MAX));
    ask(answers, "bufs advance MAX 3".into(), || chunks(3).advance(usize::MAX));
    ask(answers, "bufs advance MAX 4".into(), || chunks(4).advance(usize::MAX));
    ask(answers, "parts advance MAX 3".into(), || filled(3).advance(usize::MAX));
    ask(answers, "parts advance MAX 5".into(), || filled(5).advance(usize::MAX));
    ask(answers, "slice excluded inverted".into(), || hello().slice((Excluded(4), Included(2))));
    ask(answers, "slice included MAX end".into(), || hello().slice((Unbounded, Included(usize::MAX))));
    ask(answers, "slice excluded MAX start".into(), || hello().slice((Excluded(usize::MAX), Included(1))));
    ask(answers, "slice 6..".into(), || hello().slice(6..));
    ask(answers, "slice ..=5".into(), || hello().slice(..=5));
    ask(answers, "slice 5..5 ok".into(), || hello().slice(5..5));
    ask(answers, "slice static 1..9".into(), || IoBuf::from(b"abc").slice(1..9));
    ask(answers, "slice empty ..1".into(), || IoBuf::default().slice(..1));
    ask(answers, "slice bytes 4..2".into(), || IoBuf::from(Bytes::from_static(b"hello")).slice(4..2));
    ask(answers, "set_len MAX".into(), || unsafe { abc().set_len(usize::MAX) });
    ask(answers, "copy_from_slice longer".into(), || filled(3).copy_from_slice(&[0; 7]));
    ask(answers, "copy_from_slice 1 part".into(), || filled(1).copy_from_slice(&[0; 7]));
    ask(answers, "copy_from_slice empty of 2".into(), || filled(2).copy_from_slice(&[]));
    ask(answers, "parts put_slice 9 of 8".into(), || empty(2).put_slice(&[0; 9]));
    ask(answers, "parts put_bytes 9 of 8".into(), || empty(2).put_bytes(0, 9));
    ask(answers, "parts put_bytes MAX".into(), || empty(2).put_bytes(0, usize::MAX));
    ask(answers, "parts put 9 of 8".into(), || empty(2).put(&[0u8; 9][..]));
    ask(answers, "parts put bufs".into(), || empty(2).put(chunks(5)));
    ask(answers, "parts put_u64 of 7".into(), || {
        let mut x = empty(2);
        x.put_u8(0);
        x.put_u64(1)
    });
    ask(answers, "parts put_u8 full".into(), || {
        let mut x = empty(1);
        x.put_u32(0);
        x.put_u8(1)
    });
    ask(answers, "part put bufs".into(), || abc().put(chunks(3)));
    ask(answers, "part put_u64_le".into(), || abc().put_u64_le(1));
    ask(answers, "part put_f64".into(), || abc().put_f64(1.0));
    ask(answers, "part put_int 9".into(), || abc().put_int(1, 9));
    ask(answers, "part put_u128".into(), || abc().put_u128(1));
    ask(answers, "builder put_u64 of 3".into(), || Builder::new(3).put_u64(1));
    ask(answers, "builder put_bytes".into(), || Builder::new(3).put_bytes(1, 4));
    ask(answers, "builder put bufs".into(), || Builder::new(3).put(chunks(2)));
    ask(answers, "builder put_u8".into(), || Builder::new(0).put_u8(1));
    ask(answers, "builder new MAX".into(), || drop(Builder::new(usize::MAX)));
    ask(answers, "bufs get_u8 none".into(), || IoBufs::default().get_u8());
    ask(answers, "bufs get_u64 of 4 2 chunks".into(), || chunks(2).get_u64());
    ask(answers, "bufs get_u32_le of 2".into(), || chunks(1).get_u32_le());
    ask(answers, "bufs get_int 9".into(), || chunks(5).get_int(9));
    ask(answers, "parts get_u32 of 2".into(), || filled(1).get_u32());
    ask(answers, "parts get_u64 of 6".into(), || filled(3).get_u64());
    ask(answers, "part get_u64 of 3".into(), || abc().get_u64());
    ask(answers, "part get_u8 none".into(), || IoBufMut::default().get_u8());
    ask(answers, "part copy_to_bytes 1 none".into(), || IoBufMut::default().copy_to_bytes(1));
    ask(answers, "parts copy_to_slice 9 of 8".into(), || filled(4).copy_to_slice(&mut [0; 9]));
    ask(answers, "parts copy_to_slice 3 of 2".into(), || filled(1).copy_to_slice(&mut [0; 3]));
    ask(answers, "with_alignment(1, 2^63)".into(), || IoBufMut::with_alignment(1, nonzero(1 << 63)));
    ask(answers, "with_alignment(0, 2^63)".into(), || IoBufMut::with_alignment(0, nonzero(1 << 63)));
    ask(answers, "with_alignment(2^63-1, 2)".into(), || IoBufMut::with_alignment((1 << 63) - 1, nonzero(2)));
    ask(answers, "zeroed_with_alignment(1, 6)".into(), || IoBufMut::zeroed_with_alignment(1, nonzero(6)));
    ask(answers, "zeroed_with_alignment(2^63-1, 4096)".into(), || {
        IoBufMut::zeroed_with_alignment((1 << 63) - 1, nonzero(4096))
    });
    ask(answers, "zeroed(MAX)".into(), || IoBufMut::zeroed(usize::MAX));
    ask(answers, "with_capacity(MAX)".into(), || IoBufMut::with_capacity(usize::MAX));
}

/// Errors of calls that try.
fn of_errors(answers: &mut Answers) {
    ask(answers, "try_get_u64 bufs".into(), || chunks(3).try_get_u64());
    ask(answers, "try_get_u16 none".into(), || IoBuf::default().try_get_u16());
    ask(answers, "try_copy_to_slice parts".into(), || {
        let mut x = filled(2);
        let mut d = [9; 5];
        let a = x.try_copy_to_slice(&mut d).map_err(|e| e.to_string());
        (a, d, x.len())
    });
    ask(answers, "try_copy_to_slice bufs ok".into(), || {
        let mut x = chunks(4);
        let mut d = [9; 5];
        let a = x.try_copy_to_slice(&mut d);
        (a, d, x.len(), x.chunk_count())
    });
    ask(answers, "try_copy_to_slice part whole".into(), || {
        let mut x = abc();
        let mut d = [9; 3];
        let a = x.try_copy_to_slice(&mut d);
        (a, d, x.len(), x.capacity())
    });
    ask(answers, "copy_to_slice part whole cap".into(), || {
        let mut x = abc();
        let mut d = [9; 3];
        x.copy_to_slice(&mut d);
        (x.len(), x.capacity(), x.remaining_mut())
    });
    ask(answers, "copy_to_slice empty".into(), || {
        let mut x = chunks(3);
        x.copy_to_slice(&mut []);
        shape(&x)
    });
    ask(answers, "try_get_int".into(), || chunks(3).try_get_int(3));
}

/// Reads across chunks, and by adapters of `bytes`.
fn of_reads(answers: &mut Answers) {
    ask(answers, "get_u32 over chunks".into(), || {
        let mut x = chunks(3);
        (x.get_u32(), x.chunk_count())
    });
    ask(answers, "get_u64_le over 4".into(), || {
        let mut x = chunks(4);
        (x.get_u64_le(), x.chunk_count(), x.is_single())
    });
    ask(answers, "get_u128 over 8".into(), || {
        let mut x = chunks(8);
        (x.get_u128(), x.is_empty())
    });
    ask(answers, "get_f32".into(), || chunks(2).get_f32().to_bits());
    ask(answers, "parts get_u32".into(), || {
        let mut x = filled(3);
        (x.get_u32(), x.len(), x.is_single())
    });
    ask(answers, "take".into(), || {
        let x = chunks(3);
        let mut t = Buf::take(x, 3);
        let a = t.copy_to_bytes(3);
        (a, t.remaining(), shape(&t.into_inner()))
    });
    ask(answers, "take MAX".into(), || Buf::take(chunks(3), usize::MAX).remaining());
    ask(answers, "chain".into(), || {
        let mut c = Buf::chain(chunks(2), chunks(3));
        let a = c.copy_to_bytes(5);
        (a, c.remaining(), c.chunk().to_vec())
    });
    ask(answers, "reader".into(), || {
        let mut w = vec![];
        Buf::reader(chunks(4)).read_to_end(&mut w).unwrap();
        w
    });
    ask(answers, "reader short reads".into(), || {
        let mut x = Buf::reader(chunks(4));
        let mut d = [0; 3];
        let a = x.read(&mut d).unwrap();
        (a, d, x.get_ref().remaining())
    });
    ask(answers, "writer".into(), || {
        let mut x = BufMut::writer(empty(2));
        let a = x.write(b"0123456789").map_err(|e| e.kind());
        (a, x.get_ref().len())
    });
    ask(answers, "writer full".into(), || {
        let mut x = BufMut::writer(abc());
        (
            x.write(b"0123456789").map_err(|e| e.kind()),
            x.write(b"x").map_err(|e| e.kind()),
            x.write_all(b"x").map_err(|e| e.to_string()),
        )
    });
    ask(answers, "limit".into(), || {
        let mut x = BufMut::limit(abc(), 2);
        x.put_u16(7);
        (x.remaining_mut(), x.into_inner().len())
    });
    ask(answers, "chain_mut".into(), || {
        let mut x = BufMut::chain_mut(abc(), abc());
        x.put_slice(b"0123456");
        let (a, b) = x.into_inner();
        (a.len(), b.len())
    });
}

/// Spare capacity that a caller writes into.
fn of_spare(answers: &mut Answers) {
    ask(answers, "chunk_mut part".into(), || {
        let mut x = abc();
        x.chunk_mut().len()
    });
    ask(answers, "chunk_mut full part".into(), || {
        let mut x = IoBufMut::from(b"abc");
        (x.chunk_mut().len(), x.has_remaining_mut())
    });
    ask(answers, "chunk_mut parts first full".into(), || {
        let mut a = IoBufMut::with_capacity(1);
        a.put_u8(1);
        let mut x = IoBufsMut::from(vec![a, abc()]);
        (x.chunk_mut().len(), x.remaining_mut())
    });
    ask(answers, "chunk_mut builder".into(), || {
        let mut x = Builder::new(5);
        x.put_u8(1);
        (x.chunk_mut().len(), x.remaining_mut(), x.has_remaining_mut())
    });
    ask(answers, "chunk_mut none".into(), || {
        let mut x = IoBufsMut::default();
        (x.chunk_mut().len(), x.has_remaining_mut())
    });
    ask(answers, "advance_mut over parts".into(), || {
        let mut x = empty(2);
        unsafe {
            x.chunk_mut()[..4].copy_from_slice(b"wxyz");
            x.advance_mut(4);
            x.chunk_mut()[..2].copy_from_slice(b"uv");
            x.advance_mut(2);
        }
        shape(&x.freeze())
    });
    ask(answers, "advance_mut builder".into(), || {
        let mut x = Builder::new(5);
        unsafe {
            x.chunk_mut()[..2].copy_from_slice(b"uv");
            x.advance_mut(2);
        }
        x.push(Bytes::from_static(b"-"));
        unsafe {
            x.chunk_mut()[..1].copy_from_slice(b"w");
            x.advance_mut(1);
        }
        shape(&x.finish())
    });
    ask(answers, "advance_mut 0".into(), || {
        let mut x = empty(2);
        unsafe {
            x.advance_mut(0);
        }
        x.len()
    });
}

/// Which calls copy no byte.
fn of_addresses(answers: &mut Answers) {
    ask(answers, "ptr vec".into(), || {
        let w = b"hello".to_vec();
        let a = w.as_ptr();
        IoBuf::from(w).as_ptr() == a
    });
    ask(answers, "ptr vec cap".into(), || {
        let mut w = Vec::with_capacity(100);
        w.extend(b"hello");
        let a: *const u8 = w.as_ptr();
        IoBuf::from(w).as_ptr() == a
    });
    ask(answers, "ptr mut vec".into(), || {
        let w = b"hello".to_vec();
        let a = w.as_ptr();
        IoBufMut::from(w).as_mut_ptr() as *const u8 == a
    });
    ask(answers, "ptr freeze".into(), || {
        let mut x = abc();
        let a = x.as_mut_ptr() as *const u8;
        x.freeze().as_ptr() == a
    });
    ask(answers, "ptr try_into_mut".into(), || {
        let x = hello();
        let a = x.as_ptr();
        x.try_into_mut().unwrap().as_mut_ptr() as *const u8 == a
    });
    ask(answers, "ptr slice".into(), || {
        let x = hello();
        x.slice(2..4).as_ptr() as usize - x.as_ptr() as usize
    });
    ask(answers, "ptr bytes".into(), || {
        let b = Bytes::from(b"hello".to_vec());
        let a = b.as_ptr();
        IoBuf::from(b).as_ptr() == a
    });
    ask(answers, "ptr bytes of view".into(), || {
        let x = hello();
        let a = x.as_ptr();
        Bytes::from(x).as_ptr() == a
    });
    ask(answers, "ptr bytes of shared view".into(), || {
        let x = hello();
        let _other = x.clone();
        let a = x.as_ptr();
        Bytes::from(x).as_ptr() == a
    });
    ask(answers, "ptr copy_to_bytes view".into(), || {
        let mut x = hello();
        let a = x.as_ptr();
        x.copy_to_bytes(2).as_ptr() == a
    });
    ask(answers, "ptr copy_to_bytes whole view".into(), || {
        let mut x = hello();
        let a = x.as_ptr();
        x.copy_to_bytes(5).as_ptr() == a
    });
    ask(answers, "ptr copy_to_bytes part".into(), || {
        let mut x = abc();
        let a = x.as_mut_ptr() as *const u8;
        x.copy_to_bytes(2).as_ptr() == a
    });
    ask(answers, "ptr copy_to_bytes whole part".into(), || {
        let mut x = abc();
        let a = x.as_mut_ptr() as *const u8;
        x.copy_to_bytes(3).as_ptr() == a
    });
    ask(answers, "ptr copy_to_bytes bufs chunk".into(), || {
        let mut x = chunks(3);
        let a = x.chunk().as_ptr();
        x.copy_to_bytes(2).as_ptr() == a
    });
    ask(answers, "ptr copy_to_bytes bufs in chunk".into(), || {
        let mut x = chunks(5);
        let a = x.chunk().as_ptr();
        x.copy_to_bytes(1).as_ptr() == a
    });
    ask(answers, "ptr parts copy_to_bytes 1".into(), || {
        let mut x = filled(3);
        let a = x.chunk().as_ptr();
        x.copy_to_bytes(1).as_ptr() == a
    });
    ask(answers, "ptr coalesce single".into(), || {
        let x = hello();
        let a = x.as_ptr();
        IoBufs::from(x).coalesce().as_ptr() == a
    });
    ask(answers, "ptr parts coalesce single".into(), || {
        let mut x = abc();
        let a = x.as_mut_ptr();
        IoBufsMut::from(x).coalesce().as_mut_ptr() == a
    });
    ask(answers, "ptr from mut of Bytes unique".into(), || {
        let b = Bytes::from(b"hello".to_vec());
        let a = b.as_ptr();
        IoBufMut::from(b).as_mut_ptr() as *const u8 == a
    });
    ask(answers, "ptr from mut of BytesMut".into(), || {
        let b = BytesMut::from(&b"hello"[..]);
        let a = b.as_ptr();
        IoBufMut::from(b).as_mut_ptr() as *const u8 == a
    });
    ask(answers, "ptr from BytesMut".into(), || {
        let b = BytesMut::from(&b"hello"[..]);
        let a = b.as_ptr();
        IoBuf::from(b).as_ptr() == a
    });
    ask(answers, "ptr from mut of view".into(), || {
        let x = hello();
        let a = x.as_ptr();
        IoBufMut::from(x).as_mut_ptr() as *const u8 == a
    });
    ask(answers, "ptr from mut of shared view".into(), || {
        let x = hello();
        let _other = x.clone();
        let a = x.as_ptr();
        IoBufMut::from(x).as_mut_ptr() as *const u8 == a
    });
    ask(answers, "ptr push vec".into(), || {
        let w = b"hello".to_vec();
        let a = w.as_ptr();
        let mut b = Builder::new(0);
        b.push(w);
        b.finish().chunk().as_ptr() == a
    });
    ask(answers, "ptr push view".into(), || {
        let x = hello();
        let a = x.as_ptr();
        let mut b = Builder::new(0);
        b.push(x);
        b.finish().chunk().as_ptr() == a
    });
    ask(answers, "push view recovers".into(), || {
        let x = hello();
        let mut b = Builder::new(0);
        b.push(x);
        b.finish().try_into_single().unwrap().try_into_mut().is_ok()
    });
    ask(answers, "push bytes recovers".into(), || {
        let mut b = Builder::new(0);
        b.push(Bytes::from(vec![1u8]));
        b.finish().try_into_single().unwrap().try_into_mut().is_ok()
    });
    ask(answers, "push vec recovers".into(), || {
        let mut b = Builder::new(0);
        b.push(vec![1u8]);
        b.finish().try_into_single().unwrap().try_into_mut().is_ok()
    });
    ask(answers, "ptr vec from unique slice".into(), || {
        let x = hello();
        let y = x.slice(1..);
        let a = y.as_ptr();
        drop(x);
        let made = Vec::from(y);
        made.as_ptr() == a
    });
    ask(answers, "ptr vec from part view".into(), || {
        let x = abc().freeze();
        let a = x.as_ptr();
        let made = Vec::from(x);
        made.as_ptr() == a
    });
}

/// Which storage becomes writable again, and what a capacity is.
fn of_recovery(answers: &mut Answers) {
    ask(answers, "empty slice keeps nothing".into(), || {
        let x = hello();
        let _slice = x.slice(2..2);
        x.try_into_mut().is_ok()
    });
    ask(answers, "split_to 0 shares nothing".into(), || {
        let mut x = hello();
        let _front = x.split_to(0);
        x.try_into_mut().is_ok()
    });
    ask(answers, "split_to len shares nothing".into(), || {
        let mut x = hello();
        let y = x.split_to(5);
        (y.try_into_mut().is_ok(), x.try_into_mut().map(|m| m.capacity()).ok())
    });
    ask(answers, "copy_to_bytes then recover".into(), || {
        let mut x = hello();
        let y = x.copy_to_bytes(2);
        let a = x.try_into_mut().is_ok();
        drop(y);
        a
    });
    ask(answers, "copy_to_bytes dropped then recover".into(), || {
        let mut x = hello();
        drop(x.copy_to_bytes(2));
        x.try_into_mut().map(|m| m.capacity()).ok()
    });
    ask(answers, "copy_to_bytes is_unique".into(), || {
        let mut x = hello();
        let y = x.copy_to_bytes(2);
        (y.is_unique(), x.copy_to_bytes(3).is_unique())
    });
    ask(answers, "bytes of view is_unique".into(), || Bytes::from(hello()).is_unique());
    ask(answers, "bytes of view into BytesMut".into(), || Bytes::from(hello()).try_into_mut().is_ok());
    ask(answers, "bytes of part view into mut".into(), || Bytes::from(abc().freeze()).try_into_mut().is_ok());
    ask(answers, "from Bytes unique recover".into(), || {
        IoBuf::from(Bytes::from(b"hello".to_vec())).try_into_mut().is_ok()
    });
    ask(answers, "from view shared cap".into(), || {
        let x = abc().freeze();
        let _other = x.clone();
        IoBufMut::from(x).capacity()
    });
    ask(answers, "from view unique cap".into(), || {
        let x = abc().freeze();
        IoBufMut::from(x).capacity()
    });
    ask(answers, "from static view cap".into(), || IoBufMut::from(IoBuf::from(b"hello")).capacity());
    ask(answers, "from bytes view cap".into(), || {
        IoBufMut::from(IoBuf::from(Bytes::from(b"hello".to_vec()))).capacity()
    });
    ask(answers, "from Bytes shared cap".into(), || {
        let b = Bytes::from(b"hello".to_vec());
        let _other = b.clone();
        IoBufMut::from(b).capacity()
    });
    ask(answers, "freeze empty drops".into(), || {
        let x = IoBufMut::with_capacity(64).freeze();
        x.try_into_mut().map(|m| m.capacity()).ok()
    });
    ask(answers, "truncate then put".into(), || {
        let mut x = abc();
        x.truncate(1);
        x.put_slice(b"zzz");
        (x.as_ref().to_vec(), x.capacity())
    });
    ask(answers, "truncate longer".into(), || {
        let mut x = abc();
        x.truncate(100);
        x.len()
    });
    ask(answers, "clear after advance".into(), || {
        let mut x = abc();
        x.advance(2);
        x.clear();
        (x.len(), x.capacity(), x.remaining_mut())
    });
    ask(answers, "part copy_to_bytes all then cap".into(), || {
        let mut x = abc();
        let b = x.copy_to_bytes(3);
        (b, x.capacity(), x.remaining_mut())
    });
    ask(answers, "part copy_to_bytes some then put".into(), || {
        let mut x = abc();
        let b = x.copy_to_bytes(2);
        x.put_slice(b"12345");
        (b, x.as_ref().to_vec(), x.capacity())
    });
}

/// Buffers of several chunks.
fn of_chunked(answers: &mut Answers) {
    ask(answers, "from with empties".into(), || {
        let x = IoBufs::from(vec![IoBuf::default(), hello(), IoBuf::default(), hello(), IoBuf::default()]);
        (x.chunk_count(), x.len())
    });
    ask(answers, "from only empties native".into(), || {
        let mut n = hello();
        n.advance(5);
        let x = IoBufs::from(vec![n]);
        x.try_into_single().unwrap().try_into_mut().map(|m| m.capacity()).ok()
    });
    ask(answers, "from single empty native".into(), || {
        let mut n = hello();
        n.advance(5);
        let x = IoBufs::from(n);
        x.try_into_single().unwrap().try_into_mut().map(|m| m.capacity()).ok()
    });
    ask(answers, "append empty to drained native".into(), || {
        let mut x = IoBufs::from(abc().freeze());
        x.advance(3);
        x.append(IoBuf::default());
        x.try_into_single().unwrap().try_into_mut().map(|m| m.capacity()).ok()
    });
    ask(answers, "append to drained native".into(), || {
        let mut x = IoBufs::from(abc().freeze());
        x.advance(3);
        x.append(IoBuf::from(b"x"));
        (x.is_single(), x.chunk_count(), shape(&x))
    });
    ask(answers, "prepend to drained".into(), || {
        let mut x = chunks(3);
        x.advance(6);
        x.prepend(IoBuf::from(b"x"));
        (x.is_single(), shape(&x))
    });
    ask(answers, "chunk_at MAX".into(), || {
        (
            chunks(5).chunk_at(usize::MAX).is_some(),
            IoBufs::default().chunk_at(0).is_some(),
            chunks(1).chunk_at(0).map(|c| c.to_vec()),
        )
    });
    ask(answers, "clone of 6".into(), || {
        let x = chunks(6);
        let mut y = x.clone();
        y.advance(3);
        (shape(&x).len(), shape(&y).len())
    });
    ask(answers, "split 1..8 of 8".into(), || {
        (0..=16)
            .map(|k| {
                let mut x = chunks(8);
                let y = x.split_to(k);
                (y.chunk_count(), x.chunk_count(), y.is_single(), x.is_single())
            })
            .collect::<Vec<_>>()
    });
    ask(answers, "coalesce 3 cap".into(), || chunks(3).coalesce().try_into_mut().map(|m| m.capacity()).ok());
    ask(answers, "copy_to_bytes 3 of 4x2".into(), || {
        let mut x = chunks(4);
        let b = x.copy_to_bytes(3);
        (b, x.chunk_count(), shape(&x))
    });
    ask(answers, "copy_to_bytes 0".into(), || {
        let mut x = chunks(4);
        let b = x.copy_to_bytes(0);
        (b, x.chunk_count())
    });
    ask(answers, "chunks_vectored small dst".into(), || {
        let x = chunks(5);
        let mut d = [IoSlice::new(&[]); 2];
        (x.chunks_vectored(&mut d), d[0].to_vec(), d[1].to_vec())
    });
    ask(answers, "chunks_vectored no dst".into(), || chunks(5).chunks_vectored(&mut []));
    ask(answers, "chunks_vectored none".into(), || {
        let x = IoBufs::default();
        let mut d = [IoSlice::new(b"z"); 2];
        (x.chunks_vectored(&mut d), d[0].to_vec())
    });
    ask(answers, "chunks_vectored view".into(), || {
        let x = hello();
        let mut d = [IoSlice::new(&[]); 2];
        (x.chunks_vectored(&mut d), d[0].to_vec())
    });
    ask(answers, "chunks_vectored empty view".into(), || {
        let x = IoBuf::default();
        let mut d = [IoSlice::new(b"z"); 2];
        (x.chunks_vectored(&mut d), d[0].to_vec())
    });
    ask(answers, "chunks_vectored parts with empty first".into(), || {
        let x = IoBufsMut::from(vec![IoBufMut::with_capacity(3), abc(), IoBufMut::with_capacity(2), abc()]);
        let mut d = [IoSlice::new(&[]); 4];
        (x.chunks_vectored(&mut d), x.chunk().to_vec(), x.has_remaining())
    });
    ask(answers, "chunks_vectored part".into(), || {
        let x = abc();
        let mut d = [IoSlice::new(&[]); 4];
        x.chunks_vectored(&mut d)
    });
}

/// Several writable buffers.
fn of_writable(answers: &mut Answers) {
    ask(answers, "parts from empties".into(), || {
        let x = IoBufsMut::from(vec![IoBufMut::default(), IoBufMut::default()]);
        (x.is_single(), x.capacity())
    });
    ask(answers, "parts from cap without bytes".into(), || {
        let x = IoBufsMut::from(vec![IoBufMut::with_capacity(2), IoBufMut::default(), IoBufMut::with_capacity(3)]);
        (x.is_single(), x.capacity(), x.len(), x.chunk().len())
    });
    ask(answers, "parts put spreads".into(), || {
        let mut x = filled(3);
        x.put_slice(b"12345");
        shape(&x.freeze())
    });
    ask(answers, "parts put_u64 over 3".into(), || {
        let mut x = empty(3);
        x.put_u64(0x4142434445464748);
        shape(&x.freeze())
    });
    ask(answers, "parts put_u32_le over 2".into(), || {
        let mut x = filled(2);
        x.put_u32_le(0x41424344);
        shape(&x.freeze())
    });
    ask(answers, "parts put bufs that fit".into(), || {
        let mut x = empty(3);
        x.put(chunks(4));
        shape(&x.freeze())
    });
    ask(answers, "parts freeze drops empties".into(), || {
        let x = IoBufsMut::from(vec![IoBufMut::with_capacity(2), abc(), IoBufMut::with_capacity(2)]);
        let y = x.freeze();
        (y.is_single(), y.chunk_count())
    });
    ask(answers, "parts freeze recovers".into(), || {
        let y = filled(1).freeze();
        y.try_into_single().unwrap().try_into_mut().map(|m| m.capacity()).ok()
    });
    ask(answers, "parts as_single_mut".into(), || {
        let mut x = IoBufsMut::from(abc());
        x.as_single_mut().unwrap().truncate(1);
        (x.len(), x.remaining_mut())
    });
    ask(answers, "parts from vec cap".into(), || {
        let x = IoBufsMut::from(Vec::<u8>::with_capacity(9));
        (x.len(), x.capacity())
    });
    ask(answers, "parts from array".into(), || {
        let x = IoBufsMut::from([1u8, 2, 3]);
        (x.len(), x.capacity(), x.remaining_mut())
    });
    ask(answers, "bufs from parts".into(), || {
        let x: IoBufs = filled(3).into();
        shape(&x)
    });
    ask(answers, "parts coalesce many".into(), || {
        let x = filled(4).coalesce();
        (x.len(), x.capacity(), x.remaining_mut())
    });
    ask(answers, "parts coalesce 1 spare".into(), || {
        let x = filled(1).coalesce();
        (x.len(), x.capacity())
    });
}

/// Builders.
fn of_built(answers: &mut Answers) {
    ask(answers, "builder order".into(), || {
        let mut b = Builder::new(4);
        b.put_u8(b'a');
        b.push(Bytes::from_static(b"--"));
        b.push(Bytes::new());
        b.put_u8(b'b');
        b.put_u8(b'c');
        b.push(Bytes::from_static(b"++"));
        shape(&b.finish())
    });
    ask(answers, "builder none".into(), || {
        let x = Builder::new(9).finish();
        (x.is_empty(), x.is_single(), x.chunk_count())
    });
    ask(answers, "builder inline recovers".into(), || {
        let mut b = Builder::new(9);
        b.put_u8(1);
        b.finish().try_into_single().unwrap().try_into_mut().map(|m| m.capacity()).ok()
    });
    ask(answers, "builder inline shared".into(), || {
        let mut b = Builder::new(9);
        b.put_u8(1);
        b.push(Bytes::from_static(b"x"));
        b.put_u8(2);
        let mut x = b.finish();
        let y = x.split_to(1);
        y.try_into_single().unwrap().try_into_mut().is_ok()
    });
    ask(answers, "builder push first".into(), || {
        let mut b = Builder::new(2);
        b.push(Bytes::from_static(b"x"));
        b.put_u16(0x6162);
        shape(&b.finish())
    });
    ask(answers, "builder 20 pieces".into(), || {
        let mut b = Builder::new(10);
        for i in 0..10 {
            b.put_u8(b'a' + i);
            b.push(vec![b'0' + i]);
        }
        let x = b.finish();
        (x.chunk_count(), x.len())
    });
}

/// Equality.
fn of_equal(answers: &mut Answers) {
    ask(answers, "eq storages".into(), || {
        (
            hello() == IoBuf::from(b"hello"),
            hello() == IoBuf::from(Bytes::from_static(b"hello")),
            IoBuf::default() == hello().slice(3..3),
            hello() != IoBuf::from(b"hellp"),
        )
    });
    ask(answers, "eq mut".into(), || {
        (abc() == *b"abc", abc() == b"abc", abc() == b"abc"[..], abc() == &b"abc"[..], abc() == *b"abd")
    });
}

/// Alignment.
fn of_aligned(answers: &mut Answers) {
    ask(answers, "aligned cap".into(), || {
        let mut x = IoBufMut::with_alignment(100, nonzero(64));
        (x.as_mut_ptr() as usize % 64, x.capacity(), x.remaining_mut())
    });
    ask(answers, "aligned zero len".into(), || {
        let x = IoBufMut::zeroed_with_alignment(0, nonzero(64));
        (x.len(), x.capacity())
    });
    ask(answers, "aligned bad of none".into(), || {
        let x = IoBufMut::zeroed_with_alignment(0, nonzero(3));
        (x.len(), x.capacity())
    });
    ask(answers, "aligned freeze recover put".into(), || {
        let mut x = IoBufMut::with_alignment(100, nonzero(512));
        x.put_u8(1);
        let mut y = x.freeze().try_into_mut().unwrap();
        y.put_bytes(2, 99);
        (y.as_mut_ptr() as usize % 512, y.len(), y.capacity())
    });
    ask(answers, "aligned from freeze to Vec".into(), || {
        let mut x = IoBufMut::with_alignment(100, nonzero(512));
        x.put_u8(1);
        Vec::from(x.freeze())
    });
    ask(answers, "zeroed".into(), || {
        let x = IoBufMut::zeroed(4097);
        (x.len(), x.capacity(), x.as_ref().iter().all(|b| *b == 0))
    });
    ask(answers, "set_len after truncate shows".into(), || {
        let mut x = abc();
        x.truncate(0);
        unsafe { x.set_len(2) };
        x.len()
    });
}

/// All of these.
pub fn of_more(answers: &mut Answers) {
    of_format(answers);
    of_edges(answers);
    of_errors(answers);
    of_reads(answers);
    of_spare(answers);
    of_addresses(answers);
    of_recovery(answers);
    of_chunked(answers);
    of_writable(answers);
    of_built(answers);
    of_equal(answers);
    of_aligned(answers);
}
