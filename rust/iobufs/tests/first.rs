//! The first things that a user of `Bytes` tries: conversions, comparisons, iterators, `Debug`, and values that are
//! read back.
use iobufs::codec::{Decode, Encode, RangeCfg};
use iobufs::{Error, IoBuf, IoBufMut, IoBufs, IoBufsMut};
use std::fmt::Debug;

#[test]
fn conversions_keep_the_bytes() {
    let views: [IoBuf; 6] = [
        IoBuf::from_static(b"abc"),
        "abc".into(),
        String::from("abc").into(),
        vec![b'a', b'b', b'c'].into(),
        vec![b'a', b'b', b'c'].into_boxed_slice().into(),
        b"abc".iter().copied().collect(),
    ];
    for view in views {
        assert_eq!(view, "abc");
        assert_eq!(IoBufs::from(view), "abc");
    }
    assert_eq!(IoBufs::from("abc"), IoBufs::from(String::from("abc")));
    assert_eq!(IoBufs::from_static(b"abc"), IoBufs::from(Box::<[u8]>::from(*b"abc")));
    assert!(IoBuf::new().is_empty() && IoBufs::new().is_empty());
}

#[test]
fn buffers_equal_bytes_and_each_other() {
    let (view, part) = (IoBuf::from("ab"), IoBufMut::from(b"ab"));
    let bufs: IoBufs = ["a", "b"].into_iter().map(IoBuf::from).collect();
    let (text, list) = (String::from("ab"), vec![b'a', b'b']);
    let (short, shorter) = (IoBuf::from("a"), IoBufs::from("a"));
    let with_bytes =
        [view == "ab", view == *"ab", view == text, view == list, view == *b"ab", bufs == "ab", part == "ab"];
    let of_bytes =
        ["ab" == view, *"ab" == view, text == view, list == view, *b"ab" == view, "ab" == bufs, b"ab" == part];
    let with_each_other = [view == part, part == view, view == bufs, bufs == view, part == bufs, bufs == part];
    assert_eq!((with_bytes, of_bytes, with_each_other), ([true; 7], [true; 7], [true; 6]));
    let others = [view == "ac", view == shorter, bufs == "ba", bufs == short, part == shorter];
    assert_eq!(others, [false; 5]);
}

#[test]
fn debug_shows_lengths() {
    let bufs: IoBufs = ["a\"", "\n\u{e9}"].into_iter().map(IoBuf::from).collect();
    let parts = IoBufsMut::from([IoBufMut::from(b"x"), IoBufMut::with_capacity(2)]);
    let mut part = IoBufMut::with_capacity(8);
    part.put_slice(b"key");
    let cases: [(&dyn Debug, &str); 6] = [
        (&IoBuf::from("ab\n"), "IoBuf { len: 3 }"),
        (&IoBuf::new(), "IoBuf { len: 0 }"),
        (&part, "IoBufMut { len: 3, cap: 8 }"),
        (&bufs, "IoBufs { len: 5, chunks: 2 }"),
        (&parts, "IoBufsMut { len: 1, cap: 3 }"),
        (&Some(IoBuf::from("a")), "Some(IoBuf { len: 1 })"),
    ];
    for (value, shown) in cases {
        assert_eq!(format!("{value:?}"), shown);
    }
    assert_eq!(format!("{part:#?}"), "IoBufMut {\n    len: 3,\n    cap: 8,\n    bytes: b\"key\",\n}");
    assert_eq!(
        (format!("{bufs:x}"), format!("{part:X}"), format!("{:X}", IoBuf::from("\u{e9}"))),
        ("61220ac3a9".into(), "6B6579".into(), "C3A9".into())
    );
}

#[test]
fn splits_and_iterators() {
    let mut view = IoBuf::from("abcde");
    assert_eq!((view.split_off(3), &view), (IoBuf::from("de"), &IoBuf::from("abc")));
    view.truncate(2);
    view.truncate(9);
    assert_eq!(view, "ab");
    assert_eq!((&view).into_iter().copied().collect::<Vec<_>>(), b"ab");
    view.clear();
    assert!(view.is_empty());

    let mut bufs: IoBufs = [vec![1], vec![2, 3]].into_iter().map(IoBuf::from).collect();
    bufs.extend([IoBuf::from("x")]);
    bufs.append_all(["y", "z"].into_iter().map(IoBuf::from).collect());
    assert_eq!(bufs.to_vec(), [1, 2, 3, b'x', b'y', b'z']);
    assert_eq!(bufs.split_off(4), "yz");
    let lengths: Vec<usize> = bufs.clone().into_iter().map(|view| view.len()).collect();
    assert_eq!(lengths, [1, 2, 1]);
    bufs.clear();
    assert!(bufs.is_empty() && bufs.into_iter().next().is_none());
}

#[test]
fn a_whole_buffer_is_taken_without_a_copy() {
    let mut part = IoBufMut::from(b"abc");
    let at = part.as_ref().as_ptr();
    let taken = part.copy_to_bytes(3);
    assert_eq!((taken.as_ref().as_ptr(), part.capacity()), (at, 0));
}

#[test]
fn a_vec_that_one_view_keeps_comes_back() {
    let vec = vec![1, 2, 3, 4];
    let at = vec.as_ptr();
    let mut view = IoBuf::from(vec);
    let other = view.slice(2..);
    view.advance(1);
    assert_eq!(Vec::from(view.clone()), [2, 3, 4]);
    assert_eq!(Vec::from(other), [3, 4]);
    view.truncate(2);
    let back = Vec::from(view);
    assert_eq!((back.as_ptr(), back), (at, vec![2, 3]));
    assert_eq!(Vec::from(IoBuf::from(vec![1; 3]).split_to(0)), [0; 0]);
    assert_eq!(Vec::from(IoBuf::from("ab")), b"ab");
}

/// A value is written as these bytes, and read back from them, whole or cut into chunks of one byte.
#[track_caller]
fn written<T: Encode + Decode + PartialEq + Debug>(value: T, cfg: &T::Cfg, bytes: &[u8]) {
    assert_eq!(value.encode(), bytes);
    let bufs = value.encode_iobufs();
    assert_eq!(bufs, bytes);
    assert_eq!(T::decode_cfg(bufs, cfg).as_ref(), Ok(&value));
    let mut cut: IoBufs = bytes.iter().map(|byte| vec![*byte].into()).collect();
    assert_eq!(T::read_cfg(&mut cut, cfg).as_ref(), Ok(&value));
    assert!(cut.is_empty());
    for n in 0..bytes.len() {
        let mut front = IoBuf::copy_from_slice(&bytes[..n]);
        assert_eq!(T::read_cfg(&mut front, cfg), Err(Error::EndOfBuffer));
        assert_eq!(front, bytes[..n]);
    }
}

#[test]
fn values_are_read_back() {
    let any = RangeCfg::from(..);
    written(true, &(), &[1]);
    written(-2i8, &(), &[254]);
    written(-2i16, &(), &[255, 254]);
    written(i32::MIN, &(), &[128, 0, 0, 0]);
    written(-1i64, &(), &[255; 8]);
    written(1u128 << 64, &(), &[0, 0, 0, 0, 0, 0, 0, 1, 0, 0, 0, 0, 0, 0, 0, 0]);
    written(-1i128, &(), &[255; 16]);
    written([7u8, 8, 9], &(), &[7, 8, 9]);
    written(Some(5u16), &(), &[1, 0, 5]);
    written(None::<u16>, &(), &[0]);
    written(vec![1u16, 2], &(any, ()), &[2, 0, 1, 0, 2]);
    written(vec![IoBuf::from("ab"), IoBuf::from("")], &(any, any), &[2, 2, b'a', b'b', 0]);
    written(String::from("h\u{e9}"), &any, b"\x03h\xc3\xa9");
    written((1u8, (true, String::from("x"))), &((), ((), any)), &[1, 1, 1, b'x']);
    written(bytes::Bytes::from_static(b"ab"), &any, b"\x02ab");
}

type Fails = Box<dyn FnOnce() + std::panic::UnwindSafe>;

#[test]
fn panics_name_the_line_of_the_call() {
    // In this thread, whether the last panic was in this file.
    std::thread_local!(static HERE: std::cell::Cell<Option<bool>> = const { std::cell::Cell::new(None) });
    let usual = std::panic::take_hook();
    std::panic::set_hook(Box::new(move |panic| match HERE.get() {
        Some(_) => HERE.set(Some(panic.location().is_some_and(|at| at.file() == file!()))),
        None => usual(panic),
    }));
    let (mut view, mut bufs, mut part) = (IoBuf::from("ab"), IoBufs::from("ab"), IoBufMut::from(b"ab"));
    let (mut other, mut more, sliced, chopped) = (view.clone(), bufs.clone(), view.clone(), bufs.clone());
    let (mut read, mut across) = (IoBuf::from("abc"), IoBufs::from(["a".into(), "b".into()]));
    let calls: [(&str, Fails); 10] = [
        ("Buf::get_u32_le", Box::new(move || _ = bytes::Buf::get_u32_le(&mut read))),
        ("Buf::get_i64 of an IoBufs", Box::new(move || _ = bytes::Buf::get_i64(&mut across))),
        ("split_to", Box::new(move || drop(view.split_to(3)))),
        ("take_owned", Box::new(move || drop(other.take_view(3)))),
        ("slice", Box::new(move || drop(sliced.slice(1..3)))),
        ("slice, backwards", Box::new(move || drop(chopped.slice(std::ops::Range { start: 2, end: 1 })))),
        ("IoBufs::split_to", Box::new(move || drop(bufs.split_to(3)))),
        ("IoBufs::take_owned", Box::new(move || drop(more.take_view(3)))),
        ("put_u8", Box::new(move || part.put_u8(1))),
        ("with_capacity", Box::new(|| drop(IoBufMut::with_capacity(usize::MAX)))),
    ];
    for (name, call) in calls {
        HERE.set(Some(false));
        let panics = std::panic::catch_unwind(call).is_err();
        let here = HERE.replace(None);
        assert!(panics && here == Some(true), "{name}");
    }
}

#[test]
fn a_single_buffer_is_lent() {
    let mut parts = IoBufsMut::from(IoBufMut::from(b"ab"));
    parts.as_single_mut().unwrap()[1] = b'c';
    assert_eq!(parts.as_single(), Some(&IoBufMut::from(b"ac")));
    let mut several = IoBufsMut::from([IoBufMut::from(b"a"), IoBufMut::from(b"b")]);
    assert!(several.as_single().is_none() && several.as_single_mut().is_none());
    assert_eq!(IoBufs::from("ab").as_single(), Some(&IoBuf::from("ab")));
}

// These are `Bytes`, of the same memory if the bytes are in one chunk.
#[test]
fn bytes_of_the_same_memory() {
    use bytes::Bytes;
    let mut view = IoBuf::copy_from_slice(b"abcd");
    let (at, taken): (_, Bytes) = (view.as_ptr(), view.copy_to_bytes(2));
    assert_eq!((&taken[..], taken.as_ptr(), &view[..]), (&b"ab"[..], at, &b"cd"[..]));
    let mut part = IoBufMut::from(b"ab");
    let (at, taken): (_, Bytes) = (part.chunk().as_ptr(), part.copy_to_bytes(2));
    assert_eq!((&taken[..], taken.as_ptr()), (&b"ab"[..], at));
    let mut bufs: IoBufs = ["ab".into(), "cd".into()].into();
    let (at, taken): (_, Bytes) = (bufs.chunk().as_ptr(), bufs.copy_to_bytes(2));
    assert_eq!((&taken[..], taken.as_ptr(), bufs.len()), (&b"ab"[..], at, 2));
    let encoded: Bytes = 7u16.encode();
    assert_eq!(u16::decode_cfg(encoded, &()), Ok(7));
}

#[test]
fn bytes_that_are_no_value() {
    let any = RangeCfg::from(..);
    assert_eq!(bool::decode_cfg(IoBuf::from(vec![2]), &()), Err(Error::InvalidBool));
    assert_eq!(Option::<u8>::decode_cfg(IoBuf::from(vec![2, 0]), &()), Err(Error::InvalidBool));
    assert_eq!(String::decode_cfg(IoBuf::from(vec![1, 255]), &any), Err(Error::Invalid("String", "not UTF-8")));
    assert_eq!(
        Vec::<u8>::decode_cfg(IoBuf::from(vec![3, 1]), &(RangeCfg::from(..3), ())),
        Err(Error::InvalidLength(3))
    );
    assert_eq!(Vec::<u8>::decode_cfg(IoBuf::from(vec![3, 1]), &(any, ())), Err(Error::EndOfBuffer));
    assert_eq!(<(u8, u8)>::decode_cfg(IoBuf::from(vec![1, 2, 3]), &((), ())), Err(Error::ExtraData(1)));
    assert_eq!(Error::InvalidEnum(9).to_string(), "invalid variant 9");
}
