//! Chunks of up to 2 MiB, ranges without bytes, and lengths above 2^32. The bytes are those of `model`.
use iobufs::{Error, Frames, IoBuf, IoBufMut, IoBufs, PutLength, length_size};
use std::ops::Bound::{Excluded, Included, Unbounded};

const SIZES: [usize; 5] = [64, 4097, 65537, (1 << 20) + 1, 2 << 20];

const FAR: usize = (1 << 33) + 5;

fn model(n: usize) -> Vec<u8> {
    (0..n).map(|i| ((i * 7 + i / 251) % 253) as u8).collect()
}

/// The bytes in chunks of `n`.
fn cut(bytes: &[u8], n: usize) -> IoBufs {
    bytes.chunks(n).map(IoBuf::copy_from_slice).collect()
}

/// The chunks of an `IoBufs` are those of the bytes, whichever call returns them.
fn assert_cut<'a>(text: &IoBufs, chunks: impl IntoIterator<Item = &'a [u8]>) {
    let wanted: Vec<&[u8]> = chunks.into_iter().filter(|it| !it.is_empty()).collect();
    let mut seen = Vec::new();
    text.for_each_chunk(|chunk| seen.push(chunk.to_vec()));
    assert!(seen == wanted && text.chunks().eq(wanted.iter().copied()));
    assert!(wanted.iter().enumerate().all(|(i, chunk)| text.chunk_at(i) == Some(*chunk)));
    assert_eq!((text.chunk_count(), text.chunk_at(wanted.len())), (wanted.len(), None));
    assert!(text.io_slices().iter().map(|slice| &**slice).eq(wanted.iter().copied()));
}

#[test]
fn long_views() {
    for n in SIZES {
        let all = model(n);
        let mut view = IoBuf::copy_from_slice(&all);
        assert!(view == all[..] && view.slice(n / 3..n - 1) == all[n / 3..n - 1] && view.clone() == all[..]);
        assert!(view.split_to(n / 2) == all[..n / 2] && view.take_view(7) == all[n / 2..n / 2 + 7]);
        let mut part = IoBufMut::from(view);
        assert!(part.chunk() == &all[n / 2 + 7..]);
        assert!(part.copy_to_bytes(9) == all[n / 2 + 7..n / 2 + 16] && part.freeze() == all[n / 2 + 16..]);
        let copy = IoBuf::from(all.clone());
        assert!(copy == all[..]);
        assert!(
            IoBuf::copy_from_slice(&all).try_into_mut().is_ok_and(|part| part.capacity() == n && part.chunk() == all)
        );
    }
}

#[test]
fn long_texts() {
    for (n, count) in SIZES.into_iter().flat_map(|n| [(n, 1), (n / 2, 2), (n / 4, 4), (16, n / 16)]) {
        let all = model(n * count);
        let mut text = cut(&all, n);
        assert_cut(&text, all.chunks(n));
        assert_cut(&text.clone(), all.chunks(n));
        let at = all.len() / 3;
        assert!(text.slice(at..2 * at) == all[at..2 * at]);
        let front = text.split_to(at);
        assert_cut(&front, all[..at].chunks(n));
        let edge = at.next_multiple_of(n).min(all.len());
        assert_cut(&text, std::iter::once(&all[at..edge]).chain(all[edge..].chunks(n)));
        assert!(text.take_view(at) == all[at..2 * at] && text.coalesce() == all[2 * at..]);
    }
}

#[test]
fn ranges_without_bytes() {
    let all = model(5000);
    let view = IoBuf::copy_from_slice(&all);
    for at in [0, 2500, 5000] {
        assert!(view.slice(at..at).is_empty());
    }
    assert!(view.slice(..0).is_empty() && view.slice(5000..).is_empty());
    assert!(view.slice((Excluded(9), Included(9))).is_empty());
    assert!(view.slice((Unbounded, Excluded(0))).is_empty());
    for at in [0, 4999] {
        let far = view.clone();
        assert!(std::panic::catch_unwind(move || far.slice((Excluded(at), Excluded(at)))).is_err());
    }
    for far in [5001, FAR, usize::MAX] {
        for range in [(Included(0), Excluded(far)), (Included(far), Unbounded), (Excluded(far), Included(far))] {
            let view = view.clone();
            assert!(std::panic::catch_unwind(move || view.slice(range)).is_err());
        }
    }
    let mut text = IoBufs::from(view.clone());
    assert!(text.split_to(0).is_empty() && text.take_view(0).is_empty() && text == view);
    assert!(text.split_to(5000) == view && text.is_empty());
}

#[test]
fn lengths_above_32_bits() {
    let mut part = IoBufMut::with_capacity(9);
    part.put_length(FAR);
    assert_eq!((part.chunk(), length_size(FAR)), (&b"\x85\x80\x80\x80\x20"[..], 5));
    let mut frames = Frames::default();
    frames.feed(part.freeze());
    assert_eq!(frames.next(..FAR), Err(Error::InvalidLength(FAR)));
    assert_eq!(frames.next(FAR + 1..), Err(Error::InvalidLength(FAR)));
    assert_eq!(frames.next(FAR..=FAR), Ok(None));
    assert_eq!((frames.next(..), frames.len()), (Ok(None), 5));
}
