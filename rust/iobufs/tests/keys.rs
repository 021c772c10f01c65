//! Views as keys: the feature `keys`.
#![cfg(feature = "keys")]
use bytes::Bytes;
use iobufs::IoBuf;
use std::collections::{BTreeMap, HashMap};
use std::hash::{BuildHasher, RandomState};
use std::ops::Bound;

/// Bytes in order.
const SORTED: [&[u8]; 6] = [b"", b"\0", b"a", b"ab", b"b", b"\xff"];

/// Bytes in each storage, and as a slice of others.
fn views(bytes: &'static [u8]) -> [IoBuf; 4] {
    let long = [b"-", bytes, b"-"].concat();
    let slice = IoBuf::from(long).slice(1..=bytes.len());
    [IoBuf::from(bytes), IoBuf::from(bytes.to_vec()), Bytes::copy_from_slice(bytes).into(), slice]
}

// Order and hash are those of the bytes, for every storage.
#[test]
fn order_and_hash_are_those_of_the_bytes() {
    let hasher = RandomState::new();
    for (a, b) in SORTED.iter().flat_map(|a| SORTED.map(|b| (*a, b))) {
        for (x, y) in views(a).into_iter().zip(views(b).into_iter().rev()) {
            assert_eq!((x.cmp(&y), x.partial_cmp(&y)), (a.cmp(b), Some(a.cmp(b))), "{a:?} {b:?}");
            assert_eq!((x.partial_cmp(b), b.partial_cmp(&x)), (Some(a.cmp(b)), Some(b.cmp(a))), "{a:?} {b:?}");
            assert_eq!(hasher.hash_one(&x), hasher.hash_one(a));
        }
    }
}

/// Whether the first is less, asked of each.
fn is_less<A: PartialOrd<B> + ?Sized, B: PartialOrd<A> + ?Sized>(a: &A, b: &B) -> bool {
    [a.lt(b), b.gt(a)] == [true; 2]
}

#[test]
fn order_with_bytes_of_other_types() {
    let view = IoBuf::from(b"b");
    assert!(is_less(&b"a"[..], &view) && is_less(&&b"a"[..], &view) && is_less(b"a", &view) && is_less(&b"a", &view));
    assert!(is_less(&view, "c") && is_less(&view, &"c") && is_less(&view, &String::from("c")));
    assert!(is_less(&view, &vec![b'c']) && is_less(&view, &Bytes::from_static(b"c")));
}

#[derive(Clone, Debug, PartialEq, Eq, PartialOrd, Ord, Hash)]
enum Blocked {
    On(IoBuf),
}

#[test]
fn keys_of_maps() {
    let mut numbers: HashMap<IoBuf, usize> = HashMap::new();
    let mut sorted: BTreeMap<IoBuf, usize> = BTreeMap::new();
    for (n, bytes) in SORTED.iter().enumerate() {
        for view in views(bytes) {
            numbers.insert(view.clone(), n);
            sorted.insert(view, n);
        }
    }
    assert_eq!((numbers.len(), sorted.values().copied().collect::<Vec<_>>()), (6, vec![0, 1, 2, 3, 4, 5]));
    for (n, bytes) in SORTED.iter().enumerate() {
        assert_eq!((numbers.get(*bytes), sorted.get(*bytes)), (Some(&n), Some(&n)));
    }
    let from_a = (Bound::Included(&b"a"[..]), Bound::Unbounded);
    assert_eq!(sorted.range::<[u8], _>(from_a).count(), 4);
    assert!(Blocked::On("a".into()) < Blocked::On("b".into()));
}
