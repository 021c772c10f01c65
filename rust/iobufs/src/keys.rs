//! Order and hash of views (feature `keys`).
#![forbid(unsafe_code)]
use crate::IoBuf;
use std::borrow::Borrow;
use std::cmp::Ordering;
use std::hash::{Hash, Hasher};

/// The order of the bytes (feature `keys`).
///
/// ```
/// let mut lines = ["b", "ab", "a"].map(iobufs::IoBuf::from);
/// lines.sort();
/// assert_eq!(lines, ["a", "ab", "b"]);
/// ```
impl Ord for IoBuf {
    fn cmp(&self, other: &Self) -> Ordering {
        self.as_ref().cmp(other.as_ref())
    }
}

impl PartialOrd for IoBuf {
    fn partial_cmp(&self, other: &Self) -> Option<Ordering> {
        Some(self.cmp(other))
    }
}

/// The hash of the bytes (feature `keys`).
impl Hash for IoBuf {
    fn hash<H: Hasher>(&self, state: &mut H) {
        self.as_ref().hash(state);
    }
}

/// A key of a map is found by its bytes (feature `keys`).
///
/// ```
/// use std::collections::HashMap;
///
/// let numbers = HashMap::from([(iobufs::IoBuf::from("one"), 1)]);
/// assert_eq!(numbers.get(&b"one"[..]), Some(&1));
/// ```
impl Borrow<[u8]> for IoBuf {
    fn borrow(&self) -> &[u8] {
        self.as_ref()
    }
}

/// Order with bytes, as `Bytes` has it, in both directions.
macro_rules! ordered {
    ($([$($param:tt)*] $bytes:ty),*) => {$(
        impl<$($param)*> PartialOrd<$bytes> for IoBuf {
            fn partial_cmp(&self, other: &$bytes) -> Option<Ordering> {
                let other: &[u8] = other.as_ref();
                Some(self.as_ref().cmp(other))
            }
        }

        impl<$($param)*> PartialOrd<IoBuf> for $bytes {
            fn partial_cmp(&self, other: &IoBuf) -> Option<Ordering> {
                other.partial_cmp(self).map(Ordering::reverse)
            }
        }
    )*};
}

ordered! {
    [] [u8], [] &[u8], [const N: usize] [u8; N], [const N: usize] &[u8; N], [] Vec<u8>, [] str, [] &str, [] String,
    [] bytes::Bytes
}
