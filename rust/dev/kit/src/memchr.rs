//! The search for a byte.
#![forbid(unsafe_code)]

/// Returns the index of the first byte that equals `byte`, if there is one.
#[inline]
pub fn memchr(byte: u8, bytes: &[u8]) -> Option<usize> {
    bytes.iter().position(|it| *it == byte)
}
