//! Bytes as hexadecimal digits.
#![forbid(unsafe_code)]
use super::base::Global;
use super::vec::Vec;

const DIGITS: &[u8; 16] = b"0123456789abcdef";

/// Why digits aren't decoded, or bytes not encoded.
#[derive(Debug, PartialEq, Eq)]
pub enum FromHexError {
    OddLength,
    InvalidHexCharacter {
        c: char,
        index: usize,
    },
    /// The space isn't twice as long as the bytes.
    InvalidStringLength,
    OutOfMemory,
}

/// Returns the bytes of pairs of digits, in lower or upper case.
pub fn decode(alloc: Global, digits: &[u8]) -> Result<Vec<u8>, FromHexError> {
    if digits.len() % 2 != 0 {
        return Err(FromHexError::OddLength);
    }
    let mut bytes = Vec::with_capacity(alloc, digits.len() / 2).map_err(|_| FromHexError::OutOfMemory)?;
    for index in (0..digits.len()).step_by(2) {
        bytes.push_reserved(16 * value(digits, index)? + value(digits, index + 1)?);
    }
    Ok(bytes)
}

fn value(digits: &[u8], index: usize) -> Result<u8, FromHexError> {
    let c = char::from(digits[index]);
    c.to_digit(16).map(|value| value as u8).ok_or(FromHexError::InvalidHexCharacter { c, index })
}

/// Writes two digits for each byte, in lower case, into space for just these.
pub fn encode_to_slice(bytes: &[u8], digits: &mut [u8]) -> Result<(), FromHexError> {
    if digits.len() != 2 * bytes.len() {
        return Err(FromHexError::InvalidStringLength);
    }
    for (pair, byte) in digits.chunks_exact_mut(2).zip(bytes) {
        pair.copy_from_slice(&[DIGITS[usize::from(byte >> 4)], DIGITS[usize::from(byte & 15)]]);
    }
    Ok(())
}
