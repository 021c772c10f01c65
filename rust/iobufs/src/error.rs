//! Errors, and how a call that fails ends.
#![forbid(unsafe_code)]
use crate::proved::iobufs_core::codec as core;
use std::alloc::{self, Layout};
use std::io::{self, ErrorKind};
use std::{fmt, process};

/// The original's message for bytes that don't fit, or aren't there.
pub(crate) const PAST: &str = "cannot advance past end of buffer";
/// Its message for a size that no allocation has.
pub(crate) const LAYOUT: &str = "alignment must be a power of two and the size must fit a layout";
/// Its message if the buffer is to be filled with zeros.
pub(crate) const ZEROED: &str = "alignment must be a power of two and the size must fit a layout: LayoutError";

/// Why a value isn't read, or a frame isn't put (the codec's `Error`).
///
/// ```
/// use iobufs::{Error, IoBuf};
///
/// let mut buf = IoBuf::from(b"\x05hel");
/// assert_eq!(buf.read_view(..=4), Err(Error::InvalidLength(5)));
/// assert_eq!(buf.read_view(..=1024), Err(Error::EndOfBuffer));
/// assert_eq!(buf.len(), 4); // nothing changed
/// ```
#[derive(Clone, Copy, Debug, PartialEq, Eq)]
#[non_exhaustive]
pub enum Error {
    /// Fewer bytes are left than the value has.
    EndOfBuffer,
    /// The bytes are an invalid varint: of more than 64 bits, or not in the shortest form.
    InvalidVarint,
    /// This length or count is outside the range, or can't be that of a frame. If a frame is read, it is the number in
    /// the header: its body is outside the range, or it is below what the layout [`counts`](crate::Layout::counts). If
    /// one is written, it is the body's length, also if the header has no form for it, the layout has another number of
    /// bytes around the length, or more than 22, or the frame is too long.
    InvalidLength(usize),
    /// A byte that is neither 0 nor 1.
    InvalidBool,
    /// No variant of the enum has this byte.
    InvalidEnum(u8),
    /// This type doesn't accept the bytes, for this reason.
    Invalid(&'static str, &'static str),
    /// A value that has to be all bytes has this many after it.
    ExtraData(usize),
}

impl fmt::Display for Error {
    fn fmt(&self, f: &mut fmt::Formatter<'_>) -> fmt::Result {
        match self {
            Error::EndOfBuffer => f.write_str("fewer bytes are left than the value has"),
            Error::InvalidVarint => f.write_str("invalid varint"),
            Error::InvalidLength(n) => write!(f, "the length {n} isn't accepted"),
            Error::InvalidBool => f.write_str("invalid bool"),
            Error::InvalidEnum(tag) => write!(f, "invalid variant {tag}"),
            Error::Invalid(name, reason) => write!(f, "invalid {name}: {reason}"),
            Error::ExtraData(n) => write!(f, "{n} bytes are left after the value"),
        }
    }
}

impl std::error::Error for Error {}

/// `ErrorKind::UnexpectedEof` of `EndOfBuffer`, `ErrorKind::InvalidData` of the others.
impl From<Error> for io::Error {
    fn from(error: Error) -> Self {
        let kind = if error == Error::EndOfBuffer { ErrorKind::UnexpectedEof } else { ErrorKind::InvalidData };
        io::Error::new(kind, error)
    }
}

/// Memory for a buffer couldn't be allocated, or no buffer has this size.
///
/// ```
/// let error = iobufs::IoBufMut::try_with_capacity(usize::MAX).unwrap_err();
/// assert_eq!(error.bytes, usize::MAX);
/// ```
#[derive(Clone, Copy, Debug, PartialEq, Eq)]
#[non_exhaustive]
pub struct AllocError {
    /// The number of bytes requested.
    pub bytes: usize,
}

impl fmt::Display for AllocError {
    fn fmt(&self, f: &mut fmt::Formatter<'_>) -> fmt::Result {
        write!(f, "memory allocation of {} bytes failed", self.bytes)
    }
}

impl std::error::Error for AllocError {}

pub use bytes::TryGetError;

/// Panics as the traits of `bytes` do if a call needs more bytes than there are.
#[cold]
#[track_caller]
pub(crate) fn past(requested: usize, available: usize) -> ! {
    panic!("advance out of bounds: the len is {available} but advancing by {requested}")
}

/// Panics as the original's `IoBuf` and `IoBufMut` do if they have fewer bytes than a copy.
#[cold]
#[track_caller]
pub(crate) fn too_short(error: TryGetError) -> ! {
    panic!("{error}")
}

/// Panics as the original's `IoBufs` and `IoBufsMut` do.
#[cold]
#[track_caller]
pub(crate) fn short_chunks(error: TryGetError) -> ! {
    past(error.requested, error.available)
}

/// Panics as the original's writable buffer does if it hasn't the space.
#[cold]
#[track_caller]
pub(crate) fn full(_: usize, _: usize) -> ! {
    panic!("{PAST}")
}

/// The error of a read past the end.
#[inline]
pub(crate) fn short(error: core::TryGetError) -> TryGetError {
    TryGetError { requested: error.requested, available: error.available }
}

/// Ends the process, as Rust's collections do if an allocation fails. Prints how many bytes were requested, if that is
/// known and at most `isize::MAX`.
#[cold]
pub(crate) fn out_of_memory(bytes: Option<usize>) -> ! {
    if let Some(layout) = bytes.and_then(|n| Layout::array::<u8>(n).ok()) {
        alloc::handle_alloc_error(layout);
    }
    eprintln!("memory allocation failed");
    process::abort()
}

/// Returns what a call made of `bytes` bytes. Ends the process if an allocation failed, else panics with `message`.
#[inline]
#[track_caller]
pub(crate) fn made<T, E: Into<core::BufError>>(made: Result<T, E>, bytes: Option<usize>, message: &str) -> T {
    match made {
        Ok(made) => made,
        Err(cause) => failed(cause.into(), bytes, message),
    }
}

#[cold]
#[track_caller]
fn failed(cause: core::BufError, bytes: Option<usize>, message: &str) -> ! {
    match cause {
        core::BufError::Memory => out_of_memory(bytes),
        _ => panic!("{message}"),
    }
}

/// Returns the result of a call whose only error is a failed allocation. That error ends the process.
#[inline]
pub(crate) fn shared<T, E>(made: Result<T, E>) -> T {
    made.unwrap_or_else(|_| out_of_memory(None))
}

/// Returns what a call made, unless it failed to allocate `bytes` bytes.
pub(crate) fn tried<T, M>(
    made: Result<T, core::BufError>,
    bytes: usize,
    make: impl FnOnce(T) -> M,
) -> Result<M, AllocError> {
    made.map(make).map_err(|_| AllocError { bytes })
}

/// The error of reading a length, a view or a frame.
#[cold]
pub(crate) fn fault(error: core::Error) -> Error {
    match error {
        core::Error::EndOfBuffer => Error::EndOfBuffer,
        core::Error::InvalidVarint => Error::InvalidVarint,
        core::Error::InvalidLength(n) => Error::InvalidLength(n),
        _ => out_of_memory(None),
    }
}
