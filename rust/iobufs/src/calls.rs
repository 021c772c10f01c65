//! Calls that several buffers have.
#![forbid(unsafe_code)]
use crate::{IoBuf, IoBufMut, IoBufs};
use std::ops::{Bound, RangeBounds};

/// Returns the start and the end of a range, the length if it has no end.
#[inline]
#[track_caller]
pub(crate) fn bounds(range: impl RangeBounds<usize>, len: impl FnOnce() -> usize) -> (usize, usize) {
    let lo = match range.start_bound() {
        Bound::Included(n) => *n,
        Bound::Excluded(n) => n.checked_add(1).expect("range start overflow"),
        Bound::Unbounded => 0,
    };
    let hi = match range.end_bound() {
        Bound::Included(n) => n.checked_add(1).expect("range end overflow"),
        Bound::Excluded(n) => *n,
        Bound::Unbounded => len(),
    };
    (lo, hi)
}

/// Panics as the original does at a split past the end.
#[cold]
#[track_caller]
pub(crate) fn split_outside(at: usize, len: usize) -> ! {
    panic!("split_to out of bounds: {at} <= {len}")
}

/// Panics as the original does at a range that isn't within the bytes.
#[cold]
#[track_caller]
pub(crate) fn outside(lo: usize, hi: usize) -> ! {
    panic!("{}", if lo > hi { "slice start must be <= end" } else { "slice out of bounds" })
}

/// How many bytes `{:#?}` shows.
const SHOWN: usize = 64;

/// Returns the first bytes as a literal, and two dots if there are others.
pub(crate) fn first_bytes<'a>(chunks: impl Iterator<Item = &'a [u8]>) -> String {
    let mut bytes = chunks.flatten();
    let shown: Vec<u8> = bytes.by_ref().take(SHOWN).copied().collect();
    format!("b\"{}\"{}", shown.escape_ascii(), if bytes.next().is_some() { ".." } else { "" })
}

/// `Debug`, which shows bytes only as `{:#?}`, and hexadecimal digits of a buffer's bytes.
macro_rules! shown {
    ($buffer:ident, $($field:ident: $value:ident),*) => {
        impl std::fmt::Debug for $buffer {
            fn fmt(&self, f: &mut std::fmt::Formatter<'_>) -> std::fmt::Result {
                let bytes = f.alternate().then(|| crate::calls::first_bytes(self.each_chunk()));
                let mut shown = f.debug_struct(stringify!($buffer));
                $(shown.field(stringify!($field), &self.$value());)*
                if let Some(bytes) = bytes {
                    shown.field("bytes", &format_args!("{bytes}"));
                }
                shown.finish()
            }
        }

        impl std::fmt::LowerHex for $buffer {
            fn fmt(&self, f: &mut std::fmt::Formatter<'_>) -> std::fmt::Result {
                self.each_chunk().flatten().try_for_each(|byte| write!(f, "{byte:02x}"))
            }
        }

        impl std::fmt::UpperHex for $buffer {
            fn fmt(&self, f: &mut std::fmt::Formatter<'_>) -> std::fmt::Result {
                self.each_chunk().flatten().try_for_each(|byte| write!(f, "{byte:02X}"))
            }
        }
    };
}
pub(crate) use shown;

/// Equality with bytes, as the original has it, and with strings, in both directions, by the method `has`.
macro_rules! equals_bytes {
    ($buffer:ident) => {
        crate::calls::equals_bytes! { $buffer, [] [u8], [] &[u8], [const N: usize] [u8; N], [const N: usize] &[u8; N],
            [] Vec<u8>, [] str, [] &str, [] String, [] bytes::Bytes, [] bytes::BytesMut }
    };
    ($buffer:ident, $([$($param:tt)*] $bytes:ty),*) => {$(
        impl<$($param)*> PartialEq<$bytes> for $buffer {
            fn eq(&self, other: &$bytes) -> bool {
                self.has(other.as_ref())
            }
        }

        impl<$($param)*> PartialEq<$buffer> for $bytes {
            fn eq(&self, other: &$buffer) -> bool {
                other == self
            }
        }
    )*};
}
pub(crate) use equals_bytes;

/// Equality of a buffer of one chunk with another one, in both directions.
macro_rules! equal {
    ($($one:ident $other:ident)*) => {$(
        impl PartialEq<$other> for $one {
            fn eq(&self, other: &$other) -> bool {
                other == self.as_ref()
            }
        }

        impl PartialEq<$one> for $other {
            fn eq(&self, other: &$one) -> bool {
                other == self
            }
        }
    )*};
}
equal! { IoBuf IoBufMut IoBuf IoBufs IoBufMut IoBufs }

/// The methods of slices.
macro_rules! derefs {
    ($buffer:ident) => {
        impl std::ops::Deref for $buffer {
            type Target = [u8];

            #[inline]
            fn deref(&self) -> &[u8] {
                self.as_ref()
            }
        }

        impl PartialEq for $buffer {
            fn eq(&self, other: &Self) -> bool {
                self.has(other)
            }
        }

        impl Eq for $buffer {}

        impl $buffer {
            fn has(&self, bytes: &[u8]) -> bool {
                self.as_ref() == bytes
            }

            /// Returns the bytes, if there are some, as one chunk.
            pub(crate) fn each_chunk(&self) -> impl Iterator<Item = &[u8]> {
                Some(self.as_ref()).filter(|bytes| !bytes.is_empty()).into_iter()
            }
        }
    };
}
pub(crate) use derefs;

/// Puts into spare capacity: for writable buffers and a builder, which panic by a function of what is asked and what
/// fits. The examples begin with a buffer for eight bytes, and end with what it becomes.
macro_rules! puts {
    ($past:path, $make:literal, $end:literal) => {
        crate::calls::puts! { $past, $make, $end,
            u16, put_u16, "[0, 7]"; u32, put_u32, "[0, 0, 0, 7]"; u64, put_u64, "[0, 0, 0, 0, 0, 0, 0, 7]"; }
    };
    ($past:path, $make:literal, $end:literal, $($number:ty, $put:ident, $bytes:literal;)*) => {
        /// Returns how many bytes may still be put (`BufMut`).
        ///
        /// ```
        #[doc = $make]
        /// buf.put_u16(7);
        /// assert_eq!(buf.remaining_mut(), 6);
        /// ```
        #[inline]
        pub fn remaining_mut(&self) -> usize {
            core::BufMut::remaining_mut(&self.0)
        }

        /// Puts a copy of bytes (`BufMut`).
        ///
        /// ```
        #[doc = $make]
        /// buf.put_slice(b"hello");
        #[doc = concat!("assert_eq!(buf.", $end, "(), \"hello\");")]
        /// ```
        ///
        /// # Panics
        /// Panics if they don't fit.
        #[inline]
        #[track_caller]
        pub fn put_slice(&mut self, src: &[u8]) {
            if !self.try_put(src) {
                $past(src.len(), self.remaining_mut());
            }
        }

        /// Puts bytes, and returns whether they fit; otherwise nothing changes.
        #[inline]
        pub(crate) fn try_put(&mut self, src: &[u8]) -> bool {
            core::BufMut::try_put_slice(&mut self.0, src)
        }

        /// Puts a byte `n` times (`BufMut`).
        ///
        /// ```
        #[doc = $make]
        /// buf.put_bytes(b'-', 3);
        #[doc = concat!("assert_eq!(buf.", $end, "(), \"---\");")]
        /// ```
        ///
        /// # Panics
        /// Panics if they don't fit.
        #[inline]
        #[track_caller]
        pub fn put_bytes(&mut self, value: u8, n: usize) {
            if !core::BufMut::try_put_bytes(&mut self.0, value, n) {
                $past(n, self.remaining_mut());
            }
        }

        /// Puts a byte (`BufMut`).
        ///
        /// ```
        #[doc = $make]
        /// buf.put_u8(7);
        #[doc = concat!("assert_eq!(buf.", $end, "(), [7]);")]
        /// ```
        ///
        /// # Panics
        /// Panics if it doesn't fit.
        #[inline]
        #[track_caller]
        pub fn put_u8(&mut self, n: u8) {
            self.put_slice(&[n]);
        }

        $(
            /// Puts a number, the highest byte first (`BufMut`).
            ///
            /// ```
            #[doc = $make]
            #[doc = concat!("buf.", stringify!($put), "(7);")]
            #[doc = concat!("assert_eq!(buf.", $end, "(), ", $bytes, ");")]
            /// ```
            ///
            /// # Panics
            /// Panics if it doesn't fit.
            #[inline]
            #[track_caller]
            pub fn $put(&mut self, n: $number) {
                self.put_slice(&n.to_be_bytes());
            }
        )*
    };
}
pub(crate) use puts;

/// Reads from the front: for every buffer but a builder. A copy of more bytes than there are panics by a function. The
/// examples begin with the bytes `hello`.
macro_rules! reads {
    ($short:path, $make:literal) => {
        /// Returns how many bytes are left (`Buf`).
        ///
        /// ```
        #[doc = $make]
        /// buf.advance(1);
        /// assert_eq!(buf.remaining(), 4);
        /// ```
        #[inline]
        pub fn remaining(&self) -> usize {
            self.len()
        }

        /// Returns whether bytes are left (`Buf`).
        ///
        /// ```
        #[doc = $make]
        /// assert!(buf.has_remaining());
        /// buf.advance(5);
        /// assert!(!buf.has_remaining());
        /// ```
        #[inline]
        pub fn has_remaining(&self) -> bool {
            !self.is_empty()
        }

        /// Returns the first chunk of the bytes, without a copy (`Buf`). It is empty if no byte is left.
        ///
        /// ```
        #[doc = $make]
        /// let mut bytes = Vec::new();
        /// while buf.has_remaining() {
        ///     bytes.extend_from_slice(buf.chunk());
        ///     buf.advance(buf.chunk().len());
        /// }
        /// assert_eq!(bytes, b"hello");
        /// ```
        #[inline]
        pub fn chunk(&self) -> &[u8] {
            core::Buf::chunk(&self.0)
        }

        /// Drops the first `n` bytes (`Buf`).
        ///
        /// ```
        #[doc = $make]
        /// buf.advance(2);
        /// let mut rest = [0; 3];
        /// buf.copy_to_slice(&mut rest);
        /// assert_eq!(&rest, b"llo");
        /// ```
        ///
        /// # Panics
        /// Panics if there are fewer bytes.
        #[inline(always)]
        #[track_caller]
        pub fn advance(&mut self, n: usize) {
            assert!(core::Buf::try_advance(&mut self.0, n), "{}", crate::error::PAST);
        }

        /// Fills `dst` with the first bytes, and drops these (`Buf`).
        ///
        /// ```
        #[doc = $make]
        /// let mut front = [0; 4];
        /// buf.copy_to_slice(&mut front);
        /// assert_eq!(&front, b"hell");
        /// assert_eq!(buf.remaining(), 1);
        /// ```
        ///
        /// # Panics
        /// Panics if there are fewer bytes than `dst` has.
        #[inline]
        #[track_caller]
        pub fn copy_to_slice(&mut self, dst: &mut [u8]) {
            if let Err(error) = self.try_copy_to_slice(dst) {
                $short(error);
            }
        }

        /// Fills `dst` with the first bytes, and drops these, if there are enough (`Buf`).
        ///
        /// ```
        #[doc = $make]
        /// let error = buf.try_copy_to_slice(&mut [0; 6]).unwrap_err();
        /// assert_eq!((error.requested, error.available), (6, 5));
        /// assert_eq!(buf.remaining(), 5); // nothing changed
        /// ```
        ///
        /// # Errors
        /// Returns both lengths if there are fewer bytes than `dst` has; then nothing changes.
        #[inline]
        pub fn try_copy_to_slice(&mut self, dst: &mut [u8]) -> Result<(), crate::TryGetError> {
            core::Buf::try_copy_to_slice(&mut self.0, dst).map_err(crate::error::short)
        }
    };
}
pub(crate) use reads;

/// Takes from the front, and reads numbers: for `IoBuf` and `IoBufs`, by whose name the examples call it.
macro_rules! gets {
    ($buffer:literal) => {
        crate::calls::gets! { $buffer,
            u8, get_u8, try_get_u8, "&[7, 8]";
            u16, get_u16, try_get_u16, "&[0, 7, 8]";
            u32, get_u32, try_get_u32, "&[0, 0, 0, 7, 8]";
            u64, get_u64, try_get_u64, "&[0, 0, 0, 0, 0, 0, 0, 7, 8]";
        }
    };
    ($buffer:literal, $($number:ty, $get:ident, $try_get:ident, $bytes:literal;)*) => {
        /// Takes the first `n` bytes as one view: shared within a chunk, copied across chunks.
        ///
        /// ```
        #[doc = concat!("let mut buf = iobufs::", $buffer, "::from(b\"hello\");")]
        /// let view: iobufs::IoBuf = buf.take_view(2);
        /// assert_eq!(view, "he");
        /// assert_eq!(buf, "llo");
        /// ```
        ///
        /// # Panics
        /// Panics if there are fewer bytes.
        #[inline]
        #[track_caller]
        pub fn take_view(&mut self, n: usize) -> IoBuf {
            match self.taken(n) {
                Some(view) => view,
                None => split_outside(n, self.len()),
            }
        }

        /// Takes the first `n` bytes, as [`take_view`](Self::take_view) does, as a `T` (`Buf`).
        ///
        /// ```
        #[doc = concat!("let mut buf = iobufs::", $buffer, "::from(b\"hello\");")]
        /// let front = buf.take_owned::<bytes::Bytes>(2);
        /// let rest: Vec<u8> = buf.take_owned(3);
        /// assert_eq!((&front[..], &rest[..]), (&b"he"[..], &b"llo"[..]));
        /// ```
        ///
        /// # Panics
        /// Panics if there are fewer bytes.
        #[inline]
        #[track_caller]
        pub fn take_owned<T: From<IoBuf>>(&mut self, n: usize) -> T {
            self.take_view(n).into()
        }

        /// Takes the first `n` bytes, if there are as many.
        #[inline]
        fn taken(&mut self, n: usize) -> Option<IoBuf> {
            match core::OwnedBuf::try_take_owned(&mut self.0, Global, n) {
                Ok(view) => Some(IoBuf(view)),
                Err(core::Error::EndOfBuffer) => None,
                Err(_) => crate::error::out_of_memory(Some(n)),
            }
        }

        $(
            /// Reads the number at the front, the highest byte first (`Buf`).
            ///
            /// ```
            #[doc = concat!("let mut buf = iobufs::", $buffer, "::from(", $bytes, ");")]
            #[doc = concat!("assert_eq!(buf.", stringify!($get), "(), 7);")]
            /// assert_eq!(buf, [8]);
            /// ```
            ///
            /// # Panics
            /// Panics if there are fewer bytes.
            #[inline]
            #[track_caller]
            pub fn $get(&mut self) -> $number {
                match self.$try_get() {
                    Ok(n) => n,
                    Err(error) => crate::error::past(error.requested, error.available),
                }
            }

            /// Reads the number at the front, the highest byte first (`Buf`).
            ///
            /// ```
            #[doc = concat!("let mut buf = iobufs::", $buffer, "::from(", $bytes, ");")]
            #[doc = concat!("assert_eq!(buf.", stringify!($try_get), "().unwrap(), 7);")]
            /// buf.clear();
            #[doc = concat!("assert!(buf.", stringify!($try_get), "().is_err());")]
            /// ```
            ///
            /// # Errors
            /// Returns both lengths if there are fewer bytes; then nothing changes.
            #[inline]
            pub fn $try_get(&mut self) -> Result<$number, crate::TryGetError> {
                let mut bytes = [0; size_of::<$number>()];
                self.try_copy_to_slice(&mut bytes)?;
                Ok(<$number>::from_be_bytes(bytes))
            }
        )*

        /// Reads the bytes after a length in the range, as one view: shared within a chunk, copied across chunks
        /// (`IoBuf::read_cfg`).
        ///
        /// ```
        #[doc = concat!("let mut buf = iobufs::", $buffer, "::from(b\"\\x05world\");")]
        /// assert!(buf.read_view(..=4).is_err());
        /// assert_eq!(buf.read_view(..=1024)?, "world");
        /// # Ok::<(), iobufs::Error>(())
        /// ```
        ///
        /// # Errors
        /// Returns the errors of [`read_length`](crate::ReadLength::read_length), and
        /// [`Error::EndOfBuffer`](crate::Error::EndOfBuffer) if fewer bytes follow. Then nothing changes.
        #[inline]
        pub fn read_view(&mut self, range: impl RangeBounds<usize>) -> Result<IoBuf, crate::Error> {
            let range = core::RangeCfg::new(range);
            let made = core::Read::read_cfg(Global, &mut self.0, &range);
            made.map(IoBuf).map_err(crate::error::fault)
        }
    };
}
pub(crate) use gets;
