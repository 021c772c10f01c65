//! A string.
#![forbid(unsafe_code)]
use super::base::{AllocError, Global};
use std::{fmt, string};

/// A string.
pub struct String(pub(crate) string::String);

impl String {
    /// Returns the string.
    #[inline]
    pub fn as_str(&self) -> &str {
        &self.0
    }

    /// Returns its bytes.
    #[inline]
    pub fn as_bytes(&self) -> &[u8] {
        self.0.as_bytes()
    }
}

/// Appends what is formatted. Returns an error if allocation fails.
impl fmt::Write for String {
    fn write_str(&mut self, text: &str) -> fmt::Result {
        self.0.try_reserve(text.len()).map_err(|_| fmt::Error)?;
        self.0.push_str(text);
        Ok(())
    }
}

/// Returns what is formatted.
pub fn format(_: Global, what: fmt::Arguments<'_>) -> Result<String, AllocError> {
    let mut text = String(string::String::new());
    fmt::write(&mut text, what).map_err(|_| AllocError)?;
    Ok(text)
}
