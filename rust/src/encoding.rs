//! Bytes that are not UTF-8.

use std::error::Error;
use std::fmt;

/// Why bytes are not read: they are not UTF-8.
#[derive(Clone, Copy, Debug, PartialEq, Eq)]
pub struct NotUtf8 {
    index: usize,
    is_utf16: bool,
}

impl NotUtf8 {
    pub(crate) fn new(index: usize, is_utf16: bool) -> NotUtf8 {
        NotUtf8 { index, is_utf16 }
    }

    /// The index of the first byte that is not UTF-8, so how many bytes before it are.
    #[must_use]
    pub fn index(&self) -> usize {
        self.index
    }

    /// Whether the bytes begin with the byte order mark of UTF-16.
    #[must_use]
    pub fn is_utf16(&self) -> bool {
        self.is_utf16
    }
}

impl fmt::Display for NotUtf8 {
    fn fmt(&self, f: &mut fmt::Formatter<'_>) -> fmt::Result {
        if self.is_utf16 {
            write!(f, "the text is UTF-16, and has to be UTF-8")
        } else {
            write!(f, "the text is not UTF-8 from byte {} on", self.index)
        }
    }
}

impl Error for NotUtf8 {}
