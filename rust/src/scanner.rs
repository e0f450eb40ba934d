//! Places of a text, the styles of scalars, and faults.

use std::error::Error;
use std::fmt;

/// How a scalar is written.
#[derive(Clone, Copy, Debug, PartialEq, Eq, PartialOrd, Ord, Hash)]
pub enum ScalarStyle {
    /// Without an indicator.
    Plain,
    /// Between single quotes.
    SingleQuoted,
    /// Between double quotes.
    DoubleQuoted,
    /// A block after `|`, whose lines are kept.
    Literal,
    /// A block after `>`, whose lines are joined.
    Folded,
}

/// A place between two characters of a text.
///
/// Places of one text are ordered by their indexes. A place prints as `line:column`, both counted from 1 as in editors.
#[derive(Clone, Copy, Debug, Default, PartialEq, Eq, PartialOrd, Ord)]
pub struct Marker {
    index: usize,
    line: usize,
    col: usize,
}

impl Marker {
    /// The place with this index, line and column.
    #[must_use]
    pub fn new(index: usize, line: usize, col: usize) -> Marker {
        Marker { index, line, col }
    }

    /// How many characters are before it.
    #[must_use]
    pub fn index(&self) -> usize {
        self.index
    }

    /// Its line. The first is 1.
    #[must_use]
    pub fn line(&self) -> usize {
        self.line
    }

    /// How many characters of its line are before it.
    #[must_use]
    pub fn col(&self) -> usize {
        self.col
    }
}

impl fmt::Display for Marker {
    fn fmt(&self, f: &mut fmt::Formatter<'_>) -> fmt::Result {
        write!(f, "{}:{}", self.line, self.col.saturating_add(1))
    }
}

/// A piece of a text, from one place up to another. `docs/SPANS.md` of the repository says what the span of each event
/// covers.
#[derive(Clone, Copy, Debug, Default, PartialEq, Eq)]
pub struct Span {
    /// Where it begins.
    pub start: Marker,
    /// The place after it.
    pub end: Marker,
}

impl Span {
    /// The piece between these places.
    #[must_use]
    pub fn new(start: Marker, end: Marker) -> Span {
        Span { start, end }
    }

    /// The piece without characters at a place.
    #[must_use]
    pub fn empty(mark: Marker) -> Span {
        Span {
            start: mark,
            end: mark,
        }
    }

    /// How many characters it has. It must not end before its start.
    #[must_use]
    pub fn len(&self) -> usize {
        self.end.index - self.start.index
    }

    /// Whether it has no characters.
    #[must_use]
    pub fn is_empty(&self) -> bool {
        self.len() == 0
    }
}

/// Why a text is refused, and where.
#[derive(Clone, Debug, PartialEq, Eq)]
pub struct ScanError {
    mark: Marker,
    info: String,
}

impl ScanError {
    /// A fault at a place.
    #[must_use]
    pub fn new(loc: Marker, info: String) -> ScanError {
        ScanError { mark: loc, info }
    }

    /// The same, with a copy of the text.
    #[must_use]
    pub fn new_str(loc: Marker, info: &str) -> ScanError {
        ScanError::new(loc, info.to_owned())
    }

    /// Where the text is refused.
    #[must_use]
    pub fn marker(&self) -> &Marker {
        &self.mark
    }

    /// Why it is refused.
    #[must_use]
    pub fn info(&self) -> &str {
        &self.info
    }
}

impl fmt::Display for ScanError {
    fn fmt(&self, f: &mut fmt::Formatter<'_>) -> fmt::Result {
        // A `u128` holds the successor of the largest column too.
        let column = self.mark.col as u128 + 1;
        write!(
            f,
            "{} at byte {} line {} column {column}",
            self.info, self.mark.index, self.mark.line
        )
    }
}

impl Error for ScanError {}
