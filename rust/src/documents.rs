//! The documents of a text that is read in pieces.

use crate::encoding::NotUtf8;
use crate::face::trees::{Limits, LoadError, Next, Trees};
use crate::face::{self, Face};
use crate::scanner::Marker;
use std::error::Error;
use std::io::{self, ErrorKind, Read};
use std::iter::FusedIterator;
use std::{fmt, str};

/// How many bytes are read at once. A document's parser is cloned with those that are left of them.
const PIECE: usize = 4096;

/// Why a document is not read.
#[derive(Debug)]
pub enum ReadError {
    /// Its trees are not loaded.
    Load(LoadError),
    /// Reading fails.
    Read(io::Error),
    /// The bytes are not UTF-8.
    NotUtf8(NotUtf8),
    /// More bytes than allowed wait for the next event, behind this place.
    TooMuch(Marker),
}

impl ReadError {
    fn would_block(&self) -> bool {
        matches!(self, ReadError::Read(error) if error.kind() == ErrorKind::WouldBlock)
    }
}

impl fmt::Display for ReadError {
    fn fmt(&self, f: &mut fmt::Formatter<'_>) -> fmt::Result {
        match self {
            ReadError::Load(error) => error.fmt(f),
            ReadError::Read(error) => error.fmt(f),
            ReadError::NotUtf8(error) => error.fmt(f),
            ReadError::TooMuch(place) => {
                write!(
                    f,
                    "more bytes wait for the next event than may, behind {place}"
                )
            }
        }
    }
}

impl Error for ReadError {
    fn source(&self) -> Option<&(dyn Error + 'static)> {
        match self {
            ReadError::Load(error) => Some(error),
            ReadError::Read(error) => Some(error),
            ReadError::NotUtf8(error) => Some(error),
            ReadError::TooMuch(_) => None,
        }
    }
}

/// The documents of a text that is read, each handed out once its end was read, as `Trees` of one document. So a file
/// takes the memory of a document and of those that are kept. Of a pipe a document comes with the line of the `---` or
/// `...` behind it; if that line has more, some may have to come behind it.
///
/// An error comes behind the documents that could be told before it, and no document comes after it. But where reading
/// would block, as of a socket with a time limit, what was read is kept, and the next call goes on.
///
/// ```
/// use saphyr_parser::{DocumentReader, Limits, ReadError};
/// use std::io::Read;
///
/// fn names(file: impl Read) -> Result<Vec<String>, ReadError> {
///     let mut found = Vec::new();
///     for document in DocumentReader::new(file, Limits::default()) {
///         if let Some(name) = document?[0].get("name").and_then(|it| it.as_str()) {
///             found.push(name.to_owned());
///         }
///     }
///     Ok(found)
/// }
///
/// assert_eq!(names(&b"name: a\n---\n- b\n---\nname: c\n"[..]).unwrap(), ["a", "c"]);
/// ```
pub struct DocumentReader<R> {
    reader: R,
    limits: Limits,
    /// The parser that is before the next document or inside it, if there may be one.
    face: Option<Face<'static>>,
    piece: Box<[u8]>,
    /// How many bytes were added, and the last three of them.
    added: usize,
    last: Vec<u8>,
    /// The fault of the bytes behind those, if they are not UTF-8.
    fault: Option<NotUtf8>,
}

impl<I> DocumentReader<Pieces<I>>
where
    I: Iterator,
    I::Item: AsRef<[u8]>,
{
    /// The documents of a text whose pieces an iterator gives. They may be cut anywhere, even inside a character.
    ///
    /// ```
    /// use saphyr_parser::{DocumentReader, Limits};
    ///
    /// let pieces = ["- a\n-", " b\n--", "-\n- c\n"];
    /// let lengths = DocumentReader::from_pieces(pieces, Limits::default()).map(|it| it.unwrap()[0].len());
    /// assert!(lengths.eq([2, 1]));
    /// ```
    #[must_use]
    pub fn from_pieces(pieces: impl IntoIterator<IntoIter = I>, limits: Limits) -> Self {
        let reader = Pieces {
            pieces: pieces.into_iter(),
            piece: None,
            taken: 0,
        };
        DocumentReader::new(reader, limits)
    }
}

impl<R: Read> DocumentReader<R> {
    /// The documents of what is read, with limits on each of them.
    #[must_use]
    pub fn new(reader: R, limits: Limits) -> Self {
        DocumentReader {
            reader,
            limits,
            face: Some(Face::of_pieces(false, face::Limits::NONE)),
            piece: vec![0; PIECE].into(),
            added: 0,
            last: Vec::new(),
            fault: None,
        }
    }

    /// Sets limits for what you don't trust: how many characters the text may have, and how many bytes of it may wait
    /// for an event, as those of a quote that is not closed. To be called before the first document.
    #[must_use]
    pub fn limits(mut self, characters: usize, waiting: usize) -> Self {
        let limits = face::Limits {
            characters,
            waiting,
        };
        if self.added == 0 && self.face.is_some() {
            self.face = Some(Face::of_pieces(false, limits));
        }
        self
    }

    /// Adds the next bytes to the parser's text, or tells its end.
    fn read(&mut self, face: &mut Face<'_>) -> Result<(), ReadError> {
        if let Some(fault) = self.fault {
            return Err(ReadError::NotUtf8(fault));
        }
        let count = loop {
            match self.reader.read(&mut self.piece) {
                Ok(count) => break count,
                Err(error) if error.kind() == ErrorKind::Interrupted => {}
                Err(error) => return Err(ReadError::Read(error)),
            }
        };
        let bytes = &self.piece[..count];
        if let Err(is_utf16) = face.add_bytes(bytes) {
            let (index, front) = self.utf8_front(bytes);
            self.fault = Some(NotUtf8::new(index, is_utf16));
            // No bytes would tell the text's end.
            if !front.is_empty() {
                face.add_bytes(front).expect("they are UTF-8");
            }
            return Ok(());
        }
        self.added += count;
        self.last.extend(&bytes[count.saturating_sub(3)..]);
        self.last.drain(..self.last.len().saturating_sub(3));
        Ok(())
    }

    /// The index of the first byte that is not UTF-8, if these bytes come behind those that were added; and those of
    /// them that are in front of it.
    fn utf8_front<'a>(&self, bytes: &'a [u8]) -> (usize, &'a [u8]) {
        let begins = |it: &u8| it & 0xC0 != 0x80;
        let from = self.last.iter().position(begins);
        let behind = &self.last[from.unwrap_or(self.last.len())..];
        let all = [behind, bytes].concat();
        let count = str::from_utf8(&all).map_or_else(|it| it.valid_up_to(), str::len);
        let index = self.added - behind.len() + count;
        (index, &bytes[..count.saturating_sub(behind.len())])
    }

    /// The next document, or why there is none; and the parser, if there may be more.
    fn take(&mut self, mut face: Face<'static>) -> Option<Result<Trees<'static>, ReadError>> {
        loop {
            match face.load_next(self.limits) {
                Ok(Next::Document) => {
                    // The tree stays with its parser. A clone has none, and goes on behind the document.
                    self.face = Some(face.clone());
                    return Some(Ok(Trees::of(face, None)));
                }
                Ok(Next::End) => return None,
                Ok(Next::More) => {
                    if let Err(error) = self.read(&mut face) {
                        self.face = error.would_block().then_some(face);
                        return Some(Err(error));
                    }
                }
                Ok(Next::TooMuch(place)) => return Some(Err(ReadError::TooMuch(place))),
                Err(error) => return Some(Err(ReadError::Load(error))),
            }
        }
    }
}

impl<R: Read> Iterator for DocumentReader<R> {
    type Item = Result<Trees<'static>, ReadError>;

    fn next(&mut self) -> Option<Self::Item> {
        let face = self.face.take()?;
        self.take(face)
    }
}

impl<R: Read> FusedIterator for DocumentReader<R> {}

/// Reads the pieces that an iterator gives: what [`DocumentReader::from_pieces`] reads.
pub struct Pieces<I: Iterator> {
    pieces: I,
    piece: Option<I::Item>,
    /// How many bytes of the piece were read.
    taken: usize,
}

impl<I> Read for Pieces<I>
where
    I: Iterator,
    I::Item: AsRef<[u8]>,
{
    fn read(&mut self, into: &mut [u8]) -> io::Result<usize> {
        loop {
            let piece = self.piece.as_ref().map_or(&[][..], AsRef::as_ref);
            let count = (&piece[self.taken..]).read(into)?;
            self.taken += count;
            if count > 0 || into.is_empty() {
                return Ok(count);
            }
            self.taken = 0;
            self.piece = self.pieces.next();
            if self.piece.is_none() {
                return Ok(0);
            }
        }
    }
}
