//! The parser as its callers see it.

use crate::encoding::NotUtf8;
use crate::event::{Event, SpannedEventReceiver};
use crate::face::{checked, Face, Item, Limits};
use crate::input::{buffered::BufferedInput, str::StrInput, Input};
use crate::parts::Parts;
use crate::progress::{Progress, Stand};
use crate::scanner::{ScanError, Span};
use std::fmt;
use std::iter::FusedIterator;

/// What a parser hands out: an event with its place, or the fault that ends the events.
pub type ParseResult<'input> = Result<(Event<'input>, Span), ScanError>;

/// Where the events come from. Before the first event nothing is read.
#[derive(Clone)]
enum Source<'input, T> {
    /// A text in memory.
    Text(&'input str),
    /// A parser of such a text.
    Whole(Face<'input>),
    /// An input, which is read as far as events need.
    Parts(Parts<T>),
}

/// A parser of a text. It gives the events one after the other.
///
/// `T` is the kind of input that the characters come from. A text in memory is read as far as each event needs. An input
/// is read line by line, as far as the next event depends on it. What an iterator has for sure, by its `size_hint`, is
/// read up to 64 KB at a time.
///
/// ```
/// use saphyr_parser::{Event, Parser, ScanError};
///
/// // How deep collections are nested.
/// fn depth(text: &str) -> Result<usize, ScanError> {
///     let (mut open, mut deepest) = (0, 0);
///     for item in Parser::new_from_str(text) {
///         let (event, _span) = item?;
///         match event {
///             Event::SequenceStart(..) | Event::MappingStart(..) => {
///                 open += 1;
///                 deepest = deepest.max(open);
///             }
///             Event::SequenceEnd | Event::MappingEnd => open -= 1,
///             _ => {}
///         }
///     }
///     Ok(deepest)
/// }
///
/// assert_eq!(depth("a: [b, {c: d}]"), Ok(3));
/// assert!(depth("a: [b, {c: d}").is_err());
/// ```
pub struct Parser<'input, T: Input> {
    source: Source<'input, T>,
    keep_tags: bool,
    /// The event that was peeked.
    peeked: Option<(Event<'input>, Span)>,
    /// Where the events that were handed out have led.
    progress: Progress,
}

impl<'input> Parser<'input, StrInput<'input>> {
    /// A parser of a text in memory.
    #[must_use]
    pub fn new_from_str(value: &'input str) -> Self {
        Parser::over(Source::Text(value))
    }

    /// A parser of a text in UTF-8, as bytes.
    ///
    /// # Errors
    /// The bytes are not UTF-8. The error has the index of the first wrong byte.
    pub fn new_from_bytes(bytes: &'input [u8]) -> Result<Self, NotUtf8> {
        checked(bytes).map(Parser::new_from_str)
    }
}

impl<'input, T> Parser<'input, BufferedInput<T>>
where
    T: Iterator<Item = char> + 'input,
{
    /// A parser of the characters that an iterator gives up to its first `None`.
    ///
    /// ```
    /// use saphyr_parser::{Event, Parser};
    ///
    /// let lines = ["- a", "- b"];
    /// let characters = lines.iter().flat_map(|line| line.chars().chain(['\n']));
    /// let scalars = Parser::new_from_iter(characters)
    ///     .filter(|item| matches!(item, Ok((Event::Scalar(..), _))));
    /// assert_eq!(scalars.count(), 2);
    /// ```
    #[must_use]
    pub fn new_from_iter(iter: T) -> Self {
        Parser::new(BufferedInput::new(iter))
    }
}

impl<'input, T: Input> Parser<'input, T> {
    /// A parser of the characters of an input.
    pub fn new(src: T) -> Self {
        Parser::over(Source::Parts(Parts::new(src)))
    }

    fn over(source: Source<'input, T>) -> Self {
        Parser {
            source,
            keep_tags: false,
            peeked: None,
            progress: Progress::default(),
        }
    }

    /// Sets whether the prefixes of tags hold for later documents too. In YAML they don't.
    ///
    /// The setting takes effect from the next end of a document that is read.
    ///
    /// ```
    /// use saphyr_parser::Parser;
    ///
    /// let text = "%TAG !e! tag:example.com,2000:\n--- !e!a x\n--- !e!b y\n";
    /// assert!(Parser::new_from_str(text).keep_tags(true).all(|item| item.is_ok()));
    /// let fault = Parser::new_from_str(text).find_map(Result::err).unwrap();
    /// assert_eq!(fault.marker().line(), 3);
    /// ```
    #[must_use]
    pub fn keep_tags(mut self, value: bool) -> Self {
        self.keep_tags = value;
        match &mut self.source {
            Source::Text(_) => {}
            Source::Whole(face) => face.keep_tags(value),
            Source::Parts(parts) => parts.keep_tags(value),
        }
        self
    }

    /// Sets limits for an input that you don't trust. A text of more than `characters` is refused, and these and one are
    /// all that is parsed of it. It is refused too if more than `waiting` bytes of it were read, and no event can be
    /// told of them, as of a quote that is not closed. The fault of a text with more characters names 4,294,967,295,
    /// whatever the limit.
    ///
    /// To be called before the first event. A text in memory has no limits.
    ///
    /// ```
    /// use saphyr_parser::Parser;
    ///
    /// let endless = "- 'a".chars().chain(std::iter::repeat('b'));
    /// let fault = Parser::new_from_iter(endless).limits(usize::MAX, 10_000).find_map(Result::err).unwrap();
    /// assert_eq!(fault.info(), "more bytes wait for the next event than may");
    /// ```
    #[must_use]
    pub fn limits(mut self, characters: usize, waiting: usize) -> Self {
        if let Source::Parts(parts) = &mut self.source {
            parts.limit(Limits {
                characters,
                waiting,
            });
        }
        self
    }

    /// Shows the item that [`Parser::next_event`] hands out next, without handing it out.
    ///
    /// # Errors
    /// The fault that ends the events, until it is handed out.
    ///
    /// ```
    /// use saphyr_parser::{Event, Parser};
    ///
    /// let mut parser = Parser::new_from_str("a");
    /// assert!(matches!(parser.peek(), Some(Ok((Event::StreamStart, _span)))));
    /// assert!(matches!(parser.next_event(), Some(Ok((Event::StreamStart, _span)))));
    /// assert!(matches!(parser.peek(), Some(Ok((Event::DocumentStart(false), _span)))));
    /// ```
    pub fn peek(&mut self) -> Option<Result<&(Event<'input>, Span), ScanError>> {
        if self.peeked.is_none() && !self.progress.has_ended() {
            let stand = self.progress.stand;
            self.peeked = self.read().and_then(Result::ok);
            // The event was not handed out.
            self.progress.stand = stand;
        }
        match &self.peeked {
            Some(item) => Some(Ok(item)),
            None => self.progress.unsent_fault().map(Err),
        }
    }

    /// Hands out the next event. If a fault ends the events, hands out that fault, once.
    ///
    /// # Errors
    /// The fault that ends the events.
    #[inline]
    pub fn next_event(&mut self) -> Option<ParseResult<'input>> {
        if self.progress.has_ended() {
            return self.progress.give_fault();
        }
        let item = self.pass();
        self.progress.was_sent = self.progress.fault.is_some();
        item
    }

    /// Hands events to a receiver: those up to the end of a document or, with `multi` or if no document is left, up to
    /// the end of the stream. If that end was handed out before, only it is handed over.
    ///
    /// # Errors
    /// The fault that ends the events, each time. If the parser is inside a document, the fault says that no document
    /// begins there, and nothing is handed over or passed.
    ///
    /// ```
    /// use saphyr_parser::{Event, Parser, Span, SpannedEventReceiver};
    ///
    /// /// The lines of the scalars.
    /// struct Lines(Vec<usize>);
    ///
    /// impl<'input> SpannedEventReceiver<'input> for Lines {
    ///     fn on_event(&mut self, event: Event<'input>, span: Span) {
    ///         if let Event::Scalar(..) = event {
    ///             self.0.push(span.start.line());
    ///         }
    ///     }
    /// }
    ///
    /// let mut parser = Parser::new_from_str("- a\n- b\n---\nc\n");
    /// let mut lines = Lines(Vec::new());
    /// parser.load(&mut lines, false).unwrap();
    /// assert_eq!(lines.0, [1, 2]);
    /// parser.load(&mut lines, true).unwrap();
    /// assert_eq!(lines.0, [1, 2, 4]);
    /// ```
    pub fn load<R: SpannedEventReceiver<'input>>(
        &mut self,
        recv: &mut R,
        multi: bool,
    ) -> Result<(), ScanError> {
        match self.progress.stand {
            Stand::Behind(span) => {
                recv.on_event(Event::StreamEnd, span);
                return Ok(());
            }
            Stand::Inside if self.progress.fault.is_none() => return Err(self.no_document()),
            Stand::Inside | Stand::Between => {}
        }
        while !self.progress.has_ended() {
            let Some(item) = self.pass() else { break };
            let (event, span) = item?;
            let is_last = !multi && event == Event::DocumentEnd;
            recv.on_event(event, span);
            if is_last {
                return Ok(());
            }
        }
        self.progress.fault.clone().map_or(Ok(()), Err)
    }

    /// Passes the next event, if neither the stream's end nor a fault was read before. A fault is kept.
    #[inline]
    fn pass(&mut self) -> Option<ParseResult<'input>> {
        if self.peeked.is_some() {
            return self.pass_peeked();
        }
        self.read()
    }

    #[cold]
    fn pass_peeked(&mut self) -> Option<ParseResult<'input>> {
        let (event, span) = self.peeked.take()?;
        self.progress.pass(&event, span);
        Some(Ok((event, span)))
    }

    /// The fault that no document begins here, or the fault that comes next.
    fn no_document(&mut self) -> ScanError {
        match self.peek() {
            Some(Ok((_, span))) => {
                ScanError::new_str(span.start, "did not find expected <document-start>")
            }
            Some(Err(fault)) => fault,
            None => unreachable!("a document that began has an end or a fault"),
        }
    }

    /// Reads the next item.
    #[inline]
    fn read(&mut self) -> Item<'input> {
        if let Source::Whole(face) = &mut self.source {
            return face.next(&mut self.progress);
        }
        self.read_part()
    }

    /// The same at the start of a text, and of an input.
    fn read_part(&mut self) -> Item<'input> {
        if let Source::Text(text) = self.source {
            self.source = Source::Whole(Face::new(text, self.keep_tags));
        }
        match &mut self.source {
            Source::Whole(face) => face.next(&mut self.progress),
            Source::Parts(parts) => parts.next(&mut self.progress),
            Source::Text(_) => unreachable!("its parser was made"),
        }
    }
}

impl<'input, T: Input> Iterator for Parser<'input, T> {
    type Item = ParseResult<'input>;

    #[inline]
    fn next(&mut self) -> Option<Self::Item> {
        self.next_event()
    }
}

// After the end of the stream, or a fault, nothing is left.
impl<T: Input> FusedIterator for Parser<'_, T> {}

impl<T: Input + Clone> Clone for Parser<'_, T> {
    /// An independent parser at the same place. Its input is cloned.
    fn clone(&self) -> Self {
        Parser {
            source: self.source.clone(),
            keep_tags: self.keep_tags,
            peeked: self.peeked.clone(),
            progress: self.progress.clone(),
        }
    }
}

impl<T: Input> fmt::Debug for Parser<'_, T> {
    fn fmt(&self, f: &mut fmt::Formatter<'_>) -> fmt::Result {
        f.debug_struct("Parser")
            .field("keep_tags", &self.keep_tags)
            .field("peeked", &self.peeked)
            .field("progress", &self.progress)
            .finish_non_exhaustive()
    }
}
