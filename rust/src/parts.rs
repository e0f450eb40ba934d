//! Reads a text line by line, as far as events need.
//!
//! The library hands out the events that the lines so far decide. Where it needs more, the next line is read.

use crate::face::{Face, Item, Limits, Wait};
use crate::input::Input;
use crate::progress::Progress;
use crate::scanner::{Marker, ScanError};
use std::mem::take;

/// A line is added in parts of this many bytes, or a few more, if it is longer.
const MOST: usize = 4096;

/// What the fault says where more waits than may.
const TOO_MUCH_WAITS: &str = "more bytes wait for the next event than may";

/// A parser over an input.
#[derive(Clone)]
pub struct Parts<T> {
    /// Where the characters come from. It is gone if reading it panicked.
    input: Option<T>,
    /// What was read and is not added yet. Its memory is used for each line.
    line: String,
    keep_tags: bool,
    limits: Limits,
    /// How many characters may still be added.
    left: usize,
    /// The parser, once an item was asked for.
    face: Option<Face<'static>>,
    /// Where the last event ended.
    behind: Marker,
}

impl<T: Input> Parts<T> {
    /// A parser at the start of an input.
    pub fn new(input: T) -> Self {
        Parts {
            input: Some(input),
            line: String::new(),
            keep_tags: false,
            limits: Limits::NONE,
            left: usize::MAX,
            face: None,
            behind: Marker::new(0, 1, 0),
        }
    }

    /// Sets whether prefixes of tags hold for later documents too.
    pub fn keep_tags(&mut self, value: bool) {
        self.keep_tags = value;
        if let Some(face) = &mut self.face {
            face.keep_tags(value);
        }
    }

    /// Sets the limits. Once an item was asked for they stay as they are.
    pub fn limit(&mut self, limits: Limits) {
        if self.face.is_none() {
            self.limits = limits;
            self.left = limits.characters.saturating_add(1);
        }
    }

    /// Hands out the next item, and says where it leaves the parser.
    pub fn next(&mut self, progress: &mut Progress) -> Item<'static> {
        loop {
            match self.face().next_or_wait(progress) {
                Ok(item) => {
                    if let Some(Ok((_event, span))) = &item {
                        self.behind = span.end;
                    }
                    return item;
                }
                Err(Wait::More) => self.read(),
                Err(Wait::TooMuch) => {
                    return progress.end(ScanError::new_str(self.behind, TOO_MUCH_WAITS))
                }
            }
        }
    }

    fn face(&mut self) -> &mut Face<'static> {
        let (keep_tags, limits) = (self.keep_tags, self.limits);
        self.face
            .get_or_insert_with(|| Face::of_pieces(keep_tags, limits))
    }

    /// Reads the next line, and adds it to the parser's text.
    fn read(&mut self) {
        let mut input = self
            .input
            .take()
            .expect("the input of this parser panicked before");
        let mut has_ended = input.take_line(&mut self.line);
        self.input = Some(input);
        has_ended |= self.cut();
        if !self.line.is_empty() {
            let line = take(&mut self.line);
            self.face().add(&line);
            self.line = line;
            self.line.clear();
        }
        if has_ended {
            self.face().add("");
        }
    }

    /// Leaves out what is behind the limit and one character more: the text is refused, however it goes on. Returns
    /// whether something is.
    fn cut(&mut self) -> bool {
        if self.left == usize::MAX {
            return false;
        }
        match self.line.char_indices().nth(self.left) {
            Some((at, _)) => {
                self.line.truncate(at);
                true
            }
            None => {
                self.left -= self.line.chars().count();
                false
            }
        }
    }
}

/// Reads up to the end of a line, or of a part of it that is added alone. Returns whether the input has ended.
pub fn read_line(input: &mut (impl Input + ?Sized), line: &mut String) -> bool {
    while !is_part(line) {
        input.lookahead(1);
        match input.peek_opt() {
            None => return true,
            Some(c) if is_behind(c, line) => break,
            Some(c) => line.push(c),
        }
        input.skip();
    }
    false
}

/// Whether the line has ended before a character. LF would belong to its end.
#[inline]
pub fn is_behind(c: char, line: &str) -> bool {
    c != '\n' && line.ends_with('\r')
}

/// Whether a line has ended, or what was read of it is added alone.
#[inline]
pub fn is_part(line: &str) -> bool {
    line.ends_with('\n') || line.len() >= MOST || line.len() == 4 && is_marker(line)
}

/// Whether the document before a line ends by what was read of the line. Then its end is handed out before the rest of
/// the line is read.
fn is_marker(line: &str) -> bool {
    matches!(line, "--- " | "---\t" | "---\r")
}
