//! An input over an iterator of characters.

use crate::char_traits::is_yaml_non_break;
use crate::face::characters::push_all;
use crate::input::Input;
use crate::parts::{is_behind, is_part};
use std::collections::VecDeque;

/// How many characters may be loaded, by `bufmaxlen`.
const WINDOW: usize = 16;

/// How many bytes are taken at a time of what the iterator says it has.
const MOST_THERE: usize = 1 << 16;

/// The characters that an iterator gives up to its first `None`.
#[derive(Clone)]
pub struct BufferedInput<T: Iterator<Item = char>> {
    source: T,
    has_ended: bool,
    /// The characters that are loaded. After the last of the text there is `None`.
    loaded: VecDeque<Option<char>>,
}

impl<T: Iterator<Item = char>> BufferedInput<T> {
    /// An input over an iterator.
    pub fn new(input: T) -> Self {
        BufferedInput {
            source: input,
            has_ended: false,
            loaded: VecDeque::new(),
        }
    }

    /// Takes characters as long as the source says that it has more, but not too many at a time. That of a text in
    /// memory says so, and that of a pipe does not: of that it takes a line.
    fn take_characters(&mut self, line: &mut String) {
        while line.len() < MOST_THERE && !self.has_ended {
            let count = self.source.size_hint().0;
            if count == 0 {
                break;
            }
            self.has_ended = !push_all(line, &mut self.source, count, |_, _| true);
        }
        while !is_part(line) && !line.ends_with('\r') && !self.has_ended {
            // What ends a line, or the first four characters of one that are a marker, ends what is put together.
            let goes_on = |before: &[u8], c| c > '\r' && (c != ' ' || before != b"---");
            self.has_ended = !push_all(line, &mut self.source, usize::MAX, goes_on);
        }
    }

    /// The next character of the source.
    fn read(&mut self) -> Option<char> {
        let c = if self.has_ended {
            None
        } else {
            self.source.next()
        };
        self.has_ended = c.is_none();
        c
    }
}

impl<T: Iterator<Item = char>> Input for BufferedInput<T> {
    fn lookahead(&mut self, count: usize) {
        while self.loaded.len() < count {
            let c = self.read();
            self.loaded.push_back(c);
        }
    }

    fn take_line(&mut self, line: &mut String) -> bool {
        if self.loaded.is_empty() && !self.has_ended {
            self.take_characters(line);
        }
        while !is_part(line) {
            let next = self.loaded.pop_front();
            match next.unwrap_or_else(|| self.read()) {
                None => return true,
                Some(c) if is_behind(c, line) => {
                    self.loaded.push_front(Some(c));
                    break;
                }
                Some(c) => line.push(c),
            }
        }
        false
    }

    fn buflen(&self) -> usize {
        self.loaded.len()
    }

    fn bufmaxlen(&self) -> usize {
        WINDOW
    }

    fn raw_read_ch(&mut self) -> char {
        self.read().unwrap_or('\0')
    }

    fn raw_read_non_breakz_ch(&mut self) -> Option<char> {
        let c = self.read()?;
        if is_yaml_non_break(c) {
            return Some(c);
        }
        self.loaded.push_back(Some(c));
        None
    }

    fn skip(&mut self) {
        self.loaded.pop_front();
    }

    fn skip_n(&mut self, count: usize) {
        self.loaded.drain(..count);
    }

    fn peek(&self) -> char {
        self.peek_nth(0)
    }

    fn peek_nth(&self, n: usize) -> char {
        self.loaded[n].unwrap_or('\0')
    }

    fn peek_opt(&self) -> Option<char> {
        self.loaded[0]
    }
}
