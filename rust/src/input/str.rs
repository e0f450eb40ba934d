//! An input over a text in memory.

use crate::char_traits::is_yaml_non_break;
use crate::input::Input;

/// How many characters may be loaded, by `bufmaxlen`. The whole text is there anyway.
const WINDOW: usize = 128;

/// The characters of a text.
#[derive(Clone, Copy, Debug)]
pub struct StrInput<'a> {
    rest: &'a str,
    loaded: usize,
}

impl<'a> StrInput<'a> {
    /// An input over a text.
    #[must_use]
    pub fn new(input: &'a str) -> Self {
        StrInput {
            rest: input,
            loaded: 0,
        }
    }
}

impl Input for StrInput<'_> {
    fn lookahead(&mut self, count: usize) {
        self.loaded = self.loaded.max(count);
    }

    fn buflen(&self) -> usize {
        self.loaded
    }

    fn bufmaxlen(&self) -> usize {
        WINDOW
    }

    fn raw_read_ch(&mut self) -> char {
        let c = self.peek();
        self.skip();
        c
    }

    fn raw_read_non_breakz_ch(&mut self) -> Option<char> {
        let c = self.peek_opt().filter(|c| is_yaml_non_break(*c))?;
        self.skip();
        Some(c)
    }

    fn skip(&mut self) {
        self.skip_n(1);
    }

    fn skip_n(&mut self, count: usize) {
        let at = self
            .rest
            .char_indices()
            .nth(count)
            .map_or(self.rest.len(), |(at, _)| at);
        self.rest = &self.rest[at..];
    }

    fn peek(&self) -> char {
        self.peek_nth(0)
    }

    fn peek_nth(&self, n: usize) -> char {
        self.rest.chars().nth(n).unwrap_or('\0')
    }

    fn peek_opt(&self) -> Option<char> {
        self.rest.chars().next()
    }
}
