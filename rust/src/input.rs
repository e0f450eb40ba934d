//! Where the characters of a text come from.
//!
//! A parser reads its input one character at a time. So it calls only `lookahead(1)`, `peek_opt` and `skip` of an input
//! of your own. The other calls of the trait are there for other callers.

pub(crate) mod buffered;
pub(crate) mod str;

pub use crate::char_traits::{
    is_alpha, is_blank, is_blank_or_breakz, is_break, is_breakz, is_digit, is_flow, is_z,
};
pub use buffered::BufferedInput;

use crate::char_traits::{is_yaml_non_break, is_yaml_non_space};
use crate::parts::read_line;

/// A source of characters, with a window on the next ones.
///
/// Before a call looks at characters, `lookahead` must have loaded them. After the last character comes NUL, without
/// end. Only `peek_opt` tells it from a NUL of the text.
pub trait Input {
    /// Loads the next `count` characters, if they are not yet loaded.
    fn lookahead(&mut self, count: usize);

    /// How many characters are loaded.
    #[must_use]
    fn buflen(&self) -> usize;

    /// How many characters may be loaded.
    #[must_use]
    fn bufmaxlen(&self) -> usize;

    /// Whether no character is loaded.
    #[must_use]
    fn buf_is_empty(&self) -> bool {
        self.buflen() == 0
    }

    /// Takes a character off the source, past those that are loaded.
    #[must_use]
    fn raw_read_ch(&mut self) -> char;

    /// The same for a character that may occur within a line. Any other character is left, or is loaded.
    #[must_use]
    fn raw_read_non_breakz_ch(&mut self) -> Option<char>;

    /// Passes the next character.
    fn skip(&mut self);

    /// Passes the next `count` characters.
    fn skip_n(&mut self, count: usize);

    /// The next character.
    #[must_use]
    fn peek(&self) -> char;

    /// The character after the next `n`.
    #[must_use]
    fn peek_nth(&self, n: usize) -> char;

    /// The next character, or `None` after the last.
    #[must_use]
    fn peek_opt(&self) -> Option<char>;

    /// Takes the next line, or a part of it, for a parser. Returns whether the text has ended.
    #[doc(hidden)]
    fn take_line(&mut self, line: &mut String) -> bool {
        read_line(self, line)
    }

    /// Loads the next character, and looks at it.
    #[must_use]
    fn look_ch(&mut self) -> char {
        self.lookahead(1);
        self.peek()
    }

    /// Whether `c` is the next character.
    #[must_use]
    fn next_char_is(&self, c: char) -> bool {
        self.peek() == c
    }

    /// Whether `c` comes after the next `n` characters.
    #[must_use]
    fn nth_char_is(&self, n: usize, c: char) -> bool {
        self.peek_nth(n) == c
    }

    /// Whether these two characters come next.
    #[must_use]
    fn next_2_are(&self, c1: char, c2: char) -> bool {
        self.next_char_is(c1) && self.nth_char_is(1, c2)
    }

    /// Whether these three characters come next.
    #[must_use]
    fn next_3_are(&self, c1: char, c2: char, c3: char) -> bool {
        self.next_2_are(c1, c2) && self.nth_char_is(2, c3)
    }

    /// Whether a line `---` or `...` begins here. Four characters must be loaded.
    #[must_use]
    fn next_is_document_indicator(&self) -> bool {
        self.next_is_document_start() || self.next_is_document_end()
    }

    /// Whether a line `---` begins here. Four characters must be loaded.
    #[must_use]
    fn next_is_document_start(&self) -> bool {
        self.next_3_are('-', '-', '-') && is_blank_or_breakz(self.peek_nth(3))
    }

    /// Whether a line `...` begins here. Four characters must be loaded.
    #[must_use]
    fn next_is_document_end(&self) -> bool {
        self.next_3_are('.', '.', '.') && is_blank_or_breakz(self.peek_nth(3))
    }

    /// Passes blanks up to the end of the line, and a comment after them. Passes tabs only with `SkipTabs::Yes`.
    ///
    /// Returns how many characters were passed, and which blanks there were. Stops before a comment that follows no
    /// blank, and returns that fault.
    fn skip_ws_to_eol(&mut self, skip_tabs: SkipTabs) -> (usize, Result<SkipTabs, &'static str>) {
        let (mut spaces, mut tabs) = (0, 0);
        loop {
            match self.look_ch() {
                ' ' => spaces += 1,
                '\t' if skip_tabs != SkipTabs::No => tabs += 1,
                _ => break,
            }
            self.skip();
        }
        let mut passed = spaces + tabs;
        if self.next_char_is('#') {
            if passed == 0 {
                return (
                    0,
                    Err("comments must be separated from other tokens by whitespace"),
                );
            }
            passed += self.skip_while_non_breakz();
        }
        (passed, Ok(SkipTabs::Result(tabs > 0, spaces > 0)))
    }

    /// Whether the next character, which is no blank, may be one of a plain scalar. Two must be loaded.
    #[must_use]
    fn next_can_be_plain_scalar(&self, in_flow: bool) -> bool {
        let ends_key = |c| is_blank_or_breakz(c) || in_flow && is_flow(c);
        match self.peek() {
            '\u{FEFF}' => false,
            ':' => !ends_key(self.peek_nth(1)),
            c => !(in_flow && is_flow(c)),
        }
    }

    /// Whether the next character is a blank or breaks the line.
    #[must_use]
    fn next_is_blank_or_break(&self) -> bool {
        self.next_is_blank() || self.next_is_break()
    }

    /// Whether the next character is a blank, breaks the line, or is NUL.
    #[must_use]
    fn next_is_blank_or_breakz(&self) -> bool {
        is_blank_or_breakz(self.peek())
    }

    /// Whether the next character is a blank.
    #[must_use]
    fn next_is_blank(&self) -> bool {
        is_blank(self.peek())
    }

    /// Whether the next character breaks the line.
    #[must_use]
    fn next_is_break(&self) -> bool {
        is_break(self.peek())
    }

    /// Whether the next character breaks the line or is NUL.
    #[must_use]
    fn next_is_breakz(&self) -> bool {
        is_breakz(self.peek())
    }

    /// Whether the next character is NUL.
    #[must_use]
    fn next_is_z(&self) -> bool {
        is_z(self.peek())
    }

    /// Whether the next character is one of `,[]{}`.
    #[must_use]
    fn next_is_flow(&self) -> bool {
        is_flow(self.peek())
    }

    /// Whether the next character is a digit.
    #[must_use]
    fn next_is_digit(&self) -> bool {
        is_digit(self.peek())
    }

    /// Whether the next character is a letter or digit, `_` or `-`.
    #[must_use]
    fn next_is_alpha(&self) -> bool {
        is_alpha(self.peek())
    }

    /// Passes the characters up to a break, NUL or a byte order mark, and returns how many there were.
    fn skip_while_non_breakz(&mut self) -> usize {
        skip_while(self, is_yaml_non_break, |_| ())
    }

    /// Passes blanks, and returns how many there were.
    fn skip_while_blank(&mut self) -> usize {
        skip_while(self, is_blank, |_| ())
    }

    /// Takes letters, digits, `_` and `-` into `out`, and returns how many there were.
    fn fetch_while_is_alpha(&mut self, out: &mut String) -> usize {
        skip_while(self, is_alpha, |c| out.push(c))
    }

    /// Takes the characters up to a blank, a break, NUL or a byte order mark into `out`, and returns how many there
    /// were.
    fn fetch_while_is_yaml_non_space(&mut self, out: &mut String) -> usize {
        skip_while(self, is_yaml_non_space, |c| out.push(c))
    }
}

/// Hands over and passes the next characters that are of a kind, and returns how many there were.
fn skip_while<T: Input + ?Sized>(
    input: &mut T,
    is_taken: impl Fn(char) -> bool,
    mut take: impl FnMut(char),
) -> usize {
    let mut passed = 0;
    while is_taken(input.look_ch()) {
        take(input.peek());
        input.skip();
        passed += 1;
    }
    passed
}

/// What [`Input::skip_ws_to_eol`] does with tabs, and what it returns.
#[derive(Clone, Copy, Debug, PartialEq, Eq)]
pub enum SkipTabs {
    /// Tabs are passed.
    Yes,
    /// Tabs are not passed.
    No,
    /// What was passed.
    Result(
        /// Whether there were tabs.
        bool,
        /// Whether there were spaces.
        bool,
    ),
}

impl SkipTabs {
    /// Whether this says that tabs were passed.
    #[must_use]
    pub fn found_tabs(self) -> bool {
        matches!(self, SkipTabs::Result(true, _))
    }

    /// Whether this says that spaces were passed.
    #[must_use]
    pub fn has_valid_yaml_ws(self) -> bool {
        matches!(self, SkipTabs::Result(_, true))
    }
}
