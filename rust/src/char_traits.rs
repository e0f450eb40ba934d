//! Sets of characters (YAML 1.2.2, chapter 5).

/// Whether it is NUL.
#[must_use]
pub fn is_z(c: char) -> bool {
    c == '\0'
}

/// Whether it breaks a line: a line feed or a carriage return.
#[must_use]
pub fn is_break(c: char) -> bool {
    matches!(c, '\n' | '\r')
}

/// Whether it breaks a line or is NUL.
#[must_use]
pub fn is_breakz(c: char) -> bool {
    is_break(c) || is_z(c)
}

/// Whether it is a space or a tab.
#[must_use]
pub fn is_blank(c: char) -> bool {
    matches!(c, ' ' | '\t')
}

/// Whether it is a space or a tab, breaks a line, or is NUL.
#[must_use]
pub fn is_blank_or_breakz(c: char) -> bool {
    is_blank(c) || is_breakz(c)
}

/// Whether it is a digit of ASCII.
#[must_use]
pub fn is_digit(c: char) -> bool {
    c.is_ascii_digit()
}

/// Whether it is a letter or digit of ASCII, `_` or `-`.
#[must_use]
pub fn is_alpha(c: char) -> bool {
    c.is_ascii_alphanumeric() || matches!(c, '_' | '-')
}

/// Whether it is one of `,[]{}`.
#[must_use]
pub fn is_flow(c: char) -> bool {
    matches!(c, ',' | '[' | ']' | '{' | '}')
}

/// Whether it may occur within a line: it breaks none, and is neither NUL nor a byte order mark.
#[must_use]
pub(crate) fn is_yaml_non_break(c: char) -> bool {
    !is_breakz(c) && c != '\u{FEFF}'
}

/// Whether it may occur within a word: as within a line, and it is no space and no tab.
#[must_use]
pub(crate) fn is_yaml_non_space(c: char) -> bool {
    is_yaml_non_break(c) && !is_blank(c)
}
