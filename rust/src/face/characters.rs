//! Puts the characters of an iterator behind a text, many at a time.

use std::str;

/// How many bytes are put together before they go to the text.
const AT_ONCE: usize = 256;

/// How many bytes a character has at most.
const WIDEST: usize = 4;

/// Puts characters of a source behind a text: up to so many, which are some, or up to the first of ASCII that does not
/// go on behind those before it. They are put together first, which takes fewer instructions. Returns whether the source
/// had not ended.
pub fn push_all(
    text: &mut String,
    source: &mut impl Iterator<Item = char>,
    most: usize,
    goes_on: impl Fn(&[u8], char) -> bool,
) -> bool {
    let mut bytes = [0; AT_ONCE];
    let mut len = 0;
    let (mut next, mut last) = (None, None);
    // Each character has a byte or more, so these are at most so many.
    while len < most.min(AT_ONCE - WIDEST + 1) {
        next = source.next();
        let Some(c) = next else { break };
        if !c.is_ascii() {
            len += c.encode_utf8(&mut bytes[len..]).len();
        } else if goes_on(&bytes[..len], c) {
            bytes[len] = c as u8;
            len += 1;
        } else {
            last = next;
            break;
        }
    }
    // SAFETY: so many bytes are characters in UTF-8, one behind the other.
    text.push_str(unsafe { str::from_utf8_unchecked(&bytes[..len]) });
    if let Some(c) = last {
        text.push(c);
    }
    next.is_some()
}
