//! Safe functions over the calls of the static library.
//!
//! This file and those of `face` are the crate's only ones with `unsafe` in them. `saphyr_parser.h`, next to the
//! library's sources, says what a caller must do: zero each structure first, pass no null pointer, use a parser
//! in one call at a time, keep the text unchanged where it is until the parser over it is freed, and give
//! `saphyr_new_utf8` and `saphyr_add_utf8` only UTF-8. Of a text that comes in pieces the library has a copy. In return,
//! the texts of an event are UTF-8, and may be read until the next call with the same parser. They are copied here right
//! after the call that wrote them, so none is left when the next call comes. If the caller's text contains such a text as
//! it is, it is borrowed from there instead. The texts of a rule stay where they are.

pub mod characters;
pub mod check;
pub mod trees;

use crate::encoding::NotUtf8;
use crate::event::{Event, Tag};
use crate::progress::{Progress, Stand};
use crate::scanner::{Marker, ScalarStyle, ScanError, Span};
use crate::standard::Deviation;
use std::alloc::{handle_alloc_error, Layout};
use std::borrow::Cow;
use std::cell::Cell;
use std::ptr::{null, null_mut};
use std::{slice, str};

/// The version of the header that the declarations below follow.
const VERSION: u32 = 3001;

// The statuses. Those that no call of a live parser gives have no name here.
const OK: i32 = 0;
const END: i32 = 0;
const EVENT: i32 = 1;
const MORE: i32 = 2;
const DEVIATES: i32 = 4;
const REFUSED: i32 = -1;
const NO_MEMORY: i32 = -2;
const NOT_UTF8: i32 = -3;
const UTF16: i32 = -5;
const TOO_MUCH: i32 = -7;
const TOO_LONG: i32 = -11;

/// `saphyr_parser`: null, or a parser on the heap.
#[repr(C)]
struct Handle {
    at: *mut u8,
}

const EMPTY: Handle = Handle { at: null_mut() };

/// `saphyr_text`: bytes that need not end in NUL, or null.
#[repr(C)]
struct Bytes {
    at: *const u8,
    len: usize,
}

const NO_BYTES: Bytes = Bytes { at: null(), len: 0 };

/// `saphyr_marker`.
#[repr(C)]
#[derive(Default)]
struct Place {
    index: usize,
    line: usize,
    col: usize,
}

/// `saphyr_event`.
#[repr(C)]
struct Record {
    kind: i32,
    style: i32,
    is_explicit: i32,
    has_tag: i32,
    anchor: usize,
    start: Place,
    end: Place,
    value: Bytes,
    tag_handle: Bytes,
    tag_suffix: Bytes,
}

/// `saphyr_deviation`.
#[repr(C)]
struct Departure {
    place: Place,
    rule: Bytes,
    sentence: Bytes,
}

extern "C" {
    fn saphyr_new(text: *const u8, len: usize, keep_tags: bool, parser: *mut Handle) -> i32;
    fn saphyr_new_utf8(text: *const u8, len: usize, keep_tags: bool, parser: *mut Handle) -> i32;
    fn saphyr_new_pieces(
        keep_tags: bool,
        most_characters: usize,
        most_waiting: usize,
        parser: *mut Handle,
    ) -> i32;
    fn saphyr_add(parser: *mut Handle, bytes: *const u8, len: usize) -> i32;
    fn saphyr_add_utf8(parser: *mut Handle, bytes: *const u8, len: usize) -> i32;
    fn saphyr_valid_up_to(text: *const u8, len: usize) -> usize;
    fn saphyr_check_standard(text: *const u8, len: usize, deviation: *mut Departure) -> i32;
    fn saphyr_next(parser: *mut Handle, event: *mut Record) -> i32;
    fn saphyr_keep_tags(parser: *mut Handle, keep_tags: bool) -> i32;
    fn saphyr_clone(parser: *mut Handle, copy: *mut Handle) -> i32;
    fn saphyr_free(parser: *mut Handle);
    fn saphyr_version() -> u32;
}

/// The bytes as a text, or the fault that they are not UTF-8.
pub fn checked(bytes: &[u8]) -> Result<&str, NotUtf8> {
    // SAFETY: the bytes may be read for their length.
    let index = unsafe { saphyr_valid_up_to(bytes.as_ptr(), bytes.len()) };
    if index == bytes.len() {
        // SAFETY: the library says that so many bytes at the front are UTF-8.
        return Ok(unsafe { str::from_utf8_unchecked(bytes) });
    }
    let mut handle = EMPTY;
    // SAFETY: the bytes may be read for their length, and the handle is zeroed. No parser of these bytes is made.
    let status = unsafe { saphyr_new(bytes.as_ptr(), bytes.len(), false, &mut handle) };
    Err(NotUtf8::new(index, status == UTF16))
}

/// What the library says of a text: nothing if it is YAML 1.2.2, and else where it departs from that. If the parser
/// refuses it there is no such place.
pub fn check_standard(text: &str) -> Result<(), Option<Deviation>> {
    check_version();
    let mut departure = Departure {
        place: Place::default(),
        rule: NO_BYTES,
        sentence: NO_BYTES,
    };
    // SAFETY: the bytes may be read for their length, and the structure is zeroed.
    let status = unsafe { saphyr_check_standard(text.as_ptr(), text.len(), &mut departure) };
    if status == REFUSED {
        return Err(None);
    }
    if status != DEVIATES {
        expect(status, OK);
        return Ok(());
    }
    // SAFETY: the call wrote these texts, which the library has in UTF-8 as long as the program runs.
    let (rule, sentence) = unsafe { (departure.rule.text(), departure.sentence.text()) };
    let place = marker(&departure.place);
    Err(Some(Deviation {
        place,
        rule,
        sentence,
    }))
}

/// The limits of a text that comes in pieces.
#[derive(Clone, Copy)]
pub struct Limits {
    /// How many characters it may have.
    pub characters: usize,
    /// How many bytes may wait for an event.
    pub waiting: usize,
}

impl Limits {
    /// No limits.
    pub const NONE: Limits = Limits {
        characters: usize::MAX,
        waiting: usize::MAX,
    };
}

/// Why a parser of a text that comes in pieces gives nothing.
pub enum Wait {
    /// The next item depends on what did not come.
    More,
    /// It does, and more waits than may.
    TooMuch,
}

/// What a parser gives: an event, the fault that ends the events, or `None` after them.
pub type Item<'input> = Option<Result<(Event<'input>, Span), ScanError>>;

/// A parser of the library.
pub struct Face<'input> {
    /// Always has a parser, except during the call that clones it: that empties it and puts the parser back.
    handle: Cell<Handle>,
    /// What the library wrote last. Its texts are read only right after the call.
    record: Record,
    /// The text that it reads. One that comes in pieces is the library's.
    text: Option<&'input str>,
    reached: Reached,
}

/// A place in a text, up to which its characters are counted.
#[derive(Clone, Copy, Default)]
struct Reached {
    characters: usize,
    bytes: usize,
}

impl Reached {
    /// Goes on to a later place of the text, and returns how many bytes are before it.
    #[inline]
    fn go_on(&mut self, text: &str, index: usize) -> Option<usize> {
        let more = index.checked_sub(self.characters)?;
        let ahead = text.as_bytes().get(self.bytes..)?.get(..more)?;
        self.bytes += if ahead.is_ascii() {
            more
        } else {
            let rest = text.get(self.bytes..)?;
            let mut characters = rest.chars();
            characters.nth(more.checked_sub(1)?)?;
            rest.len() - characters.as_str().len()
        };
        self.characters = index;
        Some(self.bytes)
    }
}

// SAFETY: the library keeps nothing outside of the handle, and allows calls from any thread, one at a time. A `Face` is
// not `Sync`, since its handle is in a `Cell`, so no two calls happen at once.
unsafe impl Send for Face<'_> {}

impl<'input> Face<'input> {
    /// A parser of a text.
    pub fn new(text: &'input str, keep_tags: bool) -> Self {
        check_version();
        let mut handle = EMPTY;
        // SAFETY: the bytes may be read for their length, and are UTF-8. They stay where they are, unchanged, until
        // `drop` frees the parser, since the text is borrowed for longer. The handle is zeroed.
        let status = unsafe { saphyr_new_utf8(text.as_ptr(), text.len(), keep_tags, &mut handle) };
        expect(status, OK);
        Face::with(handle, Some(text))
    }

    /// A parser of a text that comes in pieces, of which nothing came.
    pub fn of_pieces(keep_tags: bool, limits: Limits) -> Self {
        check_version();
        let mut handle = EMPTY;
        // The library takes 0 for no limit.
        let (characters, waiting) = (limits.characters.max(1), limits.waiting.max(1));
        // SAFETY: the handle is zeroed.
        let status = unsafe { saphyr_new_pieces(keep_tags, characters, waiting, &mut handle) };
        expect(status, OK);
        Face::with(handle, None)
    }

    /// With a parser that has handed out nothing here.
    fn with(handle: Handle, text: Option<&'input str>) -> Self {
        Face {
            handle: Cell::new(handle),
            record: Record::zeroed(),
            text,
            reached: Reached::default(),
        }
    }

    /// Adds the next characters of a text that comes in pieces. An empty piece says that no more come.
    pub fn add(&mut self, piece: &str) {
        // SAFETY: the handle has a parser, which no other call uses. The bytes may be read for their length, and are
        // UTF-8.
        let status = unsafe { saphyr_add_utf8(self.handle.get_mut(), piece.as_ptr(), piece.len()) };
        expect(status, OK);
    }

    /// Adds the next bytes, which may be cut inside a character. No bytes say that no more come. An error says that these
    /// are not UTF-8, behind those before, and whether the text begins as UTF-16. Then none is added.
    pub fn add_bytes(&mut self, bytes: &[u8]) -> Result<(), bool> {
        // SAFETY: the handle has a parser, which no other call uses. The bytes may be read for their length.
        let status = unsafe { saphyr_add(self.handle.get_mut(), bytes.as_ptr(), bytes.len()) };
        if status == NOT_UTF8 || status == UTF16 {
            return Err(status == UTF16);
        }
        expect(status, OK);
        Ok(())
    }

    /// Hands out the next item, and says where it leaves the parser.
    #[inline]
    pub fn next(&mut self, progress: &mut Progress) -> Item<'input> {
        let status = self.step();
        // SAFETY: this was the last call with the parser.
        unsafe { self.item(status, progress) }
    }

    /// The same of a text that comes in pieces, or why nothing comes.
    #[inline]
    pub fn next_or_wait(&mut self, progress: &mut Progress) -> Result<Item<'input>, Wait> {
        match self.step() {
            MORE => Err(Wait::More),
            TOO_MUCH => Err(Wait::TooMuch),
            // SAFETY: this was the last call with the parser.
            status => Ok(unsafe { self.item(status, progress) }),
        }
    }

    /// Calls the library for the next item, and returns the status.
    #[inline]
    fn step(&mut self) -> i32 {
        // SAFETY: the handle has a parser, which no other call uses. The record was zeroed, and nothing but this call
        // has changed it.
        unsafe { saphyr_next(self.handle.get_mut(), &mut self.record) }
    }

    /// The item that a call wrote.
    ///
    /// # Safety
    /// A call returned this status and wrote the record, and no other call with the parser came since.
    #[inline]
    unsafe fn item(&mut self, status: i32, progress: &mut Progress) -> Item<'input> {
        if status != EVENT {
            // SAFETY: the caller ensures what this function requires.
            let fault = unsafe { self.ending(status) }?;
            return progress.end(fault);
        }
        // SAFETY: the same.
        let event = unsafe { self.event(progress) };
        Some(Ok((event, self.record.span())))
    }

    /// The fault in place of an event, if there is one.
    ///
    /// # Safety
    /// The same as of `item`.
    #[cold]
    unsafe fn ending(&self, status: i32) -> Option<ScanError> {
        if status != REFUSED && status != TOO_LONG {
            expect(status, END);
            return None;
        }
        // SAFETY: the caller ensures what this function requires.
        let info = unsafe { self.record.value.text() };
        Some(ScanError::new_str(marker(&self.record.start), info))
    }

    /// The event that a call wrote.
    ///
    /// # Safety
    /// The call wrote the record, and no other call with the parser came since.
    #[inline]
    unsafe fn event(&mut self, progress: &mut Progress) -> Event<'input> {
        let anchor = self.record.anchor;
        match self.record.kind {
            1 => Event::StreamStart,
            2 => {
                progress.stand = Stand::Behind(self.record.span());
                Event::StreamEnd
            }
            3 => {
                progress.stand = Stand::Inside;
                Event::DocumentStart(self.record.is_explicit != 0)
            }
            4 => {
                progress.stand = Stand::Between;
                Event::DocumentEnd
            }
            5 => Event::Alias(anchor),
            6 => {
                let style = style(self.record.style);
                // SAFETY: the caller ensures what this function requires.
                let (value, tag) = unsafe { (self.value(style), tag_of(&self.record)) };
                Event::Scalar(value, style, anchor, tag)
            }
            // SAFETY: the caller ensures what this function requires.
            7 => Event::SequenceStart(anchor, unsafe { tag_of(&self.record) }),
            8 => Event::SequenceEnd,
            // SAFETY: the caller ensures what this function requires.
            9 => Event::MappingStart(anchor, unsafe { tag_of(&self.record) }),
            10 => Event::MappingEnd,
            _ => Event::Nothing,
        }
    }

    /// The text of the scalar that a call wrote. It is borrowed if the caller's text has it as it is at the scalar's
    /// place.
    ///
    /// # Safety
    /// The same as of `event`.
    #[inline]
    unsafe fn value(&mut self, style: ScalarStyle) -> Cow<'input, str> {
        // SAFETY: the caller ensures what this function requires.
        let value = unsafe { self.record.value.text() };
        let Some(text) = self.text else {
            return Cow::Owned(value.to_owned());
        };
        let quotes = match style {
            ScalarStyle::Plain => 0,
            ScalarStyle::SingleQuoted | ScalarStyle::DoubleQuoted => 1,
            ScalarStyle::Literal | ScalarStyle::Folded => return Cow::Owned(value.to_owned()),
        };
        let at = self.reached.go_on(text, self.record.start.index);
        let bytes = text.as_bytes();
        let piece = at.and_then(|at| bytes.get(at + quotes..at + quotes + value.len()));
        match piece {
            // SAFETY: these bytes are those of `value`, which is a text.
            Some(piece) if piece == value.as_bytes() => {
                Cow::Borrowed(unsafe { str::from_utf8_unchecked(piece) })
            }
            _ => Cow::Owned(value.to_owned()),
        }
    }

    /// Sets whether prefixes of tags hold for later documents too.
    pub fn keep_tags(&mut self, value: bool) {
        // SAFETY: the handle has a parser, which no other call uses.
        let status = unsafe { saphyr_keep_tags(self.handle.get_mut(), value) };
        expect(status, OK);
    }
}

impl Clone for Face<'_> {
    fn clone(&self) -> Self {
        let mut handle = EMPTY;
        // SAFETY: the first handle has a parser, which no other call uses, since a `Face` is no `Sync`. The second is
        // zeroed. If its parser reads the caller's text, that is borrowed for the clone too.
        let status = unsafe { saphyr_clone(self.handle.as_ptr(), &mut handle) };
        expect(status, OK);
        Face {
            handle: Cell::new(handle),
            record: Record::zeroed(),
            text: self.text,
            reached: self.reached,
        }
    }
}

impl Drop for Face<'_> {
    fn drop(&mut self) {
        // SAFETY: the handle has a parser, which no other call uses, and none comes after this one.
        unsafe { saphyr_free(self.handle.get_mut()) }
    }
}

impl Record {
    #[inline]
    fn span(&self) -> Span {
        Span::new(marker(&self.start), marker(&self.end))
    }

    fn zeroed() -> Self {
        Record {
            kind: 0,
            style: 0,
            is_explicit: 0,
            has_tag: 0,
            anchor: 0,
            start: Place::default(),
            end: Place::default(),
            value: NO_BYTES,
            tag_handle: NO_BYTES,
            tag_suffix: NO_BYTES,
        }
    }
}

/// The tag of the event that a call wrote.
///
/// # Safety
/// The call wrote the record, and no other call with the same parser came since.
#[inline]
unsafe fn tag_of(record: &Record) -> Option<Cow<'static, Tag>> {
    if record.has_tag == 0 {
        return None;
    }
    // SAFETY: the caller ensures what this function requires.
    Some(Cow::Owned(unsafe { copy_of_tag(record) }))
}

/// A copy of the texts of a tag.
///
/// # Safety
/// The same as of `tag_of`.
#[cold]
unsafe fn copy_of_tag(record: &Record) -> Tag {
    // SAFETY: the caller ensures what this function requires.
    let (handle, suffix) = unsafe { (record.tag_handle.text(), record.tag_suffix.text()) };
    Tag {
        handle: handle.to_owned(),
        suffix: suffix.to_owned(),
    }
}

impl Bytes {
    /// The text that a call wrote, or an empty one.
    ///
    /// # Safety
    /// The call wrote the record that has it, and no other call with the same parser comes while the text is read.
    unsafe fn text<'a>(&self) -> &'a str {
        if self.len == 0 {
            return "";
        }
        // SAFETY: the library gives texts in UTF-8, which may be read until the next call with the parser.
        unsafe { str::from_utf8_unchecked(slice::from_raw_parts(self.at, self.len)) }
    }
}

fn style(number: i32) -> ScalarStyle {
    match number {
        0 => ScalarStyle::Plain,
        1 => ScalarStyle::SingleQuoted,
        2 => ScalarStyle::DoubleQuoted,
        3 => ScalarStyle::Literal,
        _ => ScalarStyle::Folded,
    }
}

fn marker(place: &Place) -> Marker {
    Marker::new(place.index, place.line, place.col)
}

/// Goes on if the library is of this crate's version.
fn check_version() {
    // SAFETY: the call asks for nothing.
    let version = unsafe { saphyr_version() };
    assert_eq!(
        version, VERSION,
        "the library is of another version than this crate"
    );
}

/// Goes on if the status is this one. If memory ran out the process ends, as it does if a `Vec` can't grow.
fn expect(status: i32, expected: i32) {
    if status == NO_MEMORY {
        handle_alloc_error(Layout::new::<Record>());
    }
    assert_eq!(
        status, expected,
        "the library answered what no such call of a live parser does"
    );
}
