//! How far a parser reads its input: as far as an event needs.

use saphyr_parser::{Event, EventReceiver, Input, Parser, ScanError, Span};
use std::cell::Cell;
use std::io::{BufReader, Read, Write};
use std::os::unix::net::UnixStream;
use std::panic::{catch_unwind, AssertUnwindSafe};
use std::time::Duration;

/// The scalars that it receives.
#[derive(Default)]
struct Scalars(Vec<String>);

impl<'input> EventReceiver<'input> for Scalars {
    fn on_event(&mut self, ev: Event<'input>) {
        if let Event::Scalar(value, ..) = ev {
            self.0.push(value.into_owned());
        }
    }
}

/// Each document is written once the one before it was handed out.
#[test]
fn gives_documents_on_a_pipe_one_by_one() {
    for (first, between, keeps_tags) in [
        ("", "\n...\n", false),
        ("---\n", "\n---\n", false),
        ("%TAG ! t:\n---\n", "\n---\n", true),
    ] {
        let (mut writer, reader) = UnixStream::pair().unwrap();
        reader
            .set_read_timeout(Some(Duration::from_secs(60)))
            .unwrap();
        let bytes = BufReader::new(reader).bytes();
        let mut parser = Parser::new_from_iter(bytes.map(|byte| char::from(byte.unwrap())))
            .keep_tags(keeps_tags);
        let mut scalars = Scalars::default();
        writer.write_all(first.as_bytes()).unwrap();
        for document in ["a", "[b]", "c: d", "|\n e", "f"] {
            write!(writer, "{document}{between}").unwrap();
            parser.load(&mut scalars, false).unwrap();
        }
        assert_eq!(scalars.0, ["a", "b", "c", "d", "e\n", "f"]);
    }
}

/// The characters of a text that does not say that it has more, as that on a pipe. It is read by lines.
fn pipe(text: &str) -> impl Iterator<Item = char> + Clone + '_ {
    text.chars().filter(|_| true)
}

/// How many characters of a text were read when a document's end was handed out, for each document.
fn read_at_ends(text: &str) -> Vec<usize> {
    let read = Cell::new(0);
    let mut ends = Vec::new();
    for item in Parser::new_from_iter(pipe(text).inspect(|_| read.set(read.get() + 1))) {
        if item.unwrap().0 == Event::DocumentEnd {
            ends.push(read.get());
        }
    }
    ends
}

#[test]
fn reads_no_further_than_a_document() {
    let five = ["a\n", "--- [b]\n", "---\nc: d\n", "--- |\n e\n", "--- f\n"];
    let mut len = 0;
    let before = five.map(|it| {
        len += it.len();
        len
    });
    let read = read_at_ends(&five.concat());
    // After a document, `---` and the next character are read, and after the last one nothing is left.
    assert_eq!(read[..4], before.map(|it| it + 4)[..4]);
    assert_eq!(read[4], before[4]);
    assert_eq!(
        read_at_ends("a\n...\nb\n... # c\r\n--- d\n..."),
        [6, 17, 26]
    );
    let closed = "%TAG ! t:\n---\n!a b\n---\nc\n...\n%TAG ! u:\n---\nd\n";
    assert_eq!(read_at_ends(closed), [23, 29, 45]);
    // A directive's `---` is its own, and content is none.
    assert_eq!(
        read_at_ends("%YAML 1.2\n--- |\n ---\n ...\n---\n---a\n"),
        [30, 35]
    );
    // LF belongs to the end of its line. A marker is one without it.
    assert_eq!(read_at_ends("a\r...\r\nb\r---\rc"), [7, 13, 14]);
}

#[test]
fn reads_nothing_for_the_start_of_the_stream() {
    let mut parser =
        Parser::new_from_iter(std::iter::repeat_with(|| -> char { panic!("was read") }));
    assert_eq!(parser.peek().unwrap().unwrap().0, Event::StreamStart);
    assert_eq!(parser.next_event().unwrap().unwrap().0, Event::StreamStart);
}

/// What it read of a line is lost.
#[test]
fn reads_no_further_after_an_input_panicked() {
    let read = Cell::new(0);
    let mut parser = Parser::new_from_iter(std::iter::from_fn(|| {
        read.set(read.get() + 1);
        assert!(read.get() < 3, "can't be read");
        Some('a')
    }));
    assert_eq!(parser.next_event().unwrap().unwrap().0, Event::StreamStart);
    for _ in 0..2 {
        assert!(catch_unwind(AssertUnwindSafe(|| parser.next_event())).is_err());
    }
    assert_eq!(read.get(), 3);
}

/// A line may be longer than what is read at a time.
#[test]
fn reads_long_lines() {
    for len in 4000..4200 {
        let word = "é".repeat(len / 2) + &"a".repeat(len % 2);
        let text = format!("{word}--- x\r\n---\n- |\n {word}--- \r\n...\n\"{word}\\\n --- \"\n");
        let whole: Vec<_> = Parser::new_from_str(&text).collect();
        let parts: Vec<_> = Parser::new_from_iter(pipe(&text)).collect();
        assert_eq!(parts, whole, "{len}");
        assert!(whole.iter().all(Result::is_ok));
    }
}

#[test]
fn gives_documents_without_an_end() {
    let endless = "--- &a b\n--- [*a, c]\n".chars().cycle();
    let parser = Parser::new_from_iter("--- &a [*a]\n".chars().cycle());
    let mut ids = Vec::new();
    for item in parser.take(500) {
        match item.unwrap().0 {
            Event::SequenceStart(id, _) | Event::Alias(id) => ids.push(id),
            _ => {}
        }
    }
    assert_eq!(
        ids,
        (1..=100).flat_map(|id| [id, id]).collect::<Vec<_>>()[..ids.len()]
    );
    // An alias has its anchor in its own document.
    let fault = Parser::new_from_iter(endless)
        .find_map(Result::err)
        .unwrap();
    let said = "while parsing node, found unknown anchor at byte 14 line 2 column 6";
    assert_eq!(fault.to_string(), said);
}

/// The items of a parser whose setting of `keep_tags` is changed after this many events, and after a peek.
fn switched<T: Input>(
    mut parser: Parser<'_, T>,
    begun: usize,
    peeks: bool,
) -> Vec<Result<(Event<'_>, Span), ScanError>> {
    let mut given: Vec<_> = parser.by_ref().take(begun).collect();
    if peeks {
        let _ = parser.peek();
    }
    given.extend(parser.keep_tags(true));
    given
}

#[test]
fn keeps_tags_of_an_iterator_from_an_end_on() {
    let open = "%TAG !e! tag:e,2000:\n--- !e!a b\n--- !e!c d\n";
    let closed = "%TAG !e! t:\n--- !e!a b\n...\n--- &c d\n--- &e !e!f g\n--- h\n%TAG ! t:\n";
    for text in [open, closed] {
        for (begun, peeks) in (0..12).flat_map(|it| [(it, false), (it, true)]) {
            let whole = switched(Parser::new_from_str(text), begun, peeks);
            let parts = switched(Parser::new_from_iter(pipe(text)), begun, peeks);
            assert_eq!(parts, whole, "behind {begun} events");
        }
    }
    assert!(switched(Parser::new_from_iter(pipe(open)), 3, false)
        .iter()
        .all(Result::is_ok));
    assert!(switched(Parser::new_from_iter(pipe(open)), 4, false)
        .iter()
        .any(Result::is_err));
}

/// Random texts of these pieces, with markers everywhere, have the same events as a whole and part by part.
#[test]
fn reads_random_texts_alike() {
    let words = "\n---\n|\n--- |\n...\n|\n... # c\n|\r---\r|\r...\r|\r\n...\r\n|---\t|... |\n|\n\n| |  |\t|\r|a|b: \
        |- |? |: |:|[|]|{|}|,|\"|'|&a |*a |!t |!e!x |%TAG !e! t:\n|%YAML 1.2\n|%F\n|%|#c\n| # d|\u{FEFF}|\0\
        |é|@|\\|a b\n c|---|...|--|- - a\n|k: v\n";
    let mut words: Vec<&str> = words.split('|').collect();
    words.extend(["|\n", ">\n", "|+\n", ">2\n", "- |\n a\n"]);
    let mut state: u64 = 0x9E37_79B9_7F4A_7C15;
    let mut below = |count: usize| {
        for (left, shift) in [(true, 13), (false, 7), (true, 17)] {
            state ^= if left { state << shift } else { state >> shift };
        }
        (state >> 11) as usize % count
    };
    for _ in 0..100_000 {
        let text: String = (0..1 + below(24))
            .map(|_| words[below(words.len())])
            .collect();
        let whole: Vec<_> = Parser::new_from_str(&text).collect();
        let parts: Vec<_> = Parser::new_from_iter(pipe(&text)).collect();
        assert_eq!(parts, whole, "{text:?}");
        let at_once: Vec<_> = Parser::new_from_iter(text.chars()).collect();
        assert_eq!(at_once, whole, "{text:?}");
    }
}

/// Characters of each width stay as they are, wherever those end that are put together.
#[test]
fn reads_characters_of_each_width() {
    let mixed = "a\u{e9}\u{4e2d}\u{1f600}".repeat(300);
    for before in 0..10 {
        let text = format!("- {}{mixed}\n- '{mixed}'\n", "x".repeat(before));
        let whole: Vec<_> = Parser::new_from_str(&text).collect();
        let parts: Vec<_> = Parser::new_from_iter(pipe(&text)).collect();
        assert_eq!(parts, whole);
        let at_once: Vec<_> = Parser::new_from_iter(text.chars()).collect();
        assert_eq!(at_once, whole);
    }
}

#[test]
fn keeps_to_limits() {
    let fault = |characters, waiting| {
        let mut parser =
            Parser::new_from_iter(pipe("- [a, b]\n- cd\n")).limits(characters, waiting);
        parser.find_map(Result::err).map(|it| it.to_string())
    };
    assert_eq!(fault(usize::MAX, usize::MAX), None);
    assert_eq!(fault(14, 9), None);
    assert_eq!(
        fault(13, 9).as_deref(),
        Some("text longer than 4294967295 characters at byte 14 line 3 column 1")
    );
    let endless = "- a\n".chars().cycle();
    for characters in 1..100 {
        let mut parser = Parser::new_from_iter(endless.clone()).limits(characters, usize::MAX);
        let fault = parser.find_map(Result::err).unwrap();
        assert!(fault.info().starts_with("text longer than"), "{fault}");
    }
    assert_eq!(
        fault(14, 2).as_deref(),
        Some("more bytes wait for the next event than may at byte 0 line 1 column 1")
    );
}
