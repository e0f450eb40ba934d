//! Each case of the repository's files, from a string, an iterator and an input of your own, and by each way to take
//! events.

use saphyr_parser::{
    Event, Input, Parser, ScalarStyle, ScanError, Span, SpannedEventReceiver, Tag,
};
use std::borrow::Cow;
use std::fmt::Write;
use std::panic::catch_unwind;
use std::path::Path;
use std::{fs, thread};

const DATA: &str = concat!(env!("CARGO_MANIFEST_DIR"), "/../crates/test_cases/data");

/// How many lines a case may have whose parser is cloned at each place.
const MOST_CLONED: usize = 16;

struct Case {
    name: String,
    keeps_tags: bool,
    text: String,
    lines: Vec<String>,
}

/// The cases of a file. If a line stands for several by its escapes, these are resolved.
fn cases_of(file: &Path) -> Vec<Case> {
    let mut cases: Vec<Case> = Vec::new();
    for line in fs::read_to_string(file).unwrap().split_terminator('\n') {
        if let Some(title) = line.strip_prefix("= ") {
            let name = title.trim_end_matches(" keep_tags");
            let keeps_tags = name != title;
            cases.push(Case {
                name: name.into(),
                keeps_tags,
                text: String::new(),
                lines: Vec::new(),
            });
            continue;
        }
        let case = cases.last_mut().expect("a title comes first");
        match line.strip_prefix("< ") {
            Some(text) => case.text = unescaped(text),
            None => case.lines.push(unescaped(line)),
        }
    }
    cases
}

fn unescaped(line: &str) -> String {
    let (mut text, mut rest) = (String::new(), line);
    while let Some((front, behind)) = rest.split_once('\\') {
        text += front;
        let (c, left) = match behind.strip_prefix("u{").and_then(|it| it.split_once('}')) {
            Some((hex, left)) => (
                char::from_u32(u32::from_str_radix(hex, 16).unwrap()).unwrap(),
                left,
            ),
            None => {
                let c = behind.chars().next().unwrap();
                let named = match c {
                    'n' => '\n',
                    'r' => '\r',
                    't' => '\t',
                    c => c,
                };
                (named, &behind[c.len_utf8()..])
            }
        };
        text.push(c);
        rest = left;
    }
    text + rest
}

/// What a parser gave, as a line of a case.
fn line_of(item: Result<&(Event<'_>, Span), &ScanError>) -> String {
    match item {
        Ok((event, Span { start, end })) => {
            let (from, to) = (place(start), place(end));
            format!("> {} @ {from} {to}", event_text(event))
        }
        Err(fault) => format!("! {fault}"),
    }
}

fn place(mark: &saphyr_parser::Marker) -> String {
    format!("{},{},{}", mark.index(), mark.line(), mark.col())
}

fn event_text(event: &Event<'_>) -> String {
    match event {
        Event::Nothing => "nothing".into(),
        Event::StreamStart => "+STR".into(),
        Event::StreamEnd => "-STR".into(),
        Event::DocumentStart(true) => "+DOC ---".into(),
        Event::DocumentStart(false) => "+DOC".into(),
        Event::DocumentEnd => "-DOC".into(),
        Event::Alias(id) => format!("=ALI *{id}"),
        Event::Scalar(text, style, id, tag) => {
            let mark = match style {
                ScalarStyle::Plain => ':',
                ScalarStyle::SingleQuoted => '\'',
                ScalarStyle::DoubleQuoted => '"',
                ScalarStyle::Literal => '|',
                ScalarStyle::Folded => '>',
            };
            format!("{} {mark}{}", node_text("=VAL", *id, tag), escaped(text))
        }
        Event::SequenceStart(id, tag) => node_text("+SEQ", *id, tag),
        Event::SequenceEnd => "-SEQ".into(),
        Event::MappingStart(id, tag) => node_text("+MAP", *id, tag),
        Event::MappingEnd => "-MAP".into(),
    }
}

fn node_text(name: &str, id: usize, tag: &Option<Cow<'_, Tag>>) -> String {
    let mut text = name.to_owned();
    if id != 0 {
        write!(text, " &{id}").unwrap();
    }
    if let Some(tag) = tag {
        write!(text, " <{}{}>", tag.handle, tag.suffix).unwrap();
    }
    text
}

fn escaped(text: &str) -> String {
    let shown = [
        ("\\", "\\\\"),
        ("\n", "\\n"),
        ("\r", "\\r"),
        ("\t", "\\t"),
        ("\u{8}", "\\b"),
    ];
    shown
        .iter()
        .fold(text.to_owned(), |text, (from, to)| text.replace(from, to))
}

/// An input of your own, with only the calls that have no default, and a window of eight.
#[derive(Clone)]
struct ListInput<'a> {
    rest: &'a [char],
    loaded: usize,
}

impl Input for ListInput<'_> {
    fn lookahead(&mut self, count: usize) {
        assert!(count <= self.bufmaxlen());
        self.loaded = self.loaded.max(count);
    }
    fn buflen(&self) -> usize {
        self.loaded
    }
    fn bufmaxlen(&self) -> usize {
        8
    }
    fn raw_read_ch(&mut self) -> char {
        unimplemented!()
    }
    fn raw_read_non_breakz_ch(&mut self) -> Option<char> {
        unimplemented!()
    }
    fn skip(&mut self) {
        self.skip_n(1);
    }
    fn skip_n(&mut self, count: usize) {
        assert!(count <= self.loaded);
        self.loaded -= count;
        self.rest = &self.rest[count.min(self.rest.len())..];
    }
    fn peek(&self) -> char {
        self.peek_nth(0)
    }
    fn peek_nth(&self, n: usize) -> char {
        assert!(n < self.loaded);
        self.rest.get(n).copied().unwrap_or('\0')
    }
    fn peek_opt(&self) -> Option<char> {
        assert!(0 < self.loaded);
        self.rest.first().copied()
    }
}

struct Lines(Vec<String>);

impl<'input> SpannedEventReceiver<'input> for Lines {
    fn on_event(&mut self, ev: Event<'input>, span: Span) {
        self.0.push(line_of(Ok(&(ev, span))));
    }
}

fn all<T: Input>(parser: Parser<'_, T>) -> Vec<String> {
    parser.map(|item| line_of(item.as_ref())).collect()
}

fn by_load<T: Input>(mut parser: Parser<'_, T>, multi: bool) -> Vec<String> {
    let mut lines = Lines(Vec::new());
    loop {
        if let Err(fault) = parser.load(&mut lines, multi) {
            lines.0.push(line_of(Err(&fault)));
            assert_eq!(parser.load(&mut lines, multi).unwrap_err(), fault);
            assert_eq!(parser.next_event(), Some(Err(fault)));
            break;
        }
        if lines.0.last().is_some_and(|it| it.starts_with("> -STR")) {
            break;
        }
        assert!(!multi);
    }
    assert_eq!(parser.next_event(), None);
    lines.0
}

fn by_peek<T: Input>(mut parser: Parser<'_, T>) -> Vec<String> {
    let mut lines = Vec::new();
    while let Some(item) = parser.peek() {
        let line = line_of(item.as_ref().copied());
        let again = parser.peek().unwrap();
        assert_eq!(line_of(again.as_ref().copied()), line);
        assert_eq!(line_of(parser.next_event().unwrap().as_ref()), line);
        lines.push(line);
    }
    assert_eq!(parser.next_event(), None);
    lines
}

fn by_clones<T: Input + Clone>(mut parser: Parser<'_, T>, lines: &[String]) {
    for place in 0..lines.len() {
        assert_eq!(all(parser.clone()), lines[place..]);
        let _ = parser.peek();
        assert_eq!(all(parser.clone()), lines[place..]);
        let _ = parser.next_event();
    }
    assert_eq!(all(parser), lines[lines.len()..]);
}

fn compare<T: Input + Clone>(parser: Parser<'_, T>, case: &Case) {
    let parser = parser.keep_tags(case.keeps_tags);
    assert_eq!(
        by_load(parser.clone(), false),
        case.lines,
        "{}, load",
        case.name
    );
    assert_eq!(
        by_load(parser.clone(), true),
        case.lines,
        "{}, load of all",
        case.name
    );
    assert_eq!(by_peek(parser.clone()), case.lines, "{}, peek", case.name);
    if case.lines.len() <= MOST_CLONED {
        by_clones(parser.clone(), &case.lines);
    }
    assert_eq!(all(parser), case.lines, "{}", case.name);
}

/// The characters of bytes that come in pieces. Each comes as soon as all of it is there.
fn in_pieces(bytes: &[u8], count: usize) -> impl Iterator<Item = char> + '_ {
    let mut held = Vec::new();
    bytes.chunks(count).flat_map(move |piece| {
        held.extend_from_slice(piece);
        let len = match std::str::from_utf8(&held) {
            Ok(text) => text.len(),
            Err(fault) => fault.valid_up_to(),
        };
        let whole = String::from_utf8(held.drain(..len).collect()).unwrap();
        whole.chars().collect::<Vec<_>>()
    })
}

fn compare_each_input(case: &Case) {
    let characters: Vec<char> = case.text.chars().collect();
    compare(Parser::new_from_str(&case.text), case);
    compare(Parser::new_from_bytes(case.text.as_bytes()).unwrap(), case);
    compare(Parser::new_from_iter(case.text.chars()), case);
    // It does not say that it has more, so it is read by lines.
    compare(
        Parser::new_from_iter(case.text.chars().filter(|_| true)),
        case,
    );
    compare(
        Parser::new(ListInput {
            rest: &characters,
            loaded: 0,
        }),
        case,
    );
    for count in [1, 2, 3, 4096] {
        let parser = Parser::new_from_iter(in_pieces(case.text.as_bytes(), count));
        let lines = all(parser.keep_tags(case.keeps_tags));
        assert_eq!(lines, case.lines, "{}, in pieces", case.name);
    }
}

fn all_cases() -> Vec<Case> {
    let mut files: Vec<_> = fs::read_dir(DATA)
        .unwrap()
        .map(|it| it.unwrap().path())
        .collect();
    files.sort();
    let cases: Vec<Case> = files.iter().flat_map(|file| cases_of(file)).collect();
    assert!(cases.len() > 13_000);
    cases
}

/// An iterator is read line by line, and a string as a whole. What the text has before and after a marker is
/// that of any case.
#[test]
fn reads_documents_behind_one_another() {
    let cases = all_cases();
    let short: Vec<&Case> = cases.iter().filter(|it| it.text.len() < 1000).collect();
    for pair in short.windows(2) {
        for between in [
            "\n---\n",
            "\n--- ",
            "---\t",
            "\n...\n",
            "... # c\r\n",
            "\r...\r",
            "\n...\n---\n",
        ] {
            let text = format!("{}{between}{}", pair[0].text, pair[1].text);
            for keeps_tags in [false, true] {
                let whole = Parser::new_from_str(&text).keep_tags(keeps_tags);
                let parts =
                    Parser::new_from_iter(text.chars().filter(|_| true)).keep_tags(keeps_tags);
                assert_eq!(all(parts), all(whole), "{text:?}");
            }
        }
    }
}

#[test]
fn reads_each_case() {
    let cases = all_cases();
    let is_wrong = |case: &&Case| catch_unwind(|| compare_each_input(case)).is_err();
    let of_part = |part: &[Case]| {
        part.iter()
            .filter(is_wrong)
            .map(|it| it.name.clone())
            .collect()
    };
    let wrong: Vec<String> = thread::scope(|scope| {
        let parts = cases.chunks(cases.len().div_ceil(4));
        let threads: Vec<_> = parts
            .map(|part| scope.spawn(move || -> Vec<String> { of_part(part) }))
            .collect();
        threads
            .into_iter()
            .flat_map(|it| it.join().unwrap())
            .collect()
    });
    assert!(
        wrong.is_empty(),
        "{} of {} cases: {wrong:?}",
        wrong.len(),
        cases.len()
    );
}
