//! What the calls of a parser return besides a case's list, and what values of the crate print.

use saphyr_parser::input::{
    is_alpha, is_blank_or_breakz, is_breakz, is_digit, is_flow, is_z, SkipTabs,
};
use saphyr_parser::{
    check_standard, BufferedInput, Event, EventReceiver, Input, Marker, NotStandard, Parser,
    ScanError, Span, SpannedEventReceiver, StrInput, Tag,
};
use std::borrow::Cow;
use std::error::Error;
use std::iter::FusedIterator;
use std::thread;

/// The short names of the events that it receives.
#[derive(Default)]
struct Outline(String);

impl<'input> EventReceiver<'input> for Outline {
    fn on_event(&mut self, ev: Event<'input>) {
        self.0 += match ev {
            Event::Nothing => "?",
            Event::StreamStart => "+STR ",
            Event::StreamEnd => "-STR ",
            Event::DocumentStart(_) => "+DOC ",
            Event::DocumentEnd => "-DOC ",
            Event::Alias(_) => "=ALI ",
            Event::Scalar(..) => "=VAL ",
            Event::SequenceStart(..) => "+SEQ ",
            Event::SequenceEnd => "-SEQ ",
            Event::MappingStart(..) => "+MAP ",
            Event::MappingEnd => "-MAP ",
        };
    }
}

/// What one call of `load` sends and returns.
fn loaded<T: Input>(parser: &mut Parser<'_, T>, multi: bool) -> (String, Result<(), ScanError>) {
    let mut outline = Outline::default();
    let answer = parser.load(&mut outline, multi);
    (outline.0, answer)
}

#[test]
fn loads_a_document_at_a_time() {
    let mut parser = Parser::new_from_str("a\n---\nb\n");
    for sent in ["+STR +DOC =VAL -DOC ", "+DOC =VAL -DOC ", "-STR ", "-STR "] {
        assert_eq!(loaded(&mut parser, false), (sent.into(), Ok(())));
    }
    assert_eq!(parser.next_event(), None);
    assert!(parser.peek().is_none());
}

#[test]
fn gives_nothing_after_the_end() {
    fn counted(parser: impl FusedIterator) -> usize {
        parser.count()
    }
    for text in ["a", "[a"] {
        let mut parser = Parser::new_from_str(text);
        let wanted = parser.by_ref().count();
        assert_eq!(counted(&mut parser), 0);
        assert_eq!(counted(Parser::new_from_iter(text.chars())), wanted);
    }
}

#[test]
fn loads_what_was_peeked() {
    let mut parser = Parser::new_from_str("");
    let start = (Event::StreamStart, Span::empty(Marker::new(0, 1, 0)));
    assert_eq!(parser.peek(), Some(Ok(&start)));
    assert_eq!(loaded(&mut parser, true), ("+STR -STR ".into(), Ok(())));
}

#[test]
fn refuses_to_load_inside_a_document() {
    let mut parser = Parser::new_from_str("{\"a\":[1,true]}");
    for _ in 0..4 {
        assert!(parser.next_event().is_some());
    }
    let refused = ScanError::new_str(
        Marker::new(5, 1, 5),
        "did not find expected <document-start>",
    );
    assert_eq!(
        loaded(&mut parser, true),
        (String::new(), Err(refused.clone()))
    );
    assert_eq!(loaded(&mut parser, false), (String::new(), Err(refused)));
    assert!(matches!(
        parser.next_event(),
        Some(Ok((Event::SequenceStart(0, None), _)))
    ));
}

#[test]
fn answers_a_fault_again() {
    let text = "\n# syntax error\nscalar\nkey: [1, 2]]\nkey1:a2\n";
    let said = "mapping values are not allowed in this context at byte 26 line 4 column 4";
    let mut parser = Parser::new_from_str(text);
    for (call, sent) in ["+STR +DOC =VAL ", "", ""].into_iter().enumerate() {
        let (outline, answer) = loaded(&mut parser, false);
        assert_eq!(
            (
                outline.as_str(),
                answer.clone().unwrap_err().to_string().as_str()
            ),
            (sent, said)
        );
        if call == 1 {
            assert_eq!(parser.peek(), Some(Err(answer.clone().unwrap_err())));
            assert_eq!(parser.next_event(), Some(Err(answer.unwrap_err())));
            assert!(parser.peek().is_none());
            assert_eq!(parser.next_event(), None);
        }
    }
}

#[test]
fn keeps_tags_from_an_end_on() {
    let text = "%TAG !e! tag:e,2000:\n--- !e!a b\n--- !e!c d\n";
    assert!(Parser::new_from_str(text).any(|it| it.is_err()));
    assert!(Parser::new_from_str(text)
        .keep_tags(true)
        .all(|it| it.is_ok()));
    assert!(Parser::new_from_str(text)
        .keep_tags(true)
        .keep_tags(false)
        .any(|it| it.is_err()));
    for begun in 0..4 {
        let mut parser = Parser::new_from_str(text);
        assert_eq!(
            parser.by_ref().take(begun).filter(|it| it.is_ok()).count(),
            begun
        );
        assert!(
            parser.keep_tags(true).all(|it| it.is_ok()),
            "behind {begun} events"
        );
    }
}

#[test]
fn ends_an_iterator_at_its_first_none() {
    let given = [Some('['), Some('1'), None, Some(']')];
    let mut given = given.into_iter();
    let mut parser = Parser::new_from_iter(std::iter::from_fn(move || given.next().flatten()));
    let (sent, answer) = loaded(&mut parser, true);
    assert_eq!(sent, "+STR +DOC +SEQ =VAL ");
    let said = "while parsing a flow sequence, expected ',' or ']' at byte 2 line 2 column 1";
    assert_eq!(answer.unwrap_err().to_string(), said);
}

#[test]
fn reads_nothing_before_the_first_event() {
    let mut parser = Parser::new_from_iter(std::iter::from_fn(|| -> Option<char> {
        panic!("was read")
    }));
    parser = parser.keep_tags(true);
    drop(parser);
}

#[test]
fn refuses_bytes() {
    let refused = |bytes: &[u8]| {
        let fault = Parser::new_from_bytes(bytes).expect_err("bytes that are not UTF-8");
        (fault.index(), fault.is_utf16(), fault.to_string())
    };
    assert_eq!(
        refused(b"a\xff"),
        (1, false, "the text is not UTF-8 from byte 1 on".into())
    );
    assert_eq!(
        refused(b"\xff\xfea\0"),
        (0, true, "the text is UTF-16, and has to be UTF-8".into())
    );
    assert!(!refused(b"\xff\xfe\0\0").1);
    let marked: Vec<_> = Parser::new_from_bytes(b"\xef\xbb\xbfa").unwrap().collect();
    assert_eq!(
        marked,
        Parser::new_from_str("\u{FEFF}a").collect::<Vec<_>>()
    );
}

#[test]
fn knows_the_standard() {
    for text in ["", "a: [b, 'c']\r\n", "--- |\n é\n...\n"] {
        assert_eq!(check_standard(text), Ok(()), "{text:?}");
    }
    let deviates = check_standard("- a\n- é\u{7}\n").unwrap_err();
    let said = deviates.to_string();
    assert!(
        said.starts_with("unprintable-character at 2:4: [1]"),
        "{said}"
    );
    let text = "[a, @]";
    let fault = Parser::new_from_str(text).find_map(Result::err).unwrap();
    let refused = check_standard(text).unwrap_err();
    assert_eq!(refused.to_string(), fault.to_string());
    assert_eq!(refused, NotStandard::Refused(fault));
}

/// A parser that outlives the place where it was made, and one on another thread.
#[test]
fn moves() {
    let (text, made) = ("[a, b]".to_owned(), |text| Parser::new_from_str(text));
    let mut parser = made(&text);
    assert!(parser.next_event().is_some());
    let mut others = vec![parser.clone(), parser];
    for parser in &mut others {
        assert_eq!(parser.by_ref().count(), 7);
    }
    let mut owned =
        Parser::new_from_iter("[a, b]".to_owned().chars().collect::<Vec<_>>().into_iter());
    assert!(owned.next_event().is_some());
    let copy = owned.clone();
    drop(owned);
    let counted = thread::spawn(move || copy.count());
    assert_eq!(counted.join().unwrap(), 7);
    let shared = thread::scope(|scope| scope.spawn(|| made(&text).count()).join().unwrap());
    assert_eq!(shared, 8);
}

/// The events may live for any lifetime that is asked for, at least as long as the text.
#[test]
fn gives_events_of_their_own() {
    fn events(text: &str) -> Vec<Event<'static>> {
        let text = text.to_owned();
        let owned = |item: Result<(Event<'_>, Span), ScanError>| match item.unwrap().0 {
            Event::Scalar(value, style, id, tag) => Event::Scalar(
                Cow::Owned(value.into_owned()),
                style,
                id,
                tag.map(|it| Cow::Owned(it.into_owned())),
            ),
            _ => Event::Nothing,
        };
        let found = Parser::new_from_str(&text).map(owned).collect();
        found
    }
    assert_eq!(events("!!str a").len(), 5);
    fn longer<'a>(text: &'a str) -> Vec<(Event<'a>, Span)> {
        Parser::new_from_str(text).map(Result::unwrap).collect()
    }
    assert_eq!(longer("[]").len(), 6);
}

#[test]
fn prints_faults() {
    let fault = ScanError::new(Marker::new(3, 2, usize::MAX), "no".into());
    assert_eq!(
        fault.to_string(),
        "no at byte 3 line 2 column 18446744073709551616"
    );
    assert_eq!((fault.info(), fault.marker().line()), ("no", 2));
    let boxed: Box<dyn Error + Send + Sync> = Box::new(fault);
    assert!(boxed.source().is_none());
}

#[test]
fn prints_tags() {
    let tag = |handle: &str, suffix: &str| Tag {
        handle: handle.into(),
        suffix: suffix.into(),
    };
    assert_eq!(tag("!", "a").to_string(), "!a");
    assert_eq!(
        tag("tag:yaml.org,2002:", "str").to_string(),
        "tag:yaml.org,2002:!str"
    );
    assert_eq!(tag("", "!").to_string(), "!!");
    assert!(tag("tag:yaml.org,2002:", "x").is_yaml_core_schema());
    assert!(!tag("tag:yaml.org,2002", "x").is_yaml_core_schema());
    let parser = format!("{:?}", Parser::new_from_str("a"));
    assert!(parser.starts_with("Parser {"), "{parser}");
}

/// What the calls of an input return. Each row has a call on a text, its result, and what it leaves.
fn check_input<T: Input>(make: impl Fn(&'static str) -> T) {
    let left = |mut input: T| {
        let mut rest = String::new();
        input.lookahead(1);
        while let Some(c) = input.peek_opt() {
            rest.push(c);
            input.skip();
            input.lookahead(1);
        }
        rest
    };
    let mut input = make("éa b");
    let mut taken = String::new();
    assert_eq!(
        (
            input.fetch_while_is_yaml_non_space(&mut taken),
            taken.as_str()
        ),
        (2, "éa")
    );
    assert_eq!(left(input), " b");
    let mut input = make("a_-9.");
    let mut taken = String::new();
    assert_eq!(
        (input.fetch_while_is_alpha(&mut taken), taken.as_str()),
        (4, "a_-9")
    );
    assert_eq!(left(input), ".");
    let rows = [
        (
            "\t # x\n",
            SkipTabs::Yes,
            5,
            Ok(SkipTabs::Result(true, true)),
            "\n",
        ),
        (
            "\ta",
            SkipTabs::No,
            0,
            Ok(SkipTabs::Result(false, false)),
            "\ta",
        ),
        (
            " #\u{FEFF}",
            SkipTabs::No,
            2,
            Ok(SkipTabs::Result(false, true)),
            "\u{FEFF}",
        ),
        (
            "#x",
            SkipTabs::Yes,
            0,
            Err("comments must be separated from other tokens by whitespace"),
            "#x",
        ),
    ];
    for (text, tabs, passed, answer, rest) in rows {
        let mut input = make(text);
        assert_eq!(input.skip_ws_to_eol(tabs), (passed, answer), "{text:?}");
        assert_eq!(left(input), rest, "{text:?}");
    }
    let mut input = make("ab");
    input.lookahead(4);
    assert!(
        input.next_2_are('a', 'b')
            && input.next_3_are('a', 'b', '\0')
            && input.nth_char_is(3, '\0')
    );
    assert!(!input.next_is_document_indicator() && input.next_is_alpha() && !input.next_is_digit());
    for (text, starts, ends) in [
        ("--- ", true, false),
        ("...", false, true),
        ("---é", false, false),
        ("--", false, false),
    ] {
        let mut input = make(text);
        input.lookahead(4);
        assert_eq!(
            (input.next_is_document_start(), input.next_is_document_end()),
            (starts, ends),
            "{text}"
        );
        assert_eq!(input.next_is_document_indicator(), starts || ends, "{text}");
    }
    for (text, in_block, in_flow) in [
        (": ", false, false),
        (":,", true, false),
        ("]", true, false),
        ("a", true, true),
    ] {
        let mut input = make(text);
        input.lookahead(2);
        let found = (
            input.next_can_be_plain_scalar(false),
            input.next_can_be_plain_scalar(true),
        );
        assert_eq!(found, (in_block, in_flow), "{text}");
    }
    let mut input = make("x\ny");
    assert_eq!(
        (
            input.raw_read_non_breakz_ch(),
            input.raw_read_non_breakz_ch()
        ),
        (Some('x'), None)
    );
    assert_eq!(
        (
            input.look_ch(),
            input.next_is_break(),
            input.next_is_blank_or_break()
        ),
        ('\n', true, true)
    );
    assert_eq!(left(input), "\ny");
    let mut input = make("\0");
    input.lookahead(2);
    assert_eq!(
        (input.peek_opt(), input.next_is_z(), input.peek_nth(1)),
        (Some('\0'), true, '\0')
    );
    input.skip();
    assert_eq!(input.peek_opt(), None);
}

#[test]
fn inputs_answer_alike() {
    check_input(StrInput::new);
    check_input(|text| BufferedInput::new(text.chars()));
    assert!(
        is_z('\0')
            && is_breakz('\r')
            && is_blank_or_breakz('\t')
            && is_alpha('_')
            && is_digit('7')
            && is_flow('[')
    );
    assert!(!is_alpha('é') && !is_digit('a') && !is_flow('(') && !is_breakz('a'));
}

/// A receiver of either kind may be named by its trait.
#[test]
fn receivers_are_objects() {
    struct Last(Option<Span>);
    impl<'input> SpannedEventReceiver<'input> for Last {
        fn on_event(&mut self, _ev: Event<'input>, span: Span) {
            self.0 = Some(span);
        }
    }
    let mut last = Last(None);
    Parser::new_from_str("a\n").load(&mut last, true).unwrap();
    let span = last.0.unwrap();
    assert_eq!(
        (span.start.index(), span.is_empty(), span.len()),
        (2, true, 0)
    );
    let each: &mut dyn EventReceiver<'_> = &mut Outline::default();
    each.on_event(Event::StreamEnd);
}
