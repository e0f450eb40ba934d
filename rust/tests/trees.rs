//! Trees: what their nodes are, beside the events of the same text, and what is refused.

use saphyr_parser::{
    DocumentReader, Documents, Event, Limits, LoadError, Marker, Node, NodeKind, Parser, ReadError,
    Span, Tag, Trees,
};
use std::borrow::Cow;
use std::cell::Cell;
use std::io::{self, ErrorKind, Read, Write};
use std::os::unix::net::UnixStream;
use std::sync::{Mutex, OnceLock};
use std::{fs, panic, ptr, thread};

const TEXT: &str = "%TAG !e! tag:e,2000:\n--- !e!a\nport: &x 8080\n? [k]\n: *x\nhosts: [a, 'b']\nport: 1\n--- >\n t\n";

fn load(text: &str) -> Trees<'_> {
    Trees::load(text, Limits::default()).unwrap()
}

#[test]
fn tells_what_nodes_are() {
    let trees = load(TEXT);
    let root = &trees[0];
    assert_eq!(trees.iter().count(), 2);
    assert_eq!(
        (root.kind(), root.len(), root.is_empty()),
        (NodeKind::Mapping, 4, false)
    );
    assert_eq!(
        root.tag().unwrap(),
        Tag {
            handle: "tag:e,2000:".into(),
            suffix: "a".into()
        }
    );
    assert_eq!(root["port"].as_str(), Some("8080"));
    assert_eq!(root["hosts"][1].as_str(), Some("b"));
    let hosts: Vec<_> = root["hosts"].items().filter_map(Node::as_str).collect();
    assert_eq!(hosts, ["a", "b"]);
    let (_, alias) = root.pairs().nth(1).unwrap();
    assert_eq!(alias.kind(), NodeKind::Alias);
    let named = trees.node_of_anchor(alias.as_alias().unwrap()).unwrap();
    assert_eq!(
        (named.as_str(), named.anchor()),
        (Some("8080"), alias.as_alias())
    );
    assert_eq!(
        (trees.expanded_nodes(0), trees.expanded_nodes(2)),
        (Some(12), None)
    );
    assert_eq!(
        (trees[1].as_str(), trees[1].items().count()),
        (Some("t\n"), 0)
    );
    assert!(root.get("k").is_none() && root.item(0).is_none() && trees.get(2).is_none());
    assert_eq!(format!("{:?}", root["hosts"]), r#"["a", "b"]"#);
}

#[test]
fn says_why_nothing_is_loaded() {
    let refused = Trees::load("a: [b", Limits::default()).unwrap_err();
    let told = "while parsing a flow sequence, expected ',' or ']' at byte 5 line 2 column 1";
    assert_eq!(refused.to_string(), told);
    for limits in [Limits { nodes: 2, depth: 9 }, Limits { nodes: 9, depth: 0 }] {
        let large = Trees::load("[a, b]", limits).unwrap_err();
        assert!(matches!(large, LoadError::TooLarge(_)), "{large}");
    }
    let place = Marker::new(4, 1, 4);
    let large = Trees::load("[a, b]", Limits { nodes: 2, depth: 1 }).unwrap_err();
    assert_eq!(large, LoadError::TooLarge(place));
}

#[test]
fn gives_documents_one_by_one() {
    let all = load(TEXT);
    let each: Vec<_> = Documents::new(TEXT, Limits::default())
        .map(Result::unwrap)
        .collect();
    assert_eq!(each.len(), 2);
    for (index, one) in each.iter().enumerate() {
        let (mut told, mut wanted) = (Vec::new(), Vec::new());
        tell(&one[0], &mut told);
        tell(&all[index], &mut wanted);
        assert_eq!(told, wanted);
        assert_eq!(one.expanded_nodes(0), all.expanded_nodes(index));
        assert!(one.get(1).is_none());
    }
    let mut documents = Documents::new("a\n--- [b, c]\n--- d\n", Limits { nodes: 2, depth: 1 });
    assert_eq!(documents.next().unwrap().unwrap()[0].as_str(), Some("a"));
    let large = documents.next().unwrap().unwrap_err();
    assert_eq!(large, LoadError::TooLarge(Marker::new(10, 2, 8)));
    assert!(documents.next().is_none() && documents.next().is_none());
    let mut documents = Documents::new("a\n--- [b\n", Limits::default());
    assert_eq!(documents.next().unwrap().unwrap().iter().count(), 1);
    let refused = documents.next().unwrap().unwrap_err();
    assert!(matches!(refused, LoadError::Refused(_)), "{refused}");
    assert!(documents.next().is_none());
    assert!(Documents::new("", Limits::default()).next().is_none());
}

/// Gives a few bytes at a time, now and then after it was interrupted, and counts them. Then it ends, or fails.
struct Few<'a> {
    left: &'a [u8],
    most: usize,
    read: &'a Cell<usize>,
    fails: bool,
}

impl Read for Few<'_> {
    fn read(&mut self, into: &mut [u8]) -> io::Result<usize> {
        self.read.set(self.read.get() + 1);
        if self.read.get() % 3 == 0 {
            return Err(io::ErrorKind::Interrupted.into());
        }
        if self.left.is_empty() && self.fails {
            return Err(io::Error::new(io::ErrorKind::Other, "gone"));
        }
        let most = self.most;
        self.left.read(&mut into[..most])
    }
}

fn few<'a>(text: &'a str, most: usize, read: &'a Cell<usize>, fails: bool) -> Few<'a> {
    let left = text.as_bytes();
    Few {
        left,
        most,
        read,
        fails,
    }
}

#[test]
fn reads_documents_in_pieces() {
    let text = &format!("{TEXT}--- \u{e9}\u{1f600}\n...\n# e\n");
    let all = load(text);
    for most in [1, 2, 3, 7, 4096] {
        let read = Cell::new(0);
        let reader = DocumentReader::new(few(text, most, &read, false), Limits::default());
        let each: Vec<_> = reader.map(Result::unwrap).collect();
        assert_eq!(each.len(), 3);
        for (index, one) in each.iter().enumerate() {
            let (mut told, mut wanted) = (Vec::new(), Vec::new());
            tell(&one[0], &mut told);
            tell(&all[index], &mut wanted);
            assert_eq!(told, wanted, "{most} bytes at a time");
            assert_eq!(one.expanded_nodes(0), all.expanded_nodes(index));
            assert!(one.get(1).is_none());
        }
    }
    let read = Cell::new(0);
    let mut documents = DocumentReader::new(few("a\n---\nb\n", 1, &read, false), Limits::default());
    assert_eq!(documents.next().unwrap().unwrap()[0].as_str(), Some("a"));
    assert!(read.get() < 10, "a document waits for the next one");
    assert_eq!(documents.map(Result::unwrap).count(), 1);
    let mut documents = DocumentReader::new(&b"- a\n---\n- b\n- c\n"[..], Limits::default());
    let first = documents.next().unwrap().unwrap();
    drop(documents);
    assert_eq!(
        first[0][0].as_str(),
        Some("a"),
        "a tree outlives its reader"
    );
}

/// What the documents of a text end with, behind the first, that are read three bytes at a time.
fn ending(text: &[u8], limits: Limits, waiting: usize, fails: bool) -> String {
    let read = Cell::new(0);
    let reader = Few {
        left: text,
        most: 3,
        read: &read,
        fails,
    };
    let mut documents = DocumentReader::new(reader, limits).limits(usize::MAX, waiting);
    assert_eq!(documents.next().unwrap().unwrap()[0].as_str(), Some("a"));
    let ending = documents.next().unwrap().err().unwrap();
    assert!(documents.next().is_none() && documents.next().is_none());
    assert_eq!(
        std::error::Error::source(&ending).is_none(),
        matches!(ending, ReadError::TooMuch(_))
    );
    ending.to_string()
}

#[test]
fn says_why_no_document_is_read() {
    let any = Limits::default();
    let refused = ending(b"a\n--- [b\n", any, 99, false);
    assert!(
        refused.starts_with("while parsing a flow sequence"),
        "{refused}"
    );
    let large = ending(b"a\n--- [b, c]\n", Limits { nodes: 2, depth: 1 }, 99, false);
    assert_eq!(large, "the trees are larger than allowed at 2:9");
    assert_eq!(ending(b"a\n--- b\n", any, 99, true), "gone");
    let bad = ending(b"a\n---\n\xc3\xa9\xf0\x9f\xff", any, 99, false);
    assert_eq!(bad, "the text is not UTF-8 from byte 8 on");
    let cut = ending(b"a\n---\n\xc3\xa9\xf0\x9f\x98", any, 99, false);
    assert_eq!(cut, "the text is not UTF-8 from byte 8 on");
    let endless = [&b"a\n--- '"[..], &[b'b'; 99]].concat();
    let waits = ending(&endless, any, 40, false);
    assert_eq!(
        waits,
        "more bytes wait for the next event than may, behind 2:4"
    );
    let long = DocumentReader::new(&b"a\n--- [b, c]\n"[..], any).limits(6, 99);
    let fault = long.filter_map(Result::err).next().unwrap().to_string();
    assert!(
        fault.contains("4294967295") && fault.ends_with("line 2 column 6"),
        "{fault}"
    );
    let utf16 = DocumentReader::new(&b"\xff\xfea\0"[..], any)
        .next()
        .unwrap();
    assert!(matches!(utf16, Err(ReadError::NotUtf8(it)) if it.is_utf16() && it.index() == 0));
    assert!(DocumentReader::new(&b""[..], any).next().is_none());
}

/// Documents whose end is in front of a byte that is not UTF-8 come first, wherever the text is cut.
#[test]
fn gives_what_is_in_front_of_wrong_bytes() {
    let texts = [
        (&b"\xc3\xa9\n---\nb\n...\nc\xf0\x9f\xff"[..], 14),
        (b"\xc3\xa9\n---\nb\n...\nc\xf0\x9f\x98", 14),
        (b"\xc3\xa9\n---\nb\n...\n\xffc", 13),
    ];
    for (text, index) in texts {
        for most in 1..=text.len() {
            let mut documents = DocumentReader::from_pieces(text.chunks(most), Limits::default());
            for wanted in ["\u{e9}", "b"] {
                let document = documents.next().unwrap().unwrap();
                assert_eq!(document[0].as_str(), Some(wanted), "{most} bytes at a time");
            }
            let fault = documents.next().unwrap();
            assert!(
                matches!(&fault, Err(ReadError::NotUtf8(it)) if it.index() == index),
                "{fault:?}"
            );
            assert!(documents.next().is_none());
        }
    }
}

#[test]
fn takes_pieces_of_an_iterator() {
    let each = |pieces: &[&str]| {
        let documents = DocumentReader::from_pieces(pieces, Limits::default());
        let texts = documents.map(|it| it.unwrap()[0].as_str().map(str::to_owned).unwrap());
        texts.collect::<Vec<_>>()
    };
    assert_eq!(each(&["", "a\n-", "", "--\nb", ""]), ["a", "b"]);
    assert!(each(&[]).is_empty() && each(&["", ""]).is_empty());
    let long = "a".repeat(10_000);
    assert_eq!(each(&[&long, "b\n--- c"]), [long + "b", "c".to_owned()]);
    let owned = vec![b"\xc3".to_vec(), b"\xa9".to_vec()];
    let mut documents = DocumentReader::from_pieces(owned, Limits::default());
    assert_eq!(
        documents.next().unwrap().unwrap()[0].as_str(),
        Some("\u{e9}")
    );
}

/// Of a socket a document comes before anything of the next one, and where nothing came the reader goes on.
#[test]
fn reads_a_socket() {
    let (mut out, socket) = UnixStream::pair().unwrap();
    socket.set_nonblocking(true).unwrap();
    let mut documents = DocumentReader::new(socket, Limits::default());
    let mut next = || {
        documents
            .next()
            .map(|it| it.map(|trees| format!("{trees:?}")))
    };
    let waits = |it: Option<Result<String, ReadError>>| matches!(it, Some(Err(ReadError::Read(it))) if it.kind() == ErrorKind::WouldBlock);
    assert!(waits(next()));
    for (piece, wanted) in [
        ("- a\n- \u{e9}", None),
        ("\n---\n", Some(r#"[["a", "é"]]"#)),
        ("b: c\n", None),
        ("...\n", Some(r#"[{"b": "c"}]"#)),
        ("d\n", None),
    ] {
        out.write_all(piece.as_bytes()).unwrap();
        if let Some(wanted) = wanted {
            assert_eq!(next().unwrap().unwrap(), wanted);
        }
        assert!(waits(next()) && waits(next()), "{piece:?}");
    }
    drop(out);
    assert_eq!(next().unwrap().unwrap(), r#"["d"]"#);
    assert!(next().is_none() && next().is_none());
}

#[test]
fn goes_to_another_thread() {
    let trees = load("a: b");
    thread::scope(|scope| {
        scope.spawn(move || assert_eq!(trees[0]["a"].as_str(), Some("b")));
    });
}

/// What a function panics with, and its line.
fn panicked(call: impl FnOnce() -> usize + panic::UnwindSafe) -> (String, u32) {
    static SAID: Mutex<(String, u32)> = Mutex::new((String::new(), 0));
    static ALONE: Mutex<()> = Mutex::new(());
    let _alone = ALONE.lock();
    let before = panic::take_hook();
    panic::set_hook(Box::new(|it| {
        let line = it.location().map_or(0, panic::Location::line);
        *SAID.lock().unwrap() = (it.to_string(), line);
    }));
    let result = panic::catch_unwind(call);
    panic::set_hook(before);
    assert!(result.is_err());
    SAID.lock().unwrap().clone()
}

#[test]
fn says_what_is_not_there() {
    let text = "a: &x {b: [1]}\nc: *x\n";
    let (here, said) = (line!(), "there is no key \"d\" in the mapping at 1:4");
    let (told, line) = panicked(|| load(text)[0]["c"]["d"].len());
    assert!(told.contains(said) && line == here + 1, "{told} {line}");
    let (told, _) = panicked(|| load(text)[0]["a"]["b"][1].len());
    assert!(
        told.contains("there is no item 1 in the sequence at 1:11"),
        "{told}"
    );
    let (told, _) = panicked(|| load(text)[0]["a"]["b"][0]["e"].len());
    assert!(
        told.contains("there is no key \"e\" in the scalar at 1:12"),
        "{told}"
    );
    let (told, _) = panicked(|| load(text)[1].len());
    assert!(told.contains("there is no document 1, but 1"), "{told}");
}

#[test]
fn follows_aliases() {
    let text = "&k a: &x {b: [&y 1, *y]}\nc: *x\n? *k\n: d\n*y : &z [*z]\ne: *z\n";
    let trees = load(text);
    let root = &trees[0];
    let value = |key| {
        root.pairs()
            .find(|(it, _)| it.as_str() == Some(key))
            .unwrap()
            .1
    };
    // Look-ups by name follow, walks do not.
    assert_eq!(root["c"]["b"][0].as_str(), Some("1"));
    assert_eq!(root["c"]["b"][1].kind(), NodeKind::Alias);
    assert_eq!((value("c").len(), value("c").pairs().count()), (0, 0));
    assert!(value("c").item(0).is_none() && value("e").items().next().is_none());
    assert!(ptr::eq(root["c"].followed(), &root["a"]) && ptr::eq(root.followed(), root));
    // The first of equal keys counts, and an alias as a key has its node's text.
    assert!(ptr::eq(&root["a"], value("a")));
    let looped = &root["1"];
    assert!(ptr::eq(&looped[0][0], &looped[0]) && looped[0].kind() == NodeKind::Alias);
}

#[test]
fn merges_mappings() {
    let text = "a: &a {x: 1, y: 2, '<<': 3}\nb: &b {y: 4, z: [5]}\nc: {<<: [*a, *b], x: 6, x: 7}\n\
                d: &d {<<: *d, w: 8}\ne: {<<: 9, ? [k] : 10}\nf: {<<: *d, ! <<: *a}\n";
    let trees = load(text);
    let keys = |name: &str| {
        let pairs = trees[0][name].merged();
        let texts = pairs.map(|(key, value)| format!("{key:?} {value:?}"));
        texts.collect::<Vec<_>>().join(", ")
    };
    assert_eq!(keys("c"), r#""x" "6", "y" "2", "<<" "3", "z" ["5"]"#);
    assert_eq!(keys("d"), r#""w" "8""#);
    assert_eq!(keys("e"), r#""<<" "9", ["k"] "10""#);
    assert_eq!(keys("f"), r#""<<" *1, "w" "8""#);
    assert_eq!(trees[0]["b"]["z"].merged().count(), 0);
}

#[test]
fn ends_in_a_bomb_and_in_cycles() {
    let mut text = String::from("m0: &m0 {k0: v}\n");
    for n in 1..60 {
        let of = n - 1;
        text += &format!("m{n}: &m{n} {{<<: [*m{of}, *m{of}, *m{n}], k{n}: *m{of}}}\n");
    }
    let trees = Trees::from_string(text, Limits::default()).unwrap();
    assert_eq!(trees[0]["m59"].merged().count(), 60);
    assert_eq!(trees.expanded_nodes(0), Some(u64::MAX));
    assert_eq!(format!("{trees:?}").matches("v\"").count(), 1);
}

/// What holds a text of its own can be stored, and shared.
static SHARED: OnceLock<Trees<'static>> = OnceLock::new();

#[test]
fn keeps_its_text_and_is_shared() {
    fn is_shared<T: Send + Sync>() {}
    is_shared::<Trees<'static>>();
    let shared = SHARED.get_or_init(|| {
        let text: String = (0..999)
            .map(|n| format!("k{n}: &a{n} [v{n}]\nl{n}: *a{n}\n"))
            .collect();
        Trees::from_string(text, Limits::default()).unwrap()
    });
    thread::scope(|scope| {
        for start in 0..8 {
            scope.spawn(move || {
                for n in (start..999).step_by(7) {
                    let value = &shared[0][format!("l{n}").as_str()][0];
                    assert_eq!(value.as_str(), Some(format!("v{n}").as_str()));
                }
            });
        }
    });
    let refused = Trees::from_string("[".to_owned(), Limits::default()).unwrap_err();
    assert!(matches!(refused, LoadError::Refused(_)), "{refused}");
}

/// The events of a node, and where they are: those of a tree that a parser would have given.
fn tell<'a>(node: &'a Node, told: &mut Vec<(Event<'a>, Marker)>) {
    let (start, tag) = (node.span().start, node.tag().map(Cow::Owned));
    let id = node.anchor().unwrap_or_default();
    match node.kind() {
        NodeKind::Alias => told.push((Event::Alias(node.as_alias().unwrap()), start)),
        NodeKind::Scalar => {
            let text = node.as_str().unwrap().into();
            told.push((Event::Scalar(text, node.style().unwrap(), id, tag), start));
        }
        NodeKind::Sequence => {
            told.push((Event::SequenceStart(id, tag), start));
            node.items().for_each(|it| tell(it, told));
            told.push((Event::SequenceEnd, node.span().end));
        }
        NodeKind::Mapping => {
            told.push((Event::MappingStart(id, tag), start));
            node.pairs().for_each(|(key, value)| {
                tell(key, told);
                tell(value, told);
            });
            told.push((Event::MappingEnd, node.span().end));
        }
    }
}

/// Where an event of a tree is said to be.
fn place(event: &Event<'_>, span: Span) -> Option<Marker> {
    match event {
        Event::SequenceEnd | Event::MappingEnd => Some(span.end),
        Event::StreamStart | Event::StreamEnd | Event::DocumentStart(_) | Event::DocumentEnd => {
            None
        }
        _ => Some(span.start),
    }
}

#[test]
fn has_the_events_of_each_case() {
    let data = concat!(
        env!("CARGO_MANIFEST_DIR"),
        "/../crates/test_cases/data/worked.txt"
    );
    let cases = fs::read_to_string(data).unwrap();
    let texts = cases.lines().filter_map(|line| line.strip_prefix("< "));
    let limits = Limits {
        nodes: 10_000,
        depth: 300,
    };
    for text in texts.map(|it| it.replace("\\n", "\n")).chain([TEXT.into()]) {
        let read: Result<Vec<_>, _> = Parser::new_from_str(&text).collect();
        let trees = Trees::load(&text, limits);
        let (Ok(read), Ok(trees)) = (&read, &trees) else {
            let refused = LoadError::Refused(read.unwrap_err());
            let pieces = DocumentReader::from_pieces(text.as_bytes().chunks(1), limits).last();
            assert!(matches!(pieces, Some(Err(ReadError::Load(it))) if it == refused));
            assert_eq!(refused, trees.unwrap_err());
            continue;
        };
        let mut told = Vec::new();
        trees.iter().for_each(|root| tell(root, &mut told));
        let pieces = DocumentReader::from_pieces(text.as_bytes().chunks(1), limits);
        let each: Vec<_> = pieces.map(Result::unwrap).collect();
        let mut told_in_pieces = Vec::new();
        each.iter().for_each(|it| tell(&it[0], &mut told_in_pieces));
        assert_eq!(told_in_pieces, told, "{text:?}");
        let wanted = read
            .iter()
            .filter_map(|(event, span)| Some((event.clone(), place(event, *span)?)));
        assert_eq!(told, wanted.collect::<Vec<_>>(), "{text:?}");
    }
}
