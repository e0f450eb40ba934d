//! Trees, over the library's calls that load them and tell what their nodes are.
//!
//! The library keeps the trees, and knows a node by its number. Here each node is a value of its own, so that nodes can
//! be lent: it has its number, and the address of what the library's handle is in, which is on the heap and stays there
//! until the `Trees` are dropped. No node is handed out by value, so none outlives them. Any thread may ask for what a
//! node is: each call takes a lock, since the library allows one call at a time.

use super::{copy_of_tag, expect, marker, style};
use super::{Face, Handle, Record, END, EVENT, MORE, OK, REFUSED, TOO_LONG, TOO_MUCH};
use crate::event::Tag;
use crate::scanner::{Marker, ScalarStyle, ScanError, Span};
use std::collections::HashSet;
use std::error::Error;
use std::fmt;
use std::iter::FusedIterator;
use std::ops::Index;
use std::ptr::NonNull;
use std::sync::{Mutex, PoisonError};

const LOADED: i32 = 3;
const TOO_LARGE: i32 = -8;

/// The tag of a key `<<`, if it has one.
const MERGE: &str = "tag:yaml.org,2002:merge";

/// `saphyr_load` or `saphyr_load_next`.
type Load = unsafe extern "C" fn(*mut Handle, usize, usize, *mut Record) -> i32;

extern "C" {
    fn saphyr_load(parser: *mut Handle, nodes: usize, depth: usize, event: *mut Record) -> i32;
    fn saphyr_load_next(parser: *mut Handle, nodes: usize, depth: usize, event: *mut Record)
        -> i32;
    fn saphyr_root(parser: *mut Handle, index: usize) -> usize;
    fn saphyr_expanded(parser: *mut Handle, index: usize) -> u64;
    fn saphyr_describe(parser: *mut Handle, node: usize, event: *mut Record) -> i32;
    fn saphyr_count(parser: *mut Handle, node: usize) -> usize;
    fn saphyr_item(parser: *mut Handle, node: usize, index: usize) -> usize;
    fn saphyr_key(parser: *mut Handle, node: usize, index: usize) -> usize;
    fn saphyr_value(parser: *mut Handle, node: usize, index: usize) -> usize;
    fn saphyr_get(parser: *mut Handle, node: usize, key: *const u8, len: usize) -> usize;
    fn saphyr_follow(parser: *mut Handle, node: usize) -> usize;
    fn saphyr_anchored(parser: *mut Handle, id: usize) -> usize;
}

/// How large trees may be.
#[derive(Clone, Copy, Debug, PartialEq, Eq)]
pub struct Limits {
    /// How many nodes they may have in all. An alias counts as one.
    pub nodes: usize,
    /// How many collections may be open at once.
    pub depth: usize,
}

impl Default for Limits {
    /// A million nodes, and a depth of 200.
    fn default() -> Limits {
        Limits {
            nodes: 1_000_000,
            depth: 200,
        }
    }
}

/// Why trees are not loaded.
#[derive(Clone, Debug, PartialEq, Eq)]
pub enum LoadError {
    /// The text is refused.
    Refused(ScanError),
    /// The trees would be larger than allowed, from this place on.
    TooLarge(Marker),
}

impl fmt::Display for LoadError {
    fn fmt(&self, f: &mut fmt::Formatter<'_>) -> fmt::Result {
        match self {
            LoadError::Refused(error) => error.fmt(f),
            LoadError::TooLarge(place) => write!(f, "the trees are larger than allowed at {place}"),
        }
    }
}

impl Error for LoadError {}

/// What the library keeps, and its nodes by their numbers.
struct Kept<'input> {
    face: Face<'input>,
    /// Held during each call with the parser.
    lock: Mutex<()>,
    nodes: Vec<Node>,
    /// The text, if the trees own it. It is dropped behind the parser over it.
    _text: Option<Text>,
}

/// A text on the heap, which stays where it is until it is dropped.
pub(crate) struct Text(NonNull<str>);

impl Text {
    fn new(text: String) -> Text {
        Text(NonNull::from(Box::leak(text.into_boxed_str())))
    }

    /// The text.
    ///
    /// # Safety
    /// It is not read once the `Text` is dropped.
    unsafe fn lent<'a>(&self) -> &'a str {
        // SAFETY: it is there until then, and nothing changes it.
        unsafe { self.0.as_ref() }
    }
}

impl Drop for Text {
    fn drop(&mut self) {
        // SAFETY: `new` made it from a box, and it is lent no more.
        drop(unsafe { Box::from_raw(self.0.as_ptr()) });
    }
}

/// The trees of a text's documents.
///
/// ```
/// use saphyr_parser::{Limits, Trees};
///
/// let trees = Trees::load("server: {port: 8080, hosts: [a, b]}", Limits::default()).unwrap();
/// let server = &trees[0]["server"];
/// assert_eq!(server["port"].as_str(), Some("8080"));
/// assert_eq!(server["port"].span().start.to_string(), "1:16");
/// let hosts: Vec<_> = server["hosts"].items().filter_map(|it| it.as_str()).collect();
/// assert_eq!(hosts, ["a", "b"]);
/// assert!(server.get("name").is_none());
/// ```
pub struct Trees<'input> {
    kept: NonNull<Kept<'input>>,
}

// SAFETY: a `Face` may go to another thread, and a text that is owned is there for it alone. The nodes lead only to the
// `Face`, and none is lent while the trees move.
unsafe impl Send for Trees<'_> {}

// SAFETY: each call with the `Face` holds the lock. What is read without it, the nodes and their texts, stays unchanged
// until the trees are dropped.
unsafe impl Sync for Trees<'_> {}

// SAFETY: the same, since a node is lent for less than its trees.
unsafe impl Sync for Node {}

impl<'input> Trees<'input> {
    /// Loads all documents of a text.
    pub fn load(text: &'input str, limits: Limits) -> Result<Trees<'input>, LoadError> {
        let mut face = Face::new(text, false);
        expect(face.load(saphyr_load, limits)?, OK);
        Ok(Trees::of(face, None))
    }

    /// Loads all documents of a text, which the trees keep. So a function can return them, and a `static` have them.
    ///
    /// ```
    /// use saphyr_parser::{Limits, Trees};
    /// use std::{error::Error, fs, path::Path};
    ///
    /// fn config(path: &Path) -> Result<Trees<'static>, Box<dyn Error>> {
    ///     Ok(Trees::from_string(fs::read_to_string(path)?, Limits::default())?)
    /// }
    /// # assert!(config(Path::new("/nowhere")).is_err());
    /// ```
    pub fn from_string(text: String, limits: Limits) -> Result<Trees<'static>, LoadError> {
        let text = Text::new(text);
        // SAFETY: the parser is dropped before it: here, since it is declared later, and in `Kept` by their order.
        let mut face = Face::new(unsafe { text.lent() }, false);
        expect(face.load(saphyr_load, limits)?, OK);
        Ok(Trees::of(face, Some(text)))
    }

    /// With the nodes of a parser that has loaded its trees, and its text, if that is to be kept.
    pub(crate) fn of(face: Face<'input>, text: Option<Text>) -> Trees<'input> {
        let numbers = (0..).take_while(|it| face.told(*it).is_some());
        let count = numbers.count();
        let kept = NonNull::from(Box::leak(Box::new(Kept {
            face,
            lock: Mutex::new(()),
            nodes: Vec::with_capacity(count),
            _text: text,
        })));
        let node = |number| Node {
            kept: kept.cast(),
            number,
        };
        // SAFETY: nothing else refers to it yet.
        unsafe { &mut *kept.as_ptr() }
            .nodes
            .extend((0..count).map(node));
        Trees { kept }
    }

    fn kept(&self) -> &Kept<'input> {
        // SAFETY: `of` made it, and only `drop` takes it.
        unsafe { self.kept.as_ref() }
    }

    /// The root of the document with this index, from 0.
    #[must_use]
    pub fn get(&self, index: usize) -> Option<&Node> {
        // SAFETY: the handle has a parser, which no other call uses.
        self.kept()
            .node(|handle| unsafe { saphyr_root(handle, index) })
    }

    /// The roots of all documents.
    pub fn iter(&self) -> impl Iterator<Item = &Node> {
        (0..).map_while(|index| self.get(index))
    }

    /// How many nodes a document has if each alias is a copy of its node: `u64::MAX` if there are more, or if an alias
    /// is inside its own node. `None` if there is no such document.
    #[must_use]
    pub fn expanded_nodes(&self, index: usize) -> Option<u64> {
        self.get(index)?;
        // SAFETY: the handle has a parser, which no other call uses.
        let count = |face: &Face<'_>| unsafe { saphyr_expanded(face.handle.as_ptr(), index) };
        Some(self.kept().asked(count))
    }

    /// The node whose anchor has this id, so the one that an alias names. An alias may be inside that node.
    #[must_use]
    pub fn node_of_anchor(&self, id: usize) -> Option<&Node> {
        // SAFETY: the handle has a parser, which no other call uses.
        self.kept()
            .node(|handle| unsafe { saphyr_anchored(handle, id) })
    }
}

/// The documents of a text, each loaded once it is asked for, as `Trees` of one document. So a text of many documents
/// takes the memory of those that are kept. After an error come no more.
///
/// ```
/// use saphyr_parser::{Documents, Limits, LoadError};
///
/// fn names(text: &str) -> Result<Vec<String>, LoadError> {
///     let mut found = Vec::new();
///     for document in Documents::new(text, Limits::default()) {
///         if let Some(name) = document?[0].get("name").and_then(|it| it.as_str()) {
///             found.push(name.to_owned());
///         }
///     }
///     Ok(found)
/// }
///
/// assert_eq!(names("name: a\n---\n- b\n---\nname: c\n").unwrap(), ["a", "c"]);
/// ```
pub struct Documents<'input> {
    /// The parser that is before the next document, if there may be one.
    face: Option<Face<'input>>,
    limits: Limits,
}

impl<'input> Documents<'input> {
    /// The documents of a text, with limits on each of them.
    #[must_use]
    pub fn new(text: &'input str, limits: Limits) -> Documents<'input> {
        Documents {
            face: Some(Face::new(text, false)),
            limits,
        }
    }
}

impl<'input> Iterator for Documents<'input> {
    type Item = Result<Trees<'input>, LoadError>;

    fn next(&mut self) -> Option<Self::Item> {
        let mut face = self.face.take()?;
        match face.load_next(self.limits) {
            Ok(Next::Document) => {
                // The tree stays with its parser. A clone has none, and goes on behind the document.
                self.face = Some(face.clone());
                Some(Ok(Trees::of(face, None)))
            }
            Ok(Next::End) => None,
            Ok(Next::More | Next::TooMuch(_)) => unreachable!("a text in memory is all there"),
            Err(error) => Some(Err(error)),
        }
    }
}

impl FusedIterator for Documents<'_> {}

impl Drop for Trees<'_> {
    fn drop(&mut self) {
        // SAFETY: `of` made it from a box. No node is lent any more.
        drop(unsafe { Box::from_raw(self.kept.as_ptr()) });
    }
}

impl Kept<'_> {
    /// What a call with the parser answers. No other call happens at once.
    fn asked<R>(&self, call: impl FnOnce(&Face<'_>) -> R) -> R {
        let _alone = self.lock.lock().unwrap_or_else(PoisonError::into_inner);
        call(&self.face)
    }

    /// The node whose number a call answers.
    fn node(&self, call: impl FnOnce(*mut Handle) -> usize) -> Option<&Node> {
        self.nodes
            .get(self.asked(|face| call(face.handle.as_ptr())))
    }
}

/// What a call for the next document found.
pub enum Next {
    /// The face has its tree.
    Document,
    /// There is none.
    End,
    /// It is not all there yet. The next call goes on with it.
    More,
    /// The same, and more waits than may, behind this place.
    TooMuch(Marker),
}

impl Face<'_> {
    /// Loads the next document, as far as it is there.
    pub fn load_next(&mut self, limits: Limits) -> Result<Next, LoadError> {
        match self.load(saphyr_load_next, limits)? {
            LOADED => Ok(Next::Document),
            MORE => Ok(Next::More),
            TOO_MUCH => Ok(Next::TooMuch(marker(&self.record.start))),
            status => {
                expect(status, END);
                Ok(Next::End)
            }
        }
    }

    /// Loads trees by this call. Returns its status, if that is not why they aren't loaded.
    fn load(&mut self, call: Load, limits: Limits) -> Result<i32, LoadError> {
        let Limits { nodes, depth } = limits;
        // SAFETY: the handle has a parser, which no other call uses, and the record was zeroed.
        let status = unsafe { call(self.handle.get_mut(), nodes, depth, &mut self.record) };
        let start = marker(&self.record.start);
        match status {
            // SAFETY: this was the last call with the parser.
            REFUSED | TOO_LONG => Err(LoadError::Refused(ScanError::new_str(start, unsafe {
                self.record.value.text()
            }))),
            TOO_LARGE => Err(LoadError::TooLarge(start)),
            _ => Ok(status),
        }
    }

    /// What the library tells of a node, if there is one with this number. Its texts stay where they are until the
    /// parser is freed.
    fn told(&self, number: usize) -> Option<Record> {
        let mut record = Record::zeroed();
        // SAFETY: the handle has a parser, which no other call uses, since a `Face` is no `Sync`, and who shares one
        // holds a lock. The record is zeroed.
        let status = unsafe { saphyr_describe(self.handle.as_ptr(), number, &mut record) };
        if status != EVENT {
            expect(status, END);
            return None;
        }
        Some(record)
    }
}

/// What kind of node it is.
#[derive(Clone, Copy, Debug, PartialEq, Eq)]
pub enum NodeKind {
    /// An alias of another node.
    Alias,
    /// A scalar.
    Scalar,
    /// A sequence.
    Sequence,
    /// A mapping.
    Mapping,
}

/// A node of a tree. It lives as long as its `Trees` are borrowed.
pub struct Node {
    kept: NonNull<Kept<'static>>,
    number: usize,
}

impl Node {
    fn kept(&self) -> &Kept<'static> {
        // SAFETY: it is there as long as the trees, and a node is only lent for less. The text of the parser in it may
        // live shorter than 'static, but nothing here reads that text or hands it out.
        unsafe { self.kept.as_ref() }
    }

    fn told(&self) -> Record {
        self.kept()
            .asked(|face| face.told(self.number))
            .expect("a node's number is in its trees")
    }

    /// The node that an alias names, which is none itself, and any other node itself. An alias may be inside the node
    /// that it names: [`Trees::expanded_nodes`] says how many nodes a walk meets that follows each alias.
    ///
    /// ```
    /// use saphyr_parser::{Limits, Trees};
    ///
    /// let trees = Trees::load("a: &x {port: 80}\nb: *x\nc: [*x]\n", Limits::default()).unwrap();
    /// assert_eq!(trees[0]["b"]["port"].as_str(), Some("80"));
    /// let items: Vec<_> = trees[0]["c"].items().map(|it| it.followed().len()).collect();
    /// assert_eq!(items, [1]);
    /// ```
    #[must_use]
    pub fn followed(&self) -> &Node {
        // SAFETY: the handle has a parser, which no other call uses.
        self.kept()
            .node(|handle| unsafe { saphyr_follow(handle, self.number) })
            .expect("the node of an alias is in its trees")
    }

    /// What kind of node it is.
    #[must_use]
    pub fn kind(&self) -> NodeKind {
        match self.told().kind {
            5 => NodeKind::Alias,
            6 => NodeKind::Scalar,
            7 => NodeKind::Sequence,
            _ => NodeKind::Mapping,
        }
    }

    /// The text of a scalar.
    #[must_use]
    pub fn as_str(&self) -> Option<&str> {
        let told = self.told();
        // SAFETY: the text stays until the parser is freed, which is not before the trees are dropped.
        (told.kind == 6).then(|| unsafe { told.value.text() })
    }

    /// How a scalar is written. A plain one may be a number or another value, and a quoted one is a text.
    #[must_use]
    pub fn style(&self) -> Option<ScalarStyle> {
        let told = self.told();
        (told.kind == 6).then(|| style(told.style))
    }

    /// The tag of a node that has one.
    #[must_use]
    pub fn tag(&self) -> Option<Tag> {
        let told = self.told();
        // SAFETY: the texts stay until the parser is freed.
        (told.has_tag != 0).then(|| unsafe { copy_of_tag(&told) })
    }

    /// The id of a node's anchor. An alias has none of its own.
    #[must_use]
    pub fn anchor(&self) -> Option<usize> {
        let told = self.told();
        (told.kind != 5 && told.anchor != 0).then_some(told.anchor)
    }

    /// The id of the anchor that an alias names.
    #[must_use]
    pub fn as_alias(&self) -> Option<usize> {
        let told = self.told();
        (told.kind == 5).then_some(told.anchor)
    }

    /// Its place, from the start of its first event to the end of its last.
    #[must_use]
    pub fn span(&self) -> Span {
        self.told().span()
    }

    /// How many items a sequence has, or how many pairs a mapping.
    #[must_use]
    pub fn len(&self) -> usize {
        // SAFETY: the handle has a parser, which no other call uses.
        let count = |face: &Face<'_>| unsafe { saphyr_count(face.handle.as_ptr(), self.number) };
        self.kept().asked(count)
    }

    /// Whether nothing is in it.
    #[must_use]
    pub fn is_empty(&self) -> bool {
        self.len() == 0
    }

    /// The item of a sequence with this index.
    #[must_use]
    pub fn item(&self, index: usize) -> Option<&Node> {
        // SAFETY: the handle has a parser, which no other call uses.
        self.kept()
            .node(|handle| unsafe { saphyr_item(handle, self.number, index) })
    }

    /// The items of a sequence.
    pub fn items(&self) -> impl Iterator<Item = &Node> {
        (0..).map_while(|index| self.item(index))
    }

    /// The keys and values of a mapping, in the order of the text.
    pub fn pairs(&self) -> impl Iterator<Item = (&Node, &Node)> {
        (0..).map_while(|index| {
            let kept = self.kept();
            // SAFETY: the handle has a parser, which no other call uses.
            let key = kept.node(|handle| unsafe { saphyr_key(handle, self.number, index) })?;
            // SAFETY: the same.
            let value = kept.node(|handle| unsafe { saphyr_value(handle, self.number, index) })?;
            Some((key, value))
        })
    }

    /// The value in a mapping whose key is a scalar with this text, whatever its style and tag. If there are several,
    /// the first. An alias stands for its node: one that this is asked of, and one that is a key.
    #[must_use]
    pub fn get(&self, key: &str) -> Option<&Node> {
        // SAFETY: the handle has a parser, which no other call uses, and the key's bytes may be read.
        self.kept()
            .node(|handle| unsafe { saphyr_get(handle, self.number, key.as_ptr(), key.len()) })
    }

    /// The keys and values of a mapping, with those of the mappings that its keys `<<` name, as YAML 1.1 has them: its
    /// own come first, and of equal keys the first counts. An alias stands for its node. A key `<<` whose value is
    /// neither a mapping nor a sequence of mappings is a key as any other.
    ///
    /// ```
    /// use saphyr_parser::{Limits, Trees};
    ///
    /// let text = "base: &b {port: 80, host: a}\nmine: {<<: *b, port: 81}\n";
    /// let trees = Trees::load(text, Limits::default()).unwrap();
    /// let pairs = trees[0]["mine"].merged().map(|(key, value)| (key.as_str(), value.as_str()));
    /// assert!(pairs.eq([(Some("port"), Some("81")), (Some("host"), Some("a"))]));
    /// ```
    #[must_use]
    pub fn merged(&self) -> Merged<'_> {
        Merged {
            waiting: vec![self.followed()],
            pairs: Vec::new(),
            entered: HashSet::new(),
            given: HashSet::new(),
        }
    }

    /// The mappings that this is the key `<<` of, if it is one.
    fn merges<'a>(&self, value: &'a Node) -> Option<Vec<&'a Node>> {
        let told = self.followed().told();
        // SAFETY: the texts stay until the parser is freed.
        let (text, tag) = unsafe { (told.value.text(), super::tag_of(&told)) };
        let is_merge = told.kind == 6 && text == "<<" && told.style == 0;
        if !is_merge || tag.is_some_and(|it| it.handle.clone() + &it.suffix != MERGE) {
            return None;
        }
        let value = value.followed();
        let named: Vec<_> = match value.kind() {
            NodeKind::Sequence => value.items().map(Node::followed).collect(),
            _ => vec![value],
        };
        let are_mappings = named.iter().all(|it| it.kind() == NodeKind::Mapping);
        are_mappings.then_some(named)
    }
}

/// What [`Node::merged`] gives. It ends: each mapping is entered once.
pub struct Merged<'a> {
    /// The mappings that are still to be entered, the next one last.
    waiting: Vec<&'a Node>,
    /// The pairs of the one that was entered, the next one last.
    pairs: Vec<(&'a Node, &'a Node)>,
    entered: HashSet<usize>,
    given: HashSet<Key<'a>>,
}

/// What tells keys apart: a scalar's text, or which collection it is.
#[derive(PartialEq, Eq, Hash)]
enum Key<'a> {
    Text(&'a str),
    Collection(usize),
}

impl<'a> Merged<'a> {
    fn enter(&mut self, mapping: &'a Node) {
        if !self.entered.insert(mapping.number) {
            return;
        }
        let mut named = Vec::new();
        for (key, value) in mapping.pairs() {
            match key.merges(value) {
                Some(mappings) => named.extend(mappings),
                None => self.pairs.push((key, value)),
            }
        }
        self.pairs.reverse();
        self.waiting.extend(named.into_iter().rev());
    }
}

impl<'a> Iterator for Merged<'a> {
    type Item = (&'a Node, &'a Node);

    fn next(&mut self) -> Option<Self::Item> {
        loop {
            let Some((key, value)) = self.pairs.pop() else {
                let mapping = self.waiting.pop()?;
                self.enter(mapping);
                continue;
            };
            let node = key.followed();
            let same = match node.as_str() {
                Some(text) => Key::Text(text),
                None => Key::Collection(node.number),
            };
            if self.given.insert(same) {
                return Some((key, value));
            }
        }
    }
}

impl FusedIterator for Merged<'_> {}

impl fmt::Debug for Node {
    fn fmt(&self, f: &mut fmt::Formatter<'_>) -> fmt::Result {
        match self.kind() {
            NodeKind::Alias => write!(f, "*{}", self.as_alias().unwrap_or_default()),
            NodeKind::Scalar => self.as_str().unwrap_or_default().fmt(f),
            NodeKind::Sequence => f.debug_list().entries(self.items()).finish(),
            NodeKind::Mapping => f.debug_map().entries(self.pairs()).finish(),
        }
    }
}

impl fmt::Debug for Trees<'_> {
    fn fmt(&self, f: &mut fmt::Formatter<'_>) -> fmt::Result {
        f.debug_list().entries(self.iter()).finish()
    }
}

impl Index<usize> for Trees<'_> {
    type Output = Node;

    /// The root of a document. Panics if there are fewer.
    #[track_caller]
    fn index(&self, index: usize) -> &Node {
        match self.get(index) {
            Some(root) => root,
            None => panic!("there is no document {index}, but {}", self.iter().count()),
        }
    }
}

impl Index<usize> for Node {
    type Output = Node;

    /// The item of a sequence, or of the one that an alias names. Panics if there are fewer.
    #[track_caller]
    fn index(&self, index: usize) -> &Node {
        match self.followed().item(index) {
            Some(item) => item,
            None => self.lacks(format_args!("item {index}")),
        }
    }
}

impl Index<&str> for Node {
    type Output = Node;

    /// The value of a key in a mapping, as by [`Node::get`]. Panics if there is none.
    #[track_caller]
    fn index(&self, key: &str) -> &Node {
        match self.get(key) {
            Some(value) => value,
            None => self.lacks(format_args!("key {key:?}")),
        }
    }
}

impl Node {
    /// Panics, and says what is not there, and where.
    #[cold]
    #[track_caller]
    fn lacks(&self, what: fmt::Arguments<'_>) -> ! {
        let whole = self.followed();
        let kind = match whole.kind() {
            NodeKind::Mapping => "mapping",
            NodeKind::Sequence => "sequence",
            _ => "scalar",
        };
        panic!("there is no {what} in the {kind} at {}", whole.span().start)
    }
}
