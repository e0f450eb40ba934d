//! Events, and the traits of their receivers.

use crate::scanner::{ScalarStyle, Span};
use std::borrow::Cow;
use std::fmt;

/// What happens in a text.
///
/// The node of a document, and each node inside, is an alias, a scalar, or a collection from its start to its end. In a
/// mapping keys and values take turns. A node's number is the id of its anchor, or 0 if it has none.
#[derive(Clone, Debug, PartialEq, Eq)]
pub enum Event<'input> {
    /// Nothing. No parser gives it.
    Nothing,
    /// The text begins. The first event.
    StreamStart,
    /// The text ends. The last event.
    StreamEnd,
    /// A document begins. `true` says that it begins with a `---`.
    DocumentStart(bool),
    /// A document ends.
    DocumentEnd,
    /// An alias of the node with this anchor.
    Alias(
        /// The id of the anchor.
        usize,
    ),
    /// A scalar: its text, its style, its anchor and its tag.
    Scalar(
        Cow<'input, str>,
        ScalarStyle,
        usize,
        Option<Cow<'input, Tag>>,
    ),
    /// A sequence begins.
    SequenceStart(
        /// The id of its anchor.
        usize,
        /// Its tag.
        Option<Cow<'input, Tag>>,
    ),
    /// The innermost sequence ends.
    SequenceEnd,
    /// A mapping begins.
    MappingStart(
        /// The id of its anchor.
        usize,
        /// Its tag.
        Option<Cow<'input, Tag>>,
    ),
    /// The innermost mapping ends.
    MappingEnd,
}

/// A resolved tag: the prefix that its handle means, and what is written after the handle.
#[derive(Clone, Debug, PartialEq, Eq, PartialOrd, Ord, Hash)]
pub struct Tag {
    /// The prefix: `tag:yaml.org,2002:` for `!!`, or what a directive says.
    pub handle: String,
    /// What is written after the handle, with its escapes resolved.
    pub suffix: String,
}

impl Tag {
    /// Whether its prefix is that of YAML's own tags, such as `!!str`.
    #[must_use]
    pub fn is_yaml_core_schema(&self) -> bool {
        self.handle == "tag:yaml.org,2002:"
    }
}

impl fmt::Display for Tag {
    fn fmt(&self, f: &mut fmt::Formatter<'_>) -> fmt::Result {
        let handle = if self.handle == "!" { "" } else { &self.handle };
        write!(f, "{handle}!{}", self.suffix)
    }
}

/// A receiver of the events that [`Parser::load`](crate::Parser::load) sends.
///
/// ```
/// use saphyr_parser::{Event, EventReceiver, Parser};
///
/// struct Aliases(usize);
///
/// impl<'input> EventReceiver<'input> for Aliases {
///     fn on_event(&mut self, ev: Event<'input>) {
///         self.0 += usize::from(matches!(ev, Event::Alias(_)));
///     }
/// }
///
/// let mut aliases = Aliases(0);
/// Parser::new_from_str("[&a b, *a, *a]").load(&mut aliases, true).unwrap();
/// assert_eq!(aliases.0, 2);
/// ```
pub trait EventReceiver<'input> {
    /// Takes the next event.
    fn on_event(&mut self, ev: Event<'input>);
}

/// A receiver of events with their places. Each [`EventReceiver`] is one, and ignores the places.
pub trait SpannedEventReceiver<'input> {
    /// Takes the next event.
    fn on_event(&mut self, ev: Event<'input>, span: Span);
}

impl<'input, R: EventReceiver<'input>> SpannedEventReceiver<'input> for R {
    fn on_event(&mut self, ev: Event<'input>, _span: Span) {
        EventReceiver::on_event(self, ev);
    }
}
