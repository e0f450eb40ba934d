//! A proved parser of YAML 1.2 into events, with the names of the crate `saphyr-parser` 0.3.3.
//!
//! The events come from a static library, which is written in Rattle and proved to give them. This crate hands them on
//! under the names that users of `saphyr-parser` know. A crate that depends on `saphyr-parser` changes one line of its
//! manifest to use this one.
//!
//! ```
//! use saphyr_parser::{Event, Parser, ScanError};
//!
//! fn scalars(text: &str) -> Result<Vec<String>, ScanError> {
//!     let mut found = Vec::new();
//!     for item in Parser::new_from_str(text) {
//!         if let (Event::Scalar(value, ..), _span) = item? {
//!             found.push(value.into_owned());
//!         }
//!     }
//!     Ok(found)
//! }
//!
//! assert_eq!(scalars("a: [b, 'c']").unwrap(), ["a", "b", "c"]);
//! let refused = scalars("a: [b").unwrap_err();
//! assert_eq!(refused.to_string(), "while parsing a flow sequence, expected ',' or ']' at byte 5 line 2 column 1");
//! ```
//!
//! If memory runs out the process ends, as it does if a `Vec` can't grow.

#![warn(missing_docs)]
#![deny(unsafe_code)]

mod char_traits;
mod documents;
mod encoding;
mod event;
#[allow(unsafe_code)]
mod face;
mod findings;
pub mod input;
mod parser;
mod parts;
mod progress;
mod scanner;
mod standard;

pub use crate::documents::{DocumentReader, Pieces, ReadError};
pub use crate::encoding::NotUtf8;
pub use crate::event::{Event, EventReceiver, SpannedEventReceiver, Tag};
pub use crate::face::trees::{Documents, Limits, LoadError, Merged, Node, NodeKind, Trees};
pub use crate::findings::{check, CheckOptions, Finding, Findings, Rule, Severity};
pub use crate::input::{str::StrInput, BufferedInput, Input};
pub use crate::parser::Parser;
pub use crate::scanner::{Marker, ScalarStyle, ScanError, Span};
pub use crate::standard::{check_standard, Deviation, NotStandard};
