//! What the program `check_yaml` finds in a text.

use crate::face::check;
use crate::scanner::Span;
use std::fmt;
use std::slice;
use std::vec;

/// How bad a finding is.
#[derive(Clone, Copy, Debug, PartialEq, Eq)]
pub enum Severity {
    /// The text is refused, or is not YAML 1.2.2 where that is asked for.
    Error,
    /// The text is read, and something in it may be wrong.
    Warning,
    /// It says more of an error, or how many warnings are left out.
    Note,
}

impl fmt::Display for Severity {
    fn fmt(&self, f: &mut fmt::Formatter<'_>) -> fmt::Result {
        f.write_str(match self {
            Severity::Error => "error",
            Severity::Warning => "warning",
            Severity::Note => "note",
        })
    }
}

/// A rule that warns. `docs/CHECK_YAML.md` of the repository says of what.
#[derive(Clone, Copy, Debug, PartialEq, Eq)]
pub enum Rule {
    /// `alias-in-itself`
    AliasInItself,
    /// `duplicate-key`
    DuplicateKey,
    /// `empty-document`
    EmptyDocument,
    /// `max-depth`
    MaxDepth,
    /// `max-nodes`
    MaxNodes,
    /// `wide-alias`
    WideAlias,
}

/// How a text is checked, by the names of the options of `check_yaml`. A limit of 0 counts as 1, other than
/// there.
#[derive(Clone, Debug, Default, PartialEq, Eq)]
pub struct CheckOptions {
    /// Also finds where the text departs from YAML 1.2.2.
    pub standard: bool,
    /// Lets a warning count as an error in `Findings::passed`.
    pub strict: bool,
    /// The rules whose warnings are left out.
    pub disable: Vec<Rule>,
    /// Warns where more collections are open at once.
    pub max_depth: Option<usize>,
    /// Finds at most so many warnings, and with `standard` so many places, and how many more warnings there are.
    pub max_findings: Option<usize>,
    /// Warns of more nodes.
    pub max_nodes: Option<usize>,
}

impl CheckOptions {
    /// What is found in a text with these options.
    #[must_use]
    pub fn check(&self, text: &str) -> Findings {
        self.check_bytes(text.as_bytes())
    }

    /// The same of bytes. If they are not UTF-8, that is found.
    #[must_use]
    pub fn check_bytes(&self, bytes: &[u8]) -> Findings {
        check::check(bytes, self)
    }
}

/// What is found in a text with no options.
///
/// ```
/// use saphyr_parser::{check, Severity};
///
/// let found = check("ports: [80\nname: x\n");
/// assert!(!found.passed);
/// let error = &found.list[0];
/// assert_eq!(error.severity, Severity::Error);
/// assert_eq!(error.to_string(), "1:8: error: the sequence that begins here is not closed yet");
/// assert!(error.notes[0].message.starts_with("the parser stops here: "));
///
/// let found = check("a: 1\na: 2\n");
/// assert!(found.passed);
/// assert_eq!(found.list[0].rule, "duplicate-key");
/// ```
#[must_use]
pub fn check(text: &str) -> Findings {
    CheckOptions::default().check(text)
}

/// Something that is found in a text. It prints as a line of `check_yaml`, without the file's name.
#[derive(Clone, Debug, PartialEq, Eq)]
pub struct Finding {
    /// How bad it is.
    pub severity: Severity,
    /// The name of its rule. Of a text that is refused it is `syntax`, and `encoding` of bytes that are not UTF-8.
    pub rule: &'static str,
    /// What it says.
    pub message: String,
    /// Where it is. Only a warning, and the note on those that are left out, has a width: that of an event.
    pub span: Span,
    /// What more is known, such as what to write, or the words of the parser's fault. A note has none.
    pub notes: Vec<Finding>,
}

impl fmt::Display for Finding {
    fn fmt(&self, f: &mut fmt::Formatter<'_>) -> fmt::Result {
        write!(
            f,
            "{}: {}: {}",
            self.span.start, self.severity, self.message
        )
    }
}

/// What is found in a text. Prints each finding and its notes, a line for each.
#[derive(Clone, Debug, PartialEq, Eq)]
pub struct Findings {
    /// Whether the text has no error and, if the options are strict, no warning.
    pub passed: bool,
    /// Errors, warnings and, if some of these are left out, a note that says how many, in the order of their places.
    pub list: Vec<Finding>,
}

impl fmt::Display for Findings {
    fn fmt(&self, f: &mut fmt::Formatter<'_>) -> fmt::Result {
        for finding in &self.list {
            writeln!(f, "{finding}")?;
            for note in &finding.notes {
                writeln!(f, "{note}")?;
            }
        }
        Ok(())
    }
}

impl IntoIterator for Findings {
    type Item = Finding;
    type IntoIter = vec::IntoIter<Finding>;

    fn into_iter(self) -> Self::IntoIter {
        self.list.into_iter()
    }
}

impl<'a> IntoIterator for &'a Findings {
    type Item = &'a Finding;
    type IntoIter = slice::Iter<'a, Finding>;

    fn into_iter(self) -> Self::IntoIter {
        self.list.iter()
    }
}
