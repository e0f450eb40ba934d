//! Whether a text is YAML 1.2.2.

use crate::face;
use crate::parser::Parser;
use crate::scanner::{Marker, ScanError};
use std::error::Error;
use std::fmt;

/// Where a text departs from YAML 1.2.2.
#[derive(Clone, Copy, Debug, PartialEq, Eq)]
pub struct Deviation {
    /// The first place that shows it.
    pub place: Marker,
    /// The name of the rule that is broken there. `docs/DEPARTURES.md` of the repository has them.
    pub rule: &'static str,
    /// The production of the standard, and what it asks.
    pub sentence: &'static str,
}

impl fmt::Display for Deviation {
    fn fmt(&self, f: &mut fmt::Formatter<'_>) -> fmt::Result {
        write!(f, "{} at {}: {}", self.rule, self.place, self.sentence)
    }
}

/// Why a text is not YAML 1.2.2.
#[derive(Clone, Debug, PartialEq, Eq)]
pub enum NotStandard {
    /// The parser reads it, but the standard doesn't derive it.
    Deviates(Deviation),
    /// The parser refuses it.
    Refused(ScanError),
}

impl fmt::Display for NotStandard {
    fn fmt(&self, f: &mut fmt::Formatter<'_>) -> fmt::Result {
        match self {
            NotStandard::Deviates(deviation) => deviation.fmt(f),
            NotStandard::Refused(error) => error.fmt(f),
        }
    }
}

impl Error for NotStandard {}

/// Says whether a text is YAML 1.2.2, or why it isn't. The parser also reads texts that are not.
///
/// ```
/// use saphyr_parser::{check_standard, NotStandard, Parser};
///
/// assert_eq!(check_standard("ports: [\n  80\n  ]"), Ok(()));
///
/// let text = "ports: [\n  80\n]";
/// assert!(Parser::new_from_str(text).all(|it| it.is_ok()));
/// match check_standard(text) {
///     Err(NotStandard::Deviates(deviation)) => assert_eq!(deviation.rule, "flow-indentation"),
///     other => panic!("{other:?}"),
/// }
///
/// assert!(matches!(check_standard("ports: [80"), Err(NotStandard::Refused(_))));
/// ```
pub fn check_standard(text: &str) -> Result<(), NotStandard> {
    face::check_standard(text).map_err(|deviation| match deviation {
        Some(deviation) => NotStandard::Deviates(deviation),
        None => NotStandard::Refused(fault_of(text)),
    })
}

/// The fault of a text that the parser refuses.
fn fault_of(text: &str) -> ScanError {
    let fault = Parser::new_from_str(text).find_map(Result::err);
    fault.expect("a text that is refused has a fault")
}
