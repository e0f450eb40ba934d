//! Where a parser is: among the documents of its text, or behind a fault.

use crate::event::Event;
use crate::face::Item;
use crate::scanner::{ScanError, Span};

/// Where a parser is among the documents of its text.
#[derive(Clone, Copy, Debug, Default, PartialEq, Eq)]
pub enum Stand {
    #[default]
    Between,
    Inside,
    /// The stream's end was read, with this place.
    Behind(Span),
}

/// Where a parser is. The default is that of one that has read nothing.
#[derive(Clone, Debug, Default)]
pub struct Progress {
    pub stand: Stand,
    /// The fault that ended the events.
    pub fault: Option<ScanError>,
    /// Whether the fault was handed out.
    pub was_sent: bool,
}

impl Progress {
    /// Whether there is nothing left to read.
    #[inline]
    pub fn has_ended(&self) -> bool {
        self.fault.is_some() || matches!(self.stand, Stand::Behind(_))
    }

    /// Goes on behind an event.
    pub fn pass(&mut self, event: &Event<'_>, span: Span) {
        match event {
            Event::DocumentStart(_) => self.stand = Stand::Inside,
            Event::DocumentEnd => self.stand = Stand::Between,
            Event::StreamEnd => self.stand = Stand::Behind(span),
            _ => {}
        }
    }

    /// Keeps the fault that ends the events.
    #[cold]
    pub fn end<'input>(&mut self, fault: ScanError) -> Item<'input> {
        self.fault = Some(fault.clone());
        Some(Err(fault))
    }

    /// Hands out the fault that ended the events, once.
    #[cold]
    pub fn give_fault<'input>(&mut self) -> Item<'input> {
        let fault = self.unsent_fault()?;
        self.was_sent = true;
        Some(Err(fault))
    }

    /// The fault that was not handed out yet.
    pub fn unsent_fault(&self) -> Option<ScanError> {
        self.fault.clone().filter(|_| !self.was_sent)
    }
}
