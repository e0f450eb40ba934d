//! Findings, over the library's calls that check a text.
//!
//! The library keeps what it found until its handle is freed. The texts of a finding are copied right after the call
//! that wrote them; the name of a rule stays where it is.

use super::{check_version, expect, marker};
use super::{Bytes, Handle, Place, EMPTY, END, NO_BYTES, OK};
use crate::findings::{CheckOptions, Finding, Findings, Severity};
use crate::scanner::Span;

const FINDING: i32 = 5;
const WRONG: i32 = 6;

/// `saphyr_check_options`. Of each rule, by the order of `Rule`, it says whether its warnings are left out.
#[repr(C)]
struct Options {
    standard: bool,
    strict: bool,
    disable: [bool; 6],
    max_depth: usize,
    max_findings: usize,
    max_nodes: usize,
}

/// `saphyr_finding`.
#[repr(C)]
struct Record {
    severity: i32,
    start: Place,
    end: Place,
    rule: Bytes,
    message: Bytes,
}

/// `saphyr_next_finding` or `saphyr_next_note`.
type Next = unsafe extern "C" fn(*mut Handle, *mut Record) -> i32;

extern "C" {
    fn saphyr_check(
        text: *const u8,
        len: usize,
        options: *const Options,
        findings: *mut Handle,
    ) -> i32;
    fn saphyr_next_finding(findings: *mut Handle, finding: *mut Record) -> i32;
    fn saphyr_next_note(findings: *mut Handle, note: *mut Record) -> i32;
    fn saphyr_free_findings(findings: *mut Handle);
}

/// What the library found in a text.
struct Held(Handle);

impl Held {
    /// What a call hands out, if anything is left.
    fn next(&mut self, call: Next) -> Option<Finding> {
        let mut record = Record {
            severity: 0,
            start: Place::default(),
            end: Place::default(),
            rule: NO_BYTES,
            message: NO_BYTES,
        };
        // SAFETY: the handle holds what was found, and no other call uses it. The record is zeroed.
        let status = unsafe { call(&mut self.0, &mut record) };
        if status != FINDING {
            expect(status, END);
            return None;
        }
        // SAFETY: the call wrote these texts, and no other came since. By the header the rule's name is the library's
        // own, and may be read as long as the program runs.
        let (rule, message) = unsafe { (record.rule.text(), record.message.text()) };
        Some(Finding {
            severity: severity(record.severity),
            rule,
            message: message.to_owned(),
            span: Span::new(marker(&record.start), marker(&record.end)),
            notes: Vec::new(),
        })
    }
}

impl Drop for Held {
    fn drop(&mut self) {
        // SAFETY: no other call uses the handle, and none comes after this one.
        unsafe { saphyr_free_findings(&mut self.0) }
    }
}

fn severity(number: i32) -> Severity {
    match number {
        1 => Severity::Error,
        2 => Severity::Warning,
        _ => Severity::Note,
    }
}

/// The library takes 0 for no limit.
fn limit(most: Option<usize>) -> usize {
    most.map_or(0, |most| most.max(1))
}

/// What the library finds in some bytes.
pub fn check(bytes: &[u8], options: &CheckOptions) -> Findings {
    check_version();
    let mut disable = [false; 6];
    for rule in &options.disable {
        disable[*rule as usize] = true;
    }
    let asked = Options {
        standard: options.standard,
        strict: options.strict,
        disable,
        max_depth: limit(options.max_depth),
        max_findings: limit(options.max_findings),
        max_nodes: limit(options.max_nodes),
    };
    let mut held = Held(EMPTY);
    // SAFETY: the bytes may be read for their length, the options are those of the header, and the handle is zeroed.
    let status = unsafe { saphyr_check(bytes.as_ptr(), bytes.len(), &asked, &mut held.0) };
    if status != WRONG {
        expect(status, OK);
    }
    let mut list = Vec::new();
    while let Some(mut finding) = held.next(saphyr_next_finding) {
        while let Some(note) = held.next(saphyr_next_note) {
            finding.notes.push(note);
        }
        list.push(finding);
    }
    Findings {
        passed: status == OK,
        list,
    }
}
