//! Findings of small texts, and of those in the file that the variable `FINDINGS` names: each is what `check_yaml` finds.

use saphyr_parser::{check, CheckOptions, Finding, Findings, Rule, Severity};
use std::fmt::Write;
use std::{env, fs, thread};

const RULES: [Rule; 6] = [
    Rule::AliasInItself,
    Rule::DuplicateKey,
    Rule::EmptyDocument,
    Rule::MaxDepth,
    Rule::MaxNodes,
    Rule::WideAlias,
];

/// A finding or a note with its places from and to, the number of its severity, its rule and its message.
fn push_line(lines: &mut String, it: &Finding) {
    let (start, end, severity) = (it.span.start, it.span.end, it.severity as usize + 1);
    writeln!(lines, "{start}-{end} {severity} {} {}", it.rule, it.message).unwrap();
}

fn lines_of(found: &Findings) -> String {
    let mut lines = String::from(if found.passed { "passes\n" } else { "fails\n" });
    for finding in found {
        push_line(&mut lines, finding);
        for note in &finding.notes {
            assert_eq!((note.severity, note.notes.len()), (Severity::Note, 0));
            push_line(&mut lines, note);
        }
    }
    lines
}

/// The options that the numbers before a text stand for.
fn options_of(numbers: &[usize]) -> CheckOptions {
    let limit = |most: usize| (most > 0).then_some(most);
    let off = |bit: &usize| numbers[2] >> bit & 1 == 1;
    CheckOptions {
        standard: numbers[0] == 1,
        strict: numbers[1] == 1,
        disable: (0..6).filter(off).map(|bit| RULES[bit]).collect(),
        max_depth: limit(numbers[3]),
        max_findings: limit(numbers[4]),
        max_nodes: limit(numbers[5]),
    }
}

#[test]
fn finds_what_the_program_finds() {
    let Ok(file) = env::var("FINDINGS") else {
        return;
    };
    let bytes = fs::read(file).unwrap();
    let mut rest = &bytes[..];
    while !rest.is_empty() {
        let end = rest.iter().position(|byte| *byte == b'\n').unwrap();
        let head = std::str::from_utf8(&rest[..end]).unwrap();
        let numbers: Vec<usize> = head.split(' ').map(|it| it.parse().unwrap()).collect();
        let (text, behind) = rest[end + 1..].split_at(numbers[6]);
        let (wanted, behind) = behind.split_at(numbers[7]);
        let found = options_of(&numbers).check_bytes(text);
        assert_eq!(lines_of(&found).as_bytes(), wanted, "{head}: {text:?}");
        if let Ok(text) = std::str::from_utf8(text) {
            assert_eq!(options_of(&numbers).check(text), found);
        }
        rest = behind;
    }
}

#[test]
fn prints_the_lines_of_the_program() {
    let found = check("a: 1\na: 2\nb: 'c\n");
    let lines: Vec<_> = found.to_string().lines().map(str::to_owned).collect();
    assert_eq!(lines[0], "2:1: warning: duplicate key; first at 1:1");
    assert!(lines[1].starts_with("3:4: error: "));
    assert_eq!(found.into_iter().count(), 2);
    assert_eq!(
        check("a: [b]"),
        Findings {
            passed: true,
            list: Vec::new()
        }
    );
}

#[test]
fn threads_check_side_by_side() {
    let wanted = check("a: {b: [1\n");
    let threads: Vec<_> = (0..8)
        .map(|_| thread::spawn(|| check("a: {b: [1\n")))
        .collect();
    for it in threads {
        assert_eq!(it.join().unwrap(), wanted);
    }
}
