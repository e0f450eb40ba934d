//! Prints the scalars of each document of a YAML text from standard input, a line for each document, as soon as its end
//! is there. If a program writes documents one by one into a pipe, the lines come one by one.
//!
//!     documents

use saphyr_parser::{Event, EventReceiver, Parser};
use std::io::{self, BufRead, Write};
use std::process::ExitCode;

/// The scalars of a document, and whether there was one.
#[derive(Default)]
struct Scalars {
    values: Vec<String>,
    has_document: bool,
}

impl<'input> EventReceiver<'input> for Scalars {
    fn on_event(&mut self, event: Event<'input>) {
        match event {
            Event::DocumentStart(_) => self.has_document = true,
            Event::Scalar(value, ..) => self.values.push(value.escape_debug().to_string()),
            _ => {}
        }
    }
}

/// The characters of a reader, each as soon as its bytes are there. Bytes that are not UTF-8, or can't be read, end
/// them.
fn characters(mut reader: impl BufRead) -> impl Iterator<Item = char> {
    std::iter::from_fn(move || {
        let mut bytes = [0; 4];
        for len in 0..4 {
            bytes[len] = *reader.fill_buf().ok()?.first()?;
            reader.consume(1);
            if let Ok(text) = std::str::from_utf8(&bytes[..=len]) {
                return text.chars().next();
            }
        }
        None
    })
}

fn main() -> ExitCode {
    let mut parser = Parser::new_from_iter(characters(io::stdin().lock()));
    let mut out = io::stdout();
    loop {
        let mut scalars = Scalars::default();
        if let Err(fault) = parser.load(&mut scalars, false) {
            eprintln!("documents: {fault}");
            return ExitCode::FAILURE;
        }
        if !scalars.has_document {
            return ExitCode::SUCCESS;
        }
        let written = writeln!(out, "{}", scalars.values.join(", ")).and_then(|()| out.flush());
        if written.is_err() {
            return ExitCode::FAILURE;
        }
    }
}
