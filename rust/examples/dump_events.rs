//! Prints the events of a YAML text, a line for each, as the program `dump_events` of the repository does.
//!
//!     dump_events [FILE]

use saphyr_parser::{Event, Parser, ScalarStyle, Tag};
use std::io::{self, BufWriter, Read, Write};
use std::process::ExitCode;
use std::{env, fs};

fn main() -> ExitCode {
    let name = env::args_os().nth(1);
    let mut text = String::new();
    let read = match &name {
        Some(path) => fs::read_to_string(path).map(|it| text = it),
        None => io::stdin().read_to_string(&mut text).map(drop),
    };
    let said = match read {
        Ok(()) => dump(&text, &mut BufWriter::new(io::stdout().lock())),
        Err(fault) => Err(format!("dump_events: {fault}")),
    };
    match said {
        Ok(()) => ExitCode::SUCCESS,
        Err(said) => {
            eprintln!("{said}");
            ExitCode::FAILURE
        }
    }
}

/// Writes the lines up to the end or to a fault, and returns the fault.
fn dump(text: &str, out: &mut impl Write) -> Result<(), String> {
    for item in Parser::new_from_str(text) {
        match item {
            Ok((event, _)) => write_event(out, &event).map_err(|_| "dump_events: can't write")?,
            Err(fault) => {
                out.flush().map_err(|_| "dump_events: can't write")?;
                return Err(fault.to_string());
            }
        }
    }
    Ok(out.flush().map_err(|_| "dump_events: can't write")?)
}

fn write_event(out: &mut impl Write, event: &Event<'_>) -> io::Result<()> {
    match event {
        Event::Nothing => return Ok(()),
        Event::StreamStart => out.write_all(b"+STR")?,
        Event::StreamEnd => out.write_all(b"-STR")?,
        Event::DocumentStart(_) => out.write_all(b"+DOC")?,
        Event::DocumentEnd => out.write_all(b"-DOC")?,
        Event::Alias(id) => write!(out, "=ALI *{id}")?,
        Event::Scalar(text, style, id, tag) => {
            write_node(out, "=VAL", *id, tag.as_deref())?;
            out.write_all(mark(*style))?;
            write_escaped(out, text.as_bytes())?;
        }
        Event::SequenceStart(id, tag) => write_node(out, "+SEQ", *id, tag.as_deref())?,
        Event::SequenceEnd => out.write_all(b"-SEQ")?,
        Event::MappingStart(id, tag) => write_node(out, "+MAP", *id, tag.as_deref())?,
        Event::MappingEnd => out.write_all(b"-MAP")?,
    }
    out.write_all(b"\n")
}

/// The name of an event, and the properties of its node.
fn write_node(out: &mut impl Write, name: &str, id: usize, tag: Option<&Tag>) -> io::Result<()> {
    out.write_all(name.as_bytes())?;
    if id != 0 {
        write!(out, " &{id}")?;
    }
    match tag {
        Some(tag) => write!(out, " <{}{}>", tag.handle, tag.suffix),
        None => Ok(()),
    }
}

fn mark(style: ScalarStyle) -> &'static [u8] {
    match style {
        ScalarStyle::Plain => b" :",
        ScalarStyle::SingleQuoted => b" '",
        ScalarStyle::DoubleQuoted => b" \"",
        ScalarStyle::Literal => b" |",
        ScalarStyle::Folded => b" >",
    }
}

fn write_escaped(out: &mut impl Write, text: &[u8]) -> io::Result<()> {
    let mut written = 0;
    for (at, byte) in text.iter().enumerate() {
        let escape: &[u8] = match byte {
            b'\\' => b"\\\\",
            b'\n' => b"\\n",
            b'\r' => b"\\r",
            b'\t' => b"\\t",
            8 => b"\\b",
            _ => continue,
        };
        out.write_all(&text[written..at])?;
        out.write_all(escape)?;
        written = at + 1;
    }
    out.write_all(&text[written..])
}
