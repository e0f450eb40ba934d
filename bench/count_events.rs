//! Counts the events of a YAML file, and prints their number alone.
//!
//!     count_events FILE [TIMES [PIECE]]
//!
//! The file is parsed so many times, each with a parser of its own. With PIECE the parser is over an iterator of the
//! text's characters, which with the word `lines` doesn't say that it has more.

use saphyr_parser::{Event, Parser, ScanError, Span};
use std::error::Error;
use std::{env, fs, iter};

fn count<'a>(items: impl Iterator<Item = Result<(Event<'a>, Span), ScanError>>) -> Result<usize, ScanError> {
    let mut events = 0;
    for item in items {
        item?;
        events += 1;
    }
    Ok(events)
}

fn main() -> Result<(), Box<dyn Error>> {
    let words: Vec<String> = env::args().collect();
    let text = fs::read_to_string(words.get(1).ok_or("no FILE")?)?;
    let times: usize = words.get(2).map_or(Ok(1), |it| it.parse())?;
    let mut events = 0;
    for _ in 0..times {
        let mut characters = text.chars();
        events += match words.get(3).map(String::as_str) {
            Some("lines") => count(Parser::new_from_iter(iter::from_fn(|| characters.next())))?,
            Some(_) => count(Parser::new_from_iter(characters))?,
            None => count(Parser::new_from_str(&text))?,
        };
    }
    println!("{events}");
    Ok(())
}
