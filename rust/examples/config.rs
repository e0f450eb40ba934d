//! Prints each scalar of a YAML file: its path, its text and its place, as `.ports[0] = 80 (2:9)`. An alias stands for
//! its node, and keys `<<` for the pairs of the mappings that they name.
//!
//!     config < FILE

use saphyr_parser::{Limits, Node, NodeKind, Trees};
use std::error::Error;
use std::io::{read_to_string, stdin};

/// How many nodes are gone through, since a few lines of aliases may stand for more than memory holds.
const MOST: u64 = 1_000_000;

fn print(node: &Node, path: &str) {
    let node = node.followed();
    match node.kind() {
        NodeKind::Sequence => {
            for (at, item) in node.items().enumerate() {
                print(item, &format!("{path}[{at}]"));
            }
        }
        NodeKind::Mapping => {
            for (key, value) in node.merged() {
                let key = key.followed().as_str().unwrap_or("?");
                print(value, &format!("{path}.{key}"));
            }
        }
        _ => println!(
            "{path} = {} ({})",
            node.as_str().unwrap_or_default(),
            node.span().start
        ),
    }
}

fn main() -> Result<(), Box<dyn Error>> {
    let trees = Trees::from_string(read_to_string(stdin())?, Limits::default())?;
    for (index, root) in trees.iter().enumerate() {
        if trees.expanded_nodes(index) > Some(MOST) {
            return Err(format!(
                "{}: too many nodes once aliases are followed",
                root.span().start
            )
            .into());
        }
        print(root, "");
    }
    Ok(())
}
