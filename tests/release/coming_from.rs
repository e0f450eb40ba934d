//! What docs/COMING_FROM.md says of trees to who comes from yaml-rust2 or serde_yaml.
use saphyr_parser::{Documents, Limits, LoadError, Node, Trees};

const TEXT: &str = "a: &x !t [80, '80', no]\nb: 1\nb: 2\nc: *x\nd: {<<: {e: f}}\n";

fn main() -> Result<(), LoadError> {
    let trees = Trees::load(TEXT, Limits::default())?;
    let root: &Node = &trees[0];
    assert_eq!(root["a"].items().filter_map(|it| it.as_str()).collect::<Vec<_>>(), ["80", "80", "no"]);
    assert_eq!(root["a"][0].as_str().and_then(|it| it.parse().ok()), Some(80));
    assert!(root["a"].tag().is_some() && root["b"].tag().is_none());
    assert_eq!(root.pairs().filter(|(key, _)| key.as_str() == Some("b")).count(), 2);
    assert_eq!(root.get("b").and_then(|it| it.as_str()), Some("1"));
    let alias = root.get("c").expect("it is there");
    assert_eq!(alias.items().count(), 0);
    assert_eq!((alias[1].as_str(), alias.span().start.to_string()), (Some("80"), "4:4".to_owned()));
    assert!(root["d"].get("e").is_none() && root["d"].get("<<").is_some());
    assert_eq!(root["d"].merged().filter_map(|(key, _)| key.as_str()).collect::<Vec<_>>(), ["e"]);
    assert!(
        root.get("z").is_none()
            && std::panic::catch_unwind(|| Trees::load("a", Limits::default()).map(|it| it[0]["z"].span())).is_err()
    );
    assert_eq!(Documents::new("a\n---\nb\n", Limits::default()).filter_map(Result::ok).count(), 2);
    assert!(matches!(Trees::load("[a", Limits::default()), Err(LoadError::Refused(_))));
    Ok(())
}
