"""What docs/COMING_FROM.md says of PyYAML and of this package: prints where it is not so.

    PYTHON tests/release/coming_from.py FOLDER

PYTHON has this package, and the folder PyYAML.
"""
import re
import sys

import saphyr_parser

sys.path.append(sys.argv[1])
import yaml  # noqa: E402

TEXT = "a: &x [80, 'b', !t true]\na: {<<: {c: d}, e: *x}\n---\n- |\n  f\n"
FAULTS = "a: [1\nb: 2\n", "a: 'b\n"


def expect(found, wanted):
    if found != wanted:
        print(f"{found!r}, and not {wanted!r}")


def kind(event):
    """The name of PyYAML's event, as an item of `Kind`."""
    return re.sub(r"(?<=[a-z])(?=[A-Z])", "_", type(event).__name__[: -len("Event")]).upper()


def value(node):
    """A node of PyYAML, with its texts."""
    if isinstance(node, yaml.ScalarNode):
        return node.value
    parts = node.value if isinstance(node, yaml.SequenceNode) else dict(node.value).values()
    return [value(it) for it in parts]


def own(node):
    """The same of a node of this package."""
    if isinstance(node, str):
        return node
    return [own(it) for it in (node if isinstance(node, list) else [it for _, it in node.pairs])]


def fault(call):
    try:
        return list(call())
    except (ValueError, yaml.YAMLError) as error:
        return error


events, nodes = list(saphyr_parser.events(TEXT)), list(saphyr_parser.load_all(TEXT))
expect([it.kind.name for it in events], [kind(it) for it in yaml.parse(TEXT)])
expect([own(it) for it in nodes], [value(it) for it in yaml.compose_all(TEXT)])
expect(own(saphyr_parser.load("[a]")), value(yaml.compose("[a]")))
expect([type(it).__base__.__name__ for it in (nodes[0], nodes[1], nodes[1][0])], ["dict", "list", "str"])
expect([it.start.line for it in events[:3]], [it.start_mark.line + 1 for it in yaml.parse(TEXT)][:3])
expect([it.anchor for it in events if it.anchor], [1, 1])
expect([it.anchor for it in yaml.parse(TEXT) if getattr(it, "anchor", None)], ["x", "x"])
expect([next(yaml.safe_load_all(it)) for it in ("80", "true")], [80, True])
expect([saphyr_parser.load(it) for it in ("80", "true")], ["80", "true"])
expect(([*nodes[0]], [str(key) for key, _ in nodes[0].pairs]), (["a"], ["a", "a"]))
expect((list(nodes[0]["a"]), list(saphyr_parser.merged(nodes[0]["a"]))), (["<<", "e"], ["e", "c"]))
expect(sorted(next(yaml.safe_load_all("{<<: {c: d}, e: f}"))), ["c", "e"])
for text in FAULTS:
    ours, theirs = fault(lambda: saphyr_parser.events(text)), fault(lambda: yaml.parse(text))
    expect((bool(ours.reason), ours.opened.line - 1), (bool(theirs.problem), theirs.context_mark.line))
    expect(type(ours.start.line), type(theirs.problem_mark.line))
