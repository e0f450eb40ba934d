"""Runs the package of a release over all cases: their events and places, and trees that have the same events.

    PYTHON tests/release/python_module.py [ROUNDS]

PYTHON is one in which the package is installed. Prints what is not a case's, and how many cases there are. What is
found in the texts of tests/findings.py is what `check_yaml` finds, as it is in out/ of its crate. Then it tries what a
caller may do: copies, files, limits, faults, threads, and readers that are closed half way, 1,000 times or ROUNDS,
after which no memory may be lost. With ROUNDS cases and findings are left out, so that valgrind can watch.
"""
import array
import copy
import gc
import io
import os
import pathlib
import pickle
import sys
import tempfile
import threading
import tracemalloc
import typing

sys.path.insert(0, os.path.dirname(os.path.dirname(os.path.abspath(__file__))))

import findings  # noqa: E402
import saphyr_parser  # noqa: E402
from refused_memory import DATA, ROOT, cases_of, program, unescaped  # noqa: E402
from saphyr_parser import Kind, Mapping, Scalar, Sequence  # noqa: E402

NAMES = " +STR -STR +DOC -DOC =ALI =VAL +SEQ -SEQ +MAP -MAP".split(" ")
MARKS = ":'\"|>"
ESCAPES = str.maketrans({"\\": "\\\\", "\n": "\\n", "\r": "\\r", "\t": "\\t", "\b": "\\b"})
TREES = "a: &a [1, !t 'x', *a, !<u> y]\nb: \u00e9\nb: 3\n? [x]\n: {q: w}\n---\n- |\n  text\n- &b {k: *b}\n"
MERGES = "a: &a {x: 1, y: 2}\nb: &b {<<: *a, y: 3}\nc: {<<: [*b, *a], z: 4}\nd: &d {<<: *d, '<<': e}"
FAULTS = ("a: [1, {b: 'x", "a: b: c", "- *none", b"\xff", b"\xff\xfea\0", "x: [\n---\n")
LIMITS = ({"nodes": 3}, {"depth": 1}, {"most_characters": 10})
FAILED = []


def expect(found, wanted, what):
    if found != wanted:
        FAILED.append(what)
        if len(FAILED) <= 20:
            print(f"{what}: {found!r}, and not {wanted!r}")


def node_line(name, node, value=None):
    """A node's line without its place; `node` is an event or a node of a tree."""
    anchor = f" &{node.anchor}" if node.anchor else ""
    tag = "" if node.tag is None else f" <{node.tag}>"
    return name + anchor + tag + ("" if value is None else f" {MARKS[node.style]}{value.translate(ESCAPES)}")


def line_of(event):
    """An event's line as the cases have it."""
    if event.kind == Kind.ALIAS:
        line = f"=ALI *{event.anchor}"
    else:
        line = node_line(NAMES[event.kind], event, event.value) + " ---" * event.is_explicit
    places = (f"{at.index},{at.line},{at.column}" for at in (event.start, event.end))
    return f"{line} @ {' '.join(places)}"


def lines_of(text, keep_tags):
    """The lines of a text's events and of its fault."""
    lines = []
    try:
        lines.extend(f"> {line_of(it)}" for it in saphyr_parser.events(text, keep_tags=keep_tags))
    except saphyr_parser.Refused as fault:
        at = fault.start
        lines.append(f"! {fault.reason} at byte {at.index} line {at.line} column {at.column + 1}")
    return lines


def walk(node, seen, lines):
    """Appends the lines of a tree. What came before, as the same object, is an alias."""
    if id(node) in seen:
        lines.append(f"=ALI *{node.anchor}")
        return
    seen.add(id(node))
    if isinstance(node, Scalar):
        lines.append(node_line("=VAL", node, str(node)))
        return
    name = "SEQ" if isinstance(node, Sequence) else "MAP"
    lines.append(node_line(f"+{name}", node))
    for part in node if name == "SEQ" else (it for pair in node.pairs for it in pair):
        walk(part, seen, lines)
    lines.append(f"-{name}")


def tree_lines(text, keep_tags):
    """The lines of all trees of a text."""
    lines = []
    for root in saphyr_parser.load_all(text, keep_tags=keep_tags):
        walk(root, set(), lines)
    return lines


def check_case(case):
    wanted = [unescaped(line) for line in case.block.rstrip("\n").split("\n")[2:]]
    expect(lines_of(case.text, case.keeps_tags), wanted, case.name)
    in_pieces = io.BytesIO(case.text.encode())
    expect(lines_of(in_pieces, case.keeps_tags), wanted, f"{case.name}, in pieces")
    if not case.fault:
        nodes = [it for it in case.events if it[1:4] not in ("STR", "DOC")]
        expect(tree_lines(case.text, case.keeps_tags), nodes, f"{case.name}, as trees")
        expect(tree_lines(case.text.splitlines(True), case.keeps_tags), nodes, f"{case.name}, as trees of its lines")


def raised(call):
    """What a call raises, as its name and words."""
    try:
        return call()
    except (ValueError, TypeError) as error:
        again = pickle.loads(pickle.dumps(error))
        expect((type(again), str(again)), (type(error), str(error)), "an error that was pickled")
        return f"{type(error).__name__}: {error}"


def check_values():
    """What trees, places and errors are in Python."""
    load = saphyr_parser.load
    tree = load("&a\nports: [80, '443']\n? [x]\n: 1\nself: *a\nports: {}\n")
    expect((type(tree), tree["ports"], tree["self"] is tree), (Mapping, {}, True), "a mapping")
    expect([str(key) for key, _ in tree.pairs if isinstance(key, Scalar)], ["ports", "self", "ports"], "its pairs")
    (first, second) = tree.pairs[0][1]
    expect((int(first), second.style.name, str(second.start), second.end.index), (80, "SINGLE_QUOTED", "2:13", 20),
           "scalars")
    key = next(it for it, _ in tree.pairs if isinstance(it, Sequence))
    expect((key, tree[key], str(key.start), str(key.end)), (["x"], "1", "3:3", "3:6"), "a collection as a key")
    expect(load(""), None, "no document")
    expect(load(b"!!int 1").tag, "tag:yaml.org,2002:int", "a tag")
    expect(copy.deepcopy(load("[a, {b: c}]")), ["a", {"b": "c"}], "a copy")
    for text in (b"[a]", bytearray(b"[a]"), memoryview(b"[a]"), array.array("B", b"[a]"), io.BytesIO(b"[a]"),
                 io.StringIO("[a]"), ["[", b"", "a", b"]"], iter("[a]")):
        expect(load(text), ["a"], type(text).__name__)
    expect(raised(lambda: load(3))[:9], "TypeError", "a number in place of a text")
    expect(raised(lambda: load("a\n---\nb")), "ValueError: the text has 2 documents: load_all gives them", "documents")
    said = "Refused: 2:1: while parsing a flow sequence, expected ',' or ']'\n"
    expect(raised(lambda: load("[a")), f"{said}1:1: the collection that is open there begins here", "a fault")
    expect(raised(lambda: load(b"\xff")), "NotUtf8: the text is not UTF-8", "a bad byte")
    expect(raised(lambda: load(io.BytesIO(b"\xff\xfea\0"))), "NotUtf8: the text is UTF-16, and not UTF-8", "UTF-16")
    deep = load("[" * 200 + "]" * 200)
    expect((len(deep), str(deep.end)), (1, "1:401"), "a deep tree")
    open_events = saphyr_parser.events("[a, b]")
    expect(next(open_events).kind, Kind.STREAM_START, "the first event")
    open_events.close()
    deepest = load("- " * 50_000 + "a")
    expect(len(deepest), 1, "a very deep tree")


def check_documents():
    """A document is handed out before the next one is read, and only what is kept stays in memory."""
    came = 0

    def pieces():
        nonlocal came
        for came in range(1, 2001):
            yield f"---\n- {came}\n- [{'a, ' * 100}b]\n"

    documents = saphyr_parser.load_all(pieces())
    for number in range(1, 2001):
        root = next(documents)
        expect((root[0], came <= number + 1), (str(number), True), "a document of a pipe")
        if number == 100:
            tracemalloc.start()
    expect(next(documents, None), None, "a document behind the last")
    expect(tracemalloc.get_traced_memory()[1] < 1 << 20, True, "the memory of one document")
    tracemalloc.stop()
    half = saphyr_parser.load_all(pieces())
    next(half)
    half.close()
    expect((list(half), came < 5), ([], True), "documents that are closed half way")
    expect(raised(lambda: list(saphyr_parser.load_all(["a: [", "b\n", "c: d"])))[:12], "Refused: 2:2", "a fault of pieces")
    expect(raised(lambda: saphyr_parser.load([3]))[:9], "TypeError", "numbers in place of pieces")
    expect(saphyr_parser.check_standard(["a: ", b"b"]), None, "a text in pieces, by check_standard")


def check_faults():
    """What a fault says, in which file, and which line it shows."""
    load = saphyr_parser.load
    with tempfile.TemporaryDirectory() as folder:
        path = pathlib.Path(folder, "config.yaml")
        said = f"Refused: {path}:3:1: invalid indentation in flow construct\n    name: x\n    ^\n"
        said += f"{path}:2:8: the collection that is open there begins here"
        for front in ("", "k: v\n" * 50_000):
            path.write_text(f"{front}a: b\nports: [80,\nname: x\n")
            lines = front.count("\n")
            wanted = said.replace(":3:1", f":{lines + 3}:1").replace(":2:8", f":{lines + 2}:8")
            expect(raised(lambda: load(path)), wanted, f"a fault of a file behind {lines} lines")
            with open(path) as file:
                expect(raised(lambda: load(file)), wanted, f"a fault of a file of texts behind {lines} lines")
        path.write_bytes(b"\xff")
        expect(raised(lambda: load(path)), f"NotUtf8: {path}: the text is not UTF-8", "a file that is not UTF-8")
        said = f"NotUtf8: {path}: the text is not UTF-8"
        expect(raised(lambda: saphyr_parser.check_standard(path)), said, "a file that is not UTF-8, by check_standard")
    said = "Refused: 1:3: unexpected character: `@'\n    - @a\n      ^\n1:1: the collection"
    expect(raised(lambda: load("\ufeff- @a\r- b"))[: len(said)], said, "a fault behind a byte order mark")
    for text in ("a: [b, 'c\n", 'a:\n- "b\\q"\n', "k: 'a\nb: c\n"):
        try:
            load(text)
        except saphyr_parser.Refused as fault:
            quote = min(text.find(it) for it in "'\"" if it in text)
            expect((fault.opened, fault.start.index), (fault.start, quote), f"the quote that is open in {text!r}")
            expect(str(fault).count("\n"), 2, f"one place of {text!r}")
    shown = raised(lambda: load("- x\n- a: '" + "\u4f60\t" * 500 + "' b" + "c" * 500, name="N"))
    place, line, caret = shown.split("\n")[:3]
    expect(place[:18], "Refused: N:2:1009:", "the place of a long line")
    part = (line[:7], line.count("\u4f60"), line.count("c"), line[-3:], len(caret))
    expect(part, ("    ...", 31, 94, "...", 103), "the part that is shown, of 200 columns")


def check_calls():
    """Limits, merge keys, and whether a text is YAML 1.2.2."""
    for options in LIMITS:
        for text in (TREES, io.StringIO(TREES)):
            said = raised(lambda: list(saphyr_parser.load_all(text, **options)))
            expect(said[:9], "TooLarge:", f"{options} of a {type(text).__name__}")
    most = {"nodes": 16, "depth": 2, "most_characters": len(TREES)}
    expect(len(list(saphyr_parser.load_all(TREES, **most))), 2, "limits that just suffice")
    endless = io.BytesIO(b"'" + b"a" * 99_999)
    shown = raised(lambda: list(saphyr_parser.events(endless, most_waiting=9_999))).split("\n")
    expect((shown[0], len(shown[1])), ("TooLarge: 1:1: more than 9999 bytes wait for the next event", 102), "a quote")
    tree = saphyr_parser.load(MERGES)
    expect(saphyr_parser.merged(tree["c"]), {"x": "1", "y": "3", "z": "4"}, "merge keys")
    expect(saphyr_parser.merged(tree["d"]), {"<<": "e"}, "a mapping that is merged into itself")
    expect(raised(lambda: saphyr_parser.merged(saphyr_parser.load("<<: x"))),
           "ValueError: 1:5: a key `<<` names what is no mapping", "a scalar that is merged")
    found = saphyr_parser.check_standard(io.StringIO("a: [x\n]\n"))
    expect((found.rule, str(found.place)), ("flow-indentation", "2:1"), "a text that is not YAML 1.2.2")
    expect(saphyr_parser.check_standard(b"a: []"), None, "a text that is")
    expect(raised(lambda: saphyr_parser.check_standard("- [a"))[:12], "Refused: 2:1", "a text that is refused")
    # an older one can't evaluate `os.PathLike[str]`
    hinted = ("events", "load_all", "load", "check", "check_standard", "merged")
    for call in hinted if sys.version_info > (3, 9) else ():
        expect("return" in typing.get_type_hints(getattr(saphyr_parser, call)), True, f"the hints of {call}")
    with open(f"{ROOT}/VERSION") as file:
        expect(saphyr_parser.__version__, file.read().strip(), "the version")


def lines_found(text, options):
    """What is found in a text, as the programs of the other faces print it."""
    found = saphyr_parser.check(text, **{name: it for name, it in options._asdict().items() if it})
    flat = [it for finding in found for it in (finding, *finding.notes)]
    lines = (f"{it.start}-{it.end} {it.severity.value} {it.rule} {it.message}\n" for it in flat)
    return ("passes\n" if found.passed else "fails\n") + "".join(lines)


def check_findings():
    """Each text with each option, and how a text is given and a finding prints."""
    checker = program("check_yaml")
    for options in findings.OPTIONS:
        for text in findings.texts():
            wanted = findings.found_by(checker, options, text).decode()
            expect(lines_found(text, options), wanted, f"{options} of {text!r}")
    text = "a: 1\na: 'b\n"
    said = ["2:1: warning: duplicate key; first at 1:1", "2:4: error: "]
    found = saphyr_parser.check(text)
    expect([str(it)[: len(wanted)] for it, wanted in zip(found, said)], said, "how findings print")
    for given in (text.encode(), bytearray(text.encode()), io.StringIO(text), io.BytesIO(text.encode())):
        expect(saphyr_parser.check(given), found, f"the findings of a {type(given).__name__}")
    with tempfile.TemporaryDirectory() as folder:
        path = pathlib.Path(folder, "a.yaml")
        path.write_bytes(text.encode())
        expect(saphyr_parser.check(path), found, "the findings of a file")
    said = "ValueError: there is no rule 'keys': the rules are "
    expect(raised(lambda: saphyr_parser.check("", disable=["keys"]))[: len(said)], said, "a rule that isn't there")
    expect(raised(lambda: saphyr_parser.check(5))[:10], "TypeError:", "what is no text")


class Raises:
    """A file whose read fails, or returns no text, or calls its own reader."""

    def __init__(self, how):
        self.how, self.reader = how, saphyr_parser.events(self)

    def read(self, size):
        if self.how == "again":
            next(self.reader)
        if self.how == "raises":
            raise OSError("gone")
        return 5


def one_round(number):
    """Readers that are read, closed half way or dropped, and that end by a fault or a limit."""
    for event in saphyr_parser.events(TREES):
        assert event == saphyr_parser.Event(*event)
    first, second = saphyr_parser.load_all(TREES)
    assert first.pairs[1] == ("b", "\u00e9") and second[1]["k"] is second[1]
    first["b"].start, first["b"].tag, first["b"].anchor = (1, 2, 3), f"!{number}", 7
    assert str(first["b"].start) == "2:4" and first["b"].tag == f"!{number}"
    assert len(copy.deepcopy(first)["a"]) == 4 and pickle.loads(pickle.dumps(second))[1].keys() == {"k"}
    for text in (io.BytesIO(TREES.encode()), io.StringIO(TREES)):
        assert len(list(saphyr_parser.load_all(text))) == 2
    for make in (saphyr_parser.events, saphyr_parser.load_all):
        half = make(TREES)
        next(half)
        half.close()
        assert list(half) == []
        next(make(io.StringIO(TREES)))
    for text in FAULTS:
        assert not saphyr_parser.check(text).passed
        for make in (saphyr_parser.events, saphyr_parser.load_all):
            assert raised(lambda: list(make(text))).startswith(("Refused", "NotUtf8"))
            in_pieces = io.BytesIO(text if isinstance(text, bytes) else text.encode())
            assert raised(lambda: list(make(in_pieces))).startswith(("Refused", "NotUtf8"))
    for options in LIMITS:
        assert raised(lambda: list(saphyr_parser.load_all(TREES, **options))).startswith("TooLarge")
    for how, wanted in (("raises", OSError), ("again", ValueError), ("number", TypeError)):
        try:
            list(Raises(how).reader)
            raise AssertionError(how)
        except wanted:
            pass


def check_rounds(rounds):
    """Rounds that lose memory take more blocks in each batch of them. Python's own caches grow and shrink."""
    growths, blocks = [], 0
    for batch in range(6):
        for number in range(rounds // 5 + 1):
            one_round(number)
        gc.collect()
        growths.append(sys.getallocatedblocks() - blocks)
        blocks += growths[-1]
    if min(growths[1:]) > rounds // 10 + 50:
        expect(growths[1:], 0, f"the blocks that each of five batches of {rounds // 5} rounds takes")


def check_threads(times):
    """Eight threads, each with readers of its own, and then with one reader."""
    text = "- {a: 1, b: [x, 'y']}\n" * 1000
    wanted, events = saphyr_parser.load(text), list(saphyr_parser.events(text))
    given, others = [], []

    def read_all():
        for _ in range(times):
            if saphyr_parser.load(text) != wanted or list(saphyr_parser.events(text)) != events:
                others.append("another answer")
            saphyr_parser.check_standard(text)
            if not saphyr_parser.check(text).passed:
                others.append("a text that does not pass")

    def read_shared():
        try:
            given.extend(shared)
        except ValueError:
            pass

    for call in (read_all, read_shared):
        shared = saphyr_parser.events(text)
        threads = [threading.Thread(target=call) for _ in range(8)]
        for it in threads:
            it.start()
        for it in threads:
            it.join()
    expect((others, sorted(given) == sorted(events)), ([], True), "threads")


def main():
    rounds = int(sys.argv[1]) if sys.argv[1:] else 0
    cases = [] if rounds else [case for file in sorted(os.listdir(DATA)) for case in cases_of(file)]
    for case in cases:
        check_case(case)
    check_values()
    check_documents()
    check_faults()
    check_calls()
    if not rounds:
        check_findings()
    check_rounds(rounds or 1000)
    check_threads(1 if rounds else 3)
    print(f"{len(cases)} cases, {len(FAILED)} answered otherwise")
    return 1 if FAILED else 0


if __name__ == "__main__":
    sys.exit(main())
