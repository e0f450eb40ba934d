#!/usr/bin/env python3
"""Cuts the worked texts of more than 500 characters at each place, and puts five characters in at each place.

    tests/shapes.py                     # a minute, after tests/faces.py
    tests/shapes.py PROGRAM             # by that program
    tests/shapes.py --against PROGRAM   # by the Rust crate

With their lists these texts are too long to be stored. But each of the five has a shape, such as 255 `[` and as many
`]`. So a function says from the shape and the place what the list is: each event with its span, and the fault. It says
why, and was written from the pages and the Rust crate's lists, never from what this parser prints.

`cases` of tests/faces reads each text whole, and `pieces` in pieces, with the library that tests/faces.py takes. The
program `test_cases` reads it from a string, from an iterator and from a list with a window of eight, and takes the
events in each way that it has. Or PROGRAM alone reads it, and prints as tests/faces/cases.c does. With --against that
is the program over the Rust crate that tests/against_crate.py describes. No text here is one that docs/DEPARTURES.md
tells, so the crate has to give these lists too.
"""
import concurrent.futures
import os
import re
import subprocess
import sys
import tempfile

import faces
from against_crate import DATA, cases, escaped, run
from refused_memory import program
from spans import compiled, given

NUL, MARK = "\0", "\ufeff"
PUT_IN = (NUL, MARK, "\t", "\n", "]")
MOST_OPEN, MOST_KEY, MOST_STORED = 255, 1024, 500
PIECE = "64"  # bytes
FILES = ("worked", "json", "layout", "hostile", "standard", "cuts")  # what the program test_cases reads
END = -1  # The text's end, as a place.
REFUSED = {
    NUL: "found unprintable character",
    MARK: "a byte order mark must not appear inside a document",
    "]": "misplaced bracket",
}
NO_NODE = "while parsing a node, did not find expected node content"
NO_COMMA = "while parsing a flow sequence, expected ',' or ']'"
NO_COMMA_IN_MAPPING = "while parsing a flow mapping, did not find expected ',' or '}'"
NO_DOCUMENT = "did not find expected <document start>"
NO_COLON = "simple key expected"
NO_KEY = "mapping values are not allowed in this context"
TOO_DEEP = "recursion limit exceeded"


class List:
    """The list of a text, line by line. A place is an index of the text, and is printed with its line and column."""

    def __init__(self, text):
        self.text, self.lines = text, []
        self.event("+STR", 0)

    def place(self, index):
        """The index, line and column. The text's end is at the start of a new line. A mark in front has no column."""
        at = len(self.text) if index == END else index
        start = self.text.rfind("\n", 0, at) + 1
        line, column = self.text.count("\n", 0, at) + 1, at - start - self.text.startswith(MARK, start, at)
        return (at, line + 1, 0) if index == END and column else (at, line, column)

    def event(self, words, start, end=None):
        """An event whose span covers nothing, unless it has an end."""
        places = [self.place(it) for it in (start, start if end is None else end)]
        self.lines.append("> {} @ {},{},{} {},{},{}".format(words, *places[0], *places[1]))

    def fault(self, words, index):
        at, line, column = self.place(index)
        self.lines.append(f"! {words} at byte {at} line {line} column {column + 1}")

    def scalar(self, start, end):
        """A plain scalar, without the blanks after it. A line feed in it is a space of its value."""
        written = self.text[start:end].rstrip("\t\n")
        value = written.replace("\n", " ").replace("\t", "\\t")
        self.event(f"=VAL :{value}", start, start + len(written))

    def root(self, start, end):
        """A document's start and its scalar, whose spans are the same."""
        written = self.text[start:end].rstrip("\t\n")
        self.event("+DOC", start, start + len(written))
        self.scalar(start, end)

    def bracket(self, words, index):
        """What begins or ends at a bracket: its span covers the tab after it too."""
        self.event(words, index, index + 1 + self.text.startswith("\t", index + 1))

    def refuse_node(self, start, end):
        """What begins here would need a document of its own. The end of this one has the span of that token."""
        self.event("-DOC", start, end)
        self.fault(NO_DOCUMENT, start)

    def close(self):
        """The ends of the document and the stream."""
        self.event("-DOC", END)
        self.event("-STR", END)


# In each function the text of the list is cut at a place, or has a character there that was put in: `put`, which is
# empty for a cut. No text is cut at 0.


def is_refused(put, at):
    """Whether the character is refused wherever it is: a mark may be in front of the text, and a `]` may not."""
    return put == NUL or (put == MARK and at > 0) or (put == "]" and at == 0)


def brackets(listed, put, at):
    """`[` 255 times, and `]` as often. The outermost sequence may be a key, since its last bracket is less than 1,024
    characters after its first. So all brackets are read before the first event, and a text gives none if one of them or
    what is put in is refused. If a `]` is put in, the last one is."""
    if is_refused(put, at):
        listed.fault(REFUSED[put], at)
    elif put == "]":
        listed.fault(REFUSED[put], 2 * MOST_OPEN)
    else:
        listed.bracket("+DOC", listed.text.index("["))
        for index, c in enumerate(listed.text):
            if c in "[]":
                listed.bracket("+SEQ" if c == "[" else "-SEQ", index)
        if put or at == 2 * MOST_OPEN:
            listed.close()
        else:
            listed.fault(NO_NODE if at <= MOST_OPEN else NO_COMMA, END)


def key(listed, put, at, count):
    """`a` so many times, and `: b`. It is a key if the colon is at most 1,024 characters after its start, on the same
    line, and has a blank, a NUL or the text's end after it. Each character that is put into the key takes its colon too
    far. While a scalar may still be a key, the token after it is read before the first event. Outside brackets a `]` is
    a part of a scalar, if it doesn't begin one."""
    start, colon = int(put != "" and at == 0), count + (put != "" and at <= count)
    if put == "" and at <= count:
        listed.root(0, at)
        listed.close()
    elif is_refused(put, at) and at <= count + (put == MARK):
        if at > MOST_KEY:
            listed.root(0, at)
        listed.fault(REFUSED[put], at)
    elif put == "]" and at == count + 1:
        listed.root(0, len(listed.text))
        listed.close()
    elif put == "\n" and at == count:  # The colon begins a line, and a mapping.
        listed.root(0, at)
        listed.refuse_node(colon, colon)
    elif colon - start > MOST_KEY:
        listed.root(start, colon)
        listed.fault(NO_KEY, colon)
    else:
        pair(listed, put, at, start, colon)


def pair(listed, put, at, start, colon):
    """A mapping of a key and the value `b`. What is put in behind the key is read after the event of the key, and what
    is put in behind the value after that of the value. Without its colon `b` is no key, where it begins a line."""
    listed.event("+DOC", start)
    listed.event("+MAP", start)
    listed.scalar(start, colon)
    value = listed.text.find("b")
    if is_refused(put, at) or (put == "]" and at == colon + 2):
        if at > colon + 2:
            listed.scalar(value, at)
        listed.fault(REFUSED[put], at)
    elif put == "\n" and at == colon + 2:
        listed.fault(NO_COLON, END)
    else:
        if value < 0:
            listed.event("=VAL :", colon)
        else:
            listed.scalar(value, len(listed.text))
        listed.event("-MAP", END)
        listed.close()


def mappings(listed, put, at):
    """`{a: ` 256 times. The last brace is refused. The outermost mapping may be a key up to its end, so no event is
    given before. But a `]` that is put in ends a mapping for the scanner, so no more than 255 are open. Then the events
    are given up to the `]`, as they are up to a cut."""
    last = 4 * MOST_OPEN
    if at > last:
        listed.fault(TOO_DEEP, last)
    elif is_refused(put, at):
        listed.fault(REFUSED[put], at)
    elif put in ("", "]"):
        open_mappings(listed, put, at)
    else:
        listed.fault(TOO_DEEP, last + 1)


def open_mappings(listed, put, at):
    """The mappings up to a place, with a token there that doesn't go on with them, or the text's end. In `{]a: ` and
    `{a]: ` what is before the colon is a key outside brackets. Behind a key the value may be left out, and has the span
    of that token."""
    is_key, token = put == "]" and at <= 2, (at, at + 1) if put else (END, END)
    listed.event("+DOC", 0, int(not is_key))
    if is_key:
        listed.event("+MAP", 0)
    for index in range(0, at, 4):
        listed.event("+MAP", index, index + 1)
        if at > index + 1:
            listed.event("=VAL :a", index + 1, index + 2)
    if at % 4 == 2:
        listed.event("=VAL :", *token)
    listed.fault(NO_COMMA_IN_MAPPING if at % 4 == 2 else NO_NODE, token[0])


def sequence(listed, put, at):
    """`[`, `a` 1,100 times, and `]: b`. Inside brackets a key may have any length, so all up to the `]` is read before
    the first event. Blanks behind a `]` are read together with it, and a mark that is there is refused by that."""
    text = listed.text
    start, end = text.find("["), text.find("]")
    stop = end if end >= 0 else len(text)
    if is_refused(put, at) and at <= stop + (put == MARK):
        listed.fault(REFUSED[put], at)
        return
    listed.bracket("+DOC", start)
    listed.bracket("+SEQ", start)
    first = text.find("a", 0, stop)
    if first > 0:
        listed.scalar(first, stop)
    if end >= 0:
        listed.bracket("-SEQ", end)
        behind_sequence(listed, end + 1)
    else:
        listed.fault(NO_COMMA if first > 0 else NO_NODE, END)


def behind_sequence(listed, at):
    """What begins here, behind a sequence. It is too long for a key, or no colon comes next. So this is the text's end,
    what is refused, a colon without its key, or a node: a mapping by a colon that begins a line, or a scalar."""
    rest = listed.text[at:]
    if not rest:
        listed.close()
    elif rest[0] in REFUSED:
        listed.fault(REFUSED[rest[0]], at)
    elif re.match(r"\t?:([ \t\n\0]|$)", rest):
        listed.fault(NO_KEY, listed.text.index(":"))
    elif rest[0] == "\n":
        listed.refuse_node(at + 1, at + 1)
    else:
        listed.refuse_node(at, at + re.search(f": |{MARK}|$", rest).start())


SHAPES = [
    ("[" * MOST_OPEN + "]" * MOST_OPEN, brackets),
    ("a" * MOST_KEY + ": b", lambda listed, put, at: key(listed, put, at, MOST_KEY)),
    ("a" * (MOST_KEY + 1) + ": b", lambda listed, put, at: key(listed, put, at, MOST_KEY + 1)),
    ("{a: " * (MOST_OPEN + 1), mappings),
    ("[" + "a" * 1100 + "]: b", sequence),
]


def expected():
    """Each text with its list."""
    longest = {text for _, text, _, _ in cases(DATA / "worked.txt") if len(text) > MOST_STORED}
    if longest != {text for text, _ in SHAPES}:
        sys.exit(f"the shapes are not those of the worked texts of more than {MOST_STORED} characters")
    lists = {"": "> +STR @ 0,1,0 0,1,0\n> -STR @ 0,1,0 0,1,0"}
    for text, shape in SHAPES:
        for put in ("", *PUT_IN):
            for at in range(put == "", len(text) + 1):
                listed = List(text[:at] + put + (text[at:] if put else ""))
                shape(listed, put, at)
                lists[listed.text] = "\n".join(listed.lines)
    return lists


def shown(text):
    """The text with its runs counted."""
    return re.sub(r"(\{a: |.)\1{9,}", lambda it: f"({it[1]} {len(it[0]) // len(it[1])} times)", text)


def differences(lists, texts, ask):
    """The texts whose list is otherwise, each with its first line that differs."""
    for text, lines in zip(texts, ask(texts), strict=True):
        wanted = lists[text].split("\n")
        if lines != wanted:
            pairs = zip([*lines, "nothing"], [*wanted, "nothing"])
            line, other = next((it for it in pairs if it[0] != it[1]), ("more", "nothing"))
            yield f"{shown(text)!r}: {shown(line)!r}, and expected {shown(other)!r}"


def told(lists, texts):
    """What the program test_cases says of the texts, which are its cases of `cuts`."""
    with tempfile.TemporaryDirectory() as folder:
        for name in FILES:
            with open(f"{folder}/{name}.txt", "w", encoding="utf-8", newline="\n") as file:
                for text in texts if name == "cuts" else ("",):
                    listed = "\n".join(map(escaped, lists[text].split("\n")))
                    file.write(f"= shape {escaped(shown(text))}\n< {escaped(text)}\n{listed}\n")
        ran = subprocess.run([program("test_cases")], cwd=folder, capture_output=True, text=True)
    said = ran.stdout.splitlines()
    if not all(f"cuts, {subject}: {len(texts)} of {len(texts)}" in said for subject in ("events", "trees")):
        yield from (it for it in said if it.startswith("shape "))
        yield f"test_cases, status {ran.returncode}: not all agree {ran.stderr}"


def compare(lists, judge):
    """What is otherwise, of all lists, on all processors."""
    count = os.cpu_count() or 1
    parts = [list(lists)[first::count] for first in range(count)]
    with concurrent.futures.ThreadPoolExecutor(count) as pool:
        found = list(pool.map(lambda texts: list(judge(texts)), parts))
    return [it for part in found for it in part]


def main(words):
    if len(words) > 2 or (len(words) == 2) != (words[:1] == ["--against"]):
        sys.exit(__doc__)
    lists = expected()
    with tempfile.TemporaryDirectory() as folder:
        if words[:1] == ["--against"]:
            asked = [lambda texts: run(words[1], texts)]
        elif words:
            asked = [lambda texts: given(words[0], texts)]
        elif whole := compiled(folder):
            pieces = compiled(folder, "pieces")
            asked = [lambda texts: given(whole, texts), lambda texts: given(pieces, texts, PIECE)]
        else:
            return faces.without("shapes", ["compiler of C"])
        wrong = [it for ask in asked for it in compare(lists, lambda texts: differences(lists, texts, ask))]
    wrong += [] if words else compare(lists, lambda texts: told(lists, texts))
    for it in wrong[:20]:
        print(it)
    print(f"{len(lists)} texts of {len(SHAPES)} shapes: {len(wrong)} are otherwise")
    return 1 if wrong else 0


if __name__ == "__main__":
    sys.exit(main(sys.argv[1:]))
