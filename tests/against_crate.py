#!/usr/bin/env python3
"""Holds the lists of the cases against the Rust crate, and makes the list of a new text with it.

    tests/against_crate.py PROGRAM               # all case files
    tests/against_crate.py PROGRAM --new TEXT..  # the crate's list of each text, as a case file has it

PROGRAM is a program over `saphyr-parser` 0.3.3 as it is. `PROGRAM --spans --explicit --batch FILE` reads texts from FILE,
each behind a line with its length in bytes, and prints for each the length of its lines and these: `EVENT`, a tab and
`START-END` for an event, and `!! FAULT`; with `--keep-tags`, where prefixes of tags hold for later documents. Events are
written as `crates/test_events/src/lib.rt` says. In TEXT `\\n`, `\\r`, `\\t`, `\\\\` and `\\u{HEX}` stand for characters.

A list is to be the crate's, but where `docs/DEPARTURES.md` says otherwise. Each list that differs is counted under the
words of that page that explain it (`tests/reasons.py` says how); one that none explain fails the script, and so do words
that the page lacks.
"""

import collections
import pathlib
import re
import subprocess
import sys
import tempfile

import reasons

ROOT = pathlib.Path(__file__).resolve().parents[1]
DATA = ROOT / "crates/test_cases/data"
ESCAPE = re.compile(r"\\(\\|n|r|t|u\{([0-9a-f]+)\})")
NAMED = {"\\": "\\", "n": "\n", "r": "\r", "t": "\t"}
NAMES = {character: f"\\{name}" for name, character in NAMED.items()}

def unescaped(text):
    return ESCAPE.sub(lambda found: NAMED.get(found[1]) or chr(int(found[2], 16)), text)


def escaped(text):
    """Returns the text as case files have it."""
    listed = []
    for it in text:
        is_shown = it.isprintable() and it != "\ufeff"
        listed.append(NAMES.get(it) or (it if is_shown else f"\\u{{{ord(it):x}}}"))
    return "".join(listed)


def cases(path):
    """Yields the cases of a file: the name, the text, whether prefixes are kept, and the lines of the list."""
    name, text, lines = None, "", []
    for line in path.read_bytes().decode().split("\n"):
        if line.startswith("= ") and name is not None:
            yield name, text, name.endswith(" keep_tags"), lines
        if line.startswith("= "):
            name, text, lines = line[2:], "", []
        elif line.startswith("< "):
            text = unescaped(line[2:])
        elif line[:2] in ("> ", "! "):
            lines.append(unescaped(line))
    yield name, text, name.endswith(" keep_tags"), lines


def line_of(listed):
    """Returns a line of the crate's as a case has it, without escapes of its own."""
    if listed.startswith("!! "):
        return f"! {listed[3:]}"
    event, _, span = listed.rpartition("\t")
    start, _, end = span.partition("-")
    return f"> {event} @ {start} {end}"


def run(program, texts, keeps=False):
    """Returns the crate's list of each text."""
    with tempfile.NamedTemporaryFile() as file:
        for text in texts:
            file.write(b"%d\n%b" % (len(text.encode()), text.encode()))
        file.flush()
        words = [program, "--spans", "--explicit", *["--keep-tags"] * keeps, "--batch", file.name]
        said = subprocess.run(words, capture_output=True, check=True).stdout
    lists, at = [], 0
    while at < len(said):
        begin = said.index(b"\n", at) + 1
        at = begin + int(said[at:begin])
        lists.append([line_of(it) for it in said[begin:at].decode().split("\n") if it])
    return lists


def compare(program):
    """Counts the lists that differ by the words that explain them, and returns those that none do."""
    number, partly, counts, unexplained = 0, 0, collections.Counter(), []
    for keeps in (False, True):
        found = [it for path in sorted(DATA.glob("*.txt")) for it in cases(path) if it[2] == keeps]
        lists = [it[3] for it in found]
        explained = reasons.explain([it[1] for it in found], lists, lambda texts: run(program, texts, keeps))
        number += len(found)
        partly += sum(not it.is_whole for it in explained)
        counts.update(it.words[0] if it.words else "without a reason" for it in explained)
        unexplained += [(found[it.number][0], it) for it in explained if not it.is_explained]
    print(f"{number} cases, {counts.total()} of them with another list than the crate's:")
    print_counts(counts, partly)
    return unexplained


def print_counts(counts, partly):
    for words, count in counts.most_common():
        print(f"{count:6} {words}")
    print(f"{partly:6} of them are compared only up to a pair with `?`, which the crate doesn't read as one")


def main(words):
    if len(words) == 1:
        page = " ".join((ROOT / "docs/DEPARTURES.md").read_text(encoding="utf-8").split())
        lacking = [listed for listed, _ in reasons.REASONS if listed not in page]
        unexplained = compare(words[0])
        for name, it in unexplained:
            print(f"{name}: {it.shown()}")
        for listed in lacking:
            print(f"docs/DEPARTURES.md doesn't say: {listed}")
        sys.exit(1 if unexplained or lacking else 0)
    if len(words) > 2 and words[1] == "--new":
        texts = [unescaped(it) for it in words[2:]]
        for text, lines in zip(texts, run(words[0], texts)):
            print("\n".join([f"= NAME\n< {escaped(text)}", *[escaped(it) for it in lines]]))
        return
    sys.exit(__doc__)


if __name__ == "__main__":
    main(sys.argv[1:])
