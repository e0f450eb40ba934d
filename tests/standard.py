#!/usr/bin/env python3
"""Whether `check_yaml --standard` calls a text YAML 1.2.2 exactly where the grammar derives it.

    tests/standard.py [--derivations COUNT] [--most N [--deviating]] [--processes N] [--suite FOLDER] [PROGRAM]

PROGRAM is the one that `rt ci` or `rt run` leaves in crates/check_yaml/out. These texts are checked:

- each text of the table of docs/DEPARTURES.md on what the parser reads though the standard doesn't derive it: it has to
  be refused by the rule of its row, and each two of them that are documents of one text by both rules;
- texts whose entries break rules: each that is named beside the text has to be told, and no other;
- if valgrind is there, a deep text that deviates, at two sizes: twice the text takes twice the instructions;
- 20,000 keys behind a `?` in one another, and as many comments behind the last: standard, in time that is linear;
- COUNT (2,000) random derivations of derivations.py: each has to be standard;
- all texts of up to N (3) tokens of each alphabet of recognizer.py: each that the parser reads has to be standard
  where the recognizer derives it, and else not. With --deviating it is asked only of those that aren't standard: that
  the others are derived is proved. Texts of up to 5 take two processes some ten minutes so;
- with --suite the folder that suite.py takes: its valid cases have to be standard, and the others not.

The grammar is wider than the standard in four rules (docs/DEPARTURES.md), which the program asks for all the same:
`narrow` tells them.
"""
import argparse
import collections
import functools
import itertools
import json
import multiprocessing
import os
import pathlib
import re
import shutil
import subprocess
import sys
import tempfile

import derivations
import recognizer
import suite

TOP = os.path.dirname(os.path.dirname(os.path.abspath(__file__)))
PROGRAM = f"{TOP}/crates/check_yaml/out/check_yaml"
AT_ONCE = 1000
NAMES = {"LF": "\n", "TAB": "\t", "BOM": "\ufeff", "a key of 1,025 characters": "k" * 1025}
# Texts that break rules in several entries, with the lines and rules.
SEVERAL = (
    ("k: [a\n]\nl: b\nm: [?]\n", "2 flow-indentation, 4 question-in-flow"),
    ("- &a[]\n- a\n-\ta: b\n- !<>\n", "1 bracket-behind-property, 3 tab-indentation, 4 empty-verbatim-tag"),
    ("a:\n  - b: [|]\n    c: {\"\":#\n     }\n  - d\ne: &a[]\n",
     "2 block-indicator-in-flow, 3 comment-without-blank, 6 bracket-behind-property"),
    ("? [|]\n: [|]\n? a\n: [?]\nb: [>]\n", "1 block-indicator-in-flow, 4 question-in-flow, 5 block-indicator-in-flow"),
    ("a: [|,\n  b: c,\n  d]\ne:\r\n- [?]\r- f\a\n",
     "1 block-indicator-in-flow, 5 question-in-flow, 6 unprintable-character"),
    ("a\x7f: '\x7f'\n'\x7f': \x80 # \x7f\n",
     "1 unprintable-character, 2 unprintable-character, 2 unprintable-character"),
    ("- [?, '\x7f', \x7f]\n- '\x7f'\n- \x7f\n", "1 question-in-flow, 3 unprintable-character"),
    ("- |\n  a\n\t\n- \"\n\"\n- b\n", "3 tab-behind-block-scalar, 5 quoted-indentation"),
    ("a: [|]\n---\nb\n--- |\n c\n...\n%TAG !!a\n--- [?]\n",
     "1 block-indicator-in-flow, 7 prefix-without-blank, 8 question-in-flow"),
    ("&a\n!<>\n---\n!<> k: v\n&a[]: b\n", "2 empty-verbatim-tag, 4 empty-verbatim-tag, 5 bracket-behind-property"),
    ("- \tk: >\n- |\n- a\n---\n? [?]\n", "1 tab-indentation, 5 question-in-flow"),
    ("- a\n\t\n b\n- c\n", "2 tab-in-empty-line"),
    ("- &a\n\tb\n- c\n", "2 tab-behind-property"),
    ("- [a\n\t\n a]\n- {a\n\t\n a}\n", "2 tab-in-empty-line, 5 tab-in-empty-line"),
    ("- &a\n '\n'\n- &a\n \"b\nc\"\n", "3 quoted-indentation, 6 quoted-indentation"),
    ("- - &a\n   \"b\n  c\"\n  - d\n", "3 quoted-indentation"),
    (": {a\n%}\nk: {a\n%b}\n", "2 flow-indentation, 4 flow-indentation"),
    ("?\n \"\n\"\n", "3 quoted-indentation"),
    ("?\n &a\n\ta\n", "3 tab-behind-property"),
    ("- &a\n \"b\nc\"", "3 quoted-indentation"),
    ("?\n \"\n\"", "3 quoted-indentation"),
    ("?\n &a\n\ta", "3 tab-behind-property"),
    ("\t-", "1 tab-indentation"),
    ("K: [?]\nL:\n  - &a\n  \tb\n", "1 question-in-flow, 4 tab-behind-property"),
    ("-\n [?]\n-\n-\n [?]\n", "2 question-in-flow, 5 question-in-flow"),
    ("-\n - [?]\n-\n -a:\n-\n b\n", "2 question-in-flow"),
    ("a: [?]\n-a: [?]\n?\n: v\n", "1 question-in-flow, 2 question-in-flow"),
    (" a:\n  ? [?]\n b: [?]\n", "2 question-in-flow, 3 question-in-flow"),
    ("- [a - ]\n- [a -\n ]\n- {a - : b}\n", "1 lone-dash-in-flow, 2 lone-dash-in-flow, 4 lone-dash-in-flow"),
)
# Keys behind a `?` in one another, and as many comments behind the last: each key asks for what comes next.
DEEP = "? " * 20000 + "a\n" + ("# " + "x" * 38 + "\n") * 20000
PART = re.compile(r"`([^`]*)`|\b(LF|TAB|BOM)\b|U\+([0-9A-F]{4})|(a key of 1,025 characters)")
# [1] c-printable, and [2] nb-json with breaks
UNPRINTABLE = re.compile("[^\t\n\r -~\x85\xa0-\ud7ff\ue000-\ufffd\U00010000-\U0010ffff]")
CONTROL = re.compile("[^\t\n\r -\U0010ffff]")
# what the grammar derives and the standard doesn't: a handle with `_`, and a line of a scalar that is an escaped break
WIDER = re.compile(r"![A-Za-z0-9-]*_[A-Za-z0-9_-]*!|[\r\n][ \t]*\\[\r\n]")
OF_WIDER = "underscore-in-handle", "escaped-empty-line"


def rows():
    """The texts of the table, each with its rule."""
    with open(f"{TOP}/docs/DEPARTURES.md", encoding="utf-8") as page:
        lines = page.read().split("\n| rule | production, changed |")[1].split("\n\n")[0].split("\n")[2:]
    rule = ""
    for line in lines:
        cells = re.split(r"(?<!\\)\|", line)
        rule = cells[1].strip(" `") or rule
        parts = [code.replace("\\|", "|") or NAMES.get(name or long) or chr(int(number or "0", 16))
                 for code, name, number, long in PART.findall(cells[3])]
        yield rule, "".join(parts)


def checked(program, texts):
    """For each text the rules that it breaks, with their lines."""
    found = []
    with tempfile.TemporaryDirectory() as folder:
        for start in range(0, len(texts), AT_ONCE):
            paths = []
            for number, text in enumerate(texts[start : start + AT_ONCE]):
                paths.append(f"{folder}/{number}.yaml")
                with open(paths[-1], "wb", buffering=0) as file:
                    file.write(text.encode())
            ran = subprocess.run([program, "--standard", "--format", "json", *paths], capture_output=True)
            if ran.returncode > 1:
                sys.exit(f"status {ran.returncode}: {ran.stderr.decode()}")
            errors = {path: [] for path in paths}
            for line in ran.stdout.decode().splitlines():
                told = json.loads(line)
                if told["severity"] == "error":
                    errors[told["file"]].append((told["rule"], told["line"]))
            found += errors.values()
    return found


def instructions(program, count):
    """How many instructions it takes to read on behind a deviation that is as deep as so many collections. Entries in
    brackets, comments and an entry of the innermost collection follow."""
    text = "- " * count + "[?,\n" + "  " * count + "a," * count + "]\n" + "#\n" * count + "  " * (count - 1) + "- [?]\n"
    ran = subprocess.run(["valgrind", "--tool=callgrind", "--callgrind-out-file=/dev/null", program, "--standard", "-"],
                         input=text.encode(), capture_output=True)
    if ran.returncode != 1:
        sys.exit(f"status {ran.returncode}: {ran.stderr.decode()}")
    return int(re.search(rb"Collected : (\d+)", ran.stderr)[1])


def first_rules(program, texts):
    """For each text None, if it is standard, or the first rule that it breaks."""
    return [found[0][0] if found else None for found in checked(program, texts)]


def judged(program, unasked, texts):
    """For each text the rule that it breaks or None, and whether it is of the grammar. Where the rule is one of the
    unasked, it alone tells."""
    found = first_rules(program, texts)
    return [(text, rule, rule is None if rule in unasked else bool(recognizer.Grammar(text).forests()))
            for text, rule in zip(texts, found)]


def is_printable(made):
    """Whether a derivation has no C0 control character, and outside quotes each character is printable."""
    rest = re.sub("\r\n?", "\n", made.text)
    for quoted in sorted(made.quotes, key=len, reverse=True):
        rest = rest.replace(quoted, "", 1)
    return not UNPRINTABLE.search(rest) and not CONTROL.search(made.text)


def is_right(text, rule, derived):
    if rule in OF_WIDER:
        return bool(WIDER.search(text))
    return rule == "syntax" or derived == (rule is None)


def judge_small(given, wrong, counts):
    """Tells of each alphabet's texts of up to so many tokens how many are derived, and which rules the others break."""
    rules = collections.Counter()
    judge = functools.partial(judged, given.program, ("syntax", None) if given.deviating else ("syntax",))
    with multiprocessing.Pool(given.processes, sys.setrecursionlimit, [100000]) as pool:
        for number, (_, tokens) in enumerate(recognizer.ALPHABETS, 1):
            texts = recognizer.texts(tokens, given.most)
            parts = iter(lambda: list(itertools.islice(texts, AT_ONCE)), [])
            seen = collections.Counter()
            for text, rule, derived in itertools.chain.from_iterable(pool.imap(judge, parts)):
                seen.update(("texts",) if rule == "syntax" else ("texts", "read", "derived")[:2 + derived])
                rules[rule] += 1
                if not is_right(text, rule, derived):
                    wrong.append(f"{text!r}: {rule}, {'derived' if derived else 'not derived'}")
            print(f"alphabet {number}: " + ", ".join(f"{count:,} {name}" for name, count in seen.items()), flush=True)
            counts["small texts"] += seen["texts"]
            counts["of them derived"] += seen["derived"]
    print(", ".join(f"{count:,} {rule}" for rule, count in rules.most_common() if rule not in (None, "syntax")))


def main():
    words = argparse.ArgumentParser(description=__doc__, formatter_class=argparse.RawDescriptionHelpFormatter)
    words.add_argument("--derivations", type=int, default=2000)
    words.add_argument("--most", type=int, default=3)
    words.add_argument("--deviating", action="store_true")
    words.add_argument("--processes", type=int, default=2)
    words.add_argument("--suite")
    words.add_argument("program", nargs="?", default=PROGRAM)
    given = words.parse_args()
    wrong, counts = [], collections.Counter()

    table = list(rows())
    alone = [[rule for rule, _ in found] for found in checked(given.program, [text for _, text in table])]
    for (rule, text), found in zip(table, alone):
        counts["rows"] += 1
        if found[:1] != [rule]:
            wrong.append(f"{text!r}: {found} in place of {rule}")

    pairs = [(f"{one}\n...\n{other}", rules + others)
             for (_, one), rules in zip(table, alone) for (_, other), others in zip(table, alone)]
    for (text, rules), found in zip(pairs, checked(given.program, [text for text, _ in pairs])):
        counts["of two rows"] += 1
        if [rule for rule, _ in found] != rules:
            wrong.append(f"{text!r}: {found} in place of {rules}")
    for (text, rules), found in zip(SEVERAL, checked(given.program, [text for text, _ in SEVERAL])):
        counts["of several entries"] += 1
        if ", ".join(f"{line} {rule}" for rule, line in found) != rules:
            wrong.append(f"{text!r}: {found} in place of {rules}")

    if shutil.which("valgrind") and instructions(given.program, 4000) > 2.5 * instructions(given.program, 2000):
        wrong.append("more than twice the instructions for twice the text behind a deviation")

    if any(checked(given.program, [DEEP])):
        wrong.append("20,000 keys behind a `?`: not standard")

    made = [derivations.Derivation(seed) for seed in range(1, given.derivations + 1)]
    made = [it.text for it in made if is_printable(it) and not WIDER.search(it.text)]
    for text, found in zip(made, first_rules(given.program, made)):
        counts["derivations"] += 1
        if found:
            wrong.append(f"{text!r}: {found}, and is derived")

    judge_small(given, wrong, counts)

    if given.suite:
        cases = list(suite.cases(pathlib.Path(given.suite)))
        texts = [(case / "in.yaml").read_bytes().decode() for _, case in cases]
        for (name, case), found in zip(cases, first_rules(given.program, texts)):
            counts["cases of the suite"] += 1
            if bool(found) != (case / "error").exists():
                wrong.append(f"{name}: {found}")
    print(*sorted(wrong, key=len)[:40], sep="\n")
    print(", ".join(f"{number:,} {name}" for name, number in counts.items()) + f"; {len(wrong)} told otherwise")
    return 1 if wrong else 0


if __name__ == "__main__":
    sys.setrecursionlimit(100000)
    sys.exit(main())
