#!/usr/bin/env python3
"""Runs the public YAML test suite, and counts the cases whose events `dump_events` gives.

    tests/suite.py FOLDER [PROGRAM]

FOLDER is the suite's data (`yaml-test-suite`, the branch `data`): a folder for each case, or for each of several texts
of one, with `in.yaml`, `test.event` and, where the text is no YAML, `error`. Debian's source package
`libyaml-pp-perl` has it in `test-suite/yaml-test-suite-data`. PROGRAM is the one that `rt run` leaves in
`crates/dump_events/out`. The suite's lines tell more than ours, which is taken out before they are compared: the style
of collections, the markers of documents, and the names of anchors, for which ours have numbers. The status is 1 where
a case is otherwise.
"""

import pathlib
import re
import subprocess
import sys

PROGRAM = pathlib.Path(__file__).resolve().parents[1] / "crates/dump_events/out/dump_events"
MARKS = re.compile(r"^([+-]DOC) (?:---|\.\.\.)$")
STYLE = re.compile(r"^(\+SEQ|\+MAP) (?:\[\]|\{\})")
ANCHOR = re.compile(r"^(\+SEQ|\+MAP|=VAL) &(\S+)")


def expected(lines):
    """Returns the lines of a case as ours tell them."""
    ids, count, listed = {}, 0, []
    for line in lines:
        line = STYLE.sub(r"\1", MARKS.sub(r"\1", line.lstrip(" ")))
        anchored = ANCHOR.match(line)
        if anchored:
            count += 1
            ids[anchored[2]] = count
            line = f"{anchored[1]} &{count}{line[anchored.end():]}"
        elif line.startswith("=ALI *"):
            line = f"=ALI *{ids.get(line[6:])}"
        listed.append(line)
    return listed


def cases(folder):
    """Yields the folders of all cases, each with its name."""
    for text in sorted(folder.rglob("in.yaml")):
        case = text.parent
        if not any(part in ("name", "tags") for part in case.relative_to(folder).parts[:-1]):
            yield "/".join(case.relative_to(folder).parts), case


def run(program, case):
    """Returns the lines that the program prints of a case, and whether it refused the text."""
    ran = subprocess.run([program, case / "in.yaml"], capture_output=True, timeout=60, check=False)
    return ran.stdout.decode().split("\n")[:-1], ran.returncode != 0


def main(words):
    if len(words) not in (1, 2):
        sys.exit(__doc__)
    folder, program = pathlib.Path(words[0]), pathlib.Path(words[1]) if len(words) == 2 else PROGRAM
    right = {"valid": [], "refused": []}
    wrong = {"valid": [], "refused": []}
    for name, case in cases(folder):
        lines, is_refused = run(program, case)
        kind = "refused" if (case / "error").exists() else "valid"
        if kind == "refused":
            is_right = is_refused
        else:
            events = (case / "test.event").read_text(encoding="utf-8").split("\n")[:-1]
            is_right = not is_refused and lines == expected(events)
        (right if is_right else wrong)[kind].append(name)
    for kind, listed in (("valid", "give other events or a fault"), ("refused", "are read")):
        print(f"{kind}: {len(right[kind])} of {len(right[kind]) + len(wrong[kind])}")
        if wrong[kind]:
            print(f"  these {listed}: {' '.join(wrong[kind])}")
    if not right["valid"] and not wrong["valid"]:
        sys.exit(f"{folder} has no cases")
    return 1 if any(wrong.values()) else 0


if __name__ == "__main__":
    sys.exit(main(sys.argv[1:]))
